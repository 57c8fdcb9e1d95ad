// A search tree with the bag of its keys: member and insertion.
data tree { int key; tree left; tree right; }
pred bst<S> == self = null & S = {}
  or exists k, l, r, L, R. self::tree<k, l, r> * l::bst<L> * r::bst<R>
     & S = union(union(L, R), {k}) & all u in L: (u <= k) & all u in R: (k <= u);
method insert(tree x, int v) : tree
  requires x::bst<S> ensures res::bst<union(S, {v})>;
{
  tree y = x;
  if (x == null) { y = new tree(v, null, null); }
  else {
    int k = x.key;
    if (v <= k) { tree l = x.left; tree a = insert(l, v); x.left = a; }
    else { tree r = x.right; tree b = insert(r, v); x.right = b; }
  }
  return y;
}
method member(tree x, int v) : int
  requires x::bst<S> & v in S ensures x::bst<S> & res = 1;
  requires x::bst<S> & !(v in S) ensures x::bst<S> & res = 0;
{
  int found = 0;
  if (x != null) {
    int k = x.key;
    if (v == k) { found = 1; }
    else {
      if (v < k) { tree l = x.left; found = member(l, v); }
      else { tree r = x.right; found = member(r, v); }
    }
  }
  return found;
}
