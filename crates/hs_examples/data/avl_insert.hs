// An AVL tree with its size, its height and the bag of its keys: insertion, with single and double rotations.
data tree { int key; tree left; tree right; }
pred avl<n, h, S> == self = null & n = 0 & h = 0 & S = {}
  or exists k, l, r, i, j, a, b, L, R.
     self::tree<k, l, r> * l::avl<i, a, L> * r::avl<j, b, R>
     & n = i + j + 1 & a <= b + 1 & b <= a + 1
     & (b <= a & h = a + 1 | a < b & h = b + 1) & S = union(union(L, R), {k})
  inv n >= 0 & h >= 0;
method height(tree x) : int
  requires x::avl<n, h, S> ensures x::avl<n, h, S> & res = h;
{
  int r = 0;
  if (x != null) {
    tree l = x.left; tree q = x.right;
    int a = height(l); int b = height(q);
    if (b <= a) { r = a + 1; } else { r = b + 1; }
  }
  return r;
}
// The left side is too high by one.
method right(tree x) : tree
  requires x::tree<k, y, c> * y::avl<i, h + 2, A> * c::avl<j, h, B>
  ensures res::avl<i + j + 1, h + 2, union(union(A, B), {k})> or res::avl<i + j + 1, h + 3, union(union(A, B), {k})>;
{
  tree y = x.left; tree a = y.left; tree b = y.right;
  int p = height(a); int q = height(b);
  tree r = y;
  if (q < p) { x.left = b; y.right = x; }
  else {
    if (q == p) { x.left = b; y.right = x; }
    else {
      tree c = b.left; tree d = b.right;
      y.right = c; x.left = d; b.left = y; b.right = x;
      r = b;
    }
  }
  return r;
}
// The right side is too high by one.
method left(tree x) : tree
  requires x::tree<k, c, y> * y::avl<i, h + 2, A> * c::avl<j, h, B>
  ensures res::avl<i + j + 1, h + 2, union(union(A, B), {k})> or res::avl<i + j + 1, h + 3, union(union(A, B), {k})>;
{
  tree y = x.right; tree a = y.right; tree b = y.left;
  int p = height(a); int q = height(b);
  tree r = y;
  if (q < p) { x.right = b; y.left = x; }
  else {
    if (q == p) { x.right = b; y.left = x; }
    else {
      tree c = b.right; tree d = b.left;
      y.left = c; x.right = d; b.right = y; b.left = x;
      r = b;
    }
  }
  return r;
}
method insert(tree x, int v) : tree
  requires x::avl<n, h, S>
  ensures res::avl<n + 1, h, union(S, {v})> or res::avl<n + 1, h + 1, union(S, {v})>;
{
  tree y = x;
  if (x == null) { y = new tree(v, null, null); }
  else {
    tree l = x.left; tree r = x.right; int k = x.key;
    if (v <= k) {
      tree a = insert(l, v);
      x.left = a;
      int p = height(a); int q = height(r);
      if (p == q + 2) { y = right(x); } else { if (p <= q) { y = x; } }
    }
    else {
      tree b = insert(r, v);
      x.right = b;
      int s = height(l); int t = height(b);
      if (t == s + 2) { y = left(x); } else { if (t <= s) { y = x; } }
    }
  }
  return y;
}
