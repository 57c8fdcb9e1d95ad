// An AVL tree with its size, its height and the bag of its keys: its rotations, and its height as a number.
data tree { int key; tree left; tree right; }
pred avl<n, h, S> == self = null & n = 0 & h = 0 & S = {}
  or exists k, l, r, i, j, a, b, L, R.
     self::tree<k, l, r> * l::avl<i, a, L> * r::avl<j, b, R>
     & n = i + j + 1 & a <= b + 1 & b <= a + 1
     & (b <= a & h = a + 1 | a < b & h = b + 1) & S = union(union(L, R), {k})
  inv n >= 0 & h >= 0;
method right(tree x) : tree
  requires x::tree<k, y, c> * y::tree<m, a, b> * a::avl<i, h + 1, A> * b::avl<j, h, B> * c::avl<l, h, C>
  ensures res::avl<i + j + l + 2, h + 2, union(union(A, B), union(C, {k, m}))>;
{ tree y = x.left; tree b = y.right; x.left = b; y.right = x; return y; }
method left(tree x) : tree
  requires x::tree<k, c, y> * y::tree<m, b, a> * a::avl<i, h + 1, A> * b::avl<j, h, B> * c::avl<l, h, C>
  ensures res::avl<i + j + l + 2, h + 2, union(union(A, B), union(C, {k, m}))>;
{ tree y = x.right; tree b = y.left; x.right = b; y.left = x; return y; }
method height(tree x) : int
  requires x::avl<n, h, S> ensures x::avl<n, h, S> & res = h;
{
  int r = 0;
  if (x != null) {
    tree l = x.left; tree q = x.right;
    int a = height(l); int b = height(q);
    if (b <= a) { r = a + 1; } else { r = b + 1; }
  }
  return r;
}
method single(int k) : tree
  requires emp ensures res::avl<1, 1, {k}>;
{ tree y = new tree(k, null, null); return y; }
