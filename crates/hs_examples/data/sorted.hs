// A sorted list with the bag of its values: insertion, and sorting by insertion.
data node { int val; node next; }
pred lb<S> == self = null & S = {} or exists v, q, T. self::node<v, q> * q::lb<T> & S = union(T, {v});
pred sl<S> == self = null & S = {}
  or exists v, q, T. self::node<v, q> * q::sl<T> & S = union(T, {v}) & all u in T: (v <= u);
method insert(node x, node c) : node
  requires x::sl<S> * c::node<v, q> ensures res::sl<union(S, {v})>;
{
  node y = c;
  if (x == null) { c.next = null; }
  else {
    int a = x.val; int b = c.val;
    if (b <= a) { c.next = x; }
    else { node t = x.next; node u = insert(t, c); x.next = u; y = x; }
  }
  return y;
}
method sort(node x) : node
  requires x::lb<S> ensures res::sl<S>;
{
  node y = null;
  if (x != null) { node t = x.next; node u = sort(t); y = insert(u, x); }
  return y;
}
