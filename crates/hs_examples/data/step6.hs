data node { int val; node next; }
pred sl<S> == self = null & S = {}
  or exists v, q, T. self::node<v, q> * q::sl<T> & S = union(T, {v}) & all u in T: (v <= u);
method insert(node x, int a) : node
  requires x::sl<S> ensures res::sl<union(S, {a})>;
{
  node y = x;
  if (x == null) { y = new node(a, null); }
  else {
    int v = x.val;
    if (a < v) { y = new node(a, x); }
    else { node t = x.next; node u = insert(t, a); x.next = u; }
  }
  return y;
}
