// Two sorted lists become one.
data node { int val; node next; }
pred sl<S> == self = null & S = {}
  or exists v, q, T. self::node<v, q> * q::sl<T> & S = union(T, {v}) & all u in T: (v <= u);
method merge(node x, node y) : node
  requires x::sl<S> * y::sl<T> ensures res::sl<union(S, T)>;
{
  node r = x;
  if (x == null) { r = y; }
  else {
    if (y != null) {
      int a = x.val; int b = y.val;
      if (a <= b) { node t = x.next; node u = merge(t, y); x.next = u; }
      else { node s = y.next; node w = merge(x, s); y.next = w; r = y; }
    }
  }
  return r;
}
