// A doubly linked list: each node knows the one before it.
data dnode { int val; dnode prev; dnode next; }
pred dl<p, n> == self = null & n = 0
  or exists v, q, m. self::dnode<v, p, q> * q::dl<self, m> & n = m + 1 inv n >= 0;
method push(dnode x, int v) : dnode
  requires x::dl<null, n> ensures res::dl<null, n + 1>;
{
  dnode y = new dnode(v, null, x);
  if (x != null) { x.prev = y; }
  return y;
}
method pop(dnode x) : dnode
  requires x::dl<null, n> & n > 0 ensures res::dl<null, n - 1>;
{
  dnode y = x.next;
  if (y != null) { y.prev = null; }
  return y;
}
