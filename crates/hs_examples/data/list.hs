// A singly linked list with its length: its length as a number, append, copy, reverse.
data node { int val; node next; }
pred ll<n> == self = null & n = 0 or exists v, q, m. self::node<v, q> * q::ll<m> & n = m + 1 inv n >= 0;
method length(node x) : int
  requires x::ll<n> ensures x::ll<n> & res = n;
{
  int k = 0;
  if (x != null) { node t = x.next; k = length(t); k = k + 1; }
  return k;
}
method append(node x, node y)
  requires x::ll<n> * y::ll<m> & x != null ensures x::ll<n + m>;
{
  node t = x.next;
  if (t == null) { x.next = y; } else { append(t, y); }
}
method copy(node x) : node
  requires x::ll<n> ensures x::ll<n> * res::ll<n>;
{
  node y = null;
  if (x != null) { node t = x.next; int v = x.val; node u = copy(t); y = new node(v, u); }
  return y;
}
method turn(node x, node done) : node
  requires x::ll<n> * done::ll<m> ensures res::ll<n + m>;
{
  node y = done;
  if (x != null) { node t = x.next; x.next = done; y = turn(t, x); }
  return y;
}
method reverse(node x) : node
  requires x::ll<n> ensures res::ll<n>;
{ node y = turn(x, null); return y; }
