// A queue of two lists: values enter at the back, and leave at the front, to which the back is turned when it is empty.
data node { int val; node next; }
data queue { node front; node back; }
pred ll<n> == self = null & n = 0 or exists v, q, m. self::node<v, q> * q::ll<m> & n = m + 1 inv n >= 0;
pred qu<n> == exists f, b, i, j. self::queue<f, b> * f::ll<i> * b::ll<j> & n = i + j inv n >= 0;
method empty() : queue
  requires emp ensures res::qu<0>;
{ queue q = new queue(null, null); return q; }
method enter(queue q, int v)
  requires q::qu<n> ensures q::qu<n + 1>;
{ node b = q.back; node c = new node(v, b); q.back = c; }
method turn(node x, node done) : node
  requires x::ll<n> * done::ll<m> ensures res::ll<n + m>;
{
  node y = done;
  if (x != null) { node t = x.next; x.next = done; y = turn(t, x); }
  return y;
}
method leave(queue q) : int
  requires q::qu<n> & n > 0 ensures q::qu<n - 1>;
{
  node f = q.front;
  if (f == null) { node b = q.back; f = turn(b, null); q.back = null; }
  int v = f.val; node t = f.next; q.front = t;
  return v;
}
