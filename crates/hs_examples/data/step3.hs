data node { int val; node next; }
pred ll<n> == self = null & n = 0
  or exists v, q, m. self::node<v, q> * q::ll<m> & n = m + 1
  inv n >= 0;
method push(node x, int v) : node
  requires x::ll<n> ensures res::ll<n + 1>;
{ node y = new node(v, x); return y; }
method second(node x) : int
  requires x::ll<n> & n > 0 ensures true;
{ node y = x.next; int v = y.val; return v; }
