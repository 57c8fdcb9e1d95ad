// Methods that are not accepted, and the instruction at which each fails.
data node { int val; node next; }
pred ll<n> == self = null & n = 0 or exists v, q, m. self::node<v, q> * q::ll<m> & n = m + 1 inv n >= 0;
// It reads a field of what may be null.
method first(node x) : int
  requires x::ll<n> ensures true;
{ int v = x.val; return v; }
// It returns a list that is too short.
method short(node x, int v) : node
  requires x::ll<n> ensures res::ll<n + 2>;
{ node y = new node(v, x); return y; }
// It calls a method whose precondition does not hold.
method calls(int a) : int
  requires emp ensures true;
{ int b = positive(a); return b; }
method positive(int a) : int
  requires a > 0 ensures res = a;
{ return a; }
