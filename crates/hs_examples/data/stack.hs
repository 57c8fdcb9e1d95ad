// A stack with the bag of what is on it: an object that owns a list.
data node { int val; node next; }
data stack { node top; }
pred lb<S> == self = null & S = {} or exists v, q, T. self::node<v, q> * q::lb<T> & S = union(T, {v});
pred st<S> == exists t. self::stack<t> * t::lb<S>;
method empty() : stack
  requires emp ensures res::st<{}>;
{ stack s = new stack(null); return s; }
method push(stack s, int v)
  requires s::st<S> ensures s::st<union(S, {v})>;
{ node t = s.top; node n = new node(v, t); s.top = n; }
method pop(stack s) : int
  requires s::st<S> & S != {} ensures s::st<diff(S, {res})> & res in S;
{ node t = s.top; int v = t.val; node n = t.next; s.top = n; return v; }
method twice(stack s)
  requires s::st<S> ensures s::st<union(S, {1, 2})>;
{ push(s, 1); push(s, 2); }
