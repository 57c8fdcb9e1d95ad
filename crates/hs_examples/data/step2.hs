data node { int val; node next; }
pred ll<n> == self = null & n = 0
  or exists v, q, m. self::node<v, q> * q::ll<m> & n = m + 1
  inv n >= 0;
entail x::node<1, y> * y::node<2, null> |- x::ll<n>;
entail x::ll<n> & n > 0 |- x::node<a, q> * q::ll<m>;
entail x::ll<n> |- x::node<a, q> * q::ll<m>;
