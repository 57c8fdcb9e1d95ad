// An invariant that does not follow from the cases of its predicate: nothing is proved from it.
data node { int val; node next; }
pred ll<n> == self = null & n = 0 or exists v, q, m. self::node<v, q> * q::ll<m> & n = m + 1 inv n >= 1;
entail x::ll<n> |- n >= 1;
