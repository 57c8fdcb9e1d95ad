// Entailments that are not proved, and one that is only within the limits.
data node { int val; node next; }
pred ll<n> == self = null & n = 0 or exists v, q, m. self::node<v, q> * q::ll<m> & n = m + 1 inv n >= 0;
// The consequent is false at some values: they are shown.
entail x::ll<n> |- x::ll<n> & n > 0;
// There is no second node.
entail x::node<a, p> |- x::node<b, q> * p::node<c, r>;
// Valid, unless too few folds or goals are allowed.
entail x::node<a, y> * y::node<b, z> * z::node<c, null> |- x::ll<3>;
