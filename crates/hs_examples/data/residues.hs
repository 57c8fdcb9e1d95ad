// Entailments that are valid, with what is left of the heap: `sleek residues.hs --residues 4` shows up to four rests of each.
data node { int val; node next; }
pred ll<n> == self = null & n = 0 or exists v, q, m. self::node<v, q> * q::ll<m> & n = m + 1 inv n >= 0;
// A node beside a list: the list is left.
entail x::node<a, p> * y::ll<n> |- x::node<b, q>;
// Three nodes before a list make a list, of which nothing is left.
entail x::node<a, y> * y::node<b, z> * z::node<c, w> * w::ll<n> |- x::ll<n + 3>;
// A list that is not empty has a first node.
entail x::ll<n> & n > 0 |- x::node<a, q> * q::ll<m>;
// One with two nodes and more has a second one, and the rest is left.
entail x::ll<n> & n > 1 |- x::node<a, y> * y::node<b, z>;
// An empty list is an empty list: it is left out as it is, or unfolded, and a new one is folded.
entail x::ll<n> & n = 0 |- x::ll<0>;
// Each case of a consequent that holds has its own rest.
entail x::ll<n> |- n >= 0 or emp;
// Nothing satisfies the antecedent, and no case of a rest is left.
entail x::node<a, p> & x = null |- y::node<b, q>;
