// An entailment that is not proved for each further cause.
data node { int val; node next; }
pred lb<S> == self = null & S = {} or exists v, q, T. self::node<v, q> * q::lb<T> & S = union(T, {v});
// Nothing says at which address the node lies that the consequent asks for.
entail x::node<a, p> |- y::node<a, p>;
// Nothing says which bag it is.
entail emp |- 1 in S;
