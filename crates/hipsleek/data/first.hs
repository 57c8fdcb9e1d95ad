data node { int val; node next; }
entail x::node<a, p> |- x::node<b, q>;
