data node { int val; node next; }
entail x::node<1, y> * y::node<2, null> |- y::node<b, q>;
