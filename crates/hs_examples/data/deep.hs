// Questions past a bound: a number that 2, 3, 5 and 7 divide, and coefficients of which the multiples pass 128 bits.
entail 2*x = y & 3*z = y & 5*w = y & 7*v = y & y > 0 |- y > 209;
entail 4611686018427387904*x < a & b < 4611686018427387903*x & c < 4611686018427387901*x |- (3*a < b | 2*c < 5*a);
