// Methods on numbers, which call themselves and each other.
method even(int n) : int
  requires n >= 0 ensures ((exists k. n = 2*k & res = 1) | (exists k. n = 2*k + 1 & res = 0));
{ int r = 1; if (n > 0) { r = odd(n - 1); } return r; }
method odd(int n) : int
  requires n >= 0 ensures ((exists k. n = 2*k & res = 0) | (exists k. n = 2*k + 1 & res = 1));
{ int r = 0; if (n > 0) { r = even(n - 1); } return r; }
method max(int a, int b) : int
  requires emp ensures res >= a & res >= b & (res = a | res = b);
{ int r = a; if (a < b) { r = b; } return r; }
method twice(int n) : int
  requires n >= 0 ensures res = 2*n;
{ int r = 0; if (n > 0) { r = twice(n - 1); r = r + 2; } return r; }
