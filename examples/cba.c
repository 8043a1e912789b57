main() { int n; n = 3; while (n) { putchar(96 + n); n = n - 1; } return n; }
