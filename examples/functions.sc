int square(int n);
int square(int n) { return n * n; }
void show(int n) { printf("%d\n", n); }
splitc_main() { show(square(9)); }
