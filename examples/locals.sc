splitc_main() {
  int a = 2, b, *p;
  { int a = 5; b = a; }
  printf("%d %d %d\n", a, b, p == NULL);
}
