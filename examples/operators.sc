splitc_main() {
  int a = 7, b = -2;
  printf("%d %d %d\n", a / b, a % b, a << 3);
  printf("%d %d %d\n", a >> 1, ~a, a ^ 5);
  printf("%d %d\n", a < b || !b, a ? b : 0);
  a += b;
  printf("%d %d %d\n", a++, a, ++a);
}
