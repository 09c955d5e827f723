int x, y;
splitc_main() {
  y = x++ * 10 + x++ + x * 100;
  0 && (x = 7);
  printf("%d %d\n", x, y);
}
