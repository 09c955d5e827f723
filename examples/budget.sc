splitc_main() {
  int i;
  while (i < 4) { printf("%d", i); i++; }
}
