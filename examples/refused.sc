int x;
splitc_main() {
  x = y;
}
