splitc_main() {
  int n = 27, steps = 0;
  while (n != 1) {
    if (n % 2 == 0) n /= 2;
    else if (n > 1) n = 3 * n + 1;
    else ;
    steps++;
  }
  printf("%d steps\n", steps);
}
