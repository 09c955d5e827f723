int x;
int *p;
int *global g;
splitc_main() {
  p = &x;
  *p = 4;
  g = (int *global) p;
  g[0] += 1;
  printf("%d %d\n", x, p == tolocal(g));
}
