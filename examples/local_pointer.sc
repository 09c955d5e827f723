int x;
int *p;
splitc_main() {
  int *q = &x;
  *q = MYPROC + 10;
  p = q;
  printf("node %d has %d\n", MYPROC, *p);
}
