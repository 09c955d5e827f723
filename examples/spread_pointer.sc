#define CELLS 8
int A[CELLS]::;
splitc_main() {
  int *spread s = A;
  int i = 0;
  if (MYPROC == 0) while (i < CELLS) { *s++ = i * i; i++; }
  s = A + 3;
  printf("element 3 is on node %d\n", toproc(s));
}
