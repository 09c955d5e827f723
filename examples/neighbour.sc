int A[8]::;
splitc_main() {
  int next;
  int x;
  next = MYPROC + 1;
  next = next % PROCS;
  A[next] = MYPROC;
  x = A[MYPROC];
  printf("node %d sees %d\n", MYPROC, x);
}
