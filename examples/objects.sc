int x;
int M[2][3];
int A[PROCS + 1]::;
int B[2]::[2];
splitc_main() {
  x = MYPROC + 1;
  M[1][2] = 10 * x;
  A[MYPROC] = x;
  if (MYPROC == 0) B[1][1] = 9;
}
