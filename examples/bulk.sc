int X[PROCS]::[4];
int mine[4];
splitc_main() {
  mine[1] = MYPROC + 5;
  bulk_write(X[MYPROC], mine, 4 * sizeof(int));
  barrier();
  bulk_get(mine, X[(MYPROC + 1) % PROCS], 4 * sizeof(int));
  sync();
}
