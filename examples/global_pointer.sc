/* each node writes into the memory of the next one */
int x;
splitc_main() {
  int *global g = toglobal((MYPROC + 1) % PROCS, &x);
  *g = MYPROC;
  printf("node %d wrote to node %d\n", MYPROC, toproc(g));
}
