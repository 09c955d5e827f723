/* two cells in each block, and the blocks in turn on the nodes */
int A[4]::[2];
splitc_main() {
  int i = 0;
  if (MYPROC == 0)
    while (i < 4) { A[i][0] = i; A[i][1] = 10 * i; i += 1; }
}
