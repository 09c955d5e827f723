int A[PROCS]::;
splitc_main() {
  int x;
  A[MYPROC] := 10 + MYPROC;
  sync();
  barrier();
  x := A[(MYPROC + 1) % PROCS];
  sync();
  barrier();
  A[0] :- x;
  all_store_sync();
  printf("%d\n", x);
}
