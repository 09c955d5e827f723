splitc_main() { printf("hello from node %d of %d\n", MYPROC, PROCS); }
