splitc_main() {
  printf("%d%% of ", 50);
  printf("%d", MYPROC + 1);
}
