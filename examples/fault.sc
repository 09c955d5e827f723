int A[2]::;
splitc_main() {
  A[0] = 10
    / MYPROC;
}
