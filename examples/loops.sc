int A[8]::;
splitc_main() {
  int i;
  for_my_1d(i, 8) A[i] = i;
  for (i = 0; i < 8; i++) { if (i == 2) continue; if (i == 5) break; }
  do i--; while (i > 0);
}
