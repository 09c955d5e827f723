int A[10]::;
splitc_main() {
  int i;
  int x;
  int sum;
  while (i < 10) { A[i] = i * i; i = i + 1; }
  i = 0;
  while (i < 10) { x = A[i]; sum = sum + x; i = i + 1; }
  printf("%d\n", sum);
}
