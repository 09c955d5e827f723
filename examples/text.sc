#include <stdio.h>
#define SIZE 0x10
// a comment to the end of its line
/* and one
   that ends where it says */
splitc_main() { printf("100%% \"of\" %d\n", SIZE); }
