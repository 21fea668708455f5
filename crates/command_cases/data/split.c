/* A straight program whose steps are in a header of each case. */
#include <prelude.h>
int main(void) {
char **h; char **g; char *p;
#include "steps.h"
return 0; }
