/* A straight program out of macros: the header of each case defines STEPS. */
#include <prelude.h>
#include "steps.h"
#define BODY(steps) { char **h; char **g; char *p; steps return 0; }
int main(void) BODY(STEPS)
