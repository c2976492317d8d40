/* Where a panic ends in a check: a line, and status 3. */
#include "tamburelvi_panic.h"
#include <stdio.h>
#include <stdlib.h>

void tamburelvi_panicked(void) {
    puts("panicked");
    exit(3);
}
