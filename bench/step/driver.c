// step [SECONDS]: nanoseconds a step of the proved library through C, the least and the median of the means of at least 15 turns of at least 1,000 steps.
#include "../steps.h"

static const struct library proved = {"proved", EACH(FILL, tamburelvi)};

static void print_row(const char *what, size_t size, const double *least, const double *median) {
    printf("| %s | %zu | %.1f | %.1f |\n", what, size, *least, *median);
}

int main(int argc, char **argv) {
    printf("| step | size | least, ns | median, ns |\n|---|---|---|---|\n");
    measure_all(&proved, 1, argc > 1 ? atof(argv[1]) : 1, print_row);
    return 0;
}
