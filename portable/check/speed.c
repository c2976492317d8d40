/* speed [SECONDS]: the proved library and the portable one, with overflow checks and without, on the same steps, by turns in one run. Nanoseconds a step,
 * the least and, in brackets, the median of all turns. */
#include "../../bench/steps.h"

#define DECLARE(of, f) __typeof__(tamburelvi_##f) of##_##f;
EACH(DECLARE, checked) EACH(DECLARE, plain)
enum { SIDES = 3 };
static const struct library sides[SIDES] = {
    {"proved", EACH(FILL, tamburelvi)}, {"portable", EACH(FILL, checked)}, {"portable, no overflow checks", EACH(FILL, plain)}};

static void print_row(const char *what, size_t size, const double *least, const double *median) {
    printf("| %s | %zu |", what, size);
    for (int i = 0; i < SIDES; i++) printf(" %.0f (%.0f) |", least[i], median[i]);
    printf(" %+.0f %% | %+.0f %% |\n", (least[1] / least[0] - 1) * 100, (least[2] / least[0] - 1) * 100);
}

int main(int argc, char **argv) {
    printf("| step | size |");
    for (int i = 0; i < SIDES; i++) printf(" %s |", sides[i].name);
    printf(" portable | without overflow checks |\n|---|---|---|---|---|---|---|\n");
    measure_all(sides, SIDES, argc > 1 ? atof(argv[1]) : 1, print_row);
    return 0;
}
