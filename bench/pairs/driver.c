// Steady state of an arrival at a pair table: all pairs are known, each call carries the next sequence number of its pair, and the clock rises.
// Each source sends ten universes, and each universe is sent once in 23 milliseconds (44 times a second).
// VARIANTS, V(NAME) for each, names libraries whose call is NAME_check_seq_number; they take turns with the product's.
#include <stdint.h>
#include <stdio.h>
#include <stdlib.h>
#include <time.h>

#ifndef VARIANTS
#define VARIANTS
#endif

typedef struct {
    size_t count;
    size_t source_count;
    uint64_t oldest;
    _Bool tidy;
    uint8_t number;
} Header;

typedef Header arrival(Header header, uint64_t (*pairs)[1024][4], uint64_t (*sources)[1024][2], uint64_t hi, uint64_t lo, uint16_t universe,
                       uint8_t sequence, uint64_t reading);

arrival bench_check_seq_number;
#define V(name) arrival name##_check_seq_number;
VARIANTS
#undef V

static const struct {
    arrival *check;
    const char *name;
} libraries[] = {
    {bench_check_seq_number, "as it is"},
#define V(name) {name##_check_seq_number, #name},
    VARIANTS
#undef V
};
#define LIBRARIES (sizeof libraries / sizeof *libraries)

static uint64_t pairs[1024][4];
static uint64_t sources[1024][2];

static Header arrive(arrival *check, int alike, Header h, int pair, int round, uint64_t reading) {
    uint64_t source = (uint64_t)(pair / 10);
    uint64_t hi = alike ? 0 : source * 0x9E3779B97F4A7C15u;
    h = check(h, &pairs, &sources, hi, source, (uint16_t)(pair % 10 + 1), (uint8_t)round, reading);
    if (h.number != 0) {
        printf("an arrival was answered %d\n", h.number);
        exit(1);
    }
    return h;
}

// Processor time of this process, so that other work on the machine counts less.
static double seconds(void) {
    struct timespec t;
    clock_gettime(CLOCK_PROCESS_CPUTIME_ID, &t);
    return (double)t.tv_sec + (double)t.tv_nsec * 1e-9;
}

// Nanoseconds for each arrival at n pairs.
static double once(arrival *check, int alike, int n) {
    int rounds = 400000 / n + 300;
    Header h = {0, 0, UINT64_MAX, 1, 0};
    uint64_t clock = 1000;
    for (int i = 0; i < n; i++) h = arrive(check, alike, h, i, 0, clock);
    double began = seconds();
    for (int r = 1; r <= rounds; r++)
        for (int i = 0; i < n; i++)
            // a stride that is prime to the size: neighbours do not follow each other
            h = arrive(check, alike, h, (int)((long)i * 7 % n), r, clock + (uint64_t)(r - 1) * 23 + (uint64_t)i * 23 / (uint64_t)n);
    double each = (seconds() - began) * 1e9 / ((double)rounds * n);
    if ((int)h.count != n || (int)h.source_count != (n + 9) / 10) {
        printf("the table holds %zu pairs of %zu sources\n", h.count, h.source_count);
        exit(1);
    }
    return each;
}

int main(void) {
    static const int sizes[] = {1, 10, 100, 1000};
    printf("nanoseconds for each arrival");
    for (size_t k = 0; k < LIBRARIES; k++) printf(" | %s", libraries[k].name);
    printf("\n");
    for (int alike = 0; alike < 2; alike++) {
        printf("%s\n", alike ? "CIDs whose first eight bytes are the same" : "CIDs whose first eight bytes differ");
        for (size_t s = 0; s < sizeof sizes / sizeof *sizes; s++) {
            double best[LIBRARIES];
            for (int run = 0; run < 15; run++)
                for (size_t k = 0; k < LIBRARIES; k++) {
                    double each = once(libraries[k].check, alike, sizes[s]);
                    if (run == 0 || each < best[k]) best[k] = each;
                }
            printf("%4d pairs", sizes[s]);
            for (size_t k = 0; k < LIBRARIES; k++) printf(" | %.1f", best[k]);
            printf("\n");
        }
    }
    return 0;
}
