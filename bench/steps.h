/* The steps of a receiver that are timed through C, for bench/step and portable/speed. Each source sends ten universes with 513 values: unsynchronised; the
 * same with timeouts announced; the same while 64 other universes wait; a second copy of each packet. Up to fifty universes that wait and a synchronisation packet that releases them.
 * A poll with nothing to do. A discovery page. The clock is read between the turns only, and each answer is held against what the step has to give. */
#include "tamburelvi.h"
#include <stdio.h>
#include <stdlib.h>
#include <string.h>
#include <time.h>

/* A library by its functions, so that several can be timed by turns. */
#define EACH(F, of) F(of, new) F(of, handle_data_packet) F(of, handle_sync_packet) F(of, handle_universe_discovery_packet) F(of, poll) F(of, listen_universes)
#define FIELD(of, f) __typeof__(tamburelvi_##f) *f;
#define FILL(of, f) of##_##f,
struct library { const char *name; EACH(FIELD, ) };

enum { MOST_SIDES = 3, MOST_TURNS = 100000, WAITING = 64, ADDRESS = 60000, RECORD = 35 + TAMBURELVI_VALUES };

/* Each begins a page, so that no library has a better place than another. */
static struct receiver {
    _Alignas(4096) tamburelvi_header header;
    tamburelvi_memory memory;
} receivers[MOST_SIDES];
static uint8_t out[TAMBURELVI_OUTPUT], values[TAMBURELVI_VALUES], name[TAMBURELVI_NAME];
static uint16_t universes[1000];

/* A step, and how many records it releases. A copy is the data packet that was taken last, once more. */
struct step { enum { DATA, COPY, SYNC, POLL, PAGE } kind; uint64_t hi, lo; uint16_t universe, address; size_t records; };
/* The steps of a round, and those that are taken anew before each turn and not timed, so that nothing of theirs times out. */
static struct step steps[1100], kept[1000];
static size_t count, kept_count;

static struct step step_of(int kind, size_t source, size_t universe, uint16_t address, size_t records) {
    return (struct step){kind, (source + 1) * 0x9E3779B97F4A7C15u, source, (uint16_t)universe, address, records};
}
static struct step data_of(size_t place, uint16_t address) { return step_of(DATA, place / 10, place + 1, address, !address); }

static double clock_ns(void) {
    struct timespec t;
    clock_gettime(CLOCK_MONOTONIC, &t);
    return (double)t.tv_sec * 1e9 + (double)t.tv_nsec;
}

static void carry_out(const struct library *l, struct receiver *x, const struct step *p, tamburelvi_settings s, uint64_t now, uint8_t sequence) {
#define TABLES x->header, &t->data_pairs, &t->data_sources, &t->sync_pairs, &t->sync_sources, &t->rows, t->store, TAMBURELVI_STORE
#define FOUND &t->heard, &t->sources, &t->names, &t->pages, t->universes, TAMBURELVI_UNIVERSES
    tamburelvi_memory *t = &x->memory;
    tamburelvi_reply r;
    switch (p->kind) {
    case DATA:
    case COPY: {
        tamburelvi_data d = {.hi = p->hi, .lo = p->lo, .universe = p->universe, .address = p->address, .priority = 100, .sequence = sequence};
        r = l->handle_data_packet(TABLES, FOUND, s, now, d, values, sizeof values, out, sizeof out);
        break;
    }
    case SYNC: {
        tamburelvi_sync y = {.hi = p->hi, .lo = p->lo, .address = p->address, .sequence = sequence};
        r = l->handle_sync_packet(TABLES, FOUND, s, now, y, out, sizeof out);
        break;
    }
    case POLL: r = l->poll(TABLES, s, now); break;
    default: {
        tamburelvi_page g = {.hi = p->hi, .lo = p->lo};
        r = l->handle_universe_discovery_packet(TABLES, FOUND, s, now, g, name, 8, universes, 20, out, sizeof out);
    }
    }
    x->header = r.header;
    const tamburelvi_answer *a = &r.answer;
    if (p->kind == COPY) {
        if (a->number != TAMBURELVI_REPEATED || a->values != TAMBURELVI_SEQUENCE || a->first != sequence || a->second != sequence || a->difference)
            printf("FAILED: %s: number %u for a second copy\n", l->name, a->number), exit(1);
    } else if (a->number || a->values != (p->records ? TAMBURELVI_RELEASE : TAMBURELVI_NONE) || a->first != p->records || a->second != p->records * RECORD)
        printf("FAILED: %s: number %u, values of kind %u, %zu and %zu\n", l->name, a->number, a->values, a->first, a->second), exit(1);
}

static int by_size(const void *a, const void *b) { return (*(const double *)a > *(const double *)b) - (*(const double *)a < *(const double *)b); }

/* A turn takes at least 1,000 steps of each library. Least and median of the turns' means, in nanoseconds. */
typedef void print_times(const char *what, size_t size, const double *least, const double *median);

static void measure(const struct library *sides, int n, const char *what, size_t size, size_t pairs, bool announced, double seconds, print_times *print) {
    static double times[MOST_SIDES][MOST_TURNS];
    tamburelvi_settings s = tamburelvi_set_announce_timeout(tamburelvi_fresh_settings(), announced);
    size_t repeats = (1000 + count - 1) / count, turns = 0, waiting = 0;
    for (size_t k = 0; k < kept_count; k++) waiting += kept[k].address != 0;
    for (int i = 0; i < n; i++) {
        memset(&receivers[i], 0, sizeof receivers[i]);
        receivers[i].header = sides[i].new(&receivers[i].memory.heard);
        receivers[i].header = sides[i].listen_universes(receivers[i].header, &receivers[i].memory.heard, universes, 1000).header;
    }
    uint8_t sequence = 1;
    double began = clock_ns();
    /* The first turn makes the pairs known and is not counted. */
    for (size_t turn = 0; turn < 16 || clock_ns() - began < seconds * 1e9; turn++) {
        uint64_t now = (uint64_t)((clock_ns() - began) / 1e6);
        for (int i = 0; i < n; i++) {
            struct receiver *x = &receivers[i];
            uint8_t q = sequence;
            for (size_t k = 0; k < kept_count; k++) carry_out(&sides[i], x, &kept[k], s, now, (uint8_t)turn);
            double start = clock_ns();
            for (size_t m = 0; m < repeats; m++, q++)
                for (size_t k = 0; k < count; k++) carry_out(&sides[i], x, &steps[k], s, now, steps[k].kind == COPY ? (uint8_t)turn : q);
            if (turn && turns < MOST_TURNS) times[i][turns] = (clock_ns() - start) / (double)(repeats * count);
            if (x->header.data_pairs != pairs || x->header.waiting != waiting)
                printf("FAILED: %s: %zu pairs, and %zu universes wait\n", sides[i].name, x->header.data_pairs, x->header.waiting), exit(1);
        }
        sequence = (uint8_t)(sequence + repeats);
        if (turn && turns < MOST_TURNS) turns++;
    }
    double least[MOST_SIDES], median[MOST_SIDES];
    for (int i = 0; i < n; i++) {
        qsort(times[i], turns, sizeof(double), by_size);
        least[i] = times[i][0];
        median[i] = times[i][turns / 2];
    }
    print(what, size, least, median);
    fflush(stdout);
}

static void measure_all(const struct library *sides, int n, double seconds, print_times *print) {
    const size_t sizes[] = {1, 10, 100, 1000};
    for (size_t i = 0; i < 1000; i++) universes[i] = (uint16_t)(i + 1);
    for (size_t i = 0; i < sizeof values; i++) values[i] = (uint8_t)(i * 31 % 251);
    memset(name, 'a', sizeof name);
    for (int announced = 0; announced < 2; announced++)
        for (int i = 0; i < 4; i++) {
            count = kept_count = 0;
            /* The places in steps of seven, so that neighbours do not follow each other. */
            for (size_t k = 0; k < sizes[i]; k++) steps[count++] = data_of(k * 7 % sizes[i], 0);
            measure(sides, n, announced ? "unsynchronised, timeouts announced" : "unsynchronised", sizes[i], sizes[i], announced, seconds, print);
        }
    for (int i = 0; i < 4; i++) {
        size_t each = sizes[i] < 50 ? sizes[i] : 50;
        count = kept_count = 0;
        for (size_t source = 0; source < sizes[i] / each; source++) {
            for (size_t u = 0; u < each; u++) steps[count++] = step_of(DATA, source, u + 1, ADDRESS, 0);
            steps[count++] = step_of(SYNC, source, 0, ADDRESS, each);
        }
        measure(sides, n, "synchronised", sizes[i], sizes[i], false, seconds, print);
    }
    count = kept_count = 0;
    for (size_t k = 0; k < WAITING; k++) kept[kept_count++] = data_of(k, ADDRESS);
    steps[count++] = data_of(WAITING, 0);
    measure(sides, n, "unsynchronised, universes wait", WAITING, WAITING + 1, false, seconds, print);
    for (int i = 0; i < 4; i++) {
        count = kept_count = 0;
        for (size_t k = 0; k < sizes[i]; k++) {
            kept[kept_count++] = data_of(k, 0);
            steps[count] = data_of(k * 7 % sizes[i], 0);
            steps[count++].kind = COPY;
        }
        measure(sides, n, "unsynchronised, second copy", sizes[i], sizes[i], false, seconds, print);
    }
    for (int i = 0; i < 4; i++) {
        count = kept_count = 0;
        for (size_t k = 0; k < sizes[i]; k++) kept[kept_count++] = data_of(k, 0);
        steps[count++] = step_of(POLL, 0, 0, 0, 0);
        measure(sides, n, "poll, nothing to do", sizes[i], sizes[i], false, seconds, print);
    }
    count = kept_count = 0;
    for (size_t k = 0; k < 20; k++) steps[count++] = step_of(PAGE, k, 0, 0, 0);
    measure(sides, n, "discovery page", 0, 0, false, seconds, print);
}
