/* A replay script (docs/REPLAY.md) on standard input, carried out through the C symbols; the answers on standard output, as the program `replay`
 * prints them. For every target: standard C alone. `replay` is called by main here, or by a target's own start (-DNO_MAIN). */
#include "tamburelvi.h"
#include <stdio.h>
#include <stdlib.h>
#include <string.h>

#define LINE 8192
static tamburelvi_memory t;
static tamburelvi_header h;
static tamburelvi_settings s;
static uint8_t out[TAMBURELVI_OUTPUT], bytes[LINE];
static uint16_t numbers[LINE];
static char line[LINE + 3], *field[16];

static void hex(const uint8_t *b, size_t n) {
    if (!n) putchar('-');
    for (size_t i = 0; i < n; i++) {
        putchar("0123456789abcdef"[b[i] >> 4]);
        putchar("0123456789abcdef"[b[i] & 15]);
    }
}

static void put_number(uint64_t n) {
    char digits[20];
    int k = 0;
    do digits[k++] = (char)('0' + n % 10);
    while (n /= 10);
    while (k) putchar(digits[--k]);
}

static void put_cid(uint64_t hi, uint64_t lo) {
    uint8_t b[16];
    for (int i = 0; i < 8; i++) {
        b[i] = (uint8_t)(hi >> (56 - 8 * i));
        b[8 + i] = (uint8_t)(lo >> (56 - 8 * i));
    }
    hex(b, 16);
}

static void put_list(const uint16_t *u, size_t n) {
    if (!n) putchar('-');
    for (size_t i = 0; i < n; i++) {
        if (i) putchar(',');
        put_number(u[i]);
    }
}

static bool number(const char *f, uint64_t most, uint64_t *n) {
    if (!*f) return false;
    for (*n = 0; *f; f++) {
        if (*f < '0' || *f > '9') return false;
        uint64_t d = (uint64_t)(*f - '0');
        if (d > most || *n > (most - d) / 10) return false;
        *n = *n * 10 + d;
    }
    return true;
}

static int digit(char c) {
    if (c >= '0' && c <= '9') return c - '0';
    if (c >= 'a' && c <= 'f') return c - 'a' + 10;
    return -1;
}

static bool read_bytes(const char *f, size_t *n) {
    *n = 0;
    if (!strcmp(f, "-")) return true;
    if (!*f || strlen(f) % 2) return false;
    for (; *f; f += 2) {
        if (digit(f[0]) < 0 || digit(f[1]) < 0) return false;
        bytes[(*n)++] = (uint8_t)(digit(f[0]) * 16 + digit(f[1]));
    }
    return true;
}

static uint64_t word(const uint8_t *b) {
    uint64_t w = 0;
    for (int i = 0; i < 8; i++) w = w << 8 | b[i];
    return w;
}

static bool read_cid(const char *f, uint64_t *hi, uint64_t *lo) {
    size_t n;
    if (strlen(f) != 32 || !read_bytes(f, &n)) return false;
    *hi = word(bytes);
    *lo = word(bytes + 8);
    return true;
}

static bool read_list(char *f, size_t *n) {
    *n = 0;
    if (!strcmp(f, "-")) return true;
    for (;;) {
        char *end = strchr(f, ',');
        uint64_t u;
        if (end) *end = 0;
        if (!number(f, 65535, &u)) return false;
        numbers[(*n)++] = (uint16_t)u;
        if (!end) return true;
        f = end + 1;
    }
}

static void answer(tamburelvi_answer a, const uint8_t *name, size_t name_length) {
    put_number(a.number);
    switch (a.values) {
    case TAMBURELVI_ONE: putchar(' '), put_number(a.first); break;
    case TAMBURELVI_RELEASE:
        fputs(" release ", stdout), put_number(a.first), putchar(' '), put_number(a.second), putchar(' ');
        hex(out, a.second);
        break;
    case TAMBURELVI_PAIR: putchar(' '), put_cid(a.hi, a.lo), putchar(' '), put_number(a.first); break;
    case TAMBURELVI_SEQUENCE:
        putchar(' '), put_number(a.first), putchar(' '), put_number(a.second), putchar(' ');
        if (a.difference < 0) putchar('-');
        put_number((uint64_t)(a.difference < 0 ? -a.difference : a.difference));
        break;
    case TAMBURELVI_ANNOUNCED: putchar(' '), hex(name, name_length); break;
    }
    putchar('\n');
}

static void reply(tamburelvi_reply r) {
    h = r.header;
    answer(r.answer, 0, 0);
}

static void said(uint64_t n) { put_number(n), putchar('\n'); }

static void adjusted(tamburelvi_adjusted a) {
    s = a.settings;
    said(a.number);
}

static void store(size_t n) {
    memset(bytes, 0xCC, n);
    tamburelvi_answer a = tamburelvi_store_settings(s, bytes, n);
    if (a.number) answer(a, 0, 0);
    else fputs("0 ", stdout), hex(bytes, n), putchar('\n');
}

static void put_settings(void) {
    const bool flags[] = {s.process_preview_data, s.announce_source_discovery, s.announce_stream_termination, s.announce_timeout};
    putchar('0');
    for (int i = 0; i < 4; i++) putchar(' '), put_number(flags[i]);
    fputs(s.merge ? " highest " : " priority ", stdout);
    if (s.source_limit) put_number(s.source_limit);
    else fputs("none", stdout);
    putchar(' '), said(s.discovery_expiry);
}

/* Past the setter. A limit of 0 is none in C, so that a line which puts it into the settings cannot be carried out, and ends the program. */
static void put_limit(uint16_t limit) {
    if (!limit) fputs("raw_limit 0: no settings in C hold it\n", stderr), exit(4);
    s.source_limit = limit;
}

static void dump_pairs(char mark, bool sync) {
    size_t n = sync ? h.sync_pairs : h.data_pairs, m = sync ? h.sync_sources : h.data_sources;
    for (size_t i = 0; i < n; i++) {
        tamburelvi_pair_read p = sync ? tamburelvi_sync_pair(h, &t.sync_pairs, i)
                                      : tamburelvi_data_pair(h, &t.data_pairs, i);
        putchar(mark), putchar(' '), put_cid(p.hi, p.lo), putchar(' '), put_number(p.universe), putchar(' '), put_number(p.sequence), putchar(' '), said(p.reading);
    }
    putchar(mark), fputs("c ", stdout);
    if (!m) putchar('-');
    for (size_t i = 0; i < m; i++) {
        tamburelvi_cid_read c = sync ? tamburelvi_sync_source(h, &t.sync_sources, i)
                                     : tamburelvi_data_source(h, &t.data_sources, i);
        if (i) putchar(',');
        put_cid(c.hi, c.lo);
    }
    putchar('\n');
}

static void dump_sources(char mark, uint64_t kind) {
    for (size_t i = 0;; i++) {
        tamburelvi_source_read r = tamburelvi_source_at(h, &t.sources, kind, i);
        if (r.place >= h.sources) return;
        size_t n = 0;
        while (tamburelvi_page_at(h, &t.pages, kind, r.hi, r.lo, n).place < h.pages) n++;
        putchar(mark), putchar(' '), put_cid(r.hi, r.lo), putchar(' '), hex(t.names.row[r.place], (size_t)r.name_length);
        putchar(' '), put_number(r.last_page), putchar(' '), put_number(r.reading), putchar(' '), said(n);
        for (size_t k = 0; k < n; k++) {
            tamburelvi_page_read p = tamburelvi_page_at(h, &t.pages, kind, r.hi, r.lo, k);
            putchar(mark), fputs("p ", stdout), put_number(p.number), putchar(' '), put_list(t.universes + p.start, (size_t)p.count), putchar('\n');
        }
    }
}

static void dump(void) {
    dump_pairs('d', false), dump_pairs('y', true);
    for (size_t i = 0; i < h.waiting; i++) {
        tamburelvi_dmx_read d = tamburelvi_waiting(h, &t.rows, i);
        tamburelvi_part_read v = tamburelvi_waiting_values(h, &t.rows, i);
        fputs("w ", stdout), put_number(d.universe), putchar(' '), put_number(d.address), putchar(' '), put_number(d.priority), putchar(' '), put_number(d.preview), putchar(' ');
        if (d.has_cid) put_cid(d.hi, d.lo);
        else putchar('-');
        putchar(' '), put_number(d.reading), putchar(' '), hex(t.store + v.start, v.count), putchar('\n');
    }
    fputs("l ", stdout);
    if (!h.listened) putchar('-');
    for (size_t i = 0; i < h.listened; i++) {
        if (i) putchar(',');
        put_number(tamburelvi_listened(h, &t.heard, i));
    }
    putchar('\n');
    dump_sources('p', 0), dump_sources('q', 1);
    puts(".");
}

#define TABLES h, &t.data_pairs, &t.data_sources, &t.sync_pairs, &t.sync_sources, &t.rows, t.store, TAMBURELVI_STORE

static bool packet(const char *word, int n) {
    uint64_t now, hi, lo, a, b, c, d, e;
    size_t length, count;
    if (n < 3 || !number(field[1], UINT64_MAX, &now) || !read_cid(field[2], &hi, &lo)) return false;
    if (!strcmp(word, "data")) {
        if (n != 9 || !number(field[3], 65535, &a) || !number(field[4], 65535, &b) || !number(field[5], 255, &c) || !number(field[6], 255, &d) ||
            !number(field[7], 255, &e) || e % 32 || !read_bytes(field[8], &length))
            return false;
        tamburelvi_data p = {.hi = hi, .lo = lo, .universe = (uint16_t)a, .address = (uint16_t)b, .priority = (uint8_t)c, .sequence = (uint8_t)d,
            .preview = e & 128, .terminated = e & 64, .force_synchronization = e & 32};
        reply(tamburelvi_handle_data_packet(TABLES, &t.heard, &t.sources, &t.names, &t.pages, t.universes, TAMBURELVI_UNIVERSES, s, now, p, bytes, length, out,
            sizeof out));
        return true;
    }
    if (!strcmp(word, "sync")) {
        if (n != 5 || !number(field[3], 65535, &a) || !number(field[4], 255, &b)) return false;
        tamburelvi_sync p = {.hi = hi, .lo = lo, .address = (uint16_t)a, .sequence = (uint8_t)b};
        reply(tamburelvi_handle_sync_packet(TABLES, &t.heard, &t.sources, &t.names, &t.pages, t.universes, TAMBURELVI_UNIVERSES, s, now, p, out, sizeof out));
        return true;
    }
    if (n != 7 || !number(field[3], 255, &a) || !number(field[4], 255, &b) || !read_bytes(field[5], &length) || !read_list(field[6], &count)) return false;
    tamburelvi_page p = {.hi = hi, .lo = lo, .page = (uint8_t)a, .last_page = (uint8_t)b};
    tamburelvi_reply r = tamburelvi_handle_universe_discovery_packet(TABLES, &t.heard, &t.sources, &t.names, &t.pages, t.universes, TAMBURELVI_UNIVERSES, s, now, p,
        bytes, length, numbers, count, out, sizeof out);
    h = r.header;
    answer(r.answer, bytes, length);
    return true;
}

static bool command(int n) {
    const char *w = field[0];
    uint64_t v = 0;
    size_t count;
    bool bit = n == 2 && number(field[1], 1, &v);
    if (n == 1) {
        if (!strcmp(w, "fresh")) {
            h = tamburelvi_new(&t.heard);
            s = tamburelvi_fresh_settings();
        } else if (!strcmp(w, "clear_all")) h = tamburelvi_clear_all_waiting_data(h);
        else if (!strcmp(w, "reset_pairs")) h = tamburelvi_reset_pairs(h);
        else if (!strcmp(w, "reset_discovery")) h = tamburelvi_reset_discovery(h);
        else if (!strcmp(w, "reset")) h = tamburelvi_reset_sources(h);
        else if (!strcmp(w, "dump")) {
            dump();
            return true;
        } else if (!strcmp(w, "settings")) {
            put_settings();
            return true;
        } else return false;
        said(0);
        return true;
    }
    if (!strcmp(w, "data") || !strcmp(w, "sync") || !strcmp(w, "discovery")) return packet(w, n);
    if (!strcmp(w, "load_settings") && (n == 2 || (n == 3 && !strcmp(field[2], "1"))) && read_bytes(field[1], &count)) {
        adjusted(n == 2 ? tamburelvi_load_settings(s, bytes, count) : tamburelvi_load_settings_layout_1(s, bytes, count));
        return true;
    }
    if (n != 2) return false;
    if (bit && !strcmp(w, "preview")) s = tamburelvi_set_process_preview_data(s, v);
    else if (bit && !strcmp(w, "announce_discovery")) s = tamburelvi_set_announce_source_discovery(s, v);
    else if (bit && !strcmp(w, "announce_termination")) s = tamburelvi_set_announce_stream_termination(s, v);
    else if (bit && !strcmp(w, "announce_timeout")) s = tamburelvi_set_announce_timeout(s, v);
    else if (!strcmp(w, "merge") && !strcmp(field[1], "priority")) s = tamburelvi_set_merge(s, 0);
    else if (!strcmp(w, "merge") && !strcmp(field[1], "highest")) s = tamburelvi_set_merge(s, 1);
    else if (!strcmp(w, "limit") && !strcmp(field[1], "none")) s = tamburelvi_clear_source_limit(s);
    else if (!strcmp(w, "raw_limit") && number(field[1], 65535, &v)) put_limit((uint16_t)v);
    else if (!strcmp(w, "raw_expiry") && number(field[1], UINT32_MAX, &v)) s.discovery_expiry = (uint32_t)v;
    else if (!strcmp(w, "limit") && number(field[1], 65535, &v)) {
        adjusted(tamburelvi_set_source_limit(s, (uint16_t)v));
        return true;
    } else if (!strcmp(w, "expiry") && number(field[1], UINT32_MAX, &v)) {
        adjusted(tamburelvi_set_discovery_expiry(s, (uint32_t)v));
        return true;
    } else if (!strcmp(w, "store_settings") && number(field[1], 64, &v)) {
        store((size_t)v);
        return true;
    } else if (!strcmp(w, "listen") && read_list(field[1], &count)) {
        reply(tamburelvi_listen_universes(h, &t.heard, numbers, count));
        return true;
    } else if (!strcmp(w, "poll") && number(field[1], UINT64_MAX, &v)) {
        reply(tamburelvi_poll(TABLES, s, v));
        return true;
    } else if (!strcmp(w, "sweep") && number(field[1], UINT64_MAX, &v)) {
        reply(tamburelvi_remove_expired_sources(h, &t.sources, &t.names, &t.pages, t.universes, TAMBURELVI_UNIVERSES, s, v));
        return true;
    } else if (number(field[1], 65535, &v)) {
        if (!strcmp(w, "mute")) reply(tamburelvi_mute_universe(h, &t.heard, (uint16_t)v));
        else if (!strcmp(w, "listening")) fputs("0 ", stdout), said(tamburelvi_is_listening(h, &t.heard, (uint16_t)v));
        else if (!strcmp(w, "clear")) reply(tamburelvi_clear_waiting_data(h, &t.rows, t.store, TAMBURELVI_STORE, (uint16_t)v));
        else return false;
        return true;
    } else return false;
    said(0);
    return true;
}

/* The lines of the script. */
long replay(void) {
    long lines = 0;
    memset(&t, 0xA5, sizeof t);
    h = tamburelvi_new(&t.heard);
    s = tamburelvi_fresh_settings();
    while (fgets(line, sizeof line, stdin)) {
        size_t n = strlen(line);
        if (n && line[n - 1] == '\n') line[--n] = 0;
        if (!n || line[0] == '#') continue;
        int k = 0;
        char *f = line;
        for (field[k++] = f; k < 16 && (f = strchr(f, ' ')); field[k++] = f) *f++ = 0;
        lines++;
        if (!command(k)) puts("error");
    }
    return lines;
}

/* The lines of the script, and the deepest stack below this function that they have used, this driver's own included. */
#define ROOM 65536
#define NEAR 512
long measured_replay(int *stack) {
    uint8_t here;
    volatile uint8_t *from = (volatile uint8_t *)((uintptr_t)&here - NEAR - ROOM);
    for (int i = 0; i < ROOM; i++) from[i] = 0xA5;
    long lines = replay();
    int k = 0;
    while (k < ROOM && from[k] == 0xA5) k++;
    *stack = NEAR + ROOM - k;
    return lines;
}

#ifndef NO_MAIN
#include "tamburelvi_panic.h"
void tamburelvi_panicked(void) {
    fputs("panicked\n", stderr);
    exit(3);
}

/* replay FILE: the number of lines and the stack go to FILE. */
int main(int argc, char **argv) {
    int stack;
    long lines = measured_replay(&stack);
    if (fflush(stdout) || ferror(stdout)) return 1;
    if (argc < 2) return 0;
    FILE *said = fopen(argv[1], "a");
    return !said || fprintf(said, "%ld %d\n", lines, stack) < 0 || fclose(said);
}
#endif
