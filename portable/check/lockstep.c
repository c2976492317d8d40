/* lockstep CALLS [SEED]: the proved library and the portable one (its symbols renamed to portable_..) side by side on random calls. After every call the
 * answers, the headers, all lent memory and the output are compared. Status 1 at the first difference, and where a number of 0 to 15 or 20
 * to 23 was not reached, another was given or a function was not called.
 * With -DTRACE one library alone gets the calls, and a sum of all answers and headers, and of all lent memory and output after every 64th call, is
 * printed: for two machines that cannot run one program. */
#include "tamburelvi.h"
#include <stdio.h>
#include <stdlib.h>
#include <string.h>

/* Every function, with a count of its calls. */
#define EACH(F) \
    F(new) F(handle_data_packet) F(handle_sync_packet) F(handle_universe_discovery_packet) F(poll) F(remove_expired_sources) F(listen_universes) \
    F(mute_universe) F(is_listening) F(clear_waiting_data) F(clear_all_waiting_data) F(reset_pairs) F(reset_discovery) F(reset_sources) F(fresh_settings) \
    F(set_process_preview_data) F(set_announce_source_discovery) F(set_announce_stream_termination) F(set_announce_timeout) F(set_merge) \
    F(clear_source_limit) F(set_source_limit) F(set_discovery_expiry) F(store_settings) F(load_settings) F(load_settings_layout_1) \
    F(data_pair) F(sync_pair) F(data_source) F(sync_source) F(listened) F(waiting) F(waiting_values) F(source_at) F(page_at)
#ifdef TRACE
#define OTHER(f) tamburelvi_##f
#else
#define OTHER(f) portable_##f
#define DECLARE(f) __typeof__(tamburelvi_##f) portable_##f;
EACH(DECLARE)
#endif
#define NAME(f) f##_called,
enum { EACH(NAME) functions };
#define TEXT(f) #f,
static const char *const names[] = {EACH(TEXT)};
static unsigned long called[functions], calls, reached[256], records;

static struct side {
    tamburelvi_header header;
    tamburelvi_memory memory;
} a, b;
static uint8_t out_a[TAMBURELVI_OUTPUT + 64], out_b[TAMBURELVI_OUTPUT + 64];
#define LENT sizeof(tamburelvi_memory)
static char *const lent_a = (char *)&a.memory, *const lent_b = (char *)&b.memory;
static uint64_t state = 88172645463325252u;

static uint64_t below(uint64_t n) {
    state ^= state << 13, state ^= state >> 7, state ^= state << 17;
    return (state >> 11) % n;
}
static bool one_in(uint64_t n) { return below(n) == 0; }

/* Whether random calls bring the number about. 16 is not used. */
static bool given(int number) { return number < 16 || (number >= 20 && number <= 23); }

static void differ(const char *what) {
    printf("DIFFERENT: %s, call %lu\n", what, calls);
    exit(1);
}

static uint64_t sum = 14695981039346656037u;
static void add(uint64_t n) { sum = (sum ^ n) * 1099511628211u, sum ^= sum >> 29; }
#ifdef TRACE
static void add_all(const void *from, size_t n) {
    for (size_t i = 0; i + 8 <= n; i += 8) {
        uint64_t word;
        memcpy(&word, (const char *)from + i, 8);
        add(word);
    }
}
#endif

/* Field by field: what stands between the fields is nobody's. */
#define SAME(x, y, f) do { if ((x).f != (y).f) differ(#f); add((uint64_t)(x).f); } while (0)
static void same_header(const tamburelvi_header *p, const tamburelvi_header *q) {
    SAME(*p, *q, data_pairs); SAME(*p, *q, data_sources); SAME(*p, *q, data_oldest); SAME(*p, *q, sync_pairs); SAME(*p, *q, sync_sources);
    SAME(*p, *q, sync_oldest); SAME(*p, *q, waiting); SAME(*p, *q, listened); SAME(*p, *q, sources); SAME(*p, *q, pages); SAME(*p, *q, page_universes);
    SAME(*p, *q, data_tidy); SAME(*p, *q, sync_tidy);
}
static void same_memory(void) {
    same_header(&a.header, &b.header);
#ifdef TRACE
    if (calls % 64) return;
    add_all(lent_a, LENT), add_all(out_a, sizeof out_a);
#endif
    if (memcmp(lent_a, lent_b, LENT)) differ("lent memory");
    if (memcmp(out_a, out_b, sizeof out_a)) differ("output");
}
static void same_settings(tamburelvi_settings p, tamburelvi_settings q) {
    SAME(p, q, process_preview_data); SAME(p, q, announce_source_discovery); SAME(p, q, announce_stream_termination); SAME(p, q, announce_timeout);
    SAME(p, q, merge); SAME(p, q, source_limit); SAME(p, q, discovery_expiry);
}
static void same_answer(tamburelvi_answer p, tamburelvi_answer q) {
    SAME(p, q, first); SAME(p, q, second); SAME(p, q, hi); SAME(p, q, lo); SAME(p, q, number); SAME(p, q, values); SAME(p, q, difference);
    reached[p.number]++;
}
static void same_reply(tamburelvi_reply p, tamburelvi_reply q) {
    a.header = p.header, b.header = q.header;
    same_answer(p.answer, q.answer);
    if (p.answer.values == TAMBURELVI_RELEASE) records += p.answer.first;
}

/* The same call on both. */
#define COUNT(f) called[f##_called]++, calls++
#define REPLY(f, ...) do { COUNT(f); struct side *x = &a; tamburelvi_memory *t = &x->memory; uint8_t *out = out_a; tamburelvi_reply p_ = tamburelvi_##f(x->header, __VA_ARGS__); \
        x = &b, t = &x->memory, out = out_b; tamburelvi_reply q_ = OTHER(f)(x->header, __VA_ARGS__); (void)out; same_reply(p_, q_); } while (0)
#define HEADER(f) do { COUNT(f); a.header = tamburelvi_##f(a.header), b.header = OTHER(f)(b.header); } while (0)
#define SETTINGS(f, ...) do { COUNT(f); tamburelvi_settings p_ = tamburelvi_##f(__VA_ARGS__), q_ = OTHER(f)(__VA_ARGS__); same_settings(p_, q_); s = p_; } while (0)
#define ADJUSTED(f, ...) do { COUNT(f); tamburelvi_adjusted p_ = tamburelvi_##f(__VA_ARGS__), q_ = OTHER(f)(__VA_ARGS__); same_settings(p_.settings, q_.settings); \
        SAME(p_, q_, number); reached[p_.number]++, s = p_.settings; } while (0)
#define READ(f, type, ...) COUNT(f); tamburelvi_memory *t = &a.memory; type p = tamburelvi_##f(a.header, __VA_ARGS__); t = &b.memory; type q = OTHER(f)(b.header, __VA_ARGS__)
#define TABLES &t->data_pairs, &t->data_sources, &t->sync_pairs, &t->sync_sources, &t->rows, t->store, store

static tamburelvi_settings s;

/* The ends of the range, the numbers next to them, others within, the ends of 32 bits. */
static uint32_t expiry(void) {
    static const uint32_t some[] = {0, 2499, 2500, 20000, 60000, 60001, UINT32_MAX};
    return one_in(4) ? 2500 + (uint32_t)below(57501) : some[below(7)];
}

/* Bytes for a settings record, as many as it has, or fewer or more. */
static uint8_t record_a[24], record_b[24];
static size_t record_length(void) { return one_in(3) ? below(25) : TAMBURELVI_SETTINGS_RECORD; }

/* Random settings, with an expiry in them that the setter need not take, stored in bytes that hold anything. */
static void store(void) {
    tamburelvi_settings w = s;
    w.process_preview_data = one_in(2);
    w.announce_source_discovery = one_in(2);
    w.announce_stream_termination = one_in(2);
    w.announce_timeout = one_in(2);
    w.merge = (uint8_t)below(3);
    w.source_limit = (uint16_t)(one_in(3) ? 0 : below(65536));
    w.discovery_expiry = one_in(3) ? expiry() : 2500 + (uint32_t)below(57501);
    size_t length = record_length();
    for (size_t i = 0; i < sizeof record_a; i++) record_a[i] = record_b[i] = (uint8_t)below(256);
    COUNT(store_settings);
    same_answer(tamburelvi_store_settings(w, record_a, length), OTHER(store_settings)(w, record_b, length));
    if (memcmp(record_a, record_b, sizeof record_a)) differ("settings record");
    for (size_t i = 0; i < sizeof record_a; i++) add(record_a[i]);
}

/* What was stored last, now and then with another layout or with a byte changed, loaded by one of the readers. */
static void load(void) {
    size_t length = record_length(), place = below(TAMBURELVI_SETTINGS_RECORD);
    if (one_in(2)) record_a[2] = (uint8_t)below(4);
    if (one_in(3)) record_a[place] = (uint8_t)(one_in(2) ? below(3) : below(256));
    if (!one_in(3)) ADJUSTED(load_settings, s, record_a, length);
    else ADJUSTED(load_settings_layout_1, s, record_a, length);
}

/* The settings that were loaded last stay now and then. */
static void stores_and_loads(void) {
    tamburelvi_settings before = s;
    for (int i = 0; i < 8; i++) store(), load();
    if (!one_in(8)) s = before;
}

static void settings(void) {
    bool on = below(2);
    switch (below(9)) {
    case 0: SETTINGS(set_process_preview_data, s, on); break;
    case 1: SETTINGS(set_announce_source_discovery, s, on); break;
    case 2: SETTINGS(set_announce_stream_termination, s, on); break;
    case 3: on = one_in(4); SETTINGS(set_announce_timeout, s, on); break;
    case 4: { uint8_t m = on ? (uint8_t)below(256) : 0; SETTINGS(set_merge, s, m); break; }
    case 5: SETTINGS(clear_source_limit, s); break;
    case 6: if (one_in(8)) SETTINGS(fresh_settings, ); break;
    case 7: { uint16_t limit = (uint16_t)(one_in(4) ? 0 : one_in(2) ? below(40) : below(65536)); ADJUSTED(set_source_limit, s, limit); break; }
    case 8: { uint32_t e = expiry(); ADJUSTED(set_discovery_expiry, s, e); break; }
    }
}

static void reads(void) {
    size_t at = one_in(2) ? below(70) : below(1100);
    uint64_t mark = below(3);
    { READ(data_pair, tamburelvi_pair_read, &t->data_pairs, at); SAME(p, q, hi); SAME(p, q, lo); SAME(p, q, reading); SAME(p, q, universe); SAME(p, q, sequence); }
    { READ(sync_pair, tamburelvi_pair_read, &t->sync_pairs, at); SAME(p, q, hi); SAME(p, q, lo); SAME(p, q, reading); SAME(p, q, universe); SAME(p, q, sequence); }
    { READ(data_source, tamburelvi_cid_read, &t->data_sources, at); SAME(p, q, hi); SAME(p, q, lo); }
    { READ(sync_source, tamburelvi_cid_read, &t->sync_sources, at); SAME(p, q, hi); SAME(p, q, lo); }
    { READ(listened, uint16_t, &t->heard, at); if (p != q) differ("listened"); add(p); }
    { READ(waiting, tamburelvi_dmx_read, &t->rows, at); SAME(p, q, hi); SAME(p, q, lo); SAME(p, q, reading); SAME(p, q, universe); SAME(p, q, address); SAME(p, q, priority); SAME(p, q, preview); SAME(p, q, has_cid); }
    { READ(waiting_values, tamburelvi_part_read, &t->rows, at); SAME(p, q, start); SAME(p, q, count); }
    READ(source_at, tamburelvi_source_read, &t->sources, mark, at);
    SAME(p, q, hi); SAME(p, q, lo); SAME(p, q, reading); SAME(p, q, last_page); SAME(p, q, name_length); SAME(p, q, place);
    uint64_t hi = p.hi, lo = p.lo;
    at = below(4);
    { READ(page_at, tamburelvi_page_read, &t->pages, mark, hi, lo, at); SAME(p, q, number); SAME(p, q, count); SAME(p, q, start); SAME(p, q, place); }
}

int main(int argc, char **argv) {
    unsigned long wanted = argc > 1 ? strtoul(argv[1], 0, 10) : 1000000;
    if (argc > 2) state ^= strtoull(argv[2], 0, 10) * 0x9E3779B97F4A7C15u;
    static uint8_t values[600], name[80], sequences[2048][64];
    static uint16_t list[1200];
    while (calls < wanted) {
        /* A receiver in memory that holds anything, and what it will get: few or many sources and universes, slow or fast time. */
        for (size_t i = 0; i < LENT; i++) lent_a[i] = (char)below(256);
        memcpy(lent_b, lent_a, LENT);
        COUNT(new);
        a.header = tamburelvi_new(&a.memory.heard), b.header = OTHER(new)(&b.memory.heard);
        same_memory();
        SETTINGS(fresh_settings, );
        for (int i = 0; i < 12; i++) settings();
        uint64_t sources = (uint64_t[]){2, 5, 60, 1500}[below(4)], universes = (uint64_t[]){3, 10, 100, 1500}[below(4)], slow = one_in(3) ? 20 : 1000;
        uint64_t now = one_in(4) ? UINT64_MAX - below(100000) : below(10000), addresses = one_in(4) ? 70 : 4;
        memset(sequences, 0, sizeof sequences);
        size_t first = universes < 1023 ? universes : 1023;
        for (size_t i = 0; i < first; i++) list[i] = (uint16_t)(i + 1);
        REPLY(listen_universes, &t->heard, list, first);
        for (uint64_t n = 300 + below(6000); n && calls < wanted; n--) {
            if (one_in(slow)) {
                uint64_t jump = (uint64_t[]){2400, 2400, 2400, 19900, 59900}[below(5)];
                now += one_in(3) ? below(40) : jump + below(200);
            }
            if (one_in(10)) now += below(3);
            if (one_in(50)) now -= below(5);
            uint64_t c = below(sources), hi = c / 7 * 0x0123456789ABCDEFu, lo = c;
            uint16_t u = (uint16_t)(one_in(300) ? below(65536) : 1 + below(universes)), address = (uint16_t)(1 + below(one_in(30) ? universes : addresses));
            size_t store = one_in(500) ? below(TAMBURELVI_STORE) : TAMBURELVI_STORE, pool = one_in(500) ? below(TAMBURELVI_UNIVERSES) : TAMBURELVI_UNIVERSES;
            size_t room = one_in(500) ? below(TAMBURELVI_OUTPUT) : TAMBURELVI_OUTPUT + below(2) * 64;
            uint8_t sequence = one_in(12) ? (uint8_t)below(256) : ++sequences[c][u & 63];
            switch (below(16)) {
            default: {
                size_t length = one_in(4) ? below(516) : below(8);
                for (size_t i = 0; i < length; i++) values[i] = (uint8_t)below(256);
                if (!one_in(8)) values[0] = 0;
                if (one_in(2)) address = one_in(20) ? (uint16_t)below(65536) : 0;
                uint8_t priority = (uint8_t)(100 + below(3));
                bool preview = one_in(20), terminated = one_in(200), forced = one_in(6);
                tamburelvi_data d = {.hi = hi, .lo = lo, .universe = u, .address = address, .priority = priority, .sequence = sequence, .preview = preview,
                    .terminated = terminated, .force_synchronization = forced};
                REPLY(handle_data_packet, TABLES, &t->heard, &t->sources, &t->names, &t->pages, t->universes, pool, s, now, d, values, length, out, room);
                break;
            }
            case 0: case 1: {
                if (one_in(300)) address = 0;
                tamburelvi_sync y = {.hi = hi, .lo = lo, .address = address, .sequence = sequence};
                REPLY(handle_sync_packet, TABLES, &t->heard, &t->sources, &t->names, &t->pages, t->universes, pool, s, now, y, out, room);
                break;
            }
            case 2: case 3: {
                size_t length = below(66), count = one_in(3) ? below(515) : below(6);
                uint8_t last = (uint8_t)below(3);
                for (size_t i = 0; i < length; i++) name[i] = (uint8_t)below(256);
                for (size_t i = 0; i < count; i++) list[i] = (uint16_t)(1 + below(universes));
                uint64_t pages = last + 1u + one_in(9);
                tamburelvi_page g = {.hi = hi, .lo = lo, .page = (uint8_t)below(pages), .last_page = last};
                REPLY(handle_universe_discovery_packet, TABLES, &t->heard, &t->sources, &t->names, &t->pages, t->universes, pool, s, now, g, name, length, list, count, out, room);
                break;
            }
            case 4:
                switch (below(11)) {
                case 0: REPLY(poll, TABLES, s, now); break;
                case 1: {
                    /* By the settings, or with an expiry in them that the setter need not take. */
                    tamburelvi_settings w = s;
                    if (one_in(3)) w.discovery_expiry = expiry();
                    REPLY(remove_expired_sources, &t->sources, &t->names, &t->pages, t->universes, pool, w, now);
                    break;
                }
                case 2: {
                    size_t count = below(20);
                    for (size_t i = 0; i < count; i++) list[i] = (uint16_t)(one_in(9) ? below(65536) : 1 + below(2000));
                    REPLY(listen_universes, &t->heard, list, count);
                    break;
                }
                case 3: if (one_in(4)) REPLY(mute_universe, &t->heard, u); break;
                case 4: REPLY(clear_waiting_data, &t->rows, t->store, store, u); break;
                case 5: if (one_in(30)) HEADER(clear_all_waiting_data); break;
                case 6:
                    if (!one_in(20)) break;
                    switch (below(3)) {
                    case 0: HEADER(reset_pairs); break;
                    case 1: HEADER(reset_discovery); break;
                    case 2: HEADER(reset_sources); break;
                    }
                    break;
                case 7: {
                    READ(is_listening, bool, &t->heard, u);
                    if (p != q) differ("is_listening");
                    add(p);
                    break;
                }
                case 8: reads(); break;
                case 9: if (one_in(4)) settings(); break;
                case 10: stores_and_loads(); break;
                }
            }
            same_memory();
        }
    }
    int status = 0;
    printf("%lu calls the same, with all memory after each; %lu records released\nby number:", calls, records);
    for (int i = 0; i < 256; i++)
        if (given(i) || reached[i]) printf(" %d: %lu", i, reached[i]);
    printf("\nby function:");
    for (int i = 0; i < functions; i++) printf(" %s %lu", names[i], called[i]);
    putchar('\n');
#ifdef TRACE
    printf("sum: %08lx%08lx\n", (unsigned long)(sum >> 32), (unsigned long)(sum & 0xFFFFFFFFu));
#endif
    for (int i = 0; i < 256; i++)
        if ((reached[i] != 0) != given(i)) printf("FAILED: number %d: %lu times\n", i, reached[i]), status = 1;
    for (int i = 0; i < functions; i++)
        if (!called[i]) printf("FAILED: %s was not called\n", names[i]), status = 1;
    return status;
}
