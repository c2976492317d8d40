// The time of one call in the state that gives it the most work of those that were thought of. Every state is made by calls; before each timed call the
// receiver is put into it anew, and after it the answer, the counts and, where it matters, the place of what was put in are held against what the case says.
// Each case is timed twice over: warm, with the memory written just before, and cold, with all that is lent flushed from the caches and other memory read.
#include "../../bindings/c/tamburelvi.h"
#include <immintrin.h>
#include <stdio.h>
#include <stdlib.h>
#include <string.h>
#include <time.h>

#define PAIRS 1024
#define WAITING 64
#define PAGES 64
#define MOST_RUNS 100000
#define WORD 0x1111111111111111u // the first half of every CID, so that a comparison always looks at both

// What is lent to the calls, and the header. The pointers go in as `void *`, whatever the header names the arrays.
typedef struct {
    tamburelvi_header header;
    uint64_t data_pairs[PAIRS][4], data_sources[PAIRS][2], sync_pairs[PAIRS][4], sync_sources[PAIRS][2];
    uint64_t rows[WAITING][9], sources[PAGES][6], pages[PAGES][5];
    uint16_t universes[TAMBURELVI_UNIVERSES], heard[1024];
    uint8_t store[TAMBURELVI_STORE], names[PAGES][TAMBURELVI_NAME];
} memory;

static memory now, kept;
static uint8_t out[TAMBURELVI_OUTPUT], values[TAMBURELVI_VALUES], name[TAMBURELVI_NAME];
static uint16_t list[1024];
static uint8_t record[TAMBURELVI_SETTINGS_RECORD];
static uint8_t other[8 << 20];

#define TABLES (void *)now.data_pairs, (void *)now.data_sources, (void *)now.sync_pairs, (void *)now.sync_sources
#define ENTRIES (void *)now.rows, now.store, sizeof now.store
#define HEARD (void *)now.heard
#define FOUND (void *)now.sources, (void *)now.names, (void *)now.pages, now.universes, (size_t)TAMBURELVI_UNIVERSES

// ---- the calls, on what stands here ----

static tamburelvi_settings settings;
static uint64_t reading;
static tamburelvi_data data;
static tamburelvi_sync sync_packet;
static tamburelvi_page page;
static size_t values_length, list_length;
static uint16_t universe;
static uint64_t source;
static tamburelvi_reply reply;

static void nothing(void) { reply.header = now.header; }
static void take_data(void) {
    reply = tamburelvi_handle_data_packet(now.header, TABLES, ENTRIES, HEARD, FOUND, settings, reading, data, values, values_length, out, sizeof out);
}
static void take_sync(void) {
    reply = tamburelvi_handle_sync_packet(now.header, TABLES, ENTRIES, HEARD, FOUND, settings, reading, sync_packet, out, sizeof out);
}
static void take_page(void) {
    reply = tamburelvi_handle_universe_discovery_packet(now.header, TABLES, ENTRIES, HEARD, FOUND, settings, reading, page, name, sizeof name, list,
        list_length, out, sizeof out);
}
static void poll(void) { reply = tamburelvi_poll(now.header, TABLES, ENTRIES, settings, reading); }
static void expire(void) { reply = tamburelvi_remove_expired_sources(now.header, FOUND, settings, reading); }
static void listen(void) { reply = tamburelvi_listen_universes(now.header, HEARD, list, list_length); }
static void mute(void) { reply = tamburelvi_mute_universe(now.header, HEARD, universe); }
static void clear(void) { reply = tamburelvi_clear_waiting_data(now.header, ENTRIES, universe); }
static void start(void) { reply.header = tamburelvi_new(HEARD); }
static void listens(void) { reply.header = now.header; reply.answer.first = tamburelvi_is_listening(now.header, HEARD, universe); }
static void clear_all(void) { reply.header = tamburelvi_clear_all_waiting_data(now.header); }
static void reset_pairs(void) { reply.header = tamburelvi_reset_pairs(now.header); }
static void reset_discovery(void) { reply.header = tamburelvi_reset_discovery(now.header); }
static void reset_sources(void) { reply.header = tamburelvi_reset_sources(now.header); }
static void store_settings(void) { reply.header = now.header; reply.answer = tamburelvi_store_settings(settings, record, sizeof record); }
static void load_settings(void) { reply.header = now.header; reply.answer.number = tamburelvi_load_settings(settings, record, sizeof record).number; }
static void source_at(void) { reply.header = now.header; reply.answer.first = tamburelvi_source_at(now.header, (void *)now.sources, 1, 63).place; }
static void page_at(void) { reply.header = now.header; reply.answer.first = tamburelvi_page_at(now.header, (void *)now.pages, 1, WORD, source, 0).place; }

// ---- states, made by calls ----

static _Noreturn void failed(const char *what) {
    printf("FAILED: %s\n", what);
    exit(1);
}

// A call of the set-up: it has to answer 0.
static void make(void (*call)(void)) {
    memset(&reply, 0, sizeof reply);
    call();
    if (reply.answer.number != 0) failed("a call of a set-up was stopped");
    now.header = reply.header;
}

static uint64_t chance = 1;
static bool coin(void) {
    chance = chance * 6364136223846793005u + 1442695040888963407u;
    return chance >> 63;
}

// What is stored at OLD is expired at the timed call, what is stored at NEW is not.
enum { OLD = 10000, NEW = 11000, CALL = 12500 };

// Which of n pairs are old: SOME is the first, and half of those that do not belong to waiting data, by chance; MANY is the first 400.
enum olds { NONE, FIRST, LAST, ALL, SOME, MANY };
static bool is_old(enum olds which, int i, int n) {
    switch (which) {
    case FIRST: return i == 0;
    case LAST: return i == n - 1;
    case ALL: return true;
    case SOME: return i == 0 || (i >= WAITING && coin());
    case MANY: return i < 400;
    default: return false;
    }
}

static uint64_t cid(int i) { return 2 * (uint64_t)i + 2; } // room before, between and behind
static uint16_t universe_of(int i) { return i < WAITING ? (uint16_t)(100 + i) : 2; }
static uint16_t address = 500, first_address = 500; // of the waiting data, and of its first two entries

static void packet_of(int i, uint64_t lo, uint16_t u, uint16_t a) {
    data = (tamburelvi_data){.hi = WORD, .lo = lo, .universe = u, .address = a, .priority = 100, .sequence = (uint8_t)i};
    values_length = TAMBURELVI_VALUES;
}

static void one_data(int i, bool old, bool waits) {
    reading = old ? OLD : NEW;
    packet_of(0, cid(i), universe_of(i), waits ? i < 2 ? first_address : address : 0);
    make(take_data);
}

static void one_sync(int i, bool old) {
    reading = old ? OLD : NEW;
    sync_packet = (tamburelvi_sync){.hi = WORD, .lo = cid(i), .address = universe_of(i)};
    make(take_sync);
}

static void begin(void) {
    memset(&now, 0xA5, sizeof now);
    now.header = tamburelvi_new(HEARD);
    settings = tamburelvi_fresh_settings();
    values[0] = 0;
    for (size_t i = 1; i < sizeof values; i++) values[i] = (uint8_t)(i * 7);
    for (size_t i = 0; i < sizeof name; i++) name[i] = (uint8_t)('a' + i % 26);
    for (size_t i = 0; i < TAMBURELVI_PAGE; i++) list[i] = (uint16_t)(101 + i);
    list_length = TAMBURELVI_PAGE;
    universe = 0;
    address = first_address = 500;
}

// 1,023 universes: 2 to 1,023 and the one of discovery.
static void hear(void) {
    list_length = 1022;
    for (int i = 0; i < 1022; i++) list[i] = (uint16_t)(2 + i);
    make(listen);
    for (size_t i = 0; i < TAMBURELVI_PAGE; i++) list[i] = (uint16_t)(101 + i);
    list_length = TAMBURELVI_PAGE;
}

// Tables of so many pairs, each of a source of its own, the first of which send the data that waits; then the packet in hand is for the timed call.
static void tables(int data_count, enum olds data_old, int sync_count, enum olds sync_old, int waiting) {
    static bool old_data[PAIRS], old_sync[PAIRS];
    for (int i = 0; i < data_count; i++) old_data[i] = is_old(data_old, i, data_count);
    for (int i = 0; i < sync_count; i++) old_sync[i] = is_old(sync_old, i, sync_count);
    for (int turn = 0; turn < 2; turn++) { // the older first: the clock does not fall
        for (int i = 0; i < data_count; i++) if (old_data[i] == !turn) one_data(i, !turn, i < waiting);
        for (int i = 0; i < sync_count; i++) if (old_sync[i] == !turn) one_sync(i, !turn);
    }
    if (now.header.data_pairs != (size_t)data_count || now.header.data_sources != (size_t)data_count || now.header.sync_pairs != (size_t)sync_count ||
        now.header.sync_sources != (size_t)sync_count || now.header.waiting != (size_t)waiting)
        failed("a set-up has other counts");
    reading = CALL;
}

static void one_page(uint64_t lo, int number, int last, bool old) {
    reading = old ? OLD : NEW;
    page = (tamburelvi_page){.hi = WORD, .lo = lo, .page = (uint8_t)number, .last_page = (uint8_t)last};
    make(take_page);
}

// ---- what a case expects ----

static tamburelvi_header expected; // the counts
static tamburelvi_answer told;
static void (*placed)(void); // a look at what the call has left, or none

static void expect(uint8_t number, uint8_t kind, size_t first, size_t second, uint64_t hi, uint64_t lo) {
    expected = now.header;
    told = (tamburelvi_answer){.number = number, .values = kind, .first = first, .second = second, .hi = hi, .lo = lo};
    placed = NULL;
}
static void expect_nothing(void) { expect(0, TAMBURELVI_NONE, 0, 0, 0, 0); }

// The counts that a poll leaves, where chance decides what expires.
static void as_polled(void) {
    memory copy = now;
    make(poll);
    expected = now.header;
    now = copy;
    if (expected.data_pairs < 400 || expected.data_pairs > 700 || expected.sync_pairs < 400 || expected.sync_pairs > 700 || expected.waiting != WAITING - 1)
        failed("chance has not left about half of the pairs");
}

static void pair_in_front(void) {
    tamburelvi_pair_read p = tamburelvi_data_pair(reply.header, (void *)now.data_pairs, 0);
    if (p.lo != data.lo || p.universe != data.universe || p.reading != CALL) failed("the new pair is not in front");
}
static void pair_behind(void) {
    tamburelvi_pair_read p = tamburelvi_data_pair(reply.header, (void *)now.data_pairs, reply.header.data_pairs - 1);
    if (p.lo != data.lo || p.universe != data.universe || p.reading != CALL) failed("the pair is not the last");
}
static void all_in_front(void) {
    pair_in_front();
    if (tamburelvi_waiting(reply.header, (void *)now.rows, 0).universe != data.universe) failed("the data does not wait in front");
    if (tamburelvi_listened(reply.header, HEARD, 0) != data.address) failed("the address is not in front");
}
static void pair_behind_rest_in_front(void) {
    pair_behind();
    if (tamburelvi_waiting(reply.header, (void *)now.rows, 0).universe != data.universe) failed("the data does not wait in front");
    if (tamburelvi_listened(reply.header, HEARD, 0) != data.address) failed("the address is not in front");
}
static void merged_last(void) {
    tamburelvi_dmx_read w = tamburelvi_waiting(reply.header, (void *)now.rows, 63);
    if (w.universe != data.universe || w.has_cid) failed("the data was not merged by highest value");
    if (tamburelvi_waiting_values(reply.header, (void *)now.rows, 63).count != TAMBURELVI_VALUES) failed("the merged data is not full");
}
static void page_in_front(void) {
    if (tamburelvi_page_at(reply.header, (void *)now.pages, 0, page.hi, page.lo, 0).number != page.page) failed("the page is not in front");
}
static void listed_anew(void) {
    tamburelvi_source_read s = tamburelvi_source_at(reply.header, (void *)now.sources, 1, reply.header.sources - 1);
    if (s.lo != page.lo || s.last_page != page.last_page || s.reading != CALL) failed("the source is not listed anew");
}

// ---- data ----

static void data_easy(void) {
    begin(); hear();
    tables(1, NONE, 0, NONE, 0);
    packet_of(1, cid(0), universe_of(0), 0);
    expect(0, TAMBURELVI_RELEASE, 1, 548, 0, 0);
    placed = pair_in_front;
}
static void data_known_last(void) {
    begin(); hear();
    tables(PAIRS, NONE, PAIRS, NONE, 0);
    packet_of(1, cid(PAIRS - 1), 2, 0);
    expect(0, TAMBURELVI_RELEASE, 1, 548, 0, 0);
    placed = pair_behind;
}
static void data_new(uint64_t lo, void (*look)(void)) {
    begin(); hear();
    tables(PAIRS - 1, NONE, PAIRS, NONE, 0);
    packet_of(1, lo, 2, 0);
    expect(0, TAMBURELVI_RELEASE, 1, 548, 0, 0);
    expected.data_pairs++; expected.data_sources++;
    placed = look;
}
static void data_new_first(void) { data_new(1, pair_in_front); }
static void data_new_last(void) { data_new(cid(PAIRS), pair_behind); }
static void data_full(void) {
    begin(); hear();
    tables(PAIRS, NONE, PAIRS, NONE, 0);
    packet_of(1, cid(PAIRS), 2, 0);
    expect(10, TAMBURELVI_NONE, 0, 0, 0, 0);
}
static void data_all_expired(void) {
    begin(); hear();
    tables(PAIRS, ALL, PAIRS, ALL, WAITING);
    packet_of(1, 1, 99, 1);
    expect_nothing();
    expected.data_pairs = expected.data_sources = 1;
    expected.sync_pairs = expected.sync_sources = 0;
    expected.waiting = 1; expected.listened++;
    placed = all_in_front;
}
// The first pair of both tables and the first waiting data expire, then the packet is put in front of all that is left.
static void data_most(uint64_t lo, void (*look)(void)) {
    begin(); hear();
    tables(PAIRS, FIRST, PAIRS, FIRST, WAITING);
    packet_of(1, lo, 99, 1);
    expect_nothing();
    expected.sync_pairs--; expected.sync_sources--; expected.listened++;
    placed = look;
}
static void data_most_first(void) { data_most(1, all_in_front); }
static void data_most_last(void) { data_most(cid(PAIRS), pair_behind_rest_in_front); }
static void data_some(void) {
    begin(); hear();
    tables(PAIRS, SOME, PAIRS, SOME, WAITING);
    expect_nothing();
    as_polled();
    packet_of(1, cid(PAIRS), 99, 1);
    expected.data_pairs++; expected.data_sources++; expected.waiting++; expected.listened++;
    placed = pair_behind_rest_in_front;
}
static void waits(uint16_t own) {
    begin(); hear();
    address = first_address = own;
    tables(PAIRS - 1, NONE, PAIRS, NONE, WAITING);
    settings = tamburelvi_set_merge(settings, 1);
}
static void data_merged(void) {
    waits(500);
    packet_of(1, cid(PAIRS), 163, 500);
    for (size_t i = 1; i < sizeof values; i++) values[i] = (uint8_t)(i * 11);
    expect_nothing();
    expected.data_pairs++; expected.data_sources++;
    placed = merged_last;
}
static void data_refused(void) {
    waits(500);
    packet_of(1, cid(PAIRS), 100, 500);
    values[0] = 1;
    expect(8, TAMBURELVI_NONE, 0, 0, 0, 0);
    expected.data_pairs++; expected.data_sources++; expected.waiting--;
    placed = pair_behind;
}
static void data_clears(void) {
    waits(500);
    packet_of(1, cid(PAIRS), 100, 0);
    expect(0, TAMBURELVI_RELEASE, 1, 548, 0, 0);
    expected.data_pairs++; expected.data_sources++; expected.waiting--;
    placed = pair_behind;
}
// 64 pages of one listed source, each of which names the universe that ends.
static void ends(int i, enum olds old, bool by_chance) {
    begin(); hear();
    tables(PAIRS, old, PAIRS, old, WAITING);
    size_t named = 0;
    for (int p = 0; p < PAGES; p++) {
        for (int k = 0; k < TAMBURELVI_PAGE; k++) {
            list[k] = by_chance ? (uint16_t)(universe_of(i) + coin()) : (uint16_t)(universe_of(i) + k);
            named += list[k] == universe_of(i);
        }
        one_page(cid(i), p, PAGES - 1, false);
    }
    if (now.header.page_universes != TAMBURELVI_UNIVERSES || tamburelvi_source_at(now.header, (void *)now.sources, 1, 0).lo != cid(i))
        failed("the pages are not listed");
    packet_of(1, cid(i), universe_of(i), 0);
    data.terminated = true;
    settings = tamburelvi_set_announce_stream_termination(settings, true);
    reading = CALL;
    expect(5, TAMBURELVI_PAIR, universe_of(i), 0, WORD, cid(i));
    if (old == SOME) as_polled();
    size_t gone = old == FIRST ? 2 : 1;
    expected.data_pairs -= gone; expected.data_sources -= gone; expected.sync_pairs -= gone; expected.sync_sources -= gone;
    expected.waiting -= gone - 1; expected.page_universes -= named;
}
static void data_ends(void) { ends(0, NONE, false); }
static void data_ends_most(void) { ends(1, FIRST, false); }
static void data_ends_last(void) { ends(PAIRS - 1, FIRST, false); }
static void data_ends_some(void) { ends(1, SOME, false); }
static void data_ends_most_some(void) { ends(1, SOME, true); }

// ---- timeouts announced ----

static void announced(enum olds data_old, enum olds sync_old) {
    begin(); hear();
    tables(PAIRS, data_old, PAIRS, sync_old, WAITING);
    packet_of(1, cid(0), universe_of(0), 0);
    sync_packet = (tamburelvi_sync){.hi = WORD, .lo = cid(0), .address = 500, .sequence = 1};
    page = (tamburelvi_page){.hi = WORD, .lo = 1};
    settings = tamburelvi_set_announce_timeout(settings, true);
    reading = CALL;
}
static void announced_all(void) {
    announced(ALL, ALL);
    expect(4, TAMBURELVI_PAIR, universe_of(PAIRS - 1), 0, WORD, cid(PAIRS - 1));
    expected.data_pairs--; expected.data_sources--;
}
static void announced_first(void) {
    announced(FIRST, FIRST);
    expect(4, TAMBURELVI_PAIR, universe_of(0), 0, WORD, cid(0));
    expected.data_pairs--; expected.data_sources--;
}
static void announced_most(void) {
    announced(LAST, FIRST);
    expect(4, TAMBURELVI_PAIR, universe_of(0), 0, WORD, cid(0));
    expected.sync_pairs--; expected.sync_sources--;
}
// One packet offered until it is taken: many calls.
static size_t offers;
static void offer_data(void) {
    for (offers = 1;; offers++) {
        take_data();
        if (reply.answer.number != 4) return;
        now.header = reply.header;
    }
}
static void taken_at_801(void) {
    if (offers != 801) failed("there were not 800 answers of 4");
    pair_behind();
}
static void announced_many(void) {
    announced(MANY, MANY);
    packet_of(1, cid(PAIRS), 2, 0);
    expect(0, TAMBURELVI_RELEASE, 1, 548, 0, 0);
    expected.data_pairs -= 399; expected.data_sources -= 399; expected.sync_pairs -= 400; expected.sync_sources -= 400; expected.waiting = 0;
    placed = taken_at_801;
}
static void announced_quiet(void) {
    begin(); hear();
    tables(PAIRS - 1, LAST, PAIRS, LAST, WAITING - 1);
    packet_of(1, cid(PAIRS), 99, 1);
    settings = tamburelvi_set_announce_timeout(settings, true);
    expect_nothing();
    expected.data_pairs++; expected.data_sources++; expected.waiting++; expected.listened++;
    placed = pair_behind_rest_in_front;
}

// ---- synchronisation ----

static void sync_of(uint64_t lo) { sync_packet = (tamburelvi_sync){.hi = WORD, .lo = lo, .address = 500, .sequence = 1}; }
static void sync_all(void) {
    begin(); hear();
    tables(WAITING, NONE, 0, NONE, WAITING);
    sync_of(cid(0));
    expect(0, TAMBURELVI_RELEASE, 64, 35072, 0, 0);
    expected.sync_pairs++; expected.sync_sources++; expected.waiting = 0;
}
static void sync_full(void) {
    begin(); hear();
    tables(PAIRS, NONE, PAIRS - 1, NONE, WAITING);
    sync_of(cid(PAIRS));
    expect(0, TAMBURELVI_RELEASE, 64, 35072, 0, 0);
    expected.sync_pairs++; expected.sync_sources++; expected.waiting = 0;
}
static void sync_most(uint64_t lo, uint16_t others) {
    begin(); hear();
    address = others;
    tables(PAIRS, FIRST, PAIRS, FIRST, WAITING);
    sync_of(lo);
    size_t records = others == 500 ? 63 : 1;
    expect(0, TAMBURELVI_RELEASE, records, records * 548, 0, 0);
    expected.data_pairs--; expected.data_sources--; expected.waiting = 63 - records;
}
static void sync_most_first(void) { sync_most(1, 500); }
static void sync_most_last(void) { sync_most(cid(PAIRS), 500); }
static void sync_some(void) {
    begin(); hear();
    tables(PAIRS, SOME, PAIRS, SOME, WAITING);
    expect(0, TAMBURELVI_RELEASE, 63, 63 * 548, 0, 0);
    as_polled();
    sync_of(cid(PAIRS));
    expected.sync_pairs++; expected.sync_sources++; expected.waiting = 0;
}
static void sync_moves(void) { sync_most(cid(PAIRS), 501); }

// ---- discovery ----

static void page_of(uint64_t lo, int number, int last) {
    page = (tamburelvi_page){.hi = WORD, .lo = lo, .page = (uint8_t)number, .last_page = (uint8_t)last};
    settings = tamburelvi_set_announce_source_discovery(settings, true);
    reading = CALL;
}
static void page_first(void) {
    begin();
    for (int p = 1; p < PAGES; p++) one_page(1, p, 200, false);
    page_of(1, 0, 200);
    expect_nothing();
    expected.pages++; expected.page_universes += TAMBURELVI_PAGE;
    placed = page_in_front;
}
// A source of so many pages is listed; it announces itself with other pages, whose first page comes last.
static void relists(int before, int after, enum olds old) {
    begin();
    if (old) { hear(); tables(PAIRS, old, PAIRS, old, WAITING); }
    for (int p = 0; p < before; p++) one_page(1, p, before - 1, false);
    for (int p = 1; p < after; p++) one_page(1, p, after - 1, false);
    if (now.header.sources != 2 || now.header.pages != (size_t)(before + after - 1)) failed("a set-up has other counts");
    page_of(1, 0, after - 1);
    expect(9, TAMBURELVI_ANNOUNCED, 0, 0, 0, 0);
    if (old == FIRST) { expected.data_pairs--; expected.data_sources--; expected.sync_pairs--; expected.sync_sources--; expected.waiting--; }
    if (old == SOME) as_polled();
    expected.sources = 1; expected.pages = (size_t)after; expected.page_universes = (size_t)after * TAMBURELVI_PAGE;
    placed = listed_anew;
}
static void page_relists(void) { relists(32, 32, NONE); }
static void page_relists_one(void) { relists(1, 63, NONE); }
static void page_most(void) { relists(1, 63, FIRST); }
static void page_some(void) { relists(1, 63, SOME); }
static void page_again(void) {
    begin();
    for (int s = 0; s < 63; s++) one_page(cid(s), 0, 0, false);
    page_of(cid(0), 0, 0);
    expect(9, TAMBURELVI_ANNOUNCED, 0, 0, 0, 0);
    placed = listed_anew;
}

// ---- the other calls ----

static void poll_all(void) {
    begin(); hear();
    tables(PAIRS, ALL, PAIRS, ALL, WAITING);
    expect_nothing();
    expected.data_pairs = expected.data_sources = expected.sync_pairs = expected.sync_sources = expected.waiting = 0;
}
static void poll_first(void) {
    begin(); hear();
    tables(PAIRS, FIRST, PAIRS, FIRST, WAITING);
    expect_nothing();
    expected.data_pairs--; expected.data_sources--; expected.sync_pairs--; expected.sync_sources--; expected.waiting--;
}
static void poll_some(void) {
    begin(); hear();
    tables(PAIRS, SOME, PAIRS, SOME, WAITING);
    expect_nothing();
    as_polled();
}
static void sources_64(bool old) {
    begin();
    for (int s = 0; s < PAGES; s++) one_page(cid(s), 0, 0, old);
    if (now.header.sources != PAGES || now.header.pages != PAGES) failed("a set-up has other counts");
    reading = CALL;
}
static void expire_all(void) {
    sources_64(true);
    reading = OLD + settings.discovery_expiry; // not CALL: they expire by the setting
    expect_nothing();
    expected.sources = expected.pages = expected.page_universes = 0;
}
static void none_heard(void) {
    begin();
    universe = 64214;
    make(mute);
    if (now.header.listened != 0) failed("something is listened to");
    for (int i = 0; i < 1024; i++) list[i] = (uint16_t)(1024 - i);
    list_length = 1024;
}
static void listen_most(void) {
    none_heard();
    expect_nothing();
    expected.listened = 1024;
}
static void listen_some(void) {
    none_heard();
    for (unsigned i = 1023; i > 0; i--) {
        unsigned j = 0;
        for (int bits = 0; bits < 32; bits++) j = j * 2 + coin();
        j %= i + 1;
        uint16_t u = list[i];
        list[i] = list[j];
        list[j] = u;
    }
    expect_nothing();
    expected.listened = 1024;
}
static void mute_first(void) {
    none_heard();
    make(listen);
    universe = 1;
    expect_nothing();
    expected.listened = 1023;
}
static void listens_most(void) {
    none_heard();
    make(listen);
    universe = 1;
    for (int bits = 0; bits < 10; bits++) universe = (uint16_t)(universe + (coin() << bits));
    expect(0, TAMBURELVI_NONE, 1, 0, 0, 0);
}
static void clear_first(void) {
    waits(500);
    universe = 100;
    expect(0, TAMBURELVI_ONE, 1, 0, 0, 0);
    expected.waiting = 63;
}
static void clear_all_64(void) {
    waits(500);
    expect_nothing();
    expected.waiting = 0;
}
static void reset_full(bool pairs, bool discovery) {
    begin(); hear();
    tables(PAIRS, NONE, PAIRS, NONE, WAITING);
    for (int s = 0; s < PAGES; s++) one_page(cid(s), 0, 0, false);
    expect_nothing();
    if (pairs) expected.data_pairs = expected.data_sources = expected.sync_pairs = expected.sync_sources = 0;
    if (discovery) expected.sources = expected.pages = expected.page_universes = 0;
}
static void reset_pairs_full(void) { reset_full(true, false); }
static void reset_discovery_full(void) { reset_full(false, true); }
static void reset_sources_full(void) { reset_full(true, true); }
static void start_most(void) {
    begin();
    expect_nothing();
    expected.listened = 1;
}
static void record_whole(void) { start_most(); make(store_settings); }
static void read_source(void) { sources_64(false); expect(0, TAMBURELVI_NONE, 63, 0, 0, 0); }
static void read_page(void) { sources_64(false); source = cid(63); expect(0, TAMBURELVI_NONE, 63, 0, 0, 0); }

// ---- the cases ----

typedef struct {
    const char *call, *state;
    void (*set_up)(void), (*run)(void);
    int share;  // runs are the number asked for over this
    bool anew;  // made by calls before each run, otherwise copied
} row;

static const row cases[] = {
    {"(none)", "two readings of the clock", start_most, nothing, 1, false},
    {"handle_data_packet", "one known pair, released: an easy step, to compare", data_easy, take_data, 1, false},
    {"", "the last of 1,024 known pairs of 1,024 sources, released", data_known_last, take_data, 1, false},
    {"", "a new pair in front of 1,023 of 1,023 sources, released", data_new_first, take_data, 1, false},
    {"", "a new pair behind 1,023 of 1,023 sources, released", data_new_last, take_data, 1, false},
    {"", "a new source at 1,024 pairs: 10", data_full, take_data, 1, false},
    {"", "a new pair behind 1,023, for the first of 64 universes that wait, released: 63 move down", data_clears, take_data, 1, false},
    {"", "a new pair behind 1,023, merged by highest value onto the last of 64 that wait", data_merged, take_data, 1, false},
    {"", "a new pair behind 1,023, merge refused, the first of 64 that wait goes: 8", data_refused, take_data, 1, false},
    {"", "all 1,024 pairs of both tables and all 64 waiting expired, then a packet that waits", data_all_expired, take_data, 1, false},
    {"", "A, then pair, address and waiting data in front of all others", data_most_first, take_data, 1, false},
    {"", "A, then the pair behind, the rest in front", data_most_last, take_data, 1, false},
    {"", "B, then the pair behind, the rest in front", data_some, take_data, 10, true},
    {"", "termination, C, 1,024 pairs in both tables", data_ends, take_data, 1, false},
    {"", "A, then termination, C, of the first pair left", data_ends_most, take_data, 1, false},
    {"", "A, then termination, C, of the last pair", data_ends_last, take_data, 1, false},
    {"", "B, then termination, C, of the first pair left", data_ends_some, take_data, 10, true},
    {"", "B, then termination of the first pair left, lists of two universes in turn by chance", data_ends_most_some, take_data, 10, true},
    {"", "timeouts announced, all 1,024 pairs of both tables expired: 4", announced_all, take_data, 1, false},
    {"", "timeouts announced, the last pairs alone expired: no 4, the pair behind, the rest in front", announced_quiet, take_data, 1, false},
    {"", "timeouts announced, the first of 1,024 sources alone expired: 4", announced_first, take_data, 2, false},
    {"", "D: 4", announced_most, take_data, 2, false},
    {"", "800 answers of 4, then taken: timeouts announced, the first 400 of 1,024 sources of both tables expired", announced_many, offer_data, 200, false},
    {"handle_sync_packet", "64 universes of 513 values released, 35,072 bytes", sync_all, take_sync, 1, false},
    {"", "the same, a new pair behind 1,023 of 1,023 sources", sync_full, take_sync, 1, false},
    {"", "A, then a new pair in front, 63 universes released", sync_most_first, take_sync, 1, false},
    {"", "A, then a new pair behind, 63 universes released", sync_most_last, take_sync, 1, false},
    {"", "A, then a new pair behind, the first of 63 released, 62 move down", sync_moves, take_sync, 1, false},
    {"", "B, then a new pair behind, 63 universes released", sync_some, take_sync, 10, true},
    {"", "D: 4", announced_most, take_sync, 2, false},
    {"handle_universe_discovery_packet", "one of 63 listed sources of one page announces itself again", page_again, take_page, 1, false},
    {"", "a page in front of 63 of its source, 512 universes each", page_first, take_page, 1, false},
    {"", "32 pages listed in place of 32, page 0 last", page_relists, take_page, 1, false},
    {"", "63 pages listed in place of one, page 0 last", page_relists_one, take_page, 1, false},
    {"", "A, then the same", page_most, take_page, 1, false},
    {"", "B, then the same", page_some, take_page, 10, true},
    {"", "D: 4", announced_most, take_page, 2, false},
    {"poll", "all 1,024 pairs of both tables and all 64 waiting expired", poll_all, poll, 1, false},
    {"", "A", poll_first, poll, 1, false},
    {"", "B", poll_some, poll, 10, true},
    {"", "D: 4", announced_most, poll, 2, false},
    {"remove_expired_sources", "64 sources of one page of 512, all expired", expire_all, expire, 1, false},
    {"listen_universes", "1,024 new universes, descending", listen_most, listen, 1, false},
    {"", "1,024 new universes, by chance", listen_some, listen, 1, true},
    {"mute_universe", "the first of 1,024", mute_first, mute, 1, false},
    {"is_listening", "one of 1,024, by chance", listens_most, listens, 1, true},
    {"clear_waiting_data", "the first of 64", clear_first, clear, 1, false},
    {"clear_all_waiting_data", "64 wait", clear_all_64, clear_all, 1, false},
    {"reset_pairs", "everything full", reset_pairs_full, reset_pairs, 1, false},
    {"reset_discovery", "everything full", reset_discovery_full, reset_discovery, 1, false},
    {"reset_sources", "everything full", reset_sources_full, reset_sources, 1, false},
    {"new", "any", start_most, start, 1, false},
    {"store_settings", "any", start_most, store_settings, 1, false},
    {"load_settings", "a record of layout 2", record_whole, load_settings, 1, false},
    {"source_at", "the last of 64", read_source, source_at, 1, false},
    {"page_at", "the last of 64", read_page, page_at, 1, false},
};

// ---- timing ----

static uint64_t nanoseconds(void) {
    struct timespec t;
    clock_gettime(CLOCK_MONOTONIC, &t);
    return (uint64_t)t.tv_sec * 1000000000u + (uint64_t)t.tv_nsec;
}

static void flush(const void *from, size_t length) {
    for (size_t i = 0; i < length; i += 64) _mm_clflush((const char *)from + i);
}

static volatile uint64_t seen;
static void chill(void) {
    uint64_t sum = 0;
    flush(&now, sizeof now);
    flush(out, sizeof out);
    flush(values, sizeof values);
    flush(list, sizeof list);
    flush(name, sizeof name);
    flush(record, sizeof record);
    _mm_mfence();
    for (size_t i = 0; i < sizeof other; i += 64) sum += other[i];
    seen = sum;
}

static void check(const row *c) {
    const tamburelvi_header *h = &reply.header, *e = &expected;
    const tamburelvi_answer *a = &reply.answer;
    if (a->number != told.number || a->values != told.values || a->first != told.first || a->second != told.second || a->hi != told.hi ||
        a->lo != told.lo) {
        printf("%s: the answer was %d, values of kind %d: %zu %zu %llx %llx\n", c->state, a->number, a->values, a->first, a->second,
            (unsigned long long)a->hi, (unsigned long long)a->lo);
        failed("another answer");
    }
    if (h->data_pairs != e->data_pairs || h->data_sources != e->data_sources || h->sync_pairs != e->sync_pairs || h->sync_sources != e->sync_sources ||
        h->waiting != e->waiting || h->listened != e->listened || h->sources != e->sources || h->pages != e->pages ||
        h->page_universes != e->page_universes) {
        printf("%s: pairs %zu %zu, sources %zu %zu, waiting %zu, listened %zu, discovered %zu of %zu pages of %zu\n", c->state, h->data_pairs,
            h->sync_pairs, h->data_sources, h->sync_sources, h->waiting, h->listened, h->sources, h->pages, h->page_universes);
        failed("other counts");
    }
    if (placed) placed();
}

static uint64_t times[MOST_RUNS];
static int by_size(const void *a, const void *b) {
    uint64_t x = *(const uint64_t *)a, y = *(const uint64_t *)b;
    return (x > y) - (x < y);
}

static void print_whole(unsigned long n) {
    if (n < 1000) printf("%lu", n);
    else {
        print_whole(n / 1000);
        printf(",%03lu", n % 1000);
    }
}

// Microseconds, with no more places than say something.
static void print_time(uint64_t ns) {
    double us = (double)ns / 1000;
    printf(" ");
    if (us < 10) printf("%.2f", us);
    else if (us < 100) printf("%.1f", us);
    else print_whole((unsigned long)(us + 0.5));
    printf(" |");
}

static void measure(const row *c, int runs, bool cold) {
    c->set_up();
    kept = now;
    for (int r = -runs / 20 - 1; r < runs; r++) { // the first are not counted
        if (c->anew) c->set_up();
        else now = kept;
        memset(&reply, 0, sizeof reply);
        if (cold) chill();
        uint64_t began = nanoseconds();
        c->run();
        uint64_t ended = nanoseconds();
        if (r >= 0) times[r] = ended - began;
        check(c);
    }
    qsort(times, (size_t)runs, sizeof times[0], by_size);
    printf(" ");
    print_whole((unsigned long)runs);
    printf(" |");
    print_time(times[runs / 2]);
    print_time(times[runs * 99 / 100]);
    print_time(times[runs - 1]);
}

int main(int argc, char **argv) {
    int asked = argc > 1 ? atoi(argv[1]) : 2000;
    if (asked < 100 || asked > MOST_RUNS) failed("between 100 and 100000 runs can be asked for");
    memset(other, 1, sizeof other);
    printf("Microseconds of one call. States by letter:\n"
           "A: the first pair of 1,024 of each table and the first of 64 waiting expired, so that all the others move down.\n"
           "B: the first of 64 waiting and, by chance, about half of the 1,024 pairs of each table expired.\n"
           "C: 64 pages of 512 universes held, all of the source whose stream ends, and all with the universe that ends, in front.\n"
           "D: timeouts announced; of 1,024 sources of one pair each, in the data table the last alone and in the other the first alone expired.\n\n");
    printf("| call | state | runs | warm: median | 99 %% | largest | runs | cold: median | 99 %% | largest |\n|---|---|---|---|---|---|---|---|---|---|\n");
    for (size_t i = 0; i < sizeof cases / sizeof cases[0]; i++) {
        const row *c = &cases[i];
        int warm = asked / c->share, cold = c->anew ? warm : warm / 4;
        if (warm < 10) warm = 10;
        if (cold < 10) cold = 10;
        printf("| %s | %s |", c->call, c->state);
        measure(c, warm, false);
        measure(c, cold, true);
        printf("\n");
        fflush(stdout);
    }
    return 0;
}
