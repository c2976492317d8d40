/* Lengths that are too short, through C: 15 with the bytes needed, and nothing changed. Then, where the portable library is linked (-DHOOK), a header
 * whose counts are past the tables: the call ends in tamburelvi_panicked. Status 0 where all is as it is said; `edges` is called by main here, or by
 * a target's own start (-DNO_MAIN). */
#include "tamburelvi.h"
#include <stdio.h>
#include <stdlib.h>
#include <string.h>

static tamburelvi_memory t, before;
static tamburelvi_header h, first;
static uint8_t out[TAMBURELVI_OUTPUT];
static int tried, wrong;

/* Field by field: what stands between the fields is nobody's. */
static bool same_header(const tamburelvi_header *p, const tamburelvi_header *q) {
    return p->data_pairs == q->data_pairs && p->data_sources == q->data_sources && p->data_oldest == q->data_oldest && p->sync_pairs == q->sync_pairs &&
        p->sync_sources == q->sync_sources && p->sync_oldest == q->sync_oldest && p->waiting == q->waiting && p->listened == q->listened &&
        p->sources == q->sources && p->pages == q->pages && p->page_universes == q->page_universes && p->data_tidy == q->data_tidy && p->sync_tidy == q->sync_tidy;
}

static void told_15(const char *what, tamburelvi_answer a, size_t needed, bool unchanged) {
    tried++;
    bool as_said = a.number == 15 && a.values == TAMBURELVI_ONE && a.first == needed && unchanged;
    if (!as_said) printf("WRONG: %s: %u %lu\n", what, a.number, (unsigned long)a.first), wrong++;
}

static void is_15(const char *what, tamburelvi_reply r, size_t needed) {
    h = r.header;
    told_15(what, r.answer, needed, same_header(&h, &first) && !memcmp(&t, &before, sizeof t));
}

/* A settings record in so many bytes. */
static void stores_15(tamburelvi_settings s, size_t length) {
    uint8_t bytes[TAMBURELVI_SETTINGS_RECORD], filled[TAMBURELVI_SETTINGS_RECORD];
    memset(bytes, 0xCC, sizeof bytes);
    memcpy(filled, bytes, sizeof bytes);
    tamburelvi_answer a = tamburelvi_store_settings(s, bytes, length);
    told_15("settings", a, sizeof bytes, !memcmp(bytes, filled, sizeof bytes));
}

#ifdef HOOK
#include "tamburelvi_panic.h"
static bool expected;
void tamburelvi_panicked(void) {
    puts(expected ? "a header past the tables: tamburelvi_panicked" : "WRONG: panicked");
    fflush(stdout);
    exit(expected && !wrong ? 0 : 3);
}
#endif

#define TABLES h, &t.data_pairs, &t.data_sources, &t.sync_pairs, &t.sync_sources, &t.rows, t.store

int edges(void) {
    tamburelvi_settings s = tamburelvi_fresh_settings();
    tamburelvi_data d = {.hi = 1, .lo = 2, .universe = 1, .priority = 100};
    tamburelvi_sync y = {.hi = 1, .lo = 2, .address = 1};
    tamburelvi_page g = {.hi = 1, .lo = 2};
    static const uint8_t values[4] = {0, 1, 2, 3};
    static const uint16_t one[1] = {1};
    const size_t store = TAMBURELVI_STORE, pool = TAMBURELVI_UNIVERSES, room = TAMBURELVI_OUTPUT;
    h = tamburelvi_new(&t.heard);
    h = tamburelvi_listen_universes(h, &t.heard, one, 1).header;
    first = h;
    memcpy(&before, &t, sizeof t);
    const size_t shorter[] = {1, 2, 1000, 32768};
    for (int i = 0; i < 4; i++) {
        size_t n = shorter[i];
        is_15("data, output", tamburelvi_handle_data_packet(TABLES, store, &t.heard, &t.sources, &t.names, &t.pages, t.universes, pool, s, 0, d, values, 4, out, room - n), room);
        is_15("data, store", tamburelvi_handle_data_packet(TABLES, store - n, &t.heard, &t.sources, &t.names, &t.pages, t.universes, pool, s, 0, d, values, 4, out, room), store);
        is_15("data, universes", tamburelvi_handle_data_packet(TABLES, store, &t.heard, &t.sources, &t.names, &t.pages, t.universes, pool - n, s, 0, d, values, 4, out, room), 2 * pool);
        is_15("sync, output", tamburelvi_handle_sync_packet(TABLES, store, &t.heard, &t.sources, &t.names, &t.pages, t.universes, pool, s, 0, y, out, room - n), room);
        is_15("sync, store", tamburelvi_handle_sync_packet(TABLES, store - n, &t.heard, &t.sources, &t.names, &t.pages, t.universes, pool, s, 0, y, out, room), store);
        is_15("sync, universes", tamburelvi_handle_sync_packet(TABLES, store, &t.heard, &t.sources, &t.names, &t.pages, t.universes, pool - n, s, 0, y, out, room), 2 * pool);
        is_15("discovery, output", tamburelvi_handle_universe_discovery_packet(TABLES, store, &t.heard, &t.sources, &t.names, &t.pages, t.universes, pool, s, 0, g, values, 4, one, 1, out, room - n), room);
        is_15("discovery, store", tamburelvi_handle_universe_discovery_packet(TABLES, store - n, &t.heard, &t.sources, &t.names, &t.pages, t.universes, pool, s, 0, g, values, 4, one, 1, out, room), store);
        is_15("discovery, universes", tamburelvi_handle_universe_discovery_packet(TABLES, store, &t.heard, &t.sources, &t.names, &t.pages, t.universes, pool - n, s, 0, g, values, 4, one, 1, out, room), 2 * pool);
        is_15("poll, store", tamburelvi_poll(TABLES, store - n, s, 0), store);
        is_15("sweep, universes", tamburelvi_remove_expired_sources(h, &t.sources, &t.names, &t.pages, t.universes, pool - n, s, 0), 2 * pool);
        is_15("clear, store", tamburelvi_clear_waiting_data(h, &t.rows, t.store, store - n, 1), store);
    }
    for (size_t n = 0; n < TAMBURELVI_SETTINGS_RECORD; n++) stores_15(s, n);
    printf("%d calls with a length that is too short, %d not 15\n", tried, wrong);
#ifdef HOOK
    fflush(stdout);
    expected = true;
    h.data_pairs = 5000;
    tamburelvi_handle_data_packet(TABLES, store, &t.heard, &t.sources, &t.names, &t.pages, t.universes, pool, s, 0, d, values, 4, out, room);
    puts("WRONG: a header past the tables went unnoticed");
    return 1;
#endif
    return wrong != 0;
}

#ifndef NO_MAIN
int main(void) { return edges(); }
#endif
