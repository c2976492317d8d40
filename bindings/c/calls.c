/* Every function of tamburelvi.h, and every number that a caller can bring about. calls.expected was written by hand from
 * documents 01 and 02; the comments name their rules. */
#include "tamburelvi.h"
#include <stdio.h>
#include <stdlib.h>
#include <string.h>

static tamburelvi_receiver receiver;
static tamburelvi_receiver *const r = &receiver;
static uint8_t out[TAMBURELVI_OUTPUT];
static uint8_t values[TAMBURELVI_VALUES + 1];
static uint8_t name[TAMBURELVI_NAME + 1];
static uint16_t list[1100];
static uint8_t beside[2 + TAMBURELVI_OUTPUT + 2];

/* ---- what is printed ---- */

static void print_bytes(const uint8_t *bytes, size_t length) {
    for (size_t i = 0; i < length; i++) printf("%02x", bytes[i]);
}

static void print_cid(const uint8_t cid[TAMBURELVI_CID]) { print_bytes(cid, TAMBURELVI_CID); }

static void show(const char *call, tamburelvi_answer a) {
    uint8_t cid[TAMBURELVI_CID];
    printf("%s: %d", call, a.number);
    switch (a.values) {
    case TAMBURELVI_NONE: break;
    case TAMBURELVI_ONE: printf(" %zu", a.first); break;
    case TAMBURELVI_RELEASE: printf(" release %zu %zu", a.first, a.second); break;
    case TAMBURELVI_PAIR:
        printf(" ");
        if (tamburelvi_answer_cid(a, cid)) print_cid(cid);
        printf(" %zu", a.first);
        break;
    case TAMBURELVI_SEQUENCE: printf(" %zu %zu %d", a.first, a.second, a.difference); break;
    case TAMBURELVI_ANNOUNCED: printf(" announced"); break;
    default: printf(" unknown values %d", a.values);
    }
    printf("\n");
}

static void print_record(const tamburelvi_record *d) {
    printf("universe %d, address %d, priority %d, preview %d, ", d->universe, d->address, d->priority, d->preview);
    if (d->has_cid) print_cid(d->cid);
    else printf("merged");
    printf(", at %llu:", (unsigned long long)d->reading);
    for (size_t i = 0; i < d->values_length; i++) printf(" %d", d->values[i]);
    printf("\n");
}

static void show_release(const char *call, tamburelvi_answer a) {
    tamburelvi_records records = tamburelvi_records_of(a, out, sizeof out);
    tamburelvi_record record;
    enum tamburelvi_found found;
    show(call, a);
    while ((found = tamburelvi_records_next(&records, &record)) == TAMBURELVI_RECORD) {
        printf("  record: ");
        print_record(&record);
    }
    if (found != TAMBURELVI_END) printf("  malformed\n");
}

static void show_pair(const char *which, const tamburelvi_pair *p) {
    printf("  %s pair ", which);
    print_cid(p->cid);
    printf(" %d, sequence %d, at %llu\n", p->universe, p->sequence, (unsigned long long)p->reading);
}

static void show_pair_source(const char *which, const uint8_t cid[TAMBURELVI_CID]) {
    printf("  %s source ", which);
    print_cid(cid);
    printf("\n");
}

static void show_pairs(void) {
    tamburelvi_pair p;
    uint8_t cid[TAMBURELVI_CID];
    for (size_t i = 0; tamburelvi_receiver_data_pair(r, i, &p); i++) show_pair("data", &p);
    for (size_t i = 0; tamburelvi_receiver_data_source(r, i, cid); i++) show_pair_source("data", cid);
    for (size_t i = 0; tamburelvi_receiver_sync_pair(r, i, &p); i++) show_pair("sync", &p);
    for (size_t i = 0; tamburelvi_receiver_sync_source(r, i, cid); i++) show_pair_source("sync", cid);
    printf("  no more pairs\n");
}

static void show_listened(void) {
    uint16_t universe;
    printf("  listened:");
    for (size_t i = 0; tamburelvi_receiver_listened(r, i, &universe); i++) printf(" %d", universe);
    printf("\n");
}

static void show_waiting(void) {
    tamburelvi_record d;
    for (size_t i = 0; tamburelvi_receiver_waiting(r, i, &d); i++) {
        printf("  waiting: ");
        print_record(&d);
    }
    printf("  no more waiting data\n");
}

static void show_list(const char *which, enum tamburelvi_mark mark) {
    tamburelvi_source s;
    tamburelvi_source_page p;
    for (size_t i = 0; tamburelvi_receiver_source_at(r, mark, i, &s); i++) {
        printf("  %s ", which);
        print_cid(s.cid);
        printf(" '%.*s', last page %d, at %llu\n", (int)s.name_length, (const char *)s.name, s.last_page,
            (unsigned long long)s.reading);
        for (size_t j = 0; tamburelvi_receiver_page_at(r, &s, j, &p); j++) {
            printf("    page %d:", p.number);
            for (size_t k = 0; k < p.universes_length; k++) printf(" %d", p.universes[k]);
            printf("\n");
        }
    }
}

static void show_sources(void) {
    show_list("partial", TAMBURELVI_PARTIAL);
    show_list("listed", TAMBURELVI_LISTED);
    printf("  no more sources\n");
}

/* The whole state. */
static void show_state(void) {
    show_pairs();
    show_listened();
    show_waiting();
    show_sources();
}

static void print_settings(tamburelvi_settings s) {
    printf("%d %d %d %d %d %d %lu", s.process_preview_data, s.announce_source_discovery, s.announce_stream_termination,
        s.announce_timeout, s.merge, s.source_limit, (unsigned long)s.discovery_expiry);
}

static void show_settings(void) {
    printf("  settings: ");
    print_settings(receiver.settings);
    printf("\n");
}

/* ---- packets ---- */

/* The CID of the trial value, sixteen bytes of hexadecimal 11, or sixteen that differ. */
static void fill(uint8_t cid[TAMBURELVI_CID], uint8_t source) {
    for (int i = 0; i < TAMBURELVI_CID; i++) cid[i] = (uint8_t)(source == 0x11 ? source : source + i);
}

static tamburelvi_data_packet data(uint8_t source, uint16_t universe, uint16_t address, uint8_t sequence, size_t count) {
    tamburelvi_data_packet p;
    memset(&p, 0, sizeof p);
    fill(p.cid, source);
    p.universe = universe;
    p.address = address;
    p.priority = 100;
    p.sequence = sequence;
    p.values = values;
    p.values_length = count;
    return p;
}

static tamburelvi_answer take(uint64_t reading, tamburelvi_data_packet p) {
    return tamburelvi_receiver_handle_data_packet(r, reading, &p, out, sizeof out);
}

static tamburelvi_answer take_sync(uint64_t reading, uint8_t source, uint16_t address, uint8_t sequence, size_t out_length) {
    tamburelvi_sync_packet p;
    fill(p.cid, source);
    p.address = address;
    p.sequence = sequence;
    return tamburelvi_receiver_handle_sync_packet(r, reading, &p, out, out_length);
}

static tamburelvi_discovery_packet page(uint8_t source, uint8_t number, uint8_t last, size_t name_length, size_t list_length) {
    tamburelvi_discovery_packet p;
    fill(p.cid, source);
    p.page = number;
    p.last_page = last;
    p.name = name;
    p.name_length = name_length;
    p.universes = list;
    p.universes_length = list_length;
    return p;
}

static tamburelvi_answer take_page(uint64_t reading, tamburelvi_discovery_packet p) {
    return tamburelvi_receiver_handle_universe_discovery_packet(r, reading, &p, out, sizeof out);
}

/* ---- the parts ---- */

static void words(void) {
    uint8_t cid[TAMBURELVI_CID], back[TAMBURELVI_CID];
    printf("version %s is %d.%d.%d\n", TAMBURELVI_VERSION, TAMBURELVI_VERSION_MAJOR, TAMBURELVI_VERSION_MINOR,
        TAMBURELVI_VERSION_PATCH);
    for (int i = 0; i < TAMBURELVI_CID; i++) cid[i] = (uint8_t)(0xf0 + i);
    printf("words %016llx %016llx\n", (unsigned long long)tamburelvi_cid_hi(cid), (unsigned long long)tamburelvi_cid_lo(cid));
    tamburelvi_cid_bytes(tamburelvi_cid_hi(cid), tamburelvi_cid_lo(cid), back);
    printf("bytes ");
    print_cid(back);
    printf("\n");
    for (unsigned n = 0; n < 260; n++) {
        const char *text = tamburelvi_number_text(n);
        if (strcmp(text, "unknown number")) printf("%u %s\n", n, text);
    }
    printf("16 %s\n17 %s\n256 %s\n", tamburelvi_number_text(16), tamburelvi_number_text(17), tamburelvi_number_text(256));
}

/* All calls with a receiver that no call is made with. */
static void unmade(const char *which, tamburelvi_receiver *q) {
    tamburelvi_data_packet d = data(1, 1, 0, 0, 2);
    tamburelvi_sync_packet y;
    tamburelvi_discovery_packet g = page(1, 0, 0, 4, 2);
    tamburelvi_pair pair;
    tamburelvi_record record;
    tamburelvi_source source;
    tamburelvi_source_page source_page;
    uint8_t cid[TAMBURELVI_CID];
    uint16_t universe;
    memset(&y, 0, sizeof y);
    memset(&source, 0, sizeof source);
    printf("%s: %d %d %d %d %d %d %d %d %d %d %d %d", which,
        tamburelvi_receiver_handle_data_packet(q, 0, &d, out, sizeof out).number,
        tamburelvi_receiver_handle_sync_packet(q, 0, &y, out, sizeof out).number,
        tamburelvi_receiver_handle_universe_discovery_packet(q, 0, &g, out, sizeof out).number,
        tamburelvi_receiver_poll(q, 0).number, tamburelvi_receiver_remove_expired_sources(q, 0).number,
        tamburelvi_receiver_listen_universes(q, list, 1).number, tamburelvi_receiver_mute_universe(q, 1).number,
        tamburelvi_receiver_clear_waiting_data(q, 1).number, tamburelvi_receiver_clear_all_waiting_data(q).number,
        tamburelvi_receiver_reset_pairs(q).number, tamburelvi_receiver_reset_discovery(q).number,
        tamburelvi_receiver_reset_sources(q).number);
    printf(", settings %d %d %d %d %d %d %d %d %d %d %d %d", tamburelvi_receiver_fresh_settings(q).number,
        tamburelvi_receiver_set_process_preview_data(q, true).number,
        tamburelvi_receiver_set_announce_source_discovery(q, true).number,
        tamburelvi_receiver_set_announce_stream_termination(q, true).number,
        tamburelvi_receiver_set_announce_timeout(q, true).number,
        tamburelvi_receiver_set_merge(q, TAMBURELVI_HTP_DMX_MERGE).number, tamburelvi_receiver_clear_source_limit(q).number,
        tamburelvi_receiver_set_source_limit(q, 1).number, tamburelvi_receiver_set_discovery_expiry(q, 2500).number,
        tamburelvi_receiver_store_settings(q, out, sizeof out).number,
        tamburelvi_receiver_load_settings(q, out, sizeof out).number,
        tamburelvi_receiver_load_settings_layout_1(q, out, sizeof out).number);
    printf(", read-outs %d %d %d %d %d %d %d %d %d\n", tamburelvi_receiver_is_listening(q, 64214),
        tamburelvi_receiver_data_pair(q, 0, &pair), tamburelvi_receiver_sync_pair(q, 0, &pair),
        tamburelvi_receiver_data_source(q, 0, cid), tamburelvi_receiver_sync_source(q, 0, cid),
        tamburelvi_receiver_listened(q, 0, &universe), tamburelvi_receiver_waiting(q, 0, &record),
        tamburelvi_receiver_source_at(q, TAMBURELVI_LISTED, 0, &source),
        tamburelvi_receiver_page_at(q, &source, 0, &source_page));
}

/* The calls with a settings record. */
static void unmade_records(const char *which, uint8_t *bytes, size_t length) {
    printf("%s\n", which);
    show("  stored", tamburelvi_receiver_store_settings(r, bytes, length));
    show("  loaded", tamburelvi_receiver_load_settings(r, bytes, length));
    show("  loaded by layout 1 alone", tamburelvi_receiver_load_settings_layout_1(r, bytes, length));
}

/* Null pointers and overlap with a started receiver; none of it changes anything. */
static void unmade_packets(void) {
    tamburelvi_data_packet d = data(1, 1, 0, 0, 2);
    tamburelvi_sync_packet y;
    tamburelvi_discovery_packet g;
    tamburelvi_source source;
    memset(&y, 0, sizeof y);
    memset(&source, 0, sizeof source);
    show("no data packet", tamburelvi_receiver_handle_data_packet(r, 0, NULL, out, sizeof out));
    show("no sync packet", tamburelvi_receiver_handle_sync_packet(r, 0, NULL, out, sizeof out));
    show("no discovery packet", tamburelvi_receiver_handle_universe_discovery_packet(r, 0, NULL, out, sizeof out));
    show("no output, by its length", tamburelvi_receiver_handle_data_packet(r, 0, &d, NULL, 0));
    show("no output", tamburelvi_receiver_handle_data_packet(r, 0, &d, NULL, sizeof out));
    show("no output of a sync packet", tamburelvi_receiver_handle_sync_packet(r, 0, &y, NULL, sizeof out));
    d.values = NULL;
    show("no values", take(0, d));
    d.values = receiver.memory.store;
    show("values in the receiver", take(0, d));
    d.values = out + sizeof out - 1;
    d.values_length = 1;
    show("values at the output's end", take(0, d));
    d.values = beside;
    d.values_length = 2;
    show("values just before the output", tamburelvi_receiver_handle_data_packet(r, 0, &d, beside + 2, TAMBURELVI_OUTPUT));
    d.values = beside + 2 + TAMBURELVI_OUTPUT;
    show("values just behind the output", tamburelvi_receiver_handle_data_packet(r, 0, &d, beside + 2, TAMBURELVI_OUTPUT));
    d.values = beside + 1;
    show("values that end in the output", tamburelvi_receiver_handle_data_packet(r, 0, &d, beside + 2, TAMBURELVI_OUTPUT));
    d.values = values;
    show("output in the receiver",
        tamburelvi_receiver_handle_data_packet(r, 0, &d, receiver.memory.store, sizeof receiver.memory.store));
    show("output of a sync packet in the receiver",
        tamburelvi_receiver_handle_sync_packet(r, 0, &y, receiver.memory.store, sizeof receiver.memory.store));
    g = page(1, 0, 0, 4, 2);
    g.name = NULL;
    show("no name", take_page(0, g));
    g.name = out;
    show("a name in the output", take_page(0, g));
    g.name = receiver.memory.names.row[0];
    show("a name in the receiver", take_page(0, g));
    g = page(1, 0, 0, 4, 2);
    show("output in the universes",
        tamburelvi_receiver_handle_universe_discovery_packet(r, 0, &g, (const uint8_t *)list, sizeof list));
    g.universes = NULL;
    show("no universes", take_page(0, g));
    g.universes = receiver.memory.universes;
    show("universes in the receiver", take_page(0, g));
    g = page(1, 0, 0, 4, 2);
    g.name = (const uint8_t *)list;
    show("a name in the universes", take_page(0, g));
    show("no output of a discovery packet",
        tamburelvi_receiver_handle_universe_discovery_packet(r, 0, &g, NULL, sizeof out));
    show("no list", tamburelvi_receiver_listen_universes(r, NULL, 1));
    show("a list in the receiver", tamburelvi_receiver_listen_universes(r, receiver.memory.heard.universe, 1));
    unmade_records("no record", NULL, TAMBURELVI_SETTINGS_RECORD);
    unmade_records("no record, by its length", NULL, 0);
    unmade_records("a record in the receiver", receiver.memory.store, TAMBURELVI_SETTINGS_RECORD);
    unmade_records("a record at the receiver's end", &receiver.memory.names.row[63][62], TAMBURELVI_SETTINGS_RECORD);
    printf("read-outs to nowhere: %d %d %d %d %d %d %d %d %d\n", tamburelvi_receiver_data_pair(r, 0, NULL),
        tamburelvi_receiver_sync_pair(r, 0, NULL), tamburelvi_receiver_data_source(r, 0, NULL),
        tamburelvi_receiver_sync_source(r, 0, NULL), tamburelvi_receiver_listened(r, 0, NULL),
        tamburelvi_receiver_waiting(r, 0, NULL), tamburelvi_receiver_source_at(r, TAMBURELVI_LISTED, 0, NULL),
        tamburelvi_receiver_page_at(r, NULL, 0, NULL), tamburelvi_receiver_page_at(r, &source, 0, NULL));
    show_state();
    show_settings();
}

/* 'Further calls': all are tested for 2 before any is added; muting gives 2, then 3. */
static void listening(void) {
    const uint16_t some[] = {7, 1}, illegal[] = {9, 64000, 3, 0};
    show_listened();
    show("listen to 7, 1", tamburelvi_receiver_listen_universes(r, some, 2));
    show("listen to 9, 64000, 3, 0", tamburelvi_receiver_listen_universes(r, illegal, 4));
    show("listen to nothing", tamburelvi_receiver_listen_universes(r, NULL, 0));
    show_listened();
    show("mute 5", tamburelvi_receiver_mute_universe(r, 5));
    show("mute 0", tamburelvi_receiver_mute_universe(r, 0));
    show("mute 64214", tamburelvi_receiver_mute_universe(r, 64214));
    show_listened();
    printf("listening to 1: %d, to 64214: %d\n", tamburelvi_receiver_is_listening(r, 1),
        tamburelvi_receiver_is_listening(r, 64214));
}

/* Step 3 without an address; 'Trial values', the last; 21 and 7 by arriving minus last; 1 and 15 before the poll. */
static void unsynchronised(void) {
    tamburelvi_data_packet d = data(0x11, 1, 0, 0, 2);
    values[1] = 255;
    show_release("data", take(1000, d));
    for (size_t i = 0; i < 37; i++) printf("%02x%s", out[i], i == 36 ? "\n" : " ");
    show("the same again", take(1023, d));
    d.sequence = 255; /* 255 - 0 = -1 */
    show("sequence 255", take(1023, d));
    d.sequence = 247; /* 247 - 0 = -9 */
    show("sequence 247", take(1023, d));
    d.sequence = 1;
    show("output of 35,071", tamburelvi_receiver_handle_data_packet(r, 1023, &d, out, TAMBURELVI_OUTPUT - 1));
    d.values_length = TAMBURELVI_VALUES + 1;
    show("514 values", take(1023, d));
    d.values_length = 2;
    d.preview = true;
    show("preview, not wanted", take(1023, d));
    show("preview wanted", tamburelvi_receiver_set_process_preview_data(r, true));
    show_release("preview", take(1023, d));
    d = data(0x11, 1, 0, 2, 0);
    d.values = NULL;
    show_release("no values, by their length", take(1050, d));
    show("universe 2, not listened to", take(1050, data(0x11, 2, 0, 3, 2)));
    show_pairs();
    show("reset pairs", tamburelvi_receiver_reset_pairs(r));
}

/* Step 3 with an address, step 4; 'Merging': the larger value at each place, the longer tail, no CID, the earlier reading. */
static void synchronised(void) {
    show("merge by highest value", tamburelvi_receiver_set_merge(r, TAMBURELVI_HTP_DMX_MERGE));
    values[1] = 10;
    show("A under 7", take(1100, data(0x30, 1, 7, 3, 2)));
    show_waiting();
    values[1] = 5;
    values[2] = 6;
    show("B under 7", take(1150, data(0x40, 1, 7, 0, 3)));
    show_waiting();
    show("synchronisation, output of 100", take_sync(1200, 0x30, 7, 0, 100));
    show_release("synchronisation", take_sync(1200, 0x30, 7, 0, sizeof out));
    show("the same again", take_sync(1200, 0x30, 7, 0, sizeof out));
    show("the next", take_sync(1250, 0x30, 7, 1, sizeof out));
    show("the first again", take_sync(1251, 0x30, 7, 0, sizeof out));
    show("address 99, not listened to", take_sync(1250, 0x30, 99, 0, sizeof out));
    show_waiting();
    show_pairs();
}

/* 8: an empty list is not merged, and both are lost; 2 in a step: the stored sequence stands. */
static void refused(void) {
    show("no values under 7", take(1300, data(0x30, 1, 7, 4, 0)));
    show("two values under 7", take(1300, data(0x30, 1, 7, 5, 2)));
    show_waiting();
    show("clear 1, which has none", tamburelvi_receiver_clear_waiting_data(r, 1));
    show("two values under 7", take(1300, data(0x30, 1, 7, 6, 2)));
    show("clear 1", tamburelvi_receiver_clear_waiting_data(r, 1));
    show("two values under 7", take(1300, data(0x30, 1, 7, 7, 2)));
    show("clear all", tamburelvi_receiver_clear_all_waiting_data(r));
    show_waiting();
    show("address 64000", take(1300, data(0x30, 1, 64000, 8, 2)));
    show("the same again", take(1300, data(0x30, 1, 64000, 8, 2)));
}

/* Terminated: drop the pair; then 5 if announced, else nothing. The sync pair of address 7 is another pair. */
static void terminated(void) {
    tamburelvi_data_packet d = data(0x30, 1, 0, 8, 0);
    d.terminated = true;
    show("announce terminations", tamburelvi_receiver_set_announce_stream_termination(r, true));
    show("A ends 1", take(1300, d));
    show("do not", tamburelvi_receiver_set_announce_stream_termination(r, false));
    fill(d.cid, 0x40);
    show("B ends 1", take(1300, d));
    show_pairs();
}

/* 'Trial values': limit 1, A known: B gets 6 with count 1. */
static void limit(void) {
    show("limit 0", tamburelvi_receiver_set_source_limit(r, 0));
    show_settings();
    show("limit 1", tamburelvi_receiver_set_source_limit(r, 1));
    show_settings();
    show("A", take(1400, data(0x30, 1, 0, 0, 2)));
    show("B", take(1400, data(0x40, 1, 0, 0, 2)));
    show("no limit", tamburelvi_receiver_clear_source_limit(r));
    show("B", take(1400, data(0x40, 1, 0, 0, 2)));
    show("fresh settings", tamburelvi_receiver_fresh_settings(r));
    show_settings();
}

/* Age 2,499 is live, 2,500 expired; a repeat renews nothing; the data table is swept before the sync table; the packet of a
 * step that gave 4 was not taken. */
static void timeouts(void) {
    show("reset pairs", tamburelvi_receiver_reset_pairs(r));
    show_pairs();
    show("announce timeouts", tamburelvi_receiver_set_announce_timeout(r, true));
    show("A at 10,000", take(10000, data(0x30, 1, 0, 0, 2)));
    show("poll at 12,499", tamburelvi_receiver_poll(r, 12499));
    show("A again at 12,499", take(12499, data(0x30, 1, 0, 0, 2)));
    show("poll at 12,500", tamburelvi_receiver_poll(r, 12500));
    show("poll again", tamburelvi_receiver_poll(r, 12500));
    show("A at 15,000", take(15000, data(0x30, 1, 0, 0, 2)));
    show("B at 17,500", take(17500, data(0x40, 1, 0, 0, 2)));
    show("B again", take(17500, data(0x40, 1, 0, 0, 2)));
    show("synchronisation of A at 17,510", take_sync(17510, 0x30, 7, 0, sizeof out));
    show("a page of A at 20,000", take_page(20000, page(0x30, 0, 0, 4, 1)));
    show("synchronisation of A again at 20,009", take_sync(20009, 0x30, 7, 0, sizeof out));
    show("synchronisation of B at 20,010", take_sync(20010, 0x40, 7, 0, sizeof out));
    show("synchronisation of B again", take_sync(20010, 0x40, 7, 0, sizeof out));
    show("A at 20,020", take(20020, data(0x30, 1, 0, 0, 2)));
    show("poll at 22,510", tamburelvi_receiver_poll(r, 22510));
    show("poll at 22,520", tamburelvi_receiver_poll(r, 22520));
    show("A at 22,520", take(22520, data(0x30, 1, 0, 0, 2)));
    show("do not", tamburelvi_receiver_set_announce_timeout(r, false));
    show("poll at 25,020", tamburelvi_receiver_poll(r, 25020));
    show_pairs();
}

/* 'Discovery'; the name is tested before the list; a termination drops the universe from the listed source's pages. By a
 * discovery expiry of 2,500 the discovery sweep is document 01's: age 2,499 stays, 2,500 goes. */
static void discovery(void) {
    tamburelvi_discovery_packet g;
    tamburelvi_data_packet d;
    memcpy(name, "desk", 4);
    list[0] = 1;
    list[1] = 2;
    show("announce discoveries", tamburelvi_receiver_set_announce_source_discovery(r, true));
    show("discovery expiry 2,500", tamburelvi_receiver_set_discovery_expiry(r, 2500));
    show("A, page 0 of 0", take_page(30000, page(0x30, 0, 0, 4, 2)));
    memcpy(name, "rack", 4);
    show("B, page 1 of 1", take_page(30001, page(0x40, 1, 1, 4, 1)));
    show_sources();
    g = page(0x40, 0, 1, 0, 0);
    g.name = NULL;
    g.universes = NULL;
    show("B, page 0 of 1", take_page(30002, g));
    show("C, page 0 of 1", take_page(30002, page(0x50, 0, 1, 4, 1)));
    show("a name of 64", take_page(30002, page(0x40, 0, 0, TAMBURELVI_NAME + 1, 1)));
    show("a list of 513", take_page(30002, page(0x40, 0, 0, 4, TAMBURELVI_PAGE + 1)));
    show("both", take_page(30002, page(0x40, 0, 0, TAMBURELVI_NAME + 1, TAMBURELVI_PAGE + 1)));
    g = page(0x40, 0, 0, 4, 1);
    show("no output, by its length", tamburelvi_receiver_handle_universe_discovery_packet(r, 30002, &g, NULL, 0));
    d = data(0x30, 2, 0, 0, 0);
    d.terminated = true;
    show("A ends 2", take(30002, d));
    show_sources();
    show("discovery sweep at 32,499", tamburelvi_receiver_remove_expired_sources(r, 32499));
    show("discovery sweep at 32,501", tamburelvi_receiver_remove_expired_sources(r, 32501));
    show_sources();
    show("discovery sweep at 32,502", tamburelvi_receiver_remove_expired_sources(r, 32502));
    show_sources();
}

/* ---- document 02, F-3: the discovery expiry ---- */

static bool same_settings(tamburelvi_settings a, tamburelvi_settings b) {
    return a.process_preview_data == b.process_preview_data && a.announce_source_discovery == b.announce_source_discovery &&
        a.announce_stream_termination == b.announce_stream_termination && a.announce_timeout == b.announce_timeout &&
        a.merge == b.merge && a.source_limit == b.source_limit && a.discovery_expiry == b.discovery_expiry;
}

/* The setter on its own: the number, the expiry that it leaves, and whether the other fields are as they were. */
static void set_expiry(tamburelvi_settings s, uint32_t expiry) {
    tamburelvi_adjusted a = tamburelvi_set_discovery_expiry(s, expiry);
    printf("  %lu: %d, now %lu,", (unsigned long)expiry, a.number, (unsigned long)a.settings.discovery_expiry);
    a.settings.discovery_expiry = s.discovery_expiry;
    printf(" the others as before: %d\n", same_settings(a.settings, s));
}

/* The ends of the range and the numbers next to them; 2,500 and 20,000 with 65,536 more; the ends of 32 bits. Then whether each
 * of the other setters leaves the expiry. */
static void setters(const char *which, tamburelvi_settings s) {
    static const uint32_t tried[] = {0, 2499, 2500, 2501, 20000, 59999, 60000, 60001, 68036, 85536, 4294967295u};
    const uint32_t e = s.discovery_expiry;
    printf("%s\n", which);
    for (size_t i = 0; i < sizeof tried / sizeof tried[0]; i++) set_expiry(s, tried[i]);
    printf("  the other setters leave it: %d %d %d %d %d %d %d %d\n",
        tamburelvi_set_process_preview_data(s, true).discovery_expiry == e,
        tamburelvi_set_announce_source_discovery(s, true).discovery_expiry == e,
        tamburelvi_set_announce_stream_termination(s, true).discovery_expiry == e,
        tamburelvi_set_announce_timeout(s, true).discovery_expiry == e, tamburelvi_set_merge(s, 1).discovery_expiry == e,
        tamburelvi_clear_source_limit(s).discovery_expiry == e,
        tamburelvi_set_source_limit(s, 3).settings.discovery_expiry == e,
        tamburelvi_set_source_limit(s, 0).settings.discovery_expiry == e);
}

/* Two settings, the one with off what the other has on. Merge 7, which is read as 1, and an expiry that no setter gives stay. */
static void ranges(void) {
    tamburelvi_settings s, t = tamburelvi_fresh_settings();
    printf("fresh: %lu\n", (unsigned long)t.discovery_expiry);
    s = tamburelvi_set_announce_timeout(tamburelvi_set_announce_source_discovery(t, true), true);
    s.merge = 7;
    s.source_limit = 9;
    s.discovery_expiry = 30000;
    setters("after 30,000", s);
    t = tamburelvi_set_announce_stream_termination(tamburelvi_set_process_preview_data(t, true), true);
    t.discovery_expiry = 60001;
    setters("after 60,001, written by hand", t);

    show("discovery expiry 60,000", tamburelvi_receiver_set_discovery_expiry(r, 60000));
    show("discovery expiry 60,001", tamburelvi_receiver_set_discovery_expiry(r, 60001));
    show_settings();
    show("discovery expiry 2,500", tamburelvi_receiver_set_discovery_expiry(r, 2500));
    show("discovery expiry 2,499", tamburelvi_receiver_set_discovery_expiry(r, 2499));
    show_settings();
    show("fresh settings", tamburelvi_receiver_fresh_settings(r));
    show_settings();
}

/* A listed source and a partial one. */
static void two_pages(uint64_t reading) {
    memcpy(name, "desk", 4);
    show("A, page 0 of 0", take_page(reading, page(0x30, 0, 0, 4, 2)));
    memcpy(name, "rack", 4);
    show("B, page 1 of 1", take_page(reading, page(0x40, 1, 1, 4, 1)));
}

static void show_counts(void) {
    const tamburelvi_header *h = &receiver.header;
    printf("  %zu data pairs, %zu sync pairs, %zu waiting, %zu sources of %zu pages\n", h->data_pairs, h->sync_pairs,
        h->waiting, h->sources, h->pages);
}

/* A source that announces itself every 10,000 ms, and then no more: whether it is listed after each discovery sweep, of which
 * there is one every 5,000 ms, just before the announcement where both come together. */
static void announces(void) {
    tamburelvi_source s;
    uint64_t now = 100000;
    take_page(now, page(0x30, 0, 0, 4, 2));
    printf("  announced every 10,000:");
    for (int i = 1; i <= 8; i++) {
        now += 5000;
        tamburelvi_receiver_remove_expired_sources(r, now);
        printf(" %d", tamburelvi_receiver_source_at(r, TAMBURELVI_LISTED, 0, &s));
        if (i % 2 == 0) take_page(now, page(0x30, 0, 0, 4, 2));
    }
    printf(", no more:");
    for (int i = 1; i <= 5; i++) {
        now += 5000;
        tamburelvi_receiver_remove_expired_sources(r, now);
        printf(" %d", tamburelvi_receiver_source_at(r, TAMBURELVI_LISTED, 0, &s));
    }
    printf("\n");
}

static void sweep_at(uint64_t age) {
    printf("discovery sweep at age %llu", (unsigned long long)age);
    show("", tamburelvi_receiver_remove_expired_sources(r, 200000 + age));
    show_sources();
}

/* Both stay one millisecond before the expiry, and go at it. */
static void at_age(uint64_t expiry) {
    two_pages(200000);
    sweep_at(expiry - 1);
    sweep_at(expiry);
}

/* The library's discovery sweep by settings that no setter gave: it goes by what they hold, and gives no 20. */
static void sweep_by(tamburelvi_settings s, uint64_t age) {
    tamburelvi_memory *m = &receiver.memory;
    tamburelvi_reply reply = tamburelvi_remove_expired_sources(receiver.header, &m->sources, &m->names, &m->pages, m->universes,
        TAMBURELVI_UNIVERSES, s, 200000 + age);
    receiver.header = reply.header;
    printf("discovery sweep by %lu at age %llu", (unsigned long)s.discovery_expiry, (unsigned long long)age);
    show("", reply.answer);
    show_counts();
}

static void sweep_by_hand(uint32_t expiry, uint64_t age) {
    tamburelvi_settings s = tamburelvi_fresh_settings();
    s.discovery_expiry = expiry;
    sweep_by(s, age);
}

/* Pairs of both tables and waiting data expire at 2,500, whatever the discovery expiry is; the poll drops no source, and the
 * discovery sweep nothing else. */
static void pairs_keep_2500(void) {
    two_pages(300000);
    show("A, sequence 5", take(300000, data(0x30, 1, 0, 5, 2)));
    show("synchronisation of A, sequence 5", take_sync(300000, 0x30, 7, 5, sizeof out));
    show("B under 7", take(300000, data(0x40, 7, 7, 9, 2)));
    show("poll at 302,499", tamburelvi_receiver_poll(r, 302499));
    show_counts();
    show("discovery sweep at 302,500", tamburelvi_receiver_remove_expired_sources(r, 302500));
    show_counts();
    show("poll at 302,500", tamburelvi_receiver_poll(r, 302500));
    show_counts();
    show("reset discovery", tamburelvi_receiver_reset_discovery(r));
}

/* The range, and what a refusal leaves; how long a source stays; what the setting does not touch. */
static void discovery_expiry(void) {
    tamburelvi_settings zeroed;
    show("fresh settings", tamburelvi_receiver_fresh_settings(r));
    ranges();

    printf("by the fresh 20,000\n");
    announces();
    at_age(20000);
    show("discovery expiry 2,500", tamburelvi_receiver_set_discovery_expiry(r, 2500));
    announces();
    at_age(2500);
    show("discovery expiry 60,000", tamburelvi_receiver_set_discovery_expiry(r, 60000));
    at_age(60000);

    two_pages(200000);
    sweep_by_hand(2499, 2498);
    sweep_by_hand(60001, 60000);
    sweep_by_hand(4294967295u, 4294967294u);
    sweep_by_hand(4294967295u, 4294967295u);
    two_pages(200000);
    sweep_by_hand(2499, 2499);
    two_pages(200000);
    sweep_by_hand(60000, 4294967296u);
    two_pages(200000);
    sweep_by_hand(0, 0);
    two_pages(200000);
    memset(&zeroed, 0, sizeof zeroed);
    printf("zeroed settings\n");
    sweep_by(zeroed, 0);

    printf("by 60,000\n");
    pairs_keep_2500();
    show("discovery expiry 2,500", tamburelvi_receiver_set_discovery_expiry(r, 2500));
    pairs_keep_2500();
}

static bool same_header(tamburelvi_header a, tamburelvi_header b) {
    return a.data_pairs == b.data_pairs && a.data_sources == b.data_sources && a.data_oldest == b.data_oldest &&
        a.sync_pairs == b.sync_pairs && a.sync_sources == b.sync_sources && a.sync_oldest == b.sync_oldest &&
        a.waiting == b.waiting && a.listened == b.listened && a.sources == b.sources && a.pages == b.pages &&
        a.page_universes == b.page_universes && a.data_tidy == b.data_tidy && a.sync_tidy == b.sync_tidy;
}

/* The header with the discovered sources of another. */
static tamburelvi_header discovered_as(tamburelvi_header h, tamburelvi_header other) {
    h.sources = other.sources;
    h.pages = other.pages;
    h.page_universes = other.page_universes;
    return h;
}

/* A listed source and a partial one, pairs in both tables, and data that waits. */
static void settle(uint64_t reading) {
    two_pages(reading);
    show("A, sequence 5", take(reading, data(0x30, 1, 0, 5, 2)));
    show("synchronisation of A, sequence 5", take_sync(reading, 0x30, 7, 5, sizeof out));
    show("B under 7", take(reading, data(0x40, 7, 7, 9, 2)));
    show_state();
}

/* The desk A after a restart: by its last number it repeats itself (5) or is late (4), in both tables. */
static void restarted(uint64_t reading, uint8_t sequence) {
    printf("A is restarted at %d\n", sequence);
    show("data", take(reading, data(0x30, 1, 0, sequence, 2)));
    show_release("synchronisation", take_sync(reading, 0x30, 7, sequence, sizeof out));
}

/* Document 02, F-2: each half of reset_sources leaves all that the other clears. What waits and what is listened to stays. */
static void resets(void) {
    tamburelvi_header h, paired, found, neither;
    show("fresh settings", tamburelvi_receiver_fresh_settings(r));
    settle(33000);
    h = receiver.header;
    paired = tamburelvi_reset_discovery(h);
    found = tamburelvi_reset_pairs(h);
    neither = tamburelvi_reset_sources(h);
    printf("the two in turn: %d, the other way round: %d\n", same_header(tamburelvi_reset_discovery(found), neither),
        same_header(tamburelvi_reset_pairs(paired), neither));
    printf("reset_pairs leaves the discovered sources: %d, reset_discovery leaves all but them: %d\n",
        same_header(found, discovered_as(neither, h)), same_header(paired, discovered_as(h, neither)));

    restarted(33001, 5);
    restarted(33001, 4);
    show("reset pairs", tamburelvi_receiver_reset_pairs(r));
    show_state();
    restarted(33002, 5);
    show("reset pairs", tamburelvi_receiver_reset_pairs(r));
    restarted(33003, 4);
    show_pairs();
    show("limit 1", tamburelvi_receiver_set_source_limit(r, 1));
    show("B", take(33003, data(0x40, 1, 0, 0, 2)));
    show("reset pairs", tamburelvi_receiver_reset_pairs(r));
    show("B", take(33003, data(0x40, 1, 0, 0, 2)));
    show("A", take(33003, data(0x30, 1, 0, 5, 2)));
    show("announce timeouts", tamburelvi_receiver_set_announce_timeout(r, true));
    show("reset pairs", tamburelvi_receiver_reset_pairs(r));
    show("poll at 35,503", tamburelvi_receiver_poll(r, 35503));
    show("fresh settings", tamburelvi_receiver_fresh_settings(r));

    show("reset discovery", tamburelvi_receiver_reset_discovery(r));
    settle(36000);
    show("reset discovery", tamburelvi_receiver_reset_discovery(r));
    show_state();
    restarted(36001, 5);
    restarted(36001, 4);
    show("B, page 0 of 1", take_page(36001, page(0x40, 0, 1, 4, 1)));
    show_sources();
    show("B, page 1 of 1", take_page(36001, page(0x40, 1, 1, 4, 2)));
    show_sources();
    show("reset", tamburelvi_receiver_reset_sources(r));
    show_state();
}

/* 1,024 pairs, 1,024 universes, 64 waiting, 64 pages, each and one more. */
static void full(void) {
    tamburelvi_data_packet d = data(0, 1, 0, 0, 2);
    unsigned taken = 0;
    show("fresh settings", tamburelvi_receiver_fresh_settings(r));
    show("reset", tamburelvi_receiver_reset_sources(r));
    for (unsigned i = 0; i < 1024; i++) {
        d.cid[0] = (uint8_t)(i >> 8);
        d.cid[15] = (uint8_t)(i & 255);
        taken += take(40000, d).number == TAMBURELVI_OK;
    }
    d.cid[0] = 255;
    printf("%u sources taken\n", taken);
    show("one more", take(40000, d));
    show("reset pairs", tamburelvi_receiver_reset_pairs(r));
    for (unsigned i = 0; i < 1100; i++) list[i] = (uint16_t)(i + 1);
    show("listen to 1 to 1,025", tamburelvi_receiver_listen_universes(r, list, 1025));
    show("listen to 1 to 1,024", tamburelvi_receiver_listen_universes(r, list, 1024));
    show("listen to 1,025", tamburelvi_receiver_listen_universes(r, list + 1024, 1));
    show("address 1,025", take(40000, data(0x11, 1, 1025, 0, 2)));
    taken = 0;
    for (uint16_t u = 1; u <= 64; u++) taken += take(40000, data(0x11, u, 7, 1, 2)).number == TAMBURELVI_OK;
    printf("%u universes wait\n", taken);
    show("one more", take(40000, data(0x11, 65, 7, 1, 2)));
    taken = 0;
    for (uint8_t i = 1; i <= 64; i++) taken += take_page(40000, page(i, 0, 0, 4, 512)).number == TAMBURELVI_OK;
    printf("%u pages taken\n", taken);
    show("one more", take_page(40000, page(65, 0, 0, 4, 1)));
    show("reset discovery", tamburelvi_receiver_reset_discovery(r));
    taken = 0;
    for (uint8_t i = 1; i <= 64; i++) taken += take_page(40000, page(i, 0, 0, 4, 512)).number == TAMBURELVI_OK;
    printf("%u pages taken\n", taken);
    show("one more", take_page(40000, page(65, 0, 0, 4, 1)));
}

/* The data table as no call leaves it: CIDs listed, and all pairs gone. */
static void lose_pairs(void) {
    r->header.data_pairs = 0;
    r->header.data_tidy = false;
}

/* A broken table handed in: a CID listed without any pair goes on to rule 3, whatever the limit. With announcements off the
 * sweep takes it off the list before that. */
static void broken(void) {
    unsigned taken = 0;
    show("reset pairs", tamburelvi_receiver_reset_pairs(r));
    show("announce timeouts", tamburelvi_receiver_set_announce_timeout(r, true));
    show("limit 1", tamburelvi_receiver_set_source_limit(r, 1));
    show("A", take(50000, data(0x30, 1, 0, 7, 2)));
    lose_pairs();
    show_pairs();
    show("B", take(50000, data(0x40, 1, 0, 7, 2)));
    show("A, listed", take(50000, data(0x30, 1, 0, 7, 2)));
    show_pairs();
    show("no limit", tamburelvi_receiver_clear_source_limit(r));
    lose_pairs();
    for (uint16_t u = 1; u <= 512; u++) taken += take(50000, data(0x40, u, 0, 7, 2)).number == TAMBURELVI_OK;
    for (uint16_t u = 1; u <= 512; u++) taken += take(50000, data(0x50, u, 0, 7, 2)).number == TAMBURELVI_OK;
    printf("%u pairs taken\n", taken);
    show("A, listed", take(50000, data(0x30, 1, 0, 7, 2)));
    show("reset pairs", tamburelvi_receiver_reset_pairs(r));
    show("A", take(50000, data(0x30, 1, 0, 7, 2)));
    lose_pairs();
    show("B", take(50000, data(0x40, 1, 0, 7, 2)));
    show("do not announce", tamburelvi_receiver_set_announce_timeout(r, false));
    show("limit 1", tamburelvi_receiver_set_source_limit(r, 1));
    show("A, taken off the list", take(50000, data(0x30, 1, 0, 7, 2)));
    show_pairs();
}

/* Each store's length through the library's own functions, output before waiting values before pages; then what every
 * read-out gives past the last place. */
static void library(void) {
    tamburelvi_memory *m = &receiver.memory;
    const tamburelvi_memory *c = &receiver.memory;
    const tamburelvi_settings s = tamburelvi_fresh_settings();
    tamburelvi_header h;
    tamburelvi_data d;
    tamburelvi_sync y;
    tamburelvi_page g;
    tamburelvi_pair_read p;
    tamburelvi_source_read source;
    tamburelvi_page_read source_page;
    memset(&d, 0, sizeof d);
    memset(&y, 0, sizeof y);
    memset(&g, 0, sizeof g);
    d.universe = 1;
    h = tamburelvi_new(&m->heard);
    h = tamburelvi_listen_universes(h, &m->heard, list, 1).header;
    show("handle_data_packet, all short",
        tamburelvi_handle_data_packet(h, &m->data_pairs, &m->data_sources, &m->sync_pairs, &m->sync_sources, &m->rows, m->store,
            TAMBURELVI_STORE - 1, &m->heard, &c->sources, &c->names, &m->pages, m->universes, TAMBURELVI_UNIVERSES - 1, s, 0, d,
            values, 514, out, TAMBURELVI_OUTPUT - 1).answer);
    show("handle_data_packet, stores short",
        tamburelvi_handle_data_packet(h, &m->data_pairs, &m->data_sources, &m->sync_pairs, &m->sync_sources, &m->rows, m->store,
            TAMBURELVI_STORE - 1, &m->heard, &c->sources, &c->names, &m->pages, m->universes, TAMBURELVI_UNIVERSES - 1, s, 0, d,
            values, 514, out, TAMBURELVI_OUTPUT).answer);
    show("handle_sync_packet, pages short",
        tamburelvi_handle_sync_packet(h, &m->data_pairs, &m->data_sources, &m->sync_pairs, &m->sync_sources, &m->rows, m->store,
            TAMBURELVI_STORE, &c->heard, &c->sources, &c->names, &c->pages, c->universes, TAMBURELVI_UNIVERSES - 1, s, 0, y, out,
            TAMBURELVI_OUTPUT).answer);
    show("handle_universe_discovery_packet, pages short",
        tamburelvi_handle_universe_discovery_packet(h, &m->data_pairs, &m->data_sources, &m->sync_pairs, &m->sync_sources,
            &m->rows, m->store, TAMBURELVI_STORE, &c->heard, &m->sources, &m->names, &m->pages, m->universes,
            TAMBURELVI_UNIVERSES - 1, s, 0, g, name, 4, list, 1, out, TAMBURELVI_OUTPUT).answer);
    show("poll, store short",
        tamburelvi_poll(h, &m->data_pairs, &m->data_sources, &m->sync_pairs, &m->sync_sources, &m->rows, m->store,
            TAMBURELVI_STORE - 1, s, 0).answer);
    show("remove_expired_sources, pages short",
        tamburelvi_remove_expired_sources(h, &m->sources, &m->names, &m->pages, m->universes, TAMBURELVI_UNIVERSES - 1, s,
            0).answer);
    show("clear_waiting_data, store short",
        tamburelvi_clear_waiting_data(h, &m->rows, m->store, TAMBURELVI_STORE - 1, 1).answer);
    h = tamburelvi_mute_universe(h, &m->heard, 1).header;
    h = tamburelvi_clear_all_waiting_data(h);
    h = tamburelvi_reset_sources(h);
    printf("listening to 1: %d, to 64214: %d\n", tamburelvi_is_listening(h, &c->heard, 1),
        tamburelvi_is_listening(h, &c->heard, 64214));
    p = tamburelvi_data_pair(h, &c->data_pairs, 0);
    printf("past the last: %llu %llu %d", (unsigned long long)p.hi, (unsigned long long)p.reading, p.universe);
    p = tamburelvi_sync_pair(h, &c->sync_pairs, 1024);
    printf(" %llu %d", (unsigned long long)p.lo, p.sequence);
    printf(" %llu", (unsigned long long)tamburelvi_data_source(h, &c->data_sources, 0).hi);
    printf(" %llu", (unsigned long long)tamburelvi_sync_source(h, &c->sync_sources, 0).lo);
    printf(" %d", tamburelvi_listened(h, &c->heard, 1));
    printf(" %d %zu", tamburelvi_waiting(h, &c->rows, 0).universe, tamburelvi_waiting_values(h, &c->rows, 0).count);
    source = tamburelvi_source_at(h, &c->sources, TAMBURELVI_LISTED, 0);
    source_page = tamburelvi_page_at(h, &c->pages, TAMBURELVI_LISTED, 0, 0, 0);
    printf(" %zu %zu\n", h.sources - source.place, h.pages - source_page.place);
}

/* ---- document 02, F-6: settings records ---- */

/* The writer on bytes that each hold cc: its answer, the bytes, and whether those on both sides of them still hold cc. */
static void store(tamburelvi_settings s, size_t length) {
    uint8_t lent[80];
    bool around = true;
    memset(lent, 0xcc, sizeof lent);
    printf("%zu bytes", length);
    show("", tamburelvi_store_settings(s, lent + 8, length));
    for (size_t i = 0; i < sizeof lent; i++) around = around && (lent[i] == 0xcc || (i >= 8 && i < 8 + length));
    printf("  '");
    print_bytes(lent + 8, length);
    printf("', cc around them: %d\n", around);
}

/* The settings before a record is read: in every field others than those of the records below. */
static tamburelvi_settings before(void) {
    tamburelvi_settings s = {false, true, false, true, 7, 9, 60001};
    return s;
}

/* A record of the settings, and what is read from it. */
static void keep(const char *what, tamburelvi_settings s) {
    uint8_t kept[TAMBURELVI_SETTINGS_RECORD];
    tamburelvi_answer stored;
    tamburelvi_adjusted loaded;
    memset(kept, 0xcc, sizeof kept);
    stored = tamburelvi_store_settings(s, kept, sizeof kept);
    loaded = tamburelvi_load_settings(before(), kept, sizeof kept);
    printf("%s: %d ", what, stored.number);
    print_bytes(kept, sizeof kept);
    printf(", loaded: %d ", loaded.number);
    print_settings(loaded.settings);
    printf("\n");
}

/* 15 before 20, nothing written with either, and nothing behind the record; every field by itself, and all of them. A limit of
 * 0 is none and gives no 14. */
static void storing(void) {
    static const uint32_t expiries[] = {0, 2499, 2500, 60000, 60001, 68036, 4294967295u};
    static const uint16_t limits[] = {1, 255, 256, 258, 65535};
    const tamburelvi_settings fresh = tamburelvi_fresh_settings();
    tamburelvi_settings s = {true, false, true, false, 1, 258, 60000};
    for (size_t length = 0; length <= 15; length++) store(s, length);
    store(s, 64);
    for (size_t i = 0; i < sizeof expiries / sizeof expiries[0]; i++) {
        s.discovery_expiry = expiries[i];
        printf("expiry %lu, ", (unsigned long)expiries[i]);
        store(s, 14);
    }
    printf("the same, ");
    store(s, 13);
    printf("the same, ");
    store(s, 64);
    keep("fresh", fresh);
    keep("preview", tamburelvi_set_process_preview_data(fresh, true));
    keep("announce discoveries", tamburelvi_set_announce_source_discovery(fresh, true));
    keep("announce terminations", tamburelvi_set_announce_stream_termination(fresh, true));
    keep("announce timeouts", tamburelvi_set_announce_timeout(fresh, true));
    keep("merge by highest value", tamburelvi_set_merge(fresh, TAMBURELVI_HTP_DMX_MERGE));
    for (size_t i = 0; i < sizeof limits / sizeof limits[0]; i++) {
        printf("limit %d, ", limits[i]);
        keep("fresh", tamburelvi_set_source_limit(fresh, limits[i]).settings);
    }
    keep("expiry 2,500", tamburelvi_set_discovery_expiry(fresh, 2500).settings);
    keep("expiry 43,981", tamburelvi_set_discovery_expiry(fresh, 43981).settings);
    keep("expiry 60,000", tamburelvi_set_discovery_expiry(fresh, 60000).settings);
    s = before();
    s.source_limit = 0;
    s.discovery_expiry = 59999;
    keep("merge 7, limit 0", s);
    s.process_preview_data = s.announce_stream_termination = true;
    s.source_limit = 65535;
    keep("all", s);
}

/* A record of each layout. No number in them reads the same with its bytes the other way round. */
static const uint8_t layout_1[] = {0x53, 0x54, 1, 1, 0, 1, 0, 1, 0xff, 0xfe};
static const uint8_t layout_2[] = {0x53, 0x54, 2, 1, 0, 1, 0, 1, 1, 2, 0, 0, 0xab, 0xcd};

/* The bytes that are loaded: such a record, with ff behind it. */
static uint8_t laid[64];
static size_t lay(int layout) {
    const size_t length = layout == 1 ? sizeof layout_1 : sizeof layout_2;
    memset(laid, 0xff, sizeof laid);
    memcpy(laid, layout == 1 ? layout_1 : layout_2, length);
    return length;
}

static void show_loaded(tamburelvi_adjusted loaded) {
    printf(" %d, ", loaded.number);
    if (loaded.number) printf("as before: %d", same_settings(loaded.settings, before()));
    else print_settings(loaded.settings);
}

/* Both readers: the settings that were read, or whether those before are as they were, field by field. */
static void load(size_t length) {
    printf(", %zu bytes:", length);
    show_loaded(tamburelvi_load_settings(before(), laid, length));
    printf("; by layout 1 alone:");
    show_loaded(tamburelvi_load_settings_layout_1(before(), laid, length));
    printf("\n");
}

static void load_lengths(int layout) {
    const size_t least = lay(layout);
    for (size_t length = 0; length <= least + 1; length++) {
        printf("layout %d", layout);
        load(length);
    }
    printf("layout %d", layout);
    load(sizeof laid);
}

/* Marks and layouts: in two bytes, in three, and in as many as a record of layout 2 has. */
static void load_heads(void) {
    static const uint8_t heads[][3] = {{0x53, 0x54, 0}, {0x53, 0x54, 3}, {0x53, 0x54, 255}, {0x53, 0x53, 2}, {0x53, 0x55, 2},
        {0x52, 0x54, 2}, {0x54, 0x54, 2}, {0x54, 0x53, 1}, {0x55, 0x44, 2}, {0x54, 0x54, 3}, {0x53, 0x53, 0}};
    for (size_t i = 0; i < sizeof heads / sizeof heads[0]; i++) {
        lay(2);
        memcpy(laid, heads[i], sizeof heads[i]);
        for (size_t length = 2; length <= 14; length += length == 2 ? 1 : 11) {
            print_bytes(heads[i], sizeof heads[i]);
            load(length);
        }
    }
}

/* Each field of a byte: over 1, the first time with a byte too few for the layout, and then its other value. */
static void load_flags(int layout) {
    const size_t least = lay(layout);
    for (size_t place = 3; place <= 7; place++) {
        const uint8_t was = laid[place], tried[] = {2, 2, 128, 255, (uint8_t)!was};
        for (size_t i = 0; i < sizeof tried; i++) {
            laid[place] = tried[i];
            printf("layout %d, byte %zu is %d", layout, place, tried[i]);
            load(i ? least : least - 1);
        }
        laid[place] = was;
    }
}

/* Numbers in so many bytes at a place: the limit, or the expiry and, in layout 1, what stands where it would. */
static void load_numbers(int layout, size_t place, size_t count, const uint32_t *numbers, size_t numbers_length) {
    const size_t least = lay(layout);
    for (size_t n = 0; n < numbers_length; n++) {
        for (size_t i = 0; i < count; i++) laid[place + i] = (uint8_t)(numbers[n] >> 8 * (count - 1 - i) & 255);
        printf("layout %d, %lu from byte %zu", layout, (unsigned long)numbers[n], place);
        load(place + count < least ? least : place + count);
    }
}

/* Three bytes, the mark, the layout, the bytes that the layout needs, and the fields: the first fault in this order decides. */
static void loading(void) {
    static const uint32_t limits[] = {0, 1, 255, 256, 65535};
    static const uint32_t expiries[] = {0, 2499, 2500, 60000, 60001, 68036, 16779716, 4294967295u};
    for (int layout = 1; layout <= 2; layout++) load_lengths(layout);
    load_heads();
    for (int layout = 1; layout <= 2; layout++) {
        load_flags(layout);
        load_numbers(layout, 8, 2, limits, sizeof limits / sizeof limits[0]);
        load_numbers(layout, 10, 4, expiries, sizeof expiries / sizeof expiries[0]);
    }
    printf("an expiry out of range and a byte too few");
    load(13);
}

/* What is loaded and stored again is the same record, but for the layout and what stands behind it. */
static void loading_and_storing(void) {
    lay(1);
    keep("layout 1", tamburelvi_load_settings(before(), laid, sizeof laid).settings);
    keep("layout 1, by layout 1 alone", tamburelvi_load_settings_layout_1(before(), laid, sizeof laid).settings);
    lay(2);
    keep("layout 2", tamburelvi_load_settings(before(), laid, sizeof laid).settings);
}

/* The venue's settings are there again after a power cycle, and the next step goes by them; a record that is refused leaves
 * them. */
static void power_cycle(void) {
    const uint16_t some[] = {1};
    uint8_t kept[TAMBURELVI_SETTINGS_RECORD];
    show("new", tamburelvi_receiver_new(r));
    show("announce timeouts", tamburelvi_receiver_set_announce_timeout(r, true));
    show("limit 1", tamburelvi_receiver_set_source_limit(r, 1));
    show("discovery expiry 60,000", tamburelvi_receiver_set_discovery_expiry(r, 60000));
    show("stored in 13 bytes", tamburelvi_receiver_store_settings(r, kept, sizeof kept - 1));
    show("stored", tamburelvi_receiver_store_settings(r, kept, sizeof kept));
    show_settings();
    show("new", tamburelvi_receiver_new(r));
    show_settings();
    show("loaded by layout 1 alone", tamburelvi_receiver_load_settings_layout_1(r, kept, sizeof kept));
    show_settings();
    show("loaded", tamburelvi_receiver_load_settings(r, kept, sizeof kept));
    show_settings();
    show("listen to 1", tamburelvi_receiver_listen_universes(r, some, 1));
    show("A", take(60000, data(0x30, 1, 0, 7, 2)));
    show("B", take(60000, data(0x40, 1, 0, 7, 2)));
    show("layout 2, loaded from 13 bytes", tamburelvi_receiver_load_settings(r, layout_2, sizeof layout_2 - 1));
    show_settings();
    kept[7] = 2;
    show("loaded with merge 2", tamburelvi_receiver_load_settings(r, kept, sizeof kept));
    show_settings();
    show("layout 1, loaded by layout 1 alone", tamburelvi_receiver_load_settings_layout_1(r, layout_1, sizeof layout_1));
    show_settings();
    show("layout 2, loaded", tamburelvi_receiver_load_settings(r, layout_2, sizeof layout_2));
    show_settings();
    r->settings.discovery_expiry = 60001;
    show("stored with an expiry that was written by hand", tamburelvi_receiver_store_settings(r, kept, sizeof kept));
    printf("  ");
    print_bytes(kept, sizeof kept);
    printf("\n");
}

/* ---- the reader of records on bytes that are no release ---- */

/* Reads a copy that is no longer than `length`, so that a read past it is found by a sanitizer. */
static void read_copy(const char *what, const uint8_t *bytes, size_t length, size_t records, size_t said) {
    tamburelvi_answer a;
    tamburelvi_records reader;
    tamburelvi_record record;
    uint8_t *copy = (uint8_t *)malloc(length ? length : 1);
    if (!copy) exit(1);
    if (length) memcpy(copy, bytes, length);
    memset(&a, 0, sizeof a);
    a.values = TAMBURELVI_RELEASE;
    a.first = records;
    a.second = said;
    reader = tamburelvi_records_of(a, copy, length);
    printf("%s:", what);
    for (int i = 0; i < 3; i++) printf(" %d", (int)tamburelvi_records_next(&reader, &record));
    printf("\n");
    free(copy);
}

static void changed(const char *what, const uint8_t *bytes, size_t length, size_t place, uint8_t value) {
    uint8_t copy[40];
    memcpy(copy, bytes, length);
    copy[place] = value;
    read_copy(what, copy, length, 1, length);
}

static void malformed(void) {
    uint8_t bytes[37];
    tamburelvi_answer a;
    tamburelvi_records reader;
    tamburelvi_record record;
    tamburelvi_receiver_new(r);
    tamburelvi_receiver_listen_universes(r, list, 1);
    show("data", a = take(50000, data(0x11, 1, 0, 0, 2)));
    memcpy(bytes, out, sizeof bytes);
    reader = tamburelvi_records_of(a, out, sizeof out);
    out[0] = 0;
    printf("changed: %d", (int)tamburelvi_records_next(&reader, &record));
    out[0] = bytes[0];
    printf(", changed back: %d\n", (int)tamburelvi_records_next(&reader, &record));
    read_copy("as it is", bytes, 37, 1, 37);
    read_copy("cut in the values", bytes, 36, 1, 36);
    read_copy("cut in the head", bytes, 34, 1, 34);
    read_copy("cut to nothing", bytes, 0, 1, 0);
    read_copy("said longer than the output", bytes, 36, 1, 37);
    read_copy("one record more", bytes, 37, 2, 37);
    read_copy("one record less", bytes, 37, 0, 37);
    read_copy("nothing", bytes, 0, 0, 0);
    changed("first byte of the mark", bytes, 37, 0, 0x54);
    changed("second byte of the mark", bytes, 37, 1, 0x45);
    changed("preview 2", bytes, 37, 7, 2);
    changed("CID present 2", bytes, 37, 8, 2);
    changed("no CID, with bytes", bytes, 37, 8, 0);
    changed("258 values", bytes, 37, 33, 1);
    memset(out + 35, 0, 600);
    out[33] = 2;
    out[34] = 2;
    read_copy("514 values", out, 35 + 514, 1, 35 + 514);
    out[34] = 1;
    read_copy("513 values", out, 35 + 513, 1, 35 + 513);
    reader = tamburelvi_records_of(a, NULL, sizeof out);
    printf("no output: %d\n", (int)tamburelvi_records_next(&reader, &record));
    a.number = TAMBURELVI_OUT_OF_SEQUENCE;
    reader = tamburelvi_records_of(a, out, sizeof out);
    printf("a stopped call: %d\n", (int)tamburelvi_records_next(&reader, &record));
    printf("to nowhere: %d %d\n", (int)tamburelvi_records_next(NULL, &record), (int)tamburelvi_records_next(&reader, NULL));
}

int main(void) {
    printf("-- words\n");
    words();
    printf("-- calls that are not made\n");
    show("new, null", tamburelvi_receiver_new(NULL));
    unmade("null", NULL);
    unmade("not started", r);
    show("new", tamburelvi_receiver_new(r));
    show_settings();
    unmade_packets();
    printf("-- listening\n");
    listening();
    printf("-- unsynchronised\n");
    unsynchronised();
    printf("-- synchronised\n");
    synchronised();
    printf("-- refused\n");
    refused();
    printf("-- terminated\n");
    terminated();
    printf("-- limit\n");
    limit();
    printf("-- timeouts\n");
    timeouts();
    printf("-- discovery\n");
    discovery();
    printf("-- discovery expiry\n");
    discovery_expiry();
    printf("-- resets\n");
    resets();
    printf("-- full tables\n");
    full();
    printf("-- a broken table\n");
    broken();
    printf("-- the library's functions\n");
    library();
    printf("-- settings stored\n");
    storing();
    printf("-- settings loaded\n");
    loading();
    printf("-- settings loaded and stored\n");
    loading_and_storing();
    printf("-- a power cycle\n");
    power_cycle();
    printf("-- malformed releases\n");
    malformed();
    return 0;
}
