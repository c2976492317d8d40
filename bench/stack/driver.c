// The deepest stack of each call: every call runs on a stack of its own that is filled with a pattern before, and what it has overwritten is counted.
// A random run of packets and calls takes the receiver through its tables, full and empty, with both merge choices, announcements on and off, and
// readings that let entries expire.
#include "../../bindings/c/tamburelvi.h"
#include <stdio.h>
#include <stdlib.h>
#include <string.h>
#include <ucontext.h>

#define STACK 65536
#define PATTERN 0xA5

enum { NOTHING, DATA, SYNC, PAGE, POLL, EXPIRE, LISTEN, MUTE, LISTENS, CLEAR, CLEAR_ALL, RESET_PAIRS, RESET_DISCOVERY, RESET_SOURCES, STORE_SETTINGS,
    LOAD_SETTINGS, LOAD_SETTINGS_LAYOUT_1, START, KINDS };
static const char *const names[KINDS] = {"(none)", "handle_data_packet", "handle_sync_packet", "handle_universe_discovery_packet", "poll",
    "remove_expired_sources", "listen_universes", "mute_universe", "is_listening", "clear_waiting_data", "clear_all_waiting_data", "reset_pairs",
    "reset_discovery", "reset_sources", "store_settings", "load_settings", "load_settings_layout_1", "new"};

static tamburelvi_receiver receiver;
static uint8_t out[TAMBURELVI_OUTPUT], values[TAMBURELVI_VALUES], name[TAMBURELVI_NAME];
static uint16_t list[1100];
static size_t list_length;
static uint8_t record[TAMBURELVI_SETTINGS_RECORD];
static size_t record_length;
static uint64_t reading = 1000;
static tamburelvi_data_packet data;
static tamburelvi_sync_packet sync_packet;
static tamburelvi_discovery_packet page;
static uint16_t universe;
static tamburelvi_answer answer;
static _Alignas(64) uint8_t stack[STACK];
static ucontext_t back, there;
static size_t deepest[KINDS], calls[KINDS], answers[UINT8_MAX + 1];

static void nothing(void) {}
static void take_data(void) { answer = tamburelvi_receiver_handle_data_packet(&receiver, reading, &data, out, sizeof out); }
static void take_sync(void) { answer = tamburelvi_receiver_handle_sync_packet(&receiver, reading, &sync_packet, out, sizeof out); }
static void take_page(void) { answer = tamburelvi_receiver_handle_universe_discovery_packet(&receiver, reading, &page, out, sizeof out); }
static void poll(void) { answer = tamburelvi_receiver_poll(&receiver, reading); }
static void remove_expired(void) { answer = tamburelvi_receiver_remove_expired_sources(&receiver, reading); }
static void listen(void) { answer = tamburelvi_receiver_listen_universes(&receiver, list, list_length); }
static void mute(void) { answer = tamburelvi_receiver_mute_universe(&receiver, universe); }
static void listens(void) { universe = tamburelvi_receiver_is_listening(&receiver, universe); }
static void clear(void) { answer = tamburelvi_receiver_clear_waiting_data(&receiver, universe); }
static void clear_all(void) { answer = tamburelvi_receiver_clear_all_waiting_data(&receiver); }
static void reset_pairs(void) { answer = tamburelvi_receiver_reset_pairs(&receiver); }
static void reset_discovery(void) { answer = tamburelvi_receiver_reset_discovery(&receiver); }
static void reset_sources(void) { answer = tamburelvi_receiver_reset_sources(&receiver); }
static void store(void) { answer = tamburelvi_receiver_store_settings(&receiver, record, record_length); }
static void load(void) { answer = tamburelvi_receiver_load_settings(&receiver, record, record_length); }
static void load_layout_1(void) { answer = tamburelvi_receiver_load_settings_layout_1(&receiver, record, record_length); }
static void start(void) { answer = tamburelvi_receiver_new(&receiver); }
static void (*const call[KINDS])(void) = {nothing, take_data, take_sync, take_page, poll, remove_expired, listen, mute, listens, clear, clear_all, reset_pairs,
    reset_discovery, reset_sources, store, load, load_layout_1, start};

static void carry_out(int k) {
    memset(stack, PATTERN, STACK);
    answer.number = 0;
    getcontext(&there);
    there.uc_stack.ss_sp = stack;
    there.uc_stack.ss_size = STACK;
    there.uc_link = &back;
    makecontext(&there, call[k], 0);
    swapcontext(&back, &there);
    size_t untouched = 0;
    while (untouched < STACK && stack[untouched] == PATTERN) untouched++;
    if (deepest[k] < STACK - untouched) deepest[k] = STACK - untouched;
    calls[k]++;
    answers[answer.number]++;
}

static uint64_t state = 1;
static unsigned below(unsigned n) {
    state = state * 6364136223846793005u + 1442695040888963407u;
    return (unsigned)((state >> 33) % n);
}

int main(void) {
    tamburelvi_receiver_new(&receiver);
    for (int i = 0; i < 100; i++) carry_out(NOTHING);
    for (int run = 0; run < 300; run++) {
        // few sources and universes, or enough to fill the tables
        unsigned sources = run % 3 ? 3 : 200, universes = run % 3 ? 4 : 120;
        carry_out(START);
        tamburelvi_receiver_set_announce_timeout(&receiver, below(2));
        tamburelvi_receiver_set_announce_source_discovery(&receiver, below(2));
        tamburelvi_receiver_set_announce_stream_termination(&receiver, below(2));
        tamburelvi_receiver_set_process_preview_data(&receiver, below(2));
        tamburelvi_receiver_set_merge(&receiver, below(2) ? TAMBURELVI_HTP_DMX_MERGE : TAMBURELVI_DISCARD_LOWEST_PRIORITY_THEN_PREVIOUS);
        if (below(4) == 0) tamburelvi_receiver_set_source_limit(&receiver, (uint16_t)(1 + below(4)));
        tamburelvi_receiver_set_discovery_expiry(&receiver, (uint32_t[]){2500, 20000, 60000}[below(3)]);
        list_length = universes;
        for (unsigned i = 0; i < universes; i++) list[i] = (uint16_t)(i + 1);
        carry_out(LISTEN);
        for (int i = 0; i < 3000; i++) {
            unsigned source = below(sources);
            uint16_t address = below(run % 5 ? 3 : 30) ? (uint16_t)(below(200) ? 500 + below(3) : 64000) : 0;
            universe = (uint16_t)(below(universes) + 1);
            if (below(50) == 0) reading += below(run % 2 ? 20 : 3000);
            switch (below(40)) {
            case 0: carry_out(POLL); break;
            case 1: carry_out(EXPIRE); break;
            case 2: list_length = below(300); for (size_t j = 0; j < list_length; j++) list[j] = (uint16_t)(1 + below(4000)); carry_out(LISTEN); break;
            case 3: carry_out(MUTE); break;
            case 4: carry_out(LISTENS); break;
            case 5: carry_out(CLEAR); break;
            case 6: if (below(40) == 0) carry_out(CLEAR_ALL); break;
            case 7: if (below(40) == 0) carry_out((int[]){RESET_PAIRS, RESET_DISCOVERY, RESET_SOURCES}[below(3)]); break;
            case 8: case 9: case 10:
                if (run % 5 == 0 && below(10)) break;
                sync_packet = (tamburelvi_sync_packet){.address = (uint16_t)(500 + below(3)), .sequence = (uint8_t)i};
                tamburelvi_cid_bytes(source, source, sync_packet.cid);
                carry_out(SYNC);
                break;
            case 11: case 12: case 13: case 14: case 15: case 16:
                page = (tamburelvi_discovery_packet){.page = (uint8_t)below(4), .last_page = (uint8_t)below(4), .name = name, .universes = list};
                tamburelvi_cid_bytes(source, source, page.cid);
                page.name_length = below(TAMBURELVI_NAME + 1);
                page.universes_length = list_length = below(TAMBURELVI_PAGE + 1);
                for (size_t j = 0; j < list_length; j++) list[j] = (uint16_t)(1 + below(90));
                carry_out(PAGE);
                break;
            case 17: { // a record of the settings, loaded as it was stored or with another layout or byte; the run goes on by its own settings
                tamburelvi_settings own = receiver.settings;
                record_length = below(8) ? sizeof record : below(sizeof record);
                carry_out(STORE_SETTINGS);
                if (below(2)) record[2] = 1;
                if (below(4) == 0) record[3 + below(5)] = 2;
                carry_out(below(2) ? LOAD_SETTINGS : LOAD_SETTINGS_LAYOUT_1);
                receiver.settings = own;
                break;
            }
            default:
                data = (tamburelvi_data_packet){.universe = universe, .address = address, .priority = (uint8_t)(100 + below(2)),
                    .sequence = (uint8_t)i, .preview = below(30) == 0, .terminated = below(30) == 0, .values = values};
                tamburelvi_cid_bytes(source, source, data.cid);
                data.values_length = below(10) ? TAMBURELVI_VALUES : below(TAMBURELVI_VALUES);
                for (size_t j = 0; j < data.values_length; j++) values[j] = (uint8_t)(j ? below(256) : 0);
                carry_out(DATA);
            }
        }
    }
    printf("| call | bytes of stack | calls |\n|---|---|---|\n");
    size_t most = 0, unmeasured = 0;
    for (int k = 1; k < KINDS; k++) {
        size_t used = deepest[k] - deepest[NOTHING];
        if (most < used) most = used;
        if (used == 0) unmeasured++;
        printf("| %s | %zu | %zu |\n", names[k], used, calls[k]);
    }
    printf("\nanswers by number:");
    for (int n = 0; n <= UINT8_MAX; n++) if (answers[n]) printf(" %d: %zu", n, answers[n]);
    size_t lent = sizeof receiver.memory + sizeof out;
    printf("\n\nmost stack of a call: %zu bytes\nbytes lent in all: %zu (header: %zu, by value)\n", most, lent, sizeof(tamburelvi_header));
    if (unmeasured) printf("FAILED: %zu kinds of call were not measured\n", unmeasured);
    if (most > 8192) printf("FAILED: a call has used more than 8192 bytes\n");
    return unmeasured || most > 8192;
}
