/* A desk sends universe 1 once; the packet comes a second time, by another port, and then an older one; the desk stops. */
#include "tamburelvi.h"
#include <stdio.h>
#include <string.h>

static tamburelvi_receiver receiver;
static uint8_t out[TAMBURELVI_OUTPUT];

static void show(tamburelvi_answer answer) {
    tamburelvi_records records = tamburelvi_records_of(answer, out, sizeof out);
    tamburelvi_record record;
    enum tamburelvi_found found;

    printf("%d: %s\n", answer.number, tamburelvi_number_text(answer.number));
    while ((found = tamburelvi_records_next(&records, &record)) == TAMBURELVI_RECORD) {
        printf("  universe %d, priority %d:", record.universe, record.priority);
        for (size_t i = 0; i < record.values_length; i++) printf(" %d", record.values[i]);
        printf("\n");
    }
    if (found == TAMBURELVI_MALFORMED) printf("  the output is no release\n");

    switch (answer.number) {
    case TAMBURELVI_UNIVERSE_TIMEOUT: printf("  universe %zu\n", answer.first); break;
    case TAMBURELVI_OUT_OF_SEQUENCE: printf("  %zu after %zu\n", answer.first, answer.second); break;
    /* No fault, and nothing to log: with two network ports each packet is heard twice. */
    case TAMBURELVI_REPEATED: break;
    case TAMBURELVI_TOO_SHORT: printf("  %zu bytes are needed\n", answer.first); break;
    default: break;
    }
}

int main(void) {
    const uint16_t universes[] = {1};
    const uint8_t values[] = {0, 255};
    tamburelvi_data_packet packet;
    tamburelvi_pair pair;

    memset(&packet, 0, sizeof packet);
    memset(packet.cid, 0x11, sizeof packet.cid);
    packet.universe = 1;
    packet.priority = 100;
    packet.values = values;
    packet.values_length = sizeof values;

    show(tamburelvi_receiver_new(&receiver));
    show(tamburelvi_receiver_set_announce_timeout(&receiver, true));
    show(tamburelvi_receiver_listen_universes(&receiver, universes, 1));
    show(tamburelvi_receiver_handle_data_packet(&receiver, 1000, &packet, out, sizeof out));
    show(tamburelvi_receiver_handle_data_packet(&receiver, 1001, &packet, out, sizeof out));
    packet.sequence = 255;
    show(tamburelvi_receiver_handle_data_packet(&receiver, 1023, &packet, out, sizeof out));
    show(tamburelvi_receiver_handle_data_packet(&receiver, 1023, &packet, out, 100));
    for (size_t i = 0; tamburelvi_receiver_data_pair(&receiver, i, &pair); i++) {
        printf("pair: universe %d, sequence %d, at %llu\n", pair.universe, pair.sequence, (unsigned long long)pair.reading);
    }
    show(tamburelvi_receiver_poll(&receiver, 3500));
    return 0;
}
