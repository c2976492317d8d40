/**
 * @file tamburelvi.h
 * @brief Tamburelvi: the state of an ANSI E1.31 (sACN) receiver, every call proved equal to its definition.
 *
 * Link with libtamburelvi.a (`bindings/library` makes it, `bindings/c/install DIR` puts it, this file and a pkg-config
 * file in place). That library is for x86-64 with the System V calling convention; `portable/package DIR` writes the source of
 * one for other processors. It opens no socket, reads no clock, allocates nothing, prints nothing, keeps nothing between calls
 * and never fails but by its answer.
 *
 * Two layers, and one rule for their names:
 *
 *  - `tamburelvi_CALL` is the library's function. Header and memory are lent to every call, a CID is two words.
 *  - `tamburelvi_receiver_CALL` is the same call over a `tamburelvi_receiver`, which has header, settings and memory.
 *    It is inline, and CALL is the library's own word: tamburelvi_receiver_poll calls tamburelvi_poll,
 *    tamburelvi_receiver_remove_expired_sources calls tamburelvi_remove_expired_sources. A CID is `uint8_t cid[16]`.
 *    tamburelvi_receiver_waiting gives what tamburelvi_waiting and tamburelvi_waiting_values give.
 *
 * Beside them: tamburelvi_number_text, tamburelvi_cid_hi, _lo and _bytes, tamburelvi_answer_cid, and tamburelvi_records_of
 * with tamburelvi_records_next, which read a release. A name with `tamburelvi_inner_` is not for use.
 *
 * What a call sees, it answers by number (enum tamburelvi_number): parts that are too long (1), illegal universes (2), muting
 * what is not listened to (3), a limit of 0 (14), lent memory that is too short (15), a discovery expiry out of range (20),
 * bytes that are no settings record (22) or one that cannot be read (23). A `tamburelvi_receiver_CALL` also sees a null pointer
 * (255), a receiver that was not started (254), and values, names, lists, output or a settings record that overlap one another
 * or the receiver (253); it then changes nothing, and a read-out says that there is no such entry.
 *
 * What no call sees is the caller's to keep. The proofs hold for callers who do:
 *
 *  1. Pointers. Each points to memory of the type that it says, aligned for it, that lasts as long as the call and has at least
 *     the length that stands beside it. The library's functions and those on CIDs get no null pointer, not even with a length
 *     of 0.
 *  2. No overlap. No two memories that one of the library's functions gets overlap. What a read-out points to lies in the
 *     receiver: copy it before it goes into a packet.
 *  3. A `bool` is 0 or 1, in packets and settings too (a struct filled from raw bytes may break this).
 *  4. Header and memory. Each call gets the header that the last one gave back, and the memory as the last one left it;
 *     nothing else writes to either in between. The output is free between calls.
 *  5. One call at a time. Nothing is locked: while a call that changes a receiver runs, no other call on it does, a read-out
 *     neither, be it from a thread or from an interrupt. Different receivers do not mind one another; an output that two of
 *     them share is one memory.
 *  6. Numbers are in the machine's byte order (a packet and a settings record have them most significant byte first), a CID's
 *     bytes in the packet's order. Readings are milliseconds of one clock; of an entry that is newer than a reading the age is
 *     0. Other fields of a packet are taken as they come: a priority over 200, a page above the last page, a name that is not
 *     UTF-8.
 *
 * Said plainly: a header that was not started (that tamburelvi_new did not give), an older header, or memory that was changed in
 * between is not found out by the library's functions, which may then read and write outside the memory lent. A
 * `tamburelvi_receiver` has a mark by which its calls tell one that was started from one that was not, unless its memory holds
 * the mark by chance; that a started one was overwritten they do not find out. Wrong pointers that are not null, lengths that
 * are longer than their memory, and two calls at once are found out by nothing.
 */
#ifndef TAMBURELVI_H
#define TAMBURELVI_H

#ifndef __cplusplus
#include <stdbool.h>
#endif
#include <stddef.h>
#include <stdint.h>

#ifdef __cplusplus
extern "C" {
#endif

/** @brief The version of this header and its library. */
#define TAMBURELVI_VERSION "0.1.0"
#define TAMBURELVI_VERSION_MAJOR 0
#define TAMBURELVI_VERSION_MINOR 1
#define TAMBURELVI_VERSION_PATCH 0

/** @brief Lengths below which a call answers 15: bytes of output, bytes of waiting values, numbers of page universes. */
#define TAMBURELVI_OUTPUT 35072
#define TAMBURELVI_STORE 32832
#define TAMBURELVI_UNIVERSES 32768

/**
 * @brief Bytes of a settings record, as it is written: the length below which tamburelvi_store_settings answers 15.
 *
 * A record is the mark 53 54 (hexadecimal), a byte for the layout, then the fields. Layout 1, 10 bytes in all, has preview and
 * the announcements of discovery, termination and timeout, a byte each, 0 or 1; the merge choice, a byte, 0 by priority and 1
 * by highest value; the source limit, two bytes, 0 for none. Layout 2, 14 bytes in all, has the discovery expiry behind them,
 * four bytes. Layout 2 is written, both are read. There is no checksum: whoever keeps the bytes sees to it that they stay.
 */
#define TAMBURELVI_SETTINGS_RECORD 14

/** @brief Longest parts of a packet: values with their start code, bytes of a name, universes of a page. */
#define TAMBURELVI_VALUES 513
#define TAMBURELVI_NAME 63
#define TAMBURELVI_PAGE 512

/** @brief Bytes of a CID. */
#define TAMBURELVI_CID 16

/**
 * @brief What stopped a call. 17 to 19 and 24 to 252 are the library's too and not used yet; 16 was given up and is not used again;
 * 253 to 255 are this header's.
 *
 * In parentheses: the values that an answer of this number has, by enum tamburelvi_kind.
 *
 * After 7 and 21 the packet was not taken, and nothing changed but what the poll swept. A repeat renews neither the sequence
 * number nor the reading, so a source that only repeats itself expires. A node with two network ports hears each packet twice:
 * 21 is then no fault and need not be logged, 7 is one.
 */
enum tamburelvi_number {
    TAMBURELVI_OK = 0,                      /**< Nothing did. (A step: none or a release. clear_waiting_data: one, 1 or 0.) */
    TAMBURELVI_TOO_LONG = 1,                /**< Values over 513, a name over 63 or a list over 512. (One: the length.) */
    TAMBURELVI_ILLEGAL_UNIVERSE = 2,        /**< Not 1 to 63999, not 64214. (One: the first such universe.) */
    TAMBURELVI_UNIVERSE_NOT_REGISTERED = 3, /**< Muting what is not listened to. (One: the universe.) */
    TAMBURELVI_UNIVERSE_TIMEOUT = 4,        /**< Announced timeout; the packet was not taken, offer it again. (Pair.) */
    TAMBURELVI_UNIVERSE_TERMINATED = 5,     /**< Announced termination. (Pair.) */
    TAMBURELVI_SOURCES_EXCEEDED = 6,        /**< The source limit is reached. (One: the number of sources.) */
    TAMBURELVI_OUT_OF_SEQUENCE = 7,         /**< Sequence number late: a difference of -19 to -1. (Sequence.) */
    TAMBURELVI_DMX_MERGE_ERROR = 8,         /**< Merge refused, the waiting data is gone. (None.) */
    TAMBURELVI_SOURCE_DISCOVERED = 9,       /**< Announced discovery. (Announced.) */
    TAMBURELVI_PAIRS_FULL = 10,             /**< 1,024 pairs held. (None.) */
    TAMBURELVI_LISTENED_FULL = 11,          /**< Over 1,024 universes would be listened to. (None.) */
    TAMBURELVI_WAITING_FULL = 12,           /**< 64 universes wait, and this is not one of them. (None.) */
    TAMBURELVI_PAGES_FULL = 13,             /**< 64 pages held. (None.) */
    TAMBURELVI_LIMIT_ZERO = 14,             /**< A source limit of 0. (None.) */
    TAMBURELVI_TOO_SHORT = 15,              /**< Lent memory is too short. (One: the bytes needed.) */
    TAMBURELVI_EXPIRY_OUT_OF_RANGE = 20,    /**< A discovery expiry under 2,500 or over 60,000. (None.) */
    TAMBURELVI_REPEATED = 21,               /**< The last sequence number again: a difference of 0. (Sequence.) */
    TAMBURELVI_NO_SETTINGS_RECORD = 22,     /**< Under three bytes, a wrong mark, or too few for the layout. (None.) */
    TAMBURELVI_UNREADABLE_SETTINGS_RECORD = 23, /**< An unknown layout, or a field out of range. (None.) */
    TAMBURELVI_OVERLAP = 253,               /**< This header's: memories of the call overlap; it was not made. (None.) */
    TAMBURELVI_NOT_STARTED = 254,           /**< This header's: no tamburelvi_receiver_new; the call was not made. (None.) */
    TAMBURELVI_NULL = 255                   /**< This header's: a null pointer; the call was not made. (None.) */
};

/** @brief Which values an answer has. */
enum tamburelvi_kind {
    TAMBURELVI_NONE = 0,     /**< None. */
    TAMBURELVI_ONE = 1,      /**< first: a length, a count, a universe, or 0 or 1. */
    TAMBURELVI_RELEASE = 2,  /**< first: records in the output; second: their bytes. */
    TAMBURELVI_PAIR = 3,     /**< hi, lo: a CID; first: a universe. */
    TAMBURELVI_SEQUENCE = 4, /**< first: arriving; second: last; difference. */
    TAMBURELVI_ANNOUNCED = 5 /**< The name of the packet in hand. */
};

/** @brief The merge choice; any other number is taken as TAMBURELVI_HTP_DMX_MERGE. */
enum tamburelvi_merge {
    TAMBURELVI_DISCARD_LOWEST_PRIORITY_THEN_PREVIOUS = 0, /**< The higher priority, and of equal ones the newer. */
    TAMBURELVI_HTP_DMX_MERGE = 1                          /**< Of equal priorities the highest values. */
};

/** @brief The two lists of discovered sources. */
enum tamburelvi_mark {
    TAMBURELVI_PARTIAL = 0, /**< Some pages are known. */
    TAMBURELVI_LISTED = 1   /**< All pages are known. */
};

/* ==== What crosses to the library, by value ==== */

/** @brief Counts and notes of the tables. Read what you like, change nothing. */
typedef struct tamburelvi_header {
    size_t data_pairs;
    size_t data_sources;
    uint64_t data_oldest;
    size_t sync_pairs;
    size_t sync_sources;
    uint64_t sync_oldest;
    size_t waiting;
    size_t listened;
    size_t sources;
    size_t pages;
    size_t page_universes;
    bool data_tidy;
    bool sync_tidy;
} tamburelvi_header;

/**
 * @brief Settings. Every value has a meaning: merge is by enum tamburelvi_merge, a source limit of 0 is none, and the discovery
 * expiry, in milliseconds, is taken as it stands.
 *
 * Begin with tamburelvi_fresh_settings. A zeroed struct is not the fresh one: its discovery_expiry is 0, and by that every
 * discovery sweep drops every source, partial and listed.
 */
typedef struct tamburelvi_settings {
    bool process_preview_data;
    bool announce_source_discovery;
    bool announce_stream_termination;
    bool announce_timeout;
    uint8_t merge;
    uint16_t source_limit;
    uint32_t discovery_expiry;
} tamburelvi_settings;

/** @brief A data packet but for its values. The CID is two words: tamburelvi_cid_hi, tamburelvi_cid_lo. */
typedef struct tamburelvi_data {
    uint64_t hi;
    uint64_t lo;
    uint16_t universe;
    uint16_t address;
    uint8_t priority;
    uint8_t sequence;
    bool preview;
    bool terminated;
    bool force_synchronization;
} tamburelvi_data;

/** @brief A synchronisation packet. */
typedef struct tamburelvi_sync {
    uint64_t hi;
    uint64_t lo;
    uint16_t address;
    uint8_t sequence;
} tamburelvi_sync;

/** @brief A discovery packet but for its name and its universes. */
typedef struct tamburelvi_page {
    uint64_t hi;
    uint64_t lo;
    uint8_t page;
    uint8_t last_page;
} tamburelvi_page;

/** @brief An answer: enum tamburelvi_number, which values go with it (enum tamburelvi_kind), and the values. */
typedef struct tamburelvi_answer {
    size_t first;
    size_t second;
    uint64_t hi;
    uint64_t lo;
    uint8_t number;
    uint8_t values;
    int8_t difference;
} tamburelvi_answer;

/** @brief What a call leaves and answers. */
typedef struct tamburelvi_reply {
    tamburelvi_header header;
    tamburelvi_answer answer;
} tamburelvi_reply;

/**
 * @brief The settings that a call which can refuse leaves, and what it answers: 0, or 14 of the limit, 20 of the discovery
 * expiry, 22 and 23 of a settings record.
 */
typedef struct tamburelvi_adjusted {
    tamburelvi_settings settings;
    uint8_t number;
} tamburelvi_adjusted;

/** @brief A pair that a table holds; in the synchronisation table the universe is the address. */
typedef struct tamburelvi_pair_read {
    uint64_t hi;
    uint64_t lo;
    uint64_t reading;
    uint16_t universe;
    uint8_t sequence;
} tamburelvi_pair_read;

/** @brief A source that a table counts. */
typedef struct tamburelvi_cid_read {
    uint64_t hi;
    uint64_t lo;
} tamburelvi_cid_read;

/** @brief Waiting data but for its values. has_cid is false where data of equal priority was merged by highest value. */
typedef struct tamburelvi_dmx_read {
    uint64_t hi;
    uint64_t lo;
    uint64_t reading;
    uint16_t universe;
    uint16_t address;
    uint8_t priority;
    bool preview;
    bool has_cid;
} tamburelvi_dmx_read;

/** @brief A part of a memory: count entries from start. */
typedef struct tamburelvi_part_read {
    size_t start;
    size_t count;
} tamburelvi_part_read;

/** @brief A discovered source. Its name is the first name_length bytes of row `place` of the names. */
typedef struct tamburelvi_source_read {
    uint64_t hi;
    uint64_t lo;
    uint64_t reading;
    uint64_t last_page;
    uint64_t name_length;
    size_t place;
} tamburelvi_source_read;

/** @brief A page of a discovered source. Its universes are count entries of the page universes, from start. */
typedef struct tamburelvi_page_read {
    uint64_t number;
    uint64_t count;
    size_t start;
    size_t place;
} tamburelvi_page_read;

/* ==== What is lent to the library, by pointer: each struct is its array and nothing else ==== */

/** @brief The pairs of a table. */
typedef struct tamburelvi_pair_rows {
    uint64_t row[1024][4];
} tamburelvi_pair_rows;

/** @brief The sources that a table counts. */
typedef struct tamburelvi_source_rows {
    uint64_t row[1024][2];
} tamburelvi_source_rows;

/** @brief Waiting data but for its values. */
typedef struct tamburelvi_entry_rows {
    uint64_t row[64][9];
} tamburelvi_entry_rows;

/** @brief The listened universes. */
typedef struct tamburelvi_listened_universes {
    uint16_t universe[1024];
} tamburelvi_listened_universes;

/** @brief The discovered sources. */
typedef struct tamburelvi_head_rows {
    uint64_t row[64][6];
} tamburelvi_head_rows;

/** @brief Their names. */
typedef struct tamburelvi_name_rows {
    uint8_t row[64][63];
} tamburelvi_name_rows;

/** @brief Their pages. */
typedef struct tamburelvi_page_rows {
    uint64_t row[64][5];
} tamburelvi_page_rows;

/* ==== The layout that the library was built for, with a size_t of 8 bytes and, in the portable package, of 4; a compiler that
   lays a struct out in another way stops here ==== */

#if defined(__cplusplus) && __cplusplus >= 201103L
#define TAMBURELVI_ASSERT(what, holds) static_assert(holds, #what)
#elif !defined(__cplusplus) && defined(__STDC_VERSION__) && __STDC_VERSION__ >= 201112L
#define TAMBURELVI_ASSERT(what, holds) _Static_assert(holds, #what)
#else
#define TAMBURELVI_ASSERT(what, holds) typedef char tamburelvi_assert_##what[(holds) ? 1 : -1]
#endif
#define TAMBURELVI_SIZE(type, bytes) TAMBURELVI_ASSERT(size_of_##type, sizeof(type) == (bytes))
#define TAMBURELVI_AT(type, field, place) TAMBURELVI_ASSERT(place_of_##type##_##field, offsetof(type, field) == (place))
#define TAMBURELVI_BY_WIDTH(of_8, of_4) (sizeof(size_t) == 8 ? (of_8) : (of_4))

TAMBURELVI_ASSERT(width_of_size_t, sizeof(size_t) == 8 || sizeof(size_t) == 4);
TAMBURELVI_ASSERT(size_of_bool, sizeof(bool) == 1);

TAMBURELVI_SIZE(tamburelvi_header, TAMBURELVI_BY_WIDTH(96, 56));
TAMBURELVI_AT(tamburelvi_header, data_pairs, 0);
TAMBURELVI_AT(tamburelvi_header, data_sources, TAMBURELVI_BY_WIDTH(8, 4));
TAMBURELVI_AT(tamburelvi_header, data_oldest, TAMBURELVI_BY_WIDTH(16, 8));
TAMBURELVI_AT(tamburelvi_header, sync_pairs, TAMBURELVI_BY_WIDTH(24, 16));
TAMBURELVI_AT(tamburelvi_header, sync_sources, TAMBURELVI_BY_WIDTH(32, 20));
TAMBURELVI_AT(tamburelvi_header, sync_oldest, TAMBURELVI_BY_WIDTH(40, 24));
TAMBURELVI_AT(tamburelvi_header, waiting, TAMBURELVI_BY_WIDTH(48, 32));
TAMBURELVI_AT(tamburelvi_header, listened, TAMBURELVI_BY_WIDTH(56, 36));
TAMBURELVI_AT(tamburelvi_header, sources, TAMBURELVI_BY_WIDTH(64, 40));
TAMBURELVI_AT(tamburelvi_header, pages, TAMBURELVI_BY_WIDTH(72, 44));
TAMBURELVI_AT(tamburelvi_header, page_universes, TAMBURELVI_BY_WIDTH(80, 48));
TAMBURELVI_AT(tamburelvi_header, data_tidy, TAMBURELVI_BY_WIDTH(88, 52));
TAMBURELVI_AT(tamburelvi_header, sync_tidy, TAMBURELVI_BY_WIDTH(89, 53));

TAMBURELVI_SIZE(tamburelvi_settings, 12);
TAMBURELVI_AT(tamburelvi_settings, process_preview_data, 0);
TAMBURELVI_AT(tamburelvi_settings, announce_source_discovery, 1);
TAMBURELVI_AT(tamburelvi_settings, announce_stream_termination, 2);
TAMBURELVI_AT(tamburelvi_settings, announce_timeout, 3);
TAMBURELVI_AT(tamburelvi_settings, merge, 4);
TAMBURELVI_AT(tamburelvi_settings, source_limit, 6);
TAMBURELVI_AT(tamburelvi_settings, discovery_expiry, 8);

TAMBURELVI_SIZE(tamburelvi_data, 32);
TAMBURELVI_AT(tamburelvi_data, hi, 0);
TAMBURELVI_AT(tamburelvi_data, lo, 8);
TAMBURELVI_AT(tamburelvi_data, universe, 16);
TAMBURELVI_AT(tamburelvi_data, address, 18);
TAMBURELVI_AT(tamburelvi_data, priority, 20);
TAMBURELVI_AT(tamburelvi_data, sequence, 21);
TAMBURELVI_AT(tamburelvi_data, preview, 22);
TAMBURELVI_AT(tamburelvi_data, terminated, 23);
TAMBURELVI_AT(tamburelvi_data, force_synchronization, 24);

TAMBURELVI_SIZE(tamburelvi_sync, 24);
TAMBURELVI_AT(tamburelvi_sync, hi, 0);
TAMBURELVI_AT(tamburelvi_sync, lo, 8);
TAMBURELVI_AT(tamburelvi_sync, address, 16);
TAMBURELVI_AT(tamburelvi_sync, sequence, 18);

TAMBURELVI_SIZE(tamburelvi_page, 24);
TAMBURELVI_AT(tamburelvi_page, hi, 0);
TAMBURELVI_AT(tamburelvi_page, lo, 8);
TAMBURELVI_AT(tamburelvi_page, page, 16);
TAMBURELVI_AT(tamburelvi_page, last_page, 17);

TAMBURELVI_SIZE(tamburelvi_answer, TAMBURELVI_BY_WIDTH(40, 32));
TAMBURELVI_AT(tamburelvi_answer, first, 0);
TAMBURELVI_AT(tamburelvi_answer, second, TAMBURELVI_BY_WIDTH(8, 4));
TAMBURELVI_AT(tamburelvi_answer, hi, TAMBURELVI_BY_WIDTH(16, 8));
TAMBURELVI_AT(tamburelvi_answer, lo, TAMBURELVI_BY_WIDTH(24, 16));
TAMBURELVI_AT(tamburelvi_answer, number, TAMBURELVI_BY_WIDTH(32, 24));
TAMBURELVI_AT(tamburelvi_answer, values, TAMBURELVI_BY_WIDTH(33, 25));
TAMBURELVI_AT(tamburelvi_answer, difference, TAMBURELVI_BY_WIDTH(34, 26));

TAMBURELVI_SIZE(tamburelvi_reply, TAMBURELVI_BY_WIDTH(136, 88));
TAMBURELVI_AT(tamburelvi_reply, header, 0);
TAMBURELVI_AT(tamburelvi_reply, answer, TAMBURELVI_BY_WIDTH(96, 56));

TAMBURELVI_SIZE(tamburelvi_adjusted, 16);
TAMBURELVI_AT(tamburelvi_adjusted, settings, 0);
TAMBURELVI_AT(tamburelvi_adjusted, number, 12);

TAMBURELVI_SIZE(tamburelvi_pair_read, 32);
TAMBURELVI_AT(tamburelvi_pair_read, hi, 0);
TAMBURELVI_AT(tamburelvi_pair_read, lo, 8);
TAMBURELVI_AT(tamburelvi_pair_read, reading, 16);
TAMBURELVI_AT(tamburelvi_pair_read, universe, 24);
TAMBURELVI_AT(tamburelvi_pair_read, sequence, 26);

TAMBURELVI_SIZE(tamburelvi_cid_read, 16);
TAMBURELVI_AT(tamburelvi_cid_read, hi, 0);
TAMBURELVI_AT(tamburelvi_cid_read, lo, 8);

TAMBURELVI_SIZE(tamburelvi_dmx_read, 32);
TAMBURELVI_AT(tamburelvi_dmx_read, hi, 0);
TAMBURELVI_AT(tamburelvi_dmx_read, lo, 8);
TAMBURELVI_AT(tamburelvi_dmx_read, reading, 16);
TAMBURELVI_AT(tamburelvi_dmx_read, universe, 24);
TAMBURELVI_AT(tamburelvi_dmx_read, address, 26);
TAMBURELVI_AT(tamburelvi_dmx_read, priority, 28);
TAMBURELVI_AT(tamburelvi_dmx_read, preview, 29);
TAMBURELVI_AT(tamburelvi_dmx_read, has_cid, 30);

TAMBURELVI_SIZE(tamburelvi_part_read, TAMBURELVI_BY_WIDTH(16, 8));
TAMBURELVI_AT(tamburelvi_part_read, start, 0);
TAMBURELVI_AT(tamburelvi_part_read, count, TAMBURELVI_BY_WIDTH(8, 4));

TAMBURELVI_SIZE(tamburelvi_source_read, 48);
TAMBURELVI_AT(tamburelvi_source_read, hi, 0);
TAMBURELVI_AT(tamburelvi_source_read, lo, 8);
TAMBURELVI_AT(tamburelvi_source_read, reading, 16);
TAMBURELVI_AT(tamburelvi_source_read, last_page, 24);
TAMBURELVI_AT(tamburelvi_source_read, name_length, 32);
TAMBURELVI_AT(tamburelvi_source_read, place, 40);

TAMBURELVI_SIZE(tamburelvi_page_read, TAMBURELVI_BY_WIDTH(32, 24));
TAMBURELVI_AT(tamburelvi_page_read, number, 0);
TAMBURELVI_AT(tamburelvi_page_read, count, 8);
TAMBURELVI_AT(tamburelvi_page_read, start, 16);
TAMBURELVI_AT(tamburelvi_page_read, place, TAMBURELVI_BY_WIDTH(24, 20));

TAMBURELVI_SIZE(tamburelvi_pair_rows, 32768);
TAMBURELVI_AT(tamburelvi_pair_rows, row, 0);
TAMBURELVI_SIZE(tamburelvi_source_rows, 16384);
TAMBURELVI_AT(tamburelvi_source_rows, row, 0);
TAMBURELVI_SIZE(tamburelvi_entry_rows, 4608);
TAMBURELVI_AT(tamburelvi_entry_rows, row, 0);
TAMBURELVI_SIZE(tamburelvi_listened_universes, 2048);
TAMBURELVI_AT(tamburelvi_listened_universes, universe, 0);
TAMBURELVI_SIZE(tamburelvi_head_rows, 3072);
TAMBURELVI_AT(tamburelvi_head_rows, row, 0);
TAMBURELVI_SIZE(tamburelvi_name_rows, 4032);
TAMBURELVI_AT(tamburelvi_name_rows, row, 0);
TAMBURELVI_SIZE(tamburelvi_page_rows, 2560);
TAMBURELVI_AT(tamburelvi_page_rows, row, 0);

#undef TAMBURELVI_BY_WIDTH
#undef TAMBURELVI_AT
#undef TAMBURELVI_SIZE
#undef TAMBURELVI_ASSERT

/* ==== The library's functions ==== */

/**
 * @brief A fresh receiver, which listens to 64214 alone.
 * @param heard Its listened universes. Of the memory lent later only this has to be the same; the rest may hold anything.
 * @return The header to begin with.
 */
tamburelvi_header tamburelvi_new(tamburelvi_listened_universes *heard);

/**
 * @brief A step on a data packet: the poll, then the packet.
 * @param header The receiver's header.
 * @param data_pairs Its data pairs.
 * @param data_sources Its data sources.
 * @param sync_pairs Its synchronisation pairs.
 * @param sync_sources Its synchronisation sources.
 * @param rows Its waiting data but for the values.
 * @param store Its waiting values.
 * @param store_length Their bytes, TAMBURELVI_STORE or more.
 * @param heard Its listened universes.
 * @param sources Its discovered sources.
 * @param names Their names.
 * @param pages Their pages.
 * @param universes Its page universes.
 * @param universes_length How many, TAMBURELVI_UNIVERSES or more.
 * @param settings The settings of this step.
 * @param reading Now, in milliseconds.
 * @param packet The packet but for its values.
 * @param values Its values, the start code first.
 * @param values_length How many, at most TAMBURELVI_VALUES.
 * @param out Output. A release is in its first bytes; the rest is unchanged.
 * @param out_length Its bytes, TAMBURELVI_OUTPUT or more.
 * @return 0 with nothing or a release, or 1, 2, 4 to 8, 10 to 12, 15, 21.
 */
tamburelvi_reply tamburelvi_handle_data_packet(tamburelvi_header header, tamburelvi_pair_rows *data_pairs,
    tamburelvi_source_rows *data_sources, tamburelvi_pair_rows *sync_pairs, tamburelvi_source_rows *sync_sources,
    tamburelvi_entry_rows *rows, uint8_t *store, size_t store_length, tamburelvi_listened_universes *heard,
    const tamburelvi_head_rows *sources, const tamburelvi_name_rows *names, tamburelvi_page_rows *pages, uint16_t *universes,
    size_t universes_length, tamburelvi_settings settings, uint64_t reading, tamburelvi_data packet, const uint8_t *values,
    size_t values_length, uint8_t *out, size_t out_length);

/**
 * @brief A step on a synchronisation packet: the poll, then the packet.
 * @param header The receiver's header.
 * @param data_pairs Its data pairs.
 * @param data_sources Its data sources.
 * @param sync_pairs Its synchronisation pairs.
 * @param sync_sources Its synchronisation sources.
 * @param rows Its waiting data but for the values.
 * @param store Its waiting values.
 * @param store_length Their bytes, TAMBURELVI_STORE or more.
 * @param heard Its listened universes.
 * @param sources Its discovered sources.
 * @param names Their names.
 * @param pages Their pages.
 * @param universes Its page universes.
 * @param universes_length How many, TAMBURELVI_UNIVERSES or more.
 * @param settings The settings of this step.
 * @param reading Now, in milliseconds.
 * @param packet The packet.
 * @param out Output. A release is in its first bytes; the rest is unchanged.
 * @param out_length Its bytes, TAMBURELVI_OUTPUT or more.
 * @return 0 with nothing or a release, or 4, 6, 7, 10, 15, 21.
 */
tamburelvi_reply tamburelvi_handle_sync_packet(tamburelvi_header header, tamburelvi_pair_rows *data_pairs,
    tamburelvi_source_rows *data_sources, tamburelvi_pair_rows *sync_pairs, tamburelvi_source_rows *sync_sources,
    tamburelvi_entry_rows *rows, uint8_t *store, size_t store_length, const tamburelvi_listened_universes *heard,
    const tamburelvi_head_rows *sources, const tamburelvi_name_rows *names, const tamburelvi_page_rows *pages,
    const uint16_t *universes, size_t universes_length, tamburelvi_settings settings, uint64_t reading, tamburelvi_sync packet,
    uint8_t *out, size_t out_length);

/**
 * @brief A step on a discovery packet: the poll, then the packet.
 * @param header The receiver's header.
 * @param data_pairs Its data pairs.
 * @param data_sources Its data sources.
 * @param sync_pairs Its synchronisation pairs.
 * @param sync_sources Its synchronisation sources.
 * @param rows Its waiting data but for the values.
 * @param store Its waiting values.
 * @param store_length Their bytes, TAMBURELVI_STORE or more.
 * @param heard Its listened universes.
 * @param sources Its discovered sources.
 * @param names Their names.
 * @param pages Their pages.
 * @param universes Its page universes.
 * @param universes_length How many, TAMBURELVI_UNIVERSES or more.
 * @param settings The settings of this step.
 * @param reading Now, in milliseconds.
 * @param packet The packet but for its name and its universes.
 * @param name Its source name.
 * @param name_length Its bytes, at most TAMBURELVI_NAME.
 * @param list Its universes.
 * @param list_length How many, at most TAMBURELVI_PAGE.
 * @param out Output. Nothing is written to it.
 * @param out_length Its bytes, TAMBURELVI_OUTPUT or more.
 * @return 0 with nothing, or 1, 4, 9, 13, 15.
 */
tamburelvi_reply tamburelvi_handle_universe_discovery_packet(tamburelvi_header header, tamburelvi_pair_rows *data_pairs,
    tamburelvi_source_rows *data_sources, tamburelvi_pair_rows *sync_pairs, tamburelvi_source_rows *sync_sources,
    tamburelvi_entry_rows *rows, uint8_t *store, size_t store_length, const tamburelvi_listened_universes *heard,
    tamburelvi_head_rows *sources, tamburelvi_name_rows *names, tamburelvi_page_rows *pages, uint16_t *universes,
    size_t universes_length, tamburelvi_settings settings, uint64_t reading, tamburelvi_page packet, const uint8_t *name,
    size_t name_length, const uint16_t *list, size_t list_length, const uint8_t *out, size_t out_length);

/**
 * @brief The poll, with which every step begins: pairs and waiting data of age 2,500 milliseconds or more go. With timeouts
 * announced at most one pair goes, with 4, and what comes after it is not swept.
 * @param header The receiver's header.
 * @param data_pairs Its data pairs.
 * @param data_sources Its data sources.
 * @param sync_pairs Its synchronisation pairs.
 * @param sync_sources Its synchronisation sources.
 * @param rows Its waiting data but for the values.
 * @param store Its waiting values.
 * @param store_length Their bytes, TAMBURELVI_STORE or more.
 * @param settings The settings.
 * @param reading Now, in milliseconds.
 * @return 0, 4 or 15.
 */
tamburelvi_reply tamburelvi_poll(tamburelvi_header header, tamburelvi_pair_rows *data_pairs, tamburelvi_source_rows *data_sources,
    tamburelvi_pair_rows *sync_pairs, tamburelvi_source_rows *sync_sources, tamburelvi_entry_rows *rows, uint8_t *store,
    size_t store_length, tamburelvi_settings settings, uint64_t reading);

/**
 * @brief The discovery sweep: discovered sources, partial and listed, of the age of the discovery expiry or more go. No step
 * and no poll does this.
 *
 * It goes by the discovery expiry of these settings, whatever it is, and never gives 20: by 0 every source goes.
 * @param header The receiver's header.
 * @param sources Its discovered sources.
 * @param names Their names.
 * @param pages Their pages.
 * @param universes Its page universes.
 * @param universes_length How many, TAMBURELVI_UNIVERSES or more.
 * @param settings The settings.
 * @param reading Now, in milliseconds.
 * @return 0 or 15.
 */
tamburelvi_reply tamburelvi_remove_expired_sources(tamburelvi_header header, tamburelvi_head_rows *sources,
    tamburelvi_name_rows *names, tamburelvi_page_rows *pages, uint16_t *universes, size_t universes_length,
    tamburelvi_settings settings, uint64_t reading);

/**
 * @brief Listens to all universes of the list, or to none.
 * @param header The receiver's header.
 * @param heard Its listened universes.
 * @param list The universes.
 * @param list_length How many.
 * @return 0, 2 with the first illegal one, or 11.
 */
tamburelvi_reply tamburelvi_listen_universes(
    tamburelvi_header header, tamburelvi_listened_universes *heard, const uint16_t *list, size_t list_length);

/**
 * @brief Listens to the universe no longer.
 * @param header The receiver's header.
 * @param heard Its listened universes.
 * @param universe The universe.
 * @return 0, 2 or 3.
 */
tamburelvi_reply tamburelvi_mute_universe(tamburelvi_header header, tamburelvi_listened_universes *heard, uint16_t universe);

/**
 * @brief Whether the universe is listened to.
 * @param header The receiver's header.
 * @param heard Its listened universes.
 * @param universe The universe.
 * @return Whether it is.
 */
bool tamburelvi_is_listening(tamburelvi_header header, const tamburelvi_listened_universes *heard, uint16_t universe);

/**
 * @brief Forgets the universe's waiting data.
 * @param header The receiver's header.
 * @param rows Its waiting data but for the values.
 * @param store Its waiting values.
 * @param store_length Their bytes, TAMBURELVI_STORE or more.
 * @param universe The universe.
 * @return 0 with one value, 1 if there was any and 0 if not; or 15.
 */
tamburelvi_reply tamburelvi_clear_waiting_data(
    tamburelvi_header header, tamburelvi_entry_rows *rows, uint8_t *store, size_t store_length, uint16_t universe);

/**
 * @brief Forgets all waiting data.
 * @param header The receiver's header.
 * @return The next header.
 */
tamburelvi_header tamburelvi_clear_all_waiting_data(tamburelvi_header header);

/**
 * @brief Forgets both pair tables: the numbering of all sources. Discovered sources, waiting data and listened universes stay.
 *
 * For a desk that was restarted and numbers its packets anew: the next packet of every source, on each universe and each
 * synchronisation address, is neither late (7) nor a repeat (21), whatever its number. Sources are counted anew towards the
 * source limit, in the order in which their packets come, and one that stays silent no longer times out (4). Names and pages
 * stay on the list of sources.
 * @param header The receiver's header.
 * @return The next header.
 */
tamburelvi_header tamburelvi_reset_pairs(tamburelvi_header header);

/**
 * @brief Forgets both lists of discovered sources. Pair tables, waiting data and listened universes stay.
 *
 * The list of sources is built anew from the next announcements, the discovery packets. All 64 pages are free again (13).
 * @param header The receiver's header.
 * @return The next header.
 */
tamburelvi_header tamburelvi_reset_discovery(tamburelvi_header header);

/**
 * @brief tamburelvi_reset_pairs, then tamburelvi_reset_discovery: the two in turn. Waiting data and listened universes stay.
 * @param header The receiver's header.
 * @return The next header.
 */
tamburelvi_header tamburelvi_reset_sources(tamburelvi_header header);

/**
 * @brief The fresh settings, to begin with.
 * @return Preview and announcements off, merging by priority, no source limit, a discovery expiry of 20,000 milliseconds.
 */
tamburelvi_settings tamburelvi_fresh_settings(void);

/**
 * @brief Whether preview data is processed.
 * @param settings The settings before.
 * @param on Whether it is.
 * @return The settings after.
 */
tamburelvi_settings tamburelvi_set_process_preview_data(tamburelvi_settings settings, bool on);

/**
 * @brief Whether a newly listed source is announced, by 9.
 * @param settings The settings before.
 * @param on Whether it is.
 * @return The settings after.
 */
tamburelvi_settings tamburelvi_set_announce_source_discovery(tamburelvi_settings settings, bool on);

/**
 * @brief Whether a terminated stream is announced, by 5.
 * @param settings The settings before.
 * @param on Whether it is.
 * @return The settings after.
 */
tamburelvi_settings tamburelvi_set_announce_stream_termination(tamburelvi_settings settings, bool on);

/**
 * @brief Whether a timeout is announced, by 4.
 * @param settings The settings before.
 * @param on Whether it is.
 * @return The settings after.
 */
tamburelvi_settings tamburelvi_set_announce_timeout(tamburelvi_settings settings, bool on);

/**
 * @brief How a packet joins the data that waits for its universe.
 * @param settings The settings before.
 * @param merge By enum tamburelvi_merge.
 * @return The settings after.
 */
tamburelvi_settings tamburelvi_set_merge(tamburelvi_settings settings, uint8_t merge);

/**
 * @brief No source limit.
 * @param settings The settings before.
 * @return The settings after.
 */
tamburelvi_settings tamburelvi_clear_source_limit(tamburelvi_settings settings);

/**
 * @brief At most so many sources in a table.
 * @param settings The settings before.
 * @param limit 1 to 65,535.
 * @return The settings after and 0; for a limit of 0, the settings as they were and 14.
 */
tamburelvi_adjusted tamburelvi_set_source_limit(tamburelvi_settings settings, uint16_t limit);

/**
 * @brief At which age the discovery sweep drops a source, partial or listed.
 *
 * E1.31 has sources announce themselves every 10 seconds: by the fresh 20,000 one announcement may be lost, if the next comes
 * before the last one heard is 20,000 old; by 10,000 or less a source can go between any two. The longer the expiry, the
 * longer sources that are gone or stay partial hold pages, of which there are 64 (13). Pairs and waiting data expire at
 * 2,500, whatever is set here.
 * @param settings The settings before.
 * @param expiry 2,500 to 60,000 milliseconds.
 * @return The settings after and 0; for any other expiry, the settings as they were, field by field, and 20.
 */
tamburelvi_adjusted tamburelvi_set_discovery_expiry(tamburelvi_settings settings, uint32_t expiry);

/**
 * @brief Writes a settings record, for settings that outlive a power cycle: layout 2, TAMBURELVI_SETTINGS_RECORD bytes.
 *
 * tamburelvi_load_settings reads the same settings from it: a merge choice over 1 is written as 1, which has its meaning. 14
 * cannot come here, since a source limit of 0 is none and is written as none.
 * @param settings The settings.
 * @param bytes Gets the record in its first bytes; the rest is unchanged.
 * @param length How many, TAMBURELVI_SETTINGS_RECORD or more.
 * @return 0; or, with nothing written, 15, and after it 20 for a discovery expiry that the setter does not take.
 */
tamburelvi_answer tamburelvi_store_settings(tamburelvi_settings settings, uint8_t *bytes, size_t length);

/**
 * @brief Reads a settings record of layout 1 or 2. Layout 1 has no discovery expiry and is read with 20,000.
 *
 * Tested in this order: three bytes (22), the mark (22), the layout (23), the bytes that the layout needs, whatever they hold
 * (22), and the fields: a byte over 1 where 0 and 1 are, a discovery expiry that the setter does not take (23).
 * @param settings The settings before.
 * @param bytes The record. What stands behind its last field is not read.
 * @param length How many, with what stands behind it.
 * @return The settings that were read and 0; otherwise the settings as they were, field by field, and 22 or 23.
 */
tamburelvi_adjusted tamburelvi_load_settings(tamburelvi_settings settings, const uint8_t *bytes, size_t length);

/**
 * @brief tamburelvi_load_settings by a reader that knows layout 1 alone, as older firmware does: a record of layout 2 is of an
 * unknown layout (23), and none of its settings is shown.
 * @param settings The settings before.
 * @param bytes The record. What stands behind its last field is not read.
 * @param length How many, with what stands behind it.
 * @return The settings that were read and 0; otherwise the settings as they were, field by field, and 22 or 23.
 */
tamburelvi_adjusted tamburelvi_load_settings_layout_1(tamburelvi_settings settings, const uint8_t *bytes, size_t length);

/**
 * @brief The pair at a place of the data table, by ascending CID, then universe.
 * @param header The receiver's header.
 * @param data_pairs Its data pairs.
 * @param at The place, below header.data_pairs.
 * @return The pair; past the last, zeros.
 */
tamburelvi_pair_read tamburelvi_data_pair(tamburelvi_header header, const tamburelvi_pair_rows *data_pairs, size_t at);

/**
 * @brief The pair at a place of the synchronisation table, by ascending CID, then address.
 * @param header The receiver's header.
 * @param sync_pairs Its synchronisation pairs.
 * @param at The place, below header.sync_pairs.
 * @return The pair; past the last, zeros.
 */
tamburelvi_pair_read tamburelvi_sync_pair(tamburelvi_header header, const tamburelvi_pair_rows *sync_pairs, size_t at);

/**
 * @brief The source at a place of the data table's list, ascending.
 * @param header The receiver's header.
 * @param data_sources Its data sources.
 * @param at The place, below header.data_sources.
 * @return The CID; past the last, zeros.
 */
tamburelvi_cid_read tamburelvi_data_source(tamburelvi_header header, const tamburelvi_source_rows *data_sources, size_t at);

/**
 * @brief The source at a place of the synchronisation table's list, ascending.
 * @param header The receiver's header.
 * @param sync_sources Its synchronisation sources.
 * @param at The place, below header.sync_sources.
 * @return The CID; past the last, zeros.
 */
tamburelvi_cid_read tamburelvi_sync_source(tamburelvi_header header, const tamburelvi_source_rows *sync_sources, size_t at);

/**
 * @brief The listened universe at a place, ascending.
 * @param header The receiver's header.
 * @param heard Its listened universes.
 * @param at The place, below header.listened.
 * @return The universe; past the last, 0.
 */
uint16_t tamburelvi_listened(tamburelvi_header header, const tamburelvi_listened_universes *heard, size_t at);

/**
 * @brief What waits at a place, by ascending universe, but for its values.
 * @param header The receiver's header.
 * @param rows Its waiting data but for the values.
 * @param at The place, below header.waiting.
 * @return The data; past the last, zeros.
 */
tamburelvi_dmx_read tamburelvi_waiting(tamburelvi_header header, const tamburelvi_entry_rows *rows, size_t at);

/**
 * @brief Where the values of what waits at a place lie in the waiting values.
 * @param header The receiver's header.
 * @param rows Its waiting data but for the values.
 * @param at The place, below header.waiting.
 * @return Their part; past the last, none.
 */
tamburelvi_part_read tamburelvi_waiting_values(tamburelvi_header header, const tamburelvi_entry_rows *rows, size_t at);

/**
 * @brief The discovered source at a place of its list.
 * @param header The receiver's header.
 * @param sources Its discovered sources.
 * @param mark The list, by enum tamburelvi_mark.
 * @param at The place in the list.
 * @return The source; where there are not so many, place is header.sources and the rest zeros.
 */
tamburelvi_source_read tamburelvi_source_at(
    tamburelvi_header header, const tamburelvi_head_rows *sources, uint64_t mark, size_t at);

/**
 * @brief The page at a place among the pages of a discovered source.
 * @param header The receiver's header.
 * @param pages The pages of its discovered sources.
 * @param mark The source's list, by enum tamburelvi_mark.
 * @param hi The first word of the source's CID.
 * @param lo Its second word.
 * @param at The place among its pages.
 * @return The page; where there are not so many, place is header.pages and the rest zeros.
 */
tamburelvi_page_read tamburelvi_page_at(
    tamburelvi_header header, const tamburelvi_page_rows *pages, uint64_t mark, uint64_t hi, uint64_t lo, size_t at);

/* ==== Numbers and CIDs ==== */

/**
 * @brief A number of an answer in words.
 * @param number The number.
 * @return A text that stays; of a number that this header does not know it says so.
 */
static inline const char *tamburelvi_number_text(unsigned number) {
    switch (number) {
    case TAMBURELVI_OK: return "nothing stopped the call";
    case TAMBURELVI_TOO_LONG: return "a part of the packet is too long";
    case TAMBURELVI_ILLEGAL_UNIVERSE: return "illegal universe";
    case TAMBURELVI_UNIVERSE_NOT_REGISTERED: return "the universe is not listened to";
    case TAMBURELVI_UNIVERSE_TIMEOUT: return "a source has timed out on a universe";
    case TAMBURELVI_UNIVERSE_TERMINATED: return "a source has terminated a universe";
    case TAMBURELVI_SOURCES_EXCEEDED: return "the source limit is reached";
    case TAMBURELVI_OUT_OF_SEQUENCE: return "the sequence number is late";
    case TAMBURELVI_DMX_MERGE_ERROR: return "the merge is refused";
    case TAMBURELVI_SOURCE_DISCOVERED: return "a source was discovered";
    case TAMBURELVI_PAIRS_FULL: return "1,024 pairs are held";
    case TAMBURELVI_LISTENED_FULL: return "over 1,024 universes would be listened to";
    case TAMBURELVI_WAITING_FULL: return "64 universes wait";
    case TAMBURELVI_PAGES_FULL: return "64 pages are held";
    case TAMBURELVI_LIMIT_ZERO: return "a source limit of 0";
    case TAMBURELVI_TOO_SHORT: return "lent memory is too short";
    case TAMBURELVI_EXPIRY_OUT_OF_RANGE: return "a discovery expiry under 2,500 or over 60,000";
    case TAMBURELVI_REPEATED: return "the sequence number is a repeat of the last one";
    case TAMBURELVI_NO_SETTINGS_RECORD: return "no settings record";
    case TAMBURELVI_UNREADABLE_SETTINGS_RECORD: return "a settings record of an unknown layout, or with a field out of range";
    case TAMBURELVI_OVERLAP: return "memories of the call overlap";
    case TAMBURELVI_NOT_STARTED: return "the receiver was not started";
    case TAMBURELVI_NULL: return "a null pointer";
    default: return "unknown number";
    }
}

/* A number of `count` bytes, the most significant first. */
static inline uint64_t tamburelvi_inner_number(const uint8_t *bytes, size_t count) {
    uint64_t number = 0;
    for (size_t i = 0; i < count; i++) number = number << 8 | bytes[i];
    return number;
}

/**
 * @brief A CID's first word.
 * @param cid Its sixteen bytes, as they stand in a packet.
 * @return The first eight, the most significant first.
 */
static inline uint64_t tamburelvi_cid_hi(const uint8_t cid[TAMBURELVI_CID]) { return tamburelvi_inner_number(cid, 8); }

/**
 * @brief A CID's second word.
 * @param cid Its sixteen bytes, as they stand in a packet.
 * @return The last eight, the most significant first.
 */
static inline uint64_t tamburelvi_cid_lo(const uint8_t cid[TAMBURELVI_CID]) { return tamburelvi_inner_number(cid + 8, 8); }

/**
 * @brief A CID's bytes.
 * @param hi The CID's first word.
 * @param lo The CID's second word.
 * @param cid Gets its sixteen bytes, as they stand in a packet.
 */
static inline void tamburelvi_cid_bytes(uint64_t hi, uint64_t lo, uint8_t cid[TAMBURELVI_CID]) {
    for (unsigned i = 0; i < 8; i++) {
        cid[i] = (uint8_t)(hi >> (56 - 8 * i) & 255);
        cid[8 + i] = (uint8_t)(lo >> (56 - 8 * i) & 255);
    }
}

/**
 * @brief The CID of an answer.
 * @param answer An answer.
 * @param cid Gets its sixteen bytes where the answer has a pair (4, 5).
 * @return Whether it has.
 */
static inline bool tamburelvi_answer_cid(tamburelvi_answer answer, uint8_t cid[TAMBURELVI_CID]) {
    if (!cid || answer.values != TAMBURELVI_PAIR) return false;
    tamburelvi_cid_bytes(answer.hi, answer.lo, cid);
    return true;
}

/* ==== Released records ==== */

/** @brief One universe's data, released or waiting. */
typedef struct tamburelvi_record {
    uint64_t reading;       /**< When it was received. */
    const uint8_t *values;  /**< Its values, the start code first, in the output or in the receiver. */
    size_t values_length;   /**< How many: 0 to 513. */
    uint16_t universe;      /**< Its universe. */
    uint16_t address;       /**< Its synchronisation address, or 0. */
    uint8_t priority;       /**< Its priority. */
    bool preview;           /**< Whether it is preview data. */
    bool has_cid;           /**< Whether it is one source's; false where several were merged. */
    uint8_t cid[TAMBURELVI_CID]; /**< That source, or zeros. */
} tamburelvi_record;

/** @brief A reader of a release. */
typedef struct tamburelvi_records {
    const uint8_t *bytes; /**< What is left of it. */
    size_t length;        /**< Its bytes. */
    size_t count;         /**< Its records. */
    bool malformed;       /**< Whether what is left is no release. */
} tamburelvi_records;

/** @brief What reading a record found. */
enum tamburelvi_found {
    TAMBURELVI_END = 0,      /**< No further record: all of them were read. */
    TAMBURELVI_RECORD = 1,   /**< A record. */
    TAMBURELVI_MALFORMED = 2 /**< Bytes that are no release: changed in between, or not the answer's output. */
};

/**
 * @brief A reader of what a step has released.
 * @param answer The step's answer. One without a release has no records.
 * @param out The step's output, unchanged since.
 * @param out_length Its bytes.
 * @return The reader, at the first record.
 */
static inline tamburelvi_records tamburelvi_records_of(tamburelvi_answer answer, const uint8_t *out, size_t out_length) {
    tamburelvi_records records;
    bool released = answer.number == TAMBURELVI_OK && answer.values == TAMBURELVI_RELEASE;
    records.bytes = out;
    records.length = released ? answer.second : 0;
    records.count = released ? answer.first : 0;
    records.malformed = records.length > out_length || (!out && records.length);
    return records;
}

/**
 * @brief The next record of a release, by ascending universe.
 * @param records The reader. After TAMBURELVI_MALFORMED it gives that for ever.
 * @param record Gets the record. Its values stay in the output, and are good as long as that is unchanged.
 * @return By enum tamburelvi_found; no byte past the answer's length is read.
 */
static inline enum tamburelvi_found tamburelvi_records_next(tamburelvi_records *records, tamburelvi_record *record) {
    const uint8_t *b;
    size_t values_length = 0;
    unsigned of_cid = 0;
    if (!records || !record || records->malformed) return TAMBURELVI_MALFORMED;
    b = records->bytes;
    if (!records->count && !records->length) return TAMBURELVI_END;
    records->malformed = true;
    if (!records->count || records->length < 35 || b[0] != 0x55 || b[1] != 0x44 || b[7] > 1 || b[8] > 1) return TAMBURELVI_MALFORMED;
    for (unsigned i = 0; i < TAMBURELVI_CID; i++) of_cid |= b[9 + i];
    if (!b[8] && of_cid) return TAMBURELVI_MALFORMED;
    values_length = (size_t)tamburelvi_inner_number(b + 33, 2);
    if (values_length > TAMBURELVI_VALUES || values_length > records->length - 35) return TAMBURELVI_MALFORMED;
    record->universe = (uint16_t)tamburelvi_inner_number(b + 2, 2);
    record->address = (uint16_t)tamburelvi_inner_number(b + 4, 2);
    record->priority = b[6];
    record->preview = b[7] == 1;
    record->has_cid = b[8] == 1;
    for (unsigned i = 0; i < TAMBURELVI_CID; i++) record->cid[i] = b[9 + i];
    record->reading = tamburelvi_inner_number(b + 25, 8);
    record->values = b + 35;
    record->values_length = values_length;
    records->bytes = b + 35 + values_length;
    records->length -= 35 + values_length;
    records->count--;
    records->malformed = false;
    return TAMBURELVI_RECORD;
}

/* ==== A receiver with its memory ==== */

/** @brief All memory that a receiver is lent but for the output, 212,992 bytes. */
typedef struct tamburelvi_memory {
    tamburelvi_pair_rows data_pairs;
    tamburelvi_source_rows data_sources;
    tamburelvi_pair_rows sync_pairs;
    tamburelvi_source_rows sync_sources;
    tamburelvi_entry_rows rows;
    tamburelvi_head_rows sources;
    tamburelvi_page_rows pages;
    uint16_t universes[TAMBURELVI_UNIVERSES];
    tamburelvi_listened_universes heard;
    uint8_t store[TAMBURELVI_STORE];
    tamburelvi_name_rows names;
} tamburelvi_memory;

/**
 * @brief A receiver, about 213 KB: make it static or allocate it, not on a small stack. Begin with tamburelvi_receiver_new.
 *
 * It points nowhere, so that a copy is a second receiver. Read header and settings as you like; write nothing by hand.
 */
typedef struct tamburelvi_receiver {
    uint64_t started;
    tamburelvi_header header;
    tamburelvi_settings settings;
    tamburelvi_memory memory;
} tamburelvi_receiver;

/** @brief A data packet. */
typedef struct tamburelvi_data_packet {
    uint8_t cid[TAMBURELVI_CID]; /**< The source, as in the packet's root layer. */
    uint16_t universe;           /**< Its universe. */
    uint16_t address;            /**< Its synchronisation address, or 0. */
    uint8_t priority;            /**< Its priority. */
    uint8_t sequence;            /**< Its sequence number. */
    bool preview;                /**< The option Preview_Data. */
    bool terminated;             /**< The option Stream_Terminated. */
    bool force_synchronization;  /**< The option Force_Synchronization; it has no effect. */
    const uint8_t *values;       /**< Its values, the start code first; null is allowed with a length of 0. */
    size_t values_length;        /**< How many: at most 513. */
} tamburelvi_data_packet;

/** @brief A synchronisation packet. */
typedef struct tamburelvi_sync_packet {
    uint8_t cid[TAMBURELVI_CID]; /**< The source, as in the packet's root layer. */
    uint16_t address;            /**< Its synchronisation address. */
    uint8_t sequence;            /**< Its sequence number. */
} tamburelvi_sync_packet;

/** @brief A discovery packet. */
typedef struct tamburelvi_discovery_packet {
    uint8_t cid[TAMBURELVI_CID]; /**< The source, as in the packet's root layer. */
    uint8_t page;                /**< Its page. */
    uint8_t last_page;           /**< The source's last page. */
    const uint8_t *name;         /**< The source name; null is allowed with a length of 0. */
    size_t name_length;          /**< Its bytes, without a closing zero: at most 63. */
    const uint16_t *universes;   /**< The universes, in the machine's byte order; null is allowed with a length of 0. */
    size_t universes_length;     /**< How many: at most 512. */
} tamburelvi_discovery_packet;

/** @brief A pair that a table holds. */
typedef struct tamburelvi_pair {
    uint8_t cid[TAMBURELVI_CID]; /**< The source. */
    uint64_t reading;            /**< When it was last stored. */
    uint16_t universe;           /**< The universe, or the address in the synchronisation table. */
    uint8_t sequence;            /**< The last sequence number. */
} tamburelvi_pair;

/** @brief A discovered source. */
typedef struct tamburelvi_source {
    uint8_t cid[TAMBURELVI_CID]; /**< The source. */
    uint64_t reading;            /**< When its last page came. */
    const uint8_t *name;         /**< Its name, in the receiver: good until the next call that changes it. */
    size_t name_length;          /**< The name's bytes; no zero closes it. */
    uint8_t last_page;           /**< Its last page, as first announced. */
    uint8_t mark;                /**< Its list, by enum tamburelvi_mark. */
} tamburelvi_source;

/** @brief A page of a discovered source. */
typedef struct tamburelvi_source_page {
    const uint16_t *universes; /**< Its universes, in the receiver: good until the next call that changes it. */
    size_t universes_length;   /**< How many. */
    uint8_t number;            /**< Its number. */
} tamburelvi_source_page;

/* What tamburelvi_receiver_new writes to `started`. */
#define TAMBURELVI_INNER_MARK 0x74616d6275726c76u

/* 0, or the number for a receiver that no call is made with. */
static inline uint8_t tamburelvi_inner_fault(const tamburelvi_receiver *receiver) {
    if (!receiver) return TAMBURELVI_NULL;
    if (receiver->started != TAMBURELVI_INNER_MARK) return TAMBURELVI_NOT_STARTED;
    return TAMBURELVI_OK;
}

/* 0, or the number for two memories with their bytes of which one is null or which overlap. */
static inline uint8_t tamburelvi_inner_apart(const void *one, size_t one_length, const void *other, size_t other_length) {
    uintptr_t a = (uintptr_t)one, b = (uintptr_t)other;
    if (!one_length || !other_length) return TAMBURELVI_OK;
    if (!one || !other) return TAMBURELVI_NULL;
    if (a < b ? b - a < one_length : a - b < other_length) return TAMBURELVI_OVERLAP;
    return TAMBURELVI_OK;
}

/* 0, or the number for memory that the caller lends beside the receiver. */
static inline uint8_t tamburelvi_inner_lent(const tamburelvi_receiver *receiver, const void *lent, size_t length) {
    return tamburelvi_inner_apart(lent, length, receiver, sizeof *receiver);
}

/* Bytes of a list of universes. */
static inline size_t tamburelvi_inner_bytes(size_t list_length) {
    return list_length > (size_t)-1 / sizeof(uint16_t) ? (size_t)-1 : list_length * sizeof(uint16_t);
}

static inline tamburelvi_answer tamburelvi_inner_bare(uint8_t number) {
    tamburelvi_answer answer;
    answer.first = 0;
    answer.second = 0;
    answer.hi = 0;
    answer.lo = 0;
    answer.number = number;
    answer.values = TAMBURELVI_NONE;
    answer.difference = 0;
    return answer;
}

static inline tamburelvi_answer tamburelvi_inner_kept(tamburelvi_receiver *receiver, tamburelvi_reply reply) {
    receiver->header = reply.header;
    return reply.answer;
}

static inline tamburelvi_answer tamburelvi_inner_adjusted(tamburelvi_receiver *receiver, tamburelvi_adjusted adjusted) {
    receiver->settings = adjusted.settings;
    return tamburelvi_inner_bare(adjusted.number);
}

/* The library takes no null pointer: with a length of 0 it gets one of these. */
static inline const uint8_t *tamburelvi_inner_no_bytes(void) {
    static const uint8_t none = 0;
    return &none;
}
static inline const uint16_t *tamburelvi_inner_no_universes(void) {
    static const uint16_t none = 0;
    return &none;
}

/**
 * @brief A fresh receiver in this memory, whatever it holds: listens to 64214 alone, fresh settings.
 * @param receiver The receiver.
 * @return 0 or 255.
 */
static inline tamburelvi_answer tamburelvi_receiver_new(tamburelvi_receiver *receiver) {
    if (!receiver) return tamburelvi_inner_bare(TAMBURELVI_NULL);
    receiver->header = tamburelvi_new(&receiver->memory.heard);
    receiver->settings = tamburelvi_fresh_settings();
    receiver->started = TAMBURELVI_INNER_MARK;
    return tamburelvi_inner_bare(TAMBURELVI_OK);
}

/**
 * @brief A step on a data packet: the poll, then the packet.
 * @param receiver The receiver.
 * @param reading Now, in milliseconds.
 * @param packet The packet.
 * @param out Output. A release is in its first bytes (tamburelvi_records_of).
 * @param out_length Its bytes, TAMBURELVI_OUTPUT or more.
 * @return 0 with nothing or a release, or 1, 2, 4 to 8, 10 to 12, 15, 21, 253 to 255.
 */
static inline tamburelvi_answer tamburelvi_receiver_handle_data_packet(
    tamburelvi_receiver *receiver, uint64_t reading, const tamburelvi_data_packet *packet, uint8_t *out, size_t out_length) {
    tamburelvi_memory *m;
    tamburelvi_data data;
    uint8_t nowhere = 0;
    uint8_t fault = tamburelvi_inner_fault(receiver);
    if (!fault && !packet) fault = TAMBURELVI_NULL;
    if (!fault) fault = tamburelvi_inner_lent(receiver, packet->values, packet->values_length);
    if (!fault) fault = tamburelvi_inner_lent(receiver, out, out_length);
    if (!fault) fault = tamburelvi_inner_apart(packet->values, packet->values_length, out, out_length);
    if (fault) return tamburelvi_inner_bare(fault);
    m = &receiver->memory;
    data.hi = tamburelvi_cid_hi(packet->cid);
    data.lo = tamburelvi_cid_lo(packet->cid);
    data.universe = packet->universe;
    data.address = packet->address;
    data.priority = packet->priority;
    data.sequence = packet->sequence;
    data.preview = packet->preview;
    data.terminated = packet->terminated;
    data.force_synchronization = packet->force_synchronization;
    return tamburelvi_inner_kept(receiver,
        tamburelvi_handle_data_packet(receiver->header, &m->data_pairs, &m->data_sources, &m->sync_pairs, &m->sync_sources,
            &m->rows, m->store, TAMBURELVI_STORE, &m->heard, &m->sources, &m->names, &m->pages, m->universes,
            TAMBURELVI_UNIVERSES, receiver->settings, reading, data,
            packet->values_length ? packet->values : tamburelvi_inner_no_bytes(), packet->values_length,
            out_length ? out : &nowhere, out_length));
}

/**
 * @brief A step on a synchronisation packet: the poll, then the packet.
 * @param receiver The receiver.
 * @param reading Now, in milliseconds.
 * @param packet The packet.
 * @param out Output. A release is in its first bytes (tamburelvi_records_of).
 * @param out_length Its bytes, TAMBURELVI_OUTPUT or more.
 * @return 0 with nothing or a release, or 4, 6, 7, 10, 15, 21, 253 to 255.
 */
static inline tamburelvi_answer tamburelvi_receiver_handle_sync_packet(
    tamburelvi_receiver *receiver, uint64_t reading, const tamburelvi_sync_packet *packet, uint8_t *out, size_t out_length) {
    tamburelvi_memory *m;
    tamburelvi_sync sync;
    uint8_t nowhere = 0;
    uint8_t fault = tamburelvi_inner_fault(receiver);
    if (!fault && !packet) fault = TAMBURELVI_NULL;
    if (!fault) fault = tamburelvi_inner_lent(receiver, out, out_length);
    if (fault) return tamburelvi_inner_bare(fault);
    m = &receiver->memory;
    sync.hi = tamburelvi_cid_hi(packet->cid);
    sync.lo = tamburelvi_cid_lo(packet->cid);
    sync.address = packet->address;
    sync.sequence = packet->sequence;
    return tamburelvi_inner_kept(receiver,
        tamburelvi_handle_sync_packet(receiver->header, &m->data_pairs, &m->data_sources, &m->sync_pairs, &m->sync_sources,
            &m->rows, m->store, TAMBURELVI_STORE, &m->heard, &m->sources, &m->names, &m->pages, m->universes,
            TAMBURELVI_UNIVERSES, receiver->settings, reading, sync, out_length ? out : &nowhere, out_length));
}

/**
 * @brief A step on a discovery packet: the poll, then the packet.
 * @param receiver The receiver.
 * @param reading Now, in milliseconds.
 * @param packet The packet.
 * @param out Output. Nothing is written to it.
 * @param out_length Its bytes, TAMBURELVI_OUTPUT or more.
 * @return 0 with nothing, or 1, 4, 9 (the name is the packet's), 13, 15, 253 to 255.
 */
static inline tamburelvi_answer tamburelvi_receiver_handle_universe_discovery_packet(tamburelvi_receiver *receiver,
    uint64_t reading, const tamburelvi_discovery_packet *packet, const uint8_t *out, size_t out_length) {
    tamburelvi_memory *m;
    tamburelvi_page page;
    size_t list_bytes = 0;
    uint8_t fault = tamburelvi_inner_fault(receiver);
    if (!fault && !packet) fault = TAMBURELVI_NULL;
    if (!fault) list_bytes = tamburelvi_inner_bytes(packet->universes_length);
    if (!fault) fault = tamburelvi_inner_lent(receiver, packet->name, packet->name_length);
    if (!fault) fault = tamburelvi_inner_lent(receiver, packet->universes, list_bytes);
    if (!fault) fault = tamburelvi_inner_lent(receiver, out, out_length);
    if (!fault) fault = tamburelvi_inner_apart(packet->name, packet->name_length, out, out_length);
    if (!fault) fault = tamburelvi_inner_apart(packet->universes, list_bytes, out, out_length);
    if (!fault) fault = tamburelvi_inner_apart(packet->name, packet->name_length, packet->universes, list_bytes);
    if (fault) return tamburelvi_inner_bare(fault);
    m = &receiver->memory;
    page.hi = tamburelvi_cid_hi(packet->cid);
    page.lo = tamburelvi_cid_lo(packet->cid);
    page.page = packet->page;
    page.last_page = packet->last_page;
    return tamburelvi_inner_kept(receiver,
        tamburelvi_handle_universe_discovery_packet(receiver->header, &m->data_pairs, &m->data_sources, &m->sync_pairs,
            &m->sync_sources, &m->rows, m->store, TAMBURELVI_STORE, &m->heard, &m->sources, &m->names, &m->pages, m->universes,
            TAMBURELVI_UNIVERSES, receiver->settings, reading, page,
            packet->name_length ? packet->name : tamburelvi_inner_no_bytes(), packet->name_length,
            packet->universes_length ? packet->universes : tamburelvi_inner_no_universes(), packet->universes_length,
            out_length ? out : tamburelvi_inner_no_bytes(), out_length));
}

/**
 * @brief The poll, with which every step begins: pairs and waiting data of age 2,500 milliseconds or more go. With timeouts
 * announced at most one pair goes, with 4, and what comes after it is not swept.
 * @param receiver The receiver.
 * @param reading Now, in milliseconds.
 * @return 0, 4, 254 or 255.
 */
static inline tamburelvi_answer tamburelvi_receiver_poll(tamburelvi_receiver *receiver, uint64_t reading) {
    tamburelvi_memory *m;
    uint8_t fault = tamburelvi_inner_fault(receiver);
    if (fault) return tamburelvi_inner_bare(fault);
    m = &receiver->memory;
    return tamburelvi_inner_kept(receiver,
        tamburelvi_poll(receiver->header, &m->data_pairs, &m->data_sources, &m->sync_pairs, &m->sync_sources, &m->rows, m->store,
            TAMBURELVI_STORE, receiver->settings, reading));
}

/**
 * @brief The discovery sweep: discovered sources, partial and listed, of the age of the discovery expiry or more go. No step
 * and no poll does this.
 * @param receiver The receiver.
 * @param reading Now, in milliseconds.
 * @return 0, 254 or 255.
 */
static inline tamburelvi_answer tamburelvi_receiver_remove_expired_sources(tamburelvi_receiver *receiver, uint64_t reading) {
    tamburelvi_memory *m;
    uint8_t fault = tamburelvi_inner_fault(receiver);
    if (fault) return tamburelvi_inner_bare(fault);
    m = &receiver->memory;
    return tamburelvi_inner_kept(receiver,
        tamburelvi_remove_expired_sources(receiver->header, &m->sources, &m->names, &m->pages, m->universes,
            TAMBURELVI_UNIVERSES, receiver->settings, reading));
}

/**
 * @brief Listens to all universes of the list, or to none.
 * @param receiver The receiver.
 * @param list The universes; null is allowed with a length of 0.
 * @param list_length How many.
 * @return 0, 2 with the first illegal one, 11, 253 to 255.
 */
static inline tamburelvi_answer tamburelvi_receiver_listen_universes(
    tamburelvi_receiver *receiver, const uint16_t *list, size_t list_length) {
    uint8_t fault = tamburelvi_inner_fault(receiver);
    if (!fault) fault = tamburelvi_inner_lent(receiver, list, tamburelvi_inner_bytes(list_length));
    if (fault) return tamburelvi_inner_bare(fault);
    return tamburelvi_inner_kept(receiver,
        tamburelvi_listen_universes(
            receiver->header, &receiver->memory.heard, list_length ? list : tamburelvi_inner_no_universes(), list_length));
}

/**
 * @brief Listens to the universe no longer.
 * @param receiver The receiver.
 * @param universe The universe.
 * @return 0, 2, 3, 254 or 255.
 */
static inline tamburelvi_answer tamburelvi_receiver_mute_universe(tamburelvi_receiver *receiver, uint16_t universe) {
    uint8_t fault = tamburelvi_inner_fault(receiver);
    if (fault) return tamburelvi_inner_bare(fault);
    return tamburelvi_inner_kept(receiver, tamburelvi_mute_universe(receiver->header, &receiver->memory.heard, universe));
}

/**
 * @brief Whether the universe is listened to.
 * @param receiver The receiver.
 * @param universe The universe.
 * @return Whether it is; false of a receiver that is null or not started.
 */
static inline bool tamburelvi_receiver_is_listening(const tamburelvi_receiver *receiver, uint16_t universe) {
    if (tamburelvi_inner_fault(receiver)) return false;
    return tamburelvi_is_listening(receiver->header, &receiver->memory.heard, universe);
}

/**
 * @brief Forgets the universe's waiting data.
 * @param receiver The receiver.
 * @param universe The universe.
 * @return 0 with one value, 1 if there was any and 0 if not; or 254 or 255.
 */
static inline tamburelvi_answer tamburelvi_receiver_clear_waiting_data(tamburelvi_receiver *receiver, uint16_t universe) {
    uint8_t fault = tamburelvi_inner_fault(receiver);
    if (fault) return tamburelvi_inner_bare(fault);
    return tamburelvi_inner_kept(receiver,
        tamburelvi_clear_waiting_data(
            receiver->header, &receiver->memory.rows, receiver->memory.store, TAMBURELVI_STORE, universe));
}

/**
 * @brief Forgets all waiting data.
 * @param receiver The receiver.
 * @return 0, 254 or 255.
 */
static inline tamburelvi_answer tamburelvi_receiver_clear_all_waiting_data(tamburelvi_receiver *receiver) {
    uint8_t fault = tamburelvi_inner_fault(receiver);
    if (!fault) receiver->header = tamburelvi_clear_all_waiting_data(receiver->header);
    return tamburelvi_inner_bare(fault);
}

/**
 * @brief Forgets both pair tables: the numbering of all sources. Discovered sources, waiting data and listened universes stay.
 *
 * For a desk that was restarted and numbers its packets anew: the next packet of every source, on each universe and each
 * synchronisation address, is neither late (7) nor a repeat (21), whatever its number. Sources are counted anew towards the
 * source limit, in the order in which their packets come, and one that stays silent no longer times out (4). Names and pages
 * stay on the list of sources.
 * @param receiver The receiver.
 * @return 0, 254 or 255.
 */
static inline tamburelvi_answer tamburelvi_receiver_reset_pairs(tamburelvi_receiver *receiver) {
    uint8_t fault = tamburelvi_inner_fault(receiver);
    if (!fault) receiver->header = tamburelvi_reset_pairs(receiver->header);
    return tamburelvi_inner_bare(fault);
}

/**
 * @brief Forgets both lists of discovered sources. Pair tables, waiting data and listened universes stay.
 *
 * The list of sources is built anew from the next announcements, the discovery packets. All 64 pages are free again (13).
 * @param receiver The receiver.
 * @return 0, 254 or 255.
 */
static inline tamburelvi_answer tamburelvi_receiver_reset_discovery(tamburelvi_receiver *receiver) {
    uint8_t fault = tamburelvi_inner_fault(receiver);
    if (!fault) receiver->header = tamburelvi_reset_discovery(receiver->header);
    return tamburelvi_inner_bare(fault);
}

/**
 * @brief tamburelvi_receiver_reset_pairs, then tamburelvi_receiver_reset_discovery: the two in turn. Waiting data and listened
 * universes stay.
 * @param receiver The receiver.
 * @return 0, 254 or 255.
 */
static inline tamburelvi_answer tamburelvi_receiver_reset_sources(tamburelvi_receiver *receiver) {
    uint8_t fault = tamburelvi_inner_fault(receiver);
    if (!fault) receiver->header = tamburelvi_reset_sources(receiver->header);
    return tamburelvi_inner_bare(fault);
}

/**
 * @brief The fresh settings again: preview and announcements off, merging by priority, no source limit, a discovery expiry of
 * 20,000 milliseconds.
 * @param receiver The receiver.
 * @return 0, 254 or 255.
 */
static inline tamburelvi_answer tamburelvi_receiver_fresh_settings(tamburelvi_receiver *receiver) {
    uint8_t fault = tamburelvi_inner_fault(receiver);
    if (!fault) receiver->settings = tamburelvi_fresh_settings();
    return tamburelvi_inner_bare(fault);
}

/**
 * @brief Whether preview data is processed.
 * @param receiver The receiver.
 * @param on Whether it is.
 * @return 0, 254 or 255.
 */
static inline tamburelvi_answer tamburelvi_receiver_set_process_preview_data(tamburelvi_receiver *receiver, bool on) {
    uint8_t fault = tamburelvi_inner_fault(receiver);
    if (!fault) receiver->settings = tamburelvi_set_process_preview_data(receiver->settings, on);
    return tamburelvi_inner_bare(fault);
}

/**
 * @brief Whether a newly listed source is announced, by 9.
 * @param receiver The receiver.
 * @param on Whether it is.
 * @return 0, 254 or 255.
 */
static inline tamburelvi_answer tamburelvi_receiver_set_announce_source_discovery(tamburelvi_receiver *receiver, bool on) {
    uint8_t fault = tamburelvi_inner_fault(receiver);
    if (!fault) receiver->settings = tamburelvi_set_announce_source_discovery(receiver->settings, on);
    return tamburelvi_inner_bare(fault);
}

/**
 * @brief Whether a terminated stream is announced, by 5.
 * @param receiver The receiver.
 * @param on Whether it is.
 * @return 0, 254 or 255.
 */
static inline tamburelvi_answer tamburelvi_receiver_set_announce_stream_termination(tamburelvi_receiver *receiver, bool on) {
    uint8_t fault = tamburelvi_inner_fault(receiver);
    if (!fault) receiver->settings = tamburelvi_set_announce_stream_termination(receiver->settings, on);
    return tamburelvi_inner_bare(fault);
}

/**
 * @brief Whether a timeout is announced, by 4.
 * @param receiver The receiver.
 * @param on Whether it is.
 * @return 0, 254 or 255.
 */
static inline tamburelvi_answer tamburelvi_receiver_set_announce_timeout(tamburelvi_receiver *receiver, bool on) {
    uint8_t fault = tamburelvi_inner_fault(receiver);
    if (!fault) receiver->settings = tamburelvi_set_announce_timeout(receiver->settings, on);
    return tamburelvi_inner_bare(fault);
}

/**
 * @brief How a packet joins the data that waits for its universe.
 * @param receiver The receiver.
 * @param merge The merge choice.
 * @return 0, 254 or 255.
 */
static inline tamburelvi_answer tamburelvi_receiver_set_merge(tamburelvi_receiver *receiver, enum tamburelvi_merge merge) {
    uint8_t fault = tamburelvi_inner_fault(receiver);
    if (!fault) receiver->settings = tamburelvi_set_merge(receiver->settings, (uint8_t)(merge != 0));
    return tamburelvi_inner_bare(fault);
}

/**
 * @brief No source limit.
 * @param receiver The receiver.
 * @return 0, 254 or 255.
 */
static inline tamburelvi_answer tamburelvi_receiver_clear_source_limit(tamburelvi_receiver *receiver) {
    uint8_t fault = tamburelvi_inner_fault(receiver);
    if (!fault) receiver->settings = tamburelvi_clear_source_limit(receiver->settings);
    return tamburelvi_inner_bare(fault);
}

/**
 * @brief At most so many sources in a table.
 * @param receiver The receiver.
 * @param limit 1 to 65,535.
 * @return 0; 14 for a limit of 0, which changes nothing; 254 or 255.
 */
static inline tamburelvi_answer tamburelvi_receiver_set_source_limit(tamburelvi_receiver *receiver, uint16_t limit) {
    uint8_t fault = tamburelvi_inner_fault(receiver);
    if (fault) return tamburelvi_inner_bare(fault);
    return tamburelvi_inner_adjusted(receiver, tamburelvi_set_source_limit(receiver->settings, limit));
}

/**
 * @brief At which age the discovery sweep drops a source, partial or listed.
 *
 * E1.31 has sources announce themselves every 10 seconds: by the fresh 20,000 one announcement may be lost, if the next comes
 * before the last one heard is 20,000 old; by 10,000 or less a source can go between any two. The longer the expiry, the
 * longer sources that are gone or stay partial hold pages, of which there are 64 (13). Pairs and waiting data expire at
 * 2,500, whatever is set here.
 * @param receiver The receiver.
 * @param expiry 2,500 to 60,000 milliseconds.
 * @return 0; 20 for any other expiry, which changes nothing; 254 or 255.
 */
static inline tamburelvi_answer tamburelvi_receiver_set_discovery_expiry(tamburelvi_receiver *receiver, uint32_t expiry) {
    uint8_t fault = tamburelvi_inner_fault(receiver);
    if (fault) return tamburelvi_inner_bare(fault);
    return tamburelvi_inner_adjusted(receiver, tamburelvi_set_discovery_expiry(receiver->settings, expiry));
}

/**
 * @brief Writes a record of the receiver's settings, by which they outlive a power cycle.
 * @param receiver The receiver.
 * @param bytes Gets the record in its first bytes; the rest is unchanged. Null is allowed with a length of 0.
 * @param length How many, TAMBURELVI_SETTINGS_RECORD or more.
 * @return 0; or, with nothing written, 15, 20 for a discovery expiry that was written by hand, 253 to 255.
 */
static inline tamburelvi_answer tamburelvi_receiver_store_settings(
    const tamburelvi_receiver *receiver, uint8_t *bytes, size_t length) {
    uint8_t nowhere = 0;
    uint8_t fault = tamburelvi_inner_fault(receiver);
    if (!fault) fault = tamburelvi_inner_lent(receiver, bytes, length);
    if (fault) return tamburelvi_inner_bare(fault);
    return tamburelvi_store_settings(receiver->settings, length ? bytes : &nowhere, length);
}

/* A settings record, by one of the library's readers. */
static inline tamburelvi_answer tamburelvi_inner_load(tamburelvi_receiver *receiver, const uint8_t *bytes, size_t length,
    tamburelvi_adjusted (*load)(tamburelvi_settings, const uint8_t *, size_t)) {
    uint8_t fault = tamburelvi_inner_fault(receiver);
    if (!fault) fault = tamburelvi_inner_lent(receiver, bytes, length);
    if (fault) return tamburelvi_inner_bare(fault);
    return tamburelvi_inner_adjusted(
        receiver, load(receiver->settings, length ? bytes : tamburelvi_inner_no_bytes(), length));
}

/**
 * @brief Reads a settings record of layout 1 or 2 and takes its settings. Layout 1 has no discovery expiry and is read with
 * 20,000.
 * @param receiver The receiver.
 * @param bytes The record; null is allowed with a length of 0. What stands behind its last field is not read.
 * @param length How many, with what stands behind it.
 * @return 0; 22 or 23, which change nothing; 253 to 255.
 */
static inline tamburelvi_answer tamburelvi_receiver_load_settings(
    tamburelvi_receiver *receiver, const uint8_t *bytes, size_t length) {
    return tamburelvi_inner_load(receiver, bytes, length, tamburelvi_load_settings);
}

/**
 * @brief tamburelvi_receiver_load_settings by a reader that knows layout 1 alone, as older firmware does: a record of layout 2
 * is of an unknown layout (23), and none of its settings is taken.
 * @param receiver The receiver.
 * @param bytes The record; null is allowed with a length of 0. What stands behind its last field is not read.
 * @param length How many, with what stands behind it.
 * @return 0; 22 or 23, which change nothing; 253 to 255.
 */
static inline tamburelvi_answer tamburelvi_receiver_load_settings_layout_1(
    tamburelvi_receiver *receiver, const uint8_t *bytes, size_t length) {
    return tamburelvi_inner_load(receiver, bytes, length, tamburelvi_load_settings_layout_1);
}

/* ---- Read-outs: places from 0; each says whether there was such an entry, and writes nothing where there was none. ---- */

static inline void tamburelvi_inner_pair(tamburelvi_pair_read read, tamburelvi_pair *pair) {
    tamburelvi_cid_bytes(read.hi, read.lo, pair->cid);
    pair->reading = read.reading;
    pair->universe = read.universe;
    pair->sequence = read.sequence;
}

/**
 * @brief The pair at a place of the data table, by ascending CID, then universe.
 * @param receiver The receiver.
 * @param at The place.
 * @param pair Gets the pair.
 * @return Whether there is one.
 */
static inline bool tamburelvi_receiver_data_pair(const tamburelvi_receiver *receiver, size_t at, tamburelvi_pair *pair) {
    if (tamburelvi_inner_fault(receiver) || !pair || at >= receiver->header.data_pairs) return false;
    tamburelvi_inner_pair(tamburelvi_data_pair(receiver->header, &receiver->memory.data_pairs, at), pair);
    return true;
}

/**
 * @brief The pair at a place of the synchronisation table, by ascending CID, then address.
 * @param receiver The receiver.
 * @param at The place.
 * @param pair Gets the pair; its universe is the address.
 * @return Whether there is one.
 */
static inline bool tamburelvi_receiver_sync_pair(const tamburelvi_receiver *receiver, size_t at, tamburelvi_pair *pair) {
    if (tamburelvi_inner_fault(receiver) || !pair || at >= receiver->header.sync_pairs) return false;
    tamburelvi_inner_pair(tamburelvi_sync_pair(receiver->header, &receiver->memory.sync_pairs, at), pair);
    return true;
}

/**
 * @brief The source at a place of the data table's list, ascending.
 * @param receiver The receiver.
 * @param at The place.
 * @param cid Gets the CID.
 * @return Whether there is one.
 */
static inline bool tamburelvi_receiver_data_source(const tamburelvi_receiver *receiver, size_t at, uint8_t cid[TAMBURELVI_CID]) {
    tamburelvi_cid_read read;
    if (tamburelvi_inner_fault(receiver) || !cid || at >= receiver->header.data_sources) return false;
    read = tamburelvi_data_source(receiver->header, &receiver->memory.data_sources, at);
    tamburelvi_cid_bytes(read.hi, read.lo, cid);
    return true;
}

/**
 * @brief The source at a place of the synchronisation table's list, ascending.
 * @param receiver The receiver.
 * @param at The place.
 * @param cid Gets the CID.
 * @return Whether there is one.
 */
static inline bool tamburelvi_receiver_sync_source(const tamburelvi_receiver *receiver, size_t at, uint8_t cid[TAMBURELVI_CID]) {
    tamburelvi_cid_read read;
    if (tamburelvi_inner_fault(receiver) || !cid || at >= receiver->header.sync_sources) return false;
    read = tamburelvi_sync_source(receiver->header, &receiver->memory.sync_sources, at);
    tamburelvi_cid_bytes(read.hi, read.lo, cid);
    return true;
}

/**
 * @brief The listened universe at a place, ascending.
 * @param receiver The receiver.
 * @param at The place.
 * @param universe Gets the universe.
 * @return Whether there is one.
 */
static inline bool tamburelvi_receiver_listened(const tamburelvi_receiver *receiver, size_t at, uint16_t *universe) {
    if (tamburelvi_inner_fault(receiver) || !universe || at >= receiver->header.listened) return false;
    *universe = tamburelvi_listened(receiver->header, &receiver->memory.heard, at);
    return true;
}

/**
 * @brief What waits at a place, by ascending universe, with its values.
 * @param receiver The receiver.
 * @param at The place.
 * @param record Gets the data. Its values stay in the receiver, and are good until the next call that changes it.
 * @return Whether there is any.
 */
static inline bool tamburelvi_receiver_waiting(const tamburelvi_receiver *receiver, size_t at, tamburelvi_record *record) {
    tamburelvi_dmx_read read;
    tamburelvi_part_read part;
    if (tamburelvi_inner_fault(receiver) || !record || at >= receiver->header.waiting) return false;
    read = tamburelvi_waiting(receiver->header, &receiver->memory.rows, at);
    part = tamburelvi_waiting_values(receiver->header, &receiver->memory.rows, at);
    if (part.start > TAMBURELVI_STORE || part.count > TAMBURELVI_STORE - part.start) return false;
    record->reading = read.reading;
    record->values = receiver->memory.store + part.start;
    record->values_length = part.count;
    record->universe = read.universe;
    record->address = read.address;
    record->priority = read.priority;
    record->preview = read.preview;
    record->has_cid = read.has_cid;
    tamburelvi_cid_bytes(read.hi, read.lo, record->cid);
    return true;
}

/**
 * @brief The discovered source at a place of its list; partial ones by their first page, listed ones by their listing.
 * @param receiver The receiver.
 * @param mark The list.
 * @param at The place in the list.
 * @param source Gets the source.
 * @return Whether there is one.
 */
static inline bool tamburelvi_receiver_source_at(
    const tamburelvi_receiver *receiver, enum tamburelvi_mark mark, size_t at, tamburelvi_source *source) {
    tamburelvi_source_read read;
    if (tamburelvi_inner_fault(receiver) || !source) return false;
    read = tamburelvi_source_at(receiver->header, &receiver->memory.sources, (uint64_t)mark, at);
    if (read.place >= receiver->header.sources || read.place >= 64 || read.name_length > TAMBURELVI_NAME) return false;
    tamburelvi_cid_bytes(read.hi, read.lo, source->cid);
    source->reading = read.reading;
    source->name = receiver->memory.names.row[read.place];
    source->name_length = (size_t)read.name_length;
    source->last_page = (uint8_t)read.last_page;
    source->mark = (uint8_t)mark;
    return true;
}

/**
 * @brief The page at a place among the pages of a discovered source, by ascending number.
 * @param receiver The receiver.
 * @param source The source, from tamburelvi_receiver_source_at.
 * @param at The place among its pages.
 * @param page Gets the page.
 * @return Whether there is one.
 */
static inline bool tamburelvi_receiver_page_at(
    const tamburelvi_receiver *receiver, const tamburelvi_source *source, size_t at, tamburelvi_source_page *page) {
    tamburelvi_page_read read;
    if (tamburelvi_inner_fault(receiver) || !source || !page) return false;
    read = tamburelvi_page_at(receiver->header, &receiver->memory.pages, source->mark, tamburelvi_cid_hi(source->cid),
        tamburelvi_cid_lo(source->cid), at);
    if (read.place >= receiver->header.pages) return false;
    if (read.start > TAMBURELVI_UNIVERSES || read.count > TAMBURELVI_UNIVERSES - read.start) return false;
    page->universes = receiver->memory.universes + read.start;
    page->universes_length = (size_t)read.count;
    page->number = (uint8_t)read.number;
    return true;
}

#ifdef __cplusplus
}
#endif

#endif
