/* The radio schedule of a growing house, and the subrate messages of HCI, for C and C++.
 *
 * Link crates/door/out/libdoor.a, which c/run builds; of a libc it needs memcpy and memset, and nothing else. x86-64 Linux only.
 *
 * Every number and every byte that a call is given is answered by the rule sheet, those of a message by what the Core Specification allows.
 * What the caller must keep to, as nothing checks it:
 *  - this header and the archive are of one release: a call may take other numbers in another, and a linker does not look;
 *  - a struct beak is all zeros, or what beak_fresh gave, or what a call of this release left, or a copy of such a one: nobody else writes its bytes, and
 *    over an update it goes as an image, saved before and loaded after;
 *  - one call at a time on a struct beak: no other thread reads or writes it meanwhile;
 *  - as long as a call runs, its image, reports or message can be read and its buffer, answers or moves written, and none overlaps another or the schedule;
 *  - to an export itself the pointer of what is lent is not null, even for nothing: the functions around the exports see to that.
 */
#ifndef BEAK_H
#define BEAK_H
#include <stddef.h>
#include <stdint.h>

#ifdef __cplusplus
#define BEAK_HOLDS(fact) static_assert(fact, "what the archive was built for")
#define BEAK_ALIGNMENT(type) alignof(type)
extern "C" {
#else
#define BEAK_HOLDS(fact) _Static_assert(fact, "what the archive was built for")
#define BEAK_ALIGNMENT(type) _Alignof(type)
#endif

/* A schedule. All zeros is a fresh one, so that a static struct beak needs no start. */
struct beak {
    uint32_t opaque[288];
};

/* What a call says: its kind, and the kind's values in the order in which they stand here; the others are 0. Of a message that was read they are all 0:
 * its values stand in struct beak_read. */
enum beak_kind {
    BEAK_REFUSED = 1,   /* the refusal's number */
    BEAK_PLACED = 2,    /* factor, anchor, length */
    BEAK_DROPPED = 3,
    BEAK_KEPT = 4,      /* length */
    BEAK_GROWN = 5,     /* length */
    BEAK_SHRUNK = 6,    /* length */
    BEAK_TIGHT = 7,     /* length */
    BEAK_OWNER = 8,     /* handle */
    BEAK_IDLE = 9,
    BEAK_SLOTS = 10,    /* slots */
    BEAK_SAVED = 11,    /* size of the image in bytes */
    BEAK_LOADED = 12,   /* connections of the image */
    BEAK_REPORTED = 13, /* how many reports were made */
    BEAK_DEFAULT = 14,
    BEAK_REQUEST = 15,
    BEAK_CHANGE = 16,
    BEAK_WROTE = 17,    /* size of the message in bytes */
    BEAK_TIDIED = 18    /* how many anchors differ */
};
struct beak_said {
    uint32_t kind, first, second, third;
};

/* The least connection interval, in slots: the smallest of a host that names one interval. */
#define BEAK_LEAST_INTERVAL 6u

/* A report of a list: whose, and the microseconds that it used in its last run. */
struct beak_sample {
    uint32_t handle, sample;
};

/* An entry of a tidy: whose anchor differs, and where it was and is. */
struct beak_move {
    uint32_t handle, old_anchor, new_anchor;
};

/* The values of a subrate command, timeout in units of 10 ms. Allowed are 1 <= min <= max, max * (latency + 1) <= 500, continuation < max and
 * 10 <= timeout <= 3200, and of a request handle <= 3839; that max ends at 500 and latency and continuation at 499 follows. */
struct beak_subrates {
    uint16_t min, max, latency, continuation, timeout;
};

/* The values of a subrate change event. Of status 0 the same is allowed as of a request, with factor for min and max; of another status everything. */
struct beak_change {
    uint8_t status;
    uint16_t handle, factor, latency, continuation, timeout;
};

/* What was read: DEFAULT has subrates, REQUEST handle and subrates, CHANGE change, and REFUSED its number in said. What it does not have is 0. */
struct beak_read {
    struct beak_said said;
    uint16_t handle;
    struct beak_subrates subrates;
    struct beak_change change;
};

/* ---- what the archive has: a schedule by value, and the one that the call leaves beside what it says */
struct beak_called {
    struct beak_said said;
    struct beak schedule;
};

BEAK_HOLDS(sizeof(size_t) == 8 && sizeof(void *) == 8);
BEAK_HOLDS(sizeof(struct beak) == 1152 && BEAK_ALIGNMENT(struct beak) == 4);
BEAK_HOLDS(sizeof(struct beak_said) == 16 && BEAK_ALIGNMENT(struct beak_said) == 4);
BEAK_HOLDS(sizeof(struct beak_sample) == 8 && BEAK_ALIGNMENT(struct beak_sample) == 4);
BEAK_HOLDS(sizeof(struct beak_move) == 12 && BEAK_ALIGNMENT(struct beak_move) == 4);
BEAK_HOLDS(sizeof(struct beak_called) == 1168 && offsetof(struct beak_called, schedule) == 16);
BEAK_HOLDS(sizeof(struct beak_subrates) == 10 && BEAK_ALIGNMENT(struct beak_subrates) == 2);
BEAK_HOLDS(sizeof(struct beak_change) == 12 && BEAK_ALIGNMENT(struct beak_change) == 2 && offsetof(struct beak_change, handle) == 2);
BEAK_HOLDS(sizeof(struct beak_read) == 40 && BEAK_ALIGNMENT(struct beak_read) == 4 && offsetof(struct beak_read, handle) == 16);
BEAK_HOLDS(offsetof(struct beak_read, subrates) == 18 && offsetof(struct beak_read, change) == 28);

struct beak beak_fresh(void);
struct beak_called beak_admitted(struct beak s, uint32_t handle, uint32_t smallest, uint32_t largest, uint32_t floor, uint32_t ceiling);
struct beak_called beak_dropped(struct beak s, uint32_t handle);
struct beak_called beak_reported(struct beak s, uint32_t handle, uint32_t sample);
/* the numbers are handle, sample, handle, sample, and so many of them; a last odd one is none */
struct beak_called beak_reported_all(struct beak s, const uint32_t *numbers, size_t count, uint32_t *answers, size_t entries);
/* the numbers are handle, old anchor, new anchor, handle, and so many of them; a last one or two belong to no entry */
struct beak_called beak_tidied(struct beak s, uint32_t *numbers, size_t count);
struct beak_called beak_loaded(struct beak s, const uint8_t *bytes, size_t size);
struct beak_said beak_saved(struct beak s, uint8_t *buffer, size_t room);
struct beak_said beak_owned(struct beak s, uint32_t block);
struct beak_said beak_anchored(struct beak s, uint32_t handle, uint32_t block);
/* of a message, with no schedule */
struct beak_read beak_message_read(const uint8_t *bytes, size_t size);
struct beak_said beak_default_written(struct beak_subrates v, uint8_t *buffer, size_t room);
struct beak_said beak_request_written(uint16_t handle, struct beak_subrates v, uint8_t *buffer, size_t room);
struct beak_said beak_change_written(struct beak_change e, uint8_t *buffer, size_t room);

/* ---- the calls, on a schedule behind a pointer; a refused one leaves it as it was */
/* Start anew, with no connection. It has no answer. */
static inline void beak_start(struct beak *s) {
    *s = beak_fresh();
}

/* Admit a connection with a smallest and a largest interval in slots: PLACED, by the largest 6 * 2^k, k to 8, that is not above the largest and not below
 * the smallest. Refused, in this order: 1 handle above 63, 2 handle live, 4 either bound outside 6 to 3,200 or smallest above largest, 15 no such interval
 * in the range, 5 floor or ceiling wrong, 20 twice the ceiling above the factor (always so with a factor of 1), 6 no open anchor. */
static inline struct beak_said beak_admit(struct beak *s, uint32_t handle, uint32_t smallest, uint32_t largest, uint32_t floor, uint32_t ceiling) {
    struct beak_called r = beak_admitted(*s, handle, smallest, largest, floor, ceiling);
    *s = r.schedule;
    return r.said;
}

/* Drop a connection: DROPPED. Refused: 1 handle above 63, 3 handle not live. */
static inline struct beak_said beak_drop(struct beak *s, uint32_t handle) {
    struct beak_called r = beak_dropped(*s, handle);
    *s = r.schedule;
    return r.said;
}

/* Report the microseconds used in the last run: KEPT, GROWN, SHRUNK or TIGHT. Refused: 1 handle above 63, 3 handle not live, 7 sample above the run. */
static inline struct beak_said beak_report(struct beak *s, uint32_t handle, uint32_t sample) {
    struct beak_called r = beak_reported(*s, handle, sample);
    *s = r.schedule;
    return r.said;
}

/* Make these reports one after the other, each with its answer as an entry: REPORTED. Entries past the reports stay as they were. Refused, before
 * any report: 13 more than 64 reports, 14 fewer entries than reports. Of more than 65 the first 65 are handed on, which is refused the same. */
static inline struct beak_said beak_report_all(struct beak *s, const struct beak_sample *reports, size_t count, uint32_t *answers, size_t entries) {
    const uint32_t no_number = 0;
    uint32_t no_entry = 0;
    size_t first = count < 65 ? count : 65;
    struct beak_called r = beak_reported_all(*s, first != 0 ? &reports->handle : &no_number, 2 * first, entries != 0 ? answers : &no_entry, entries);
    *s = r.schedule;
    return r.said;
}

/* What a report of the list says, by its entry: the refusal's number, or 65,536 (KEPT), 131,072 (GROWN), 196,608 (SHRUNK) or 262,144 (TIGHT) plus
 * the length. Kind 0, which is no answer, of 0 and of 327,680 and above: no report has such an entry. */
static inline struct beak_said beak_entry(uint32_t entry) {
    struct beak_said r = {0, 0, 0, 0};
    if (entry == 0 || entry >= 327680) return r;
    r.kind = entry < 65536 ? (uint32_t)BEAK_REFUSED : BEAK_KEPT - 1 + entry / 65536;
    r.first = entry % 65536;
    return r;
}

/* As beak_tidy below, for who lends numbers: three an entry; one or two left over at their end stay as they were. */
static inline struct beak_said beak_tidy_numbers(struct beak *s, uint32_t *numbers, size_t count) {
    uint32_t no_number = 0;
    struct beak_called r = beak_tidied(*s, count != 0 ? numbers : &no_number, count);
    *s = r.schedule;
    return r.said;
}

/* Tidy: place the connections anew on an empty schedule, by rising factor, equal factors by rising handle, each where an admission goes, with its present
 * length for the floor: TIDIED. Nothing but anchors changes. Each whose anchor differs has an entry, by rising handle; entries past them stay as they were.
 * Refused, in this order: 19 some connection finds no anchor, 14 fewer entries than anchors that differ. Of more than 64 entries the first 64 are handed
 * on, as there are no more handles. */
static inline struct beak_said beak_tidy(struct beak *s, struct beak_move *moves, size_t entries) {
    size_t first = entries < 64 ? entries : 64;
    return beak_tidy_numbers(s, first != 0 ? &moves->handle : NULL, 3 * first);
}

/* Load an image in place of the schedule: LOADED. Refused, in this order: 9 records wrong, 10 numbers not sound, 18 a factor of 512 and everything
 * else of its records sound, 11 a block owned twice, 12 tree bytes wrong. A house whose image gets 18 is joined afresh: start anew and admit its
 * loggers again. A connection of an older image may have a ceiling of more than half its factor, which no admission gives: it stays, and may grow to it. */
static inline struct beak_said beak_load(struct beak *s, const uint8_t *bytes, size_t size) {
    const uint8_t none = 0;
    struct beak_called r = beak_loaded(*s, size != 0 ? bytes : &none, size);
    *s = r.schedule;
    return r.said;
}

/* Save the image from the buffer's start, at most 1,290 bytes: SAVED. Refused: 8 buffer shorter than the image. */
static inline struct beak_said beak_save(const struct beak *s, uint8_t *buffer, size_t room) {
    uint8_t none = 0;
    return beak_saved(*s, room != 0 ? buffer : &none, room);
}

/* Whose block it is: OWNER or IDLE. Never refused. */
static inline struct beak_said beak_owner(const struct beak *s, uint32_t block) {
    return beak_owned(*s, block);
}

/* Slots from the start of the block to the connection's next anchor: SLOTS. Refused: 1 handle above 63, 3 handle not live. */
static inline struct beak_said beak_anchor(const struct beak *s, uint32_t handle, uint32_t block) {
    return beak_anchored(*s, handle, block);
}

/* ---- the calls on a message, with no schedule. It begins at its opcode or event code. Bytes past what is written stay as they were, and all bytes if
 * the call is refused */
/* Read a message, which is all of these bytes: DEFAULT, REQUEST or CHANGE. Refused, in this order: 16 wrong code or size, such as a byte past the
 * message, 17 values that the Core Specification forbids. */
static inline struct beak_read beak_read_message(const uint8_t *bytes, size_t size) {
    const uint8_t none = 0;
    return beak_message_read(size != 0 ? bytes : &none, size);
}

/* Write a default-subrate command from the buffer's start, 13 bytes: WROTE. Refused: 17 values forbidden, then 8 buffer shorter than the message. */
static inline struct beak_said beak_write_default(struct beak_subrates v, uint8_t *buffer, size_t room) {
    uint8_t none = 0;
    return beak_default_written(v, room != 0 ? buffer : &none, room);
}

/* Write a subrate request command from the buffer's start, 15 bytes: WROTE. Refused: 17 values forbidden, then 8 buffer shorter than the message. */
static inline struct beak_said beak_write_request(uint16_t handle, struct beak_subrates v, uint8_t *buffer, size_t room) {
    uint8_t none = 0;
    return beak_request_written(handle, v, room != 0 ? buffer : &none, room);
}

/* Write a subrate change event from the buffer's start, 14 bytes: WROTE. Refused: 17 values forbidden, then 8 buffer shorter than the message. */
static inline struct beak_said beak_write_change(struct beak_change e, uint8_t *buffer, size_t room) {
    uint8_t none = 0;
    return beak_change_written(e, room != 0 ? buffer : &none, room);
}

#ifdef __cplusplus
}
#endif
#undef BEAK_HOLDS
#undef BEAK_ALIGNMENT
#endif
