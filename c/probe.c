/* The probe's script language (docs/PROBE.md) over beak.h, so that tests/differential holds what a C program gets against the peer.
 * With -DBEAK_COUNTED each call stands between two marks, as bench/run counts them. */
#include <stdbool.h>
#include <stdio.h>
#include <string.h>
#include "beak.h"

enum { LONGEST_SCRIPT = 65536, LARGEST_BUFFER = 2048, LONGEST_LIST = 128, MOST_NUMBERS = 400, CONNECTION_KIND = 2 };

static struct beak s; /* static, so all zeros: fresh */
static char script[LONGEST_SCRIPT + 1];
static uint8_t bytes[LONGEST_SCRIPT / 2];
static struct beak_sample list[LONGEST_LIST];
static uint32_t lent[MOST_NUMBERS];

#ifdef BEAK_COUNTED
#include <unistd.h>
static void mark(void) { (void)!write(1, "", 0); }
#else
static void mark(void) {}
#endif

/* ---- reading a line */

/* What is left of a line. */
struct rest {
    const char *at, *end;
};

static bool ends(struct rest r) { return r.at == r.end; }

/* Whether the line goes on with this word, which is then passed. */
static bool passes(struct rest *r, const char *word) {
    size_t size = strlen(word);
    if ((size_t)(r->end - r->at) < size || memcmp(r->at, word, size) != 0) return false;
    r->at += size;
    return true;
}

/* A decimal number with no leading zero, at most 2^32 - 1. */
static bool number(struct rest *r, uint32_t *n) {
    const char *start = r->at;
    uint64_t value = 0;
    while (!ends(*r) && *r->at >= '0' && *r->at <= '9' && value <= UINT32_MAX) value = value * 10 + (uint64_t)(*r->at++ - '0');
    *n = (uint32_t)value;
    return r->at != start && value <= UINT32_MAX && (*start != '0' || r->at - start == 1);
}

/* A number after one space. */
static bool spaced(struct rest *r, uint32_t *n) { return passes(r, " ") && number(r, n); }

/* Numbers to the line's end, one space before each: how many, or -1 where there is something else or more than the most. */
static int row(struct rest r, int most, uint32_t *n) {
    int count = 0;
    for (; !ends(r); count++)
        if (count == most || !spaced(&r, &n[count])) return -1;
    return count;
}

/* So many numbers, and no other count. */
static bool numbers(struct rest r, int count, uint32_t *n) { return row(r, count, n) == count; }

static int nibble(char c) {
    if (c >= '0' && c <= '9') return c - '0';
    return c >= 'a' && c <= 'f' ? c - 'a' + 10 : -1;
}

/* One pair of hexadecimal digits at least, into the bytes; or none. */
static size_t pairs(struct rest r) {
    size_t size = 0;
    for (; r.end - r.at >= 2; r.at += 2) {
        int high = nibble(r.at[0]), low = nibble(r.at[1]);
        if (high < 0 || low < 0) return 0;
        bytes[size++] = (uint8_t)(16 * high + low);
    }
    return ends(r) ? size : 0;
}

/* No bytes at the line's end, or a space and pairs. */
static bool some_bytes(struct rest r, size_t *size) {
    *size = 0;
    if (ends(r)) return true;
    if (passes(&r, " ")) *size = pairs(r);
    return *size != 0;
}

/* The room of a buffer, and then so many numbers of two bytes. */
static bool room_and_values(struct rest r, int count, uint32_t *n) {
    if (!numbers(r, 1 + count, n) || n[0] > LARGEST_BUFFER) return false;
    while (count > 0 && n[count] <= UINT16_MAX) count--;
    return count == 0;
}

static struct beak_subrates subrates(const uint32_t *n) {
    struct beak_subrates v = {(uint16_t)n[0], (uint16_t)n[1], (uint16_t)n[2], (uint16_t)n[3], (uint16_t)n[4]};
    return v;
}

static struct beak_change change(const uint32_t *n) {
    struct beak_change e = {(uint8_t)n[0], (uint16_t)n[1], (uint16_t)n[2], (uint16_t)n[3], (uint16_t)n[4], (uint16_t)n[5]};
    return e;
}

/* ---- printing an answer */

static void print_bytes(size_t count) {
    for (size_t i = 0; i < count; i++) printf("%02x", bytes[i]);
}

static const char *word(uint32_t kind) {
    switch (kind) {
    case BEAK_REFUSED: return "no";
    case BEAK_PLACED:
    case BEAK_DROPPED: return "ok";
    case BEAK_KEPT: return "kept";
    case BEAK_GROWN: return "grown";
    case BEAK_SHRUNK: return "shrunk";
    case BEAK_TIGHT: return "tight";
    case BEAK_OWNER: return "owner";
    case BEAK_IDLE: return "idle";
    case BEAK_SLOTS: return "slots";
    case BEAK_SAVED: return "saved";
    case BEAK_LOADED: return "loaded";
    case BEAK_REPORTED: return "reported";
    case BEAK_DEFAULT: return "default";
    case BEAK_REQUEST: return "request";
    case BEAK_CHANGE: return "change";
    case BEAK_WROTE: return "wrote";
    case BEAK_TIDIED: return "tidied";
    }
    return "?";
}

static void print(struct beak_said r) {
    printf("%s", word(r.kind));
    if (r.kind == BEAK_PLACED)
        printf(" %u %u %u", r.first, r.second, r.third);
    else if (r.kind != BEAK_DROPPED && r.kind != BEAK_IDLE)
        printf(" %u", r.first);
}

/* An answer, and the whole buffer that the call was lent. */
static void print_lent(struct beak_said r, size_t room) {
    print(r);
    if (room != 0) printf(" ");
    print_bytes(room);
}

/* An answer, and the whole list of numbers that the call was lent. */
static void print_listed(struct beak_said r, uint32_t count) {
    print(r);
    for (uint32_t i = 0; i < count; i++) printf(" %u", lent[i]);
}

static void print_subrates(struct beak_subrates v) { printf(" %u %u %u %u %u", v.min, v.max, v.latency, v.continuation, v.timeout); }

static void print_change(struct beak_change e) {
    printf(" %u %u %u %u %u %u", e.status, e.handle, e.factor, e.latency, e.continuation, e.timeout);
}

static void print_message(struct beak_read r) {
    printf("%s", word(r.said.kind));
    if (r.said.kind == BEAK_REQUEST) printf(" %u", r.handle);
    if (r.said.kind == BEAK_CHANGE)
        print_change(r.change);
    else
        print_subrates(r.subrates);
}

static uint32_t little(const uint8_t *b, int width) { return width == 0 ? 0 : b[0] + (little(b + 1, width - 1) << 8); }

static void print_connection(const uint8_t *b) {
    printf("%u %u %u %u %u %u %u\n", b[0], b[1], little(b + 2, 2), little(b + 4, 2), little(b + 6, 2), little(b + 8, 2), little(b + 10, 4));
}

/* The connections, from the image: a record is its length, its kind, and so many bytes. */
static void print_state(void) {
    const uint8_t *b = bytes, *end = bytes + beak_save(&s, bytes, sizeof bytes).first;
    for (; b < end; b += 4 + little(b, 2))
        if (little(b + 2, 2) == CONNECTION_KIND) print_connection(b + 4);
    printf("end");
}

/* ---- a line: each takes what follows its word, and says whether it was one */

static bool command(struct rest r) {
    uint32_t n[5];
    struct beak_said said;
    if (passes(&r, "admit")) {
        int count = row(r, 5, n);
        if (count != 4 && count != 5) return false;
        uint32_t smallest = count == 5 ? n[1] : BEAK_LEAST_INTERVAL;
        const uint32_t *last = n + count - 3; /* largest, floor, ceiling */
        mark();
        said = beak_admit(&s, n[0], smallest, last[0], last[1], last[2]);
    } else if (passes(&r, "drop")) {
        if (!numbers(r, 1, n)) return false;
        mark();
        said = beak_drop(&s, n[0]);
    } else if (passes(&r, "report")) {
        if (!numbers(r, 2, n)) return false;
        mark();
        said = beak_report(&s, n[0], n[1]);
    } else if (passes(&r, "owner")) {
        if (!numbers(r, 1, n)) return false;
        mark();
        said = beak_owner(&s, n[0]);
    } else if (passes(&r, "anchor")) {
        if (!numbers(r, 2, n)) return false;
        mark();
        said = beak_anchor(&s, n[0], n[1]);
    } else
        return false;
    mark();
    print(said);
    return true;
}

static bool save(struct rest r) {
    uint32_t room;
    if (ends(r)) {
        struct beak_said said = beak_save(&s, bytes, sizeof bytes);
        printf("image ");
        print_bytes(said.first);
        return true;
    }
    if (!numbers(r, 1, &room) || room > LARGEST_BUFFER) return false;
    memset(bytes, 0xA5, room);
    mark();
    struct beak_said said = beak_save(&s, bytes, room);
    mark();
    print_lent(said, room);
    return true;
}

static bool load(struct rest r) {
    size_t size;
    if (!some_bytes(r, &size)) return false;
    mark();
    struct beak_said said = beak_load(&s, bytes, size);
    mark();
    print(said);
    return true;
}

static bool reports(struct rest r) {
    uint32_t room;
    size_t count = 0;
    if (!spaced(&r, &room) || room > LONGEST_LIST) return false;
    for (; !ends(r); count++)
        if (count == LONGEST_LIST || !spaced(&r, &list[count].handle) || !spaced(&r, &list[count].sample)) return false;
    memset(lent, 0xA5, sizeof lent);
    mark();
    struct beak_said said = beak_report_all(&s, list, count, lent, room);
    mark();
    print_listed(said, room);
    return true;
}

static bool tidy(struct rest r) {
    uint32_t count;
    if (!numbers(r, 1, &count) || count > MOST_NUMBERS) return false;
    memset(lent, 0xA5, sizeof lent);
    mark();
    struct beak_said said = beak_tidy_numbers(&s, lent, count);
    mark();
    print_listed(said, count);
    return true;
}

static bool message(struct rest r) {
    size_t size;
    if (!some_bytes(r, &size)) return false;
    mark();
    struct beak_read was = beak_read_message(bytes, size);
    mark();
    if (was.said.kind == BEAK_REFUSED)
        print(was.said);
    else
        print_message(was);
    return true;
}

static bool write_default(struct rest r) {
    uint32_t n[6];
    if (!room_and_values(r, 5, n)) return false;
    struct beak_subrates v = subrates(n + 1);
    memset(bytes, 0xA5, n[0]);
    mark();
    struct beak_said said = beak_write_default(v, bytes, n[0]);
    mark();
    print_lent(said, n[0]);
    return true;
}

static bool write_request(struct rest r) {
    uint32_t n[7];
    if (!room_and_values(r, 6, n)) return false;
    struct beak_subrates v = subrates(n + 2);
    memset(bytes, 0xA5, n[0]);
    mark();
    struct beak_said said = beak_write_request((uint16_t)n[1], v, bytes, n[0]);
    mark();
    print_lent(said, n[0]);
    return true;
}

static bool write_change(struct rest r) {
    uint32_t n[7];
    if (!room_and_values(r, 6, n) || n[1] > UINT8_MAX) return false;
    struct beak_change e = change(n + 1);
    memset(bytes, 0xA5, n[0]);
    mark();
    struct beak_said said = beak_write_change(e, bytes, n[0]);
    mark();
    print_lent(said, n[0]);
    return true;
}

static bool line(struct rest r) {
    if (passes(&r, "save")) return save(r);
    if (passes(&r, "load")) return load(r);
    if (passes(&r, "reports")) return reports(r);
    if (passes(&r, "tidy")) return tidy(r);
    if (passes(&r, "message")) return message(r);
    if (passes(&r, "default")) return write_default(r);
    if (passes(&r, "request")) return write_request(r);
    if (passes(&r, "change")) return write_change(r);
    if (passes(&r, "state")) {
        if (ends(r)) print_state();
        return ends(r);
    }
    if (passes(&r, "fresh")) {
        if (!ends(r)) return false;
        beak_start(&s);
        printf("ok");
        return true;
    }
    return command(r);
}

int main(void) {
    size_t size = fread(script, 1, sizeof script, stdin);
    if (size > LONGEST_SCRIPT) {
        puts("long");
        return 0;
    }
    struct rest r = {script, script + size};
    while (!ends(r)) {
        const char *next = (const char *)memchr(r.at, '\n', (size_t)(r.end - r.at));
        struct rest here = {r.at, next};
        if (next == NULL || !line(here)) {
            mark();
            mark();
            printf("bad");
        }
        printf("\n");
        r.at = next != NULL ? next + 1 : r.end;
    }
    return 0;
}
