// The same algorithms in C, as an engineer would write them there: the schedule behind a pointer, changed in place.
// It performs the same scripts as crates/bench, each call between two marks, and prints the same answers.
#include <stdbool.h>
#include <stddef.h>
#include <stdint.h>
#include <stdio.h>
#include <string.h>
#include <unistd.h>

struct connection {
    bool live;
    uint8_t k;
    uint16_t anchor, length, floor, ceiling;
    uint32_t estimate;
};

struct schedule {
    struct connection connections[64];
    uint8_t tree[128];
};

struct placed {
    uint16_t factor, anchor, length;
};

// ---- the tree

static uint32_t mirror(uint32_t k, uint32_t p) {
    p = (p & 0x00ff) << 8 | (p >> 8 & 0x00ff);
    p = (p & 0x0f0f) << 4 | (p >> 4 & 0x0f0f);
    p = (p & 0x3333) << 2 | (p >> 2 & 0x3333);
    p = (p & 0x5555) << 1 | (p >> 1 & 0x5555);
    return p >> (16 - k);
}

static uint32_t node(uint32_t k, uint32_t r) { return 1u << k | mirror(k, r); }

static bool is_set(const uint8_t *tree, uint32_t n) { return tree[n >> 3] >> (n & 7) & 1; }

static void write_node(uint8_t *tree, uint32_t n, bool taken) {
    uint8_t bit = 1u << (n & 7);
    uint8_t wanted = (unsigned)taken << (n & 7);
    tree[n >> 3] = (tree[n >> 3] & ~bit) | wanted;
}

static void write_below(uint8_t *tree, uint32_t n, uint32_t left, bool taken) {
    write_node(tree, n, taken);
    if (left > 0) {
        write_below(tree, 2 * n, left - 1, taken);
        write_below(tree, 2 * n + 1, left - 1, taken);
    }
}

static void join_above(uint8_t *tree, uint32_t n) {
    while (n > 1) {
        n >>= 1;
        bool either = is_set(tree, 2 * n) || is_set(tree, 2 * n + 1);
        if (is_set(tree, n) == either) return;
        write_node(tree, n, either);
    }
}

static void write_class(uint8_t *tree, uint32_t k, uint32_t r, bool taken) {
    uint32_t n = node(k, r);
    write_below(tree, n, 9 - k, taken);
    join_above(tree, n);
}

// ---- the run

static uint32_t class_at(uint32_t k, uint32_t anchor, uint32_t j) { return (anchor + j) & ((1u << k) - 1); }

static void set_run(uint8_t *tree, uint32_t k, uint32_t anchor, uint32_t from, uint32_t to, bool taken) {
    for (uint32_t j = from; j < to; j++) write_class(tree, k, class_at(k, anchor, j), taken);
}

// ---- admit

enum { LEAST_INTERVAL = 6 };

static int k_of(uint32_t slots) {
    if (slots < LEAST_INTERVAL || slots > 3200) return -1;
    int k = 0;
    while (k < 8 && 6u << (k + 1) <= slots) k++;
    return k;
}

static int first_by_blocks(const uint8_t *tree, uint32_t k, uint32_t floor) {
    uint32_t f = 1u << k;
    for (uint32_t p = 0; p < f; p++) {
        if (is_set(tree, f + p)) continue;
        uint32_t a = mirror(k, p), j = 1;
        while (j < floor && !is_set(tree, node(k, class_at(k, a, j)))) j++;
        if (j >= floor) return a;
    }
    return -1;
}

static void list_anchors(uint32_t k, uint16_t *anchors) {
    uint32_t highest = 1u << k >> 1;
    anchors[0] = 0;
    for (uint32_t p = 0; p < highest; p++) {
        uint16_t half = anchors[p] >> 1;
        anchors[2 * p] = half;
        anchors[2 * p + 1] = half + highest;
    }
}

static int search(const uint16_t *room, const uint16_t *anchors, uint32_t k, uint32_t floor) {
    for (uint32_t p = 0; p < 1u << k; p++) {
        uint32_t j = room[anchors[p]], free;
        if (j == 0) continue;
        while (j < floor && (free = room[class_at(k, anchors[p], j)]) > 0) j += free;
        if (j >= floor) return anchors[p];
    }
    return -1;
}

static int search_row(const uint16_t *row, const uint16_t *anchors, uint32_t k, uint32_t floor) {
    uint16_t room[256];
    if (floor <= 16) return search(row, anchors, k, floor);
    for (uint32_t c = 1u << k, free = 0; c-- > 0;) {
        free = row[c] == 0 ? 0 : free + 1;
        room[c] = free;
    }
    return search(room, anchors, k, floor);
}

static int first_by_stretches(const uint8_t *tree, uint32_t k, uint32_t floor) {
    uint16_t anchors[256], room[256];
    uint32_t f = 1u << k;
    list_anchors(k, anchors);
    for (uint32_t c = f, free = 0; c-- > 0;) {
        free = is_set(tree, f + anchors[c]) ? 0 : free + 1;
        room[c] = free;
    }
    return search(room, anchors, k, floor);
}

static int place(const uint8_t *tree, uint32_t k, uint32_t floor) {
    return floor <= 2 ? first_by_blocks(tree, k, floor) : first_by_stretches(tree, k, floor);
}

__attribute__((noinline)) static int admit(struct schedule *s, uint32_t handle, uint32_t smallest, uint32_t largest, uint32_t floor, uint32_t ceiling, struct placed *out) {
    if (handle > 63) return 1;
    struct connection *c = &s->connections[handle];
    if (c->live) return 2;
    int k = k_of(largest);
    if (k < 0 || smallest < LEAST_INTERVAL || largest < smallest) return 4;
    uint32_t f = 1u << k;
    if (6 * f < smallest) return 15;
    if (floor == 0 || ceiling < floor || f < ceiling) return 5;
    if (f / 2 < ceiling) return 20;
    int anchor = place(s->tree, k, floor);
    if (anchor < 0) return 6;
    set_run(s->tree, k, anchor, 0, floor, true);
    *c = (struct connection){true, k, anchor, floor, floor, ceiling, floor * 7500 - 2500};
    *out = (struct placed){f, anchor, floor};
    return 0;
}

// ---- drop, report

__attribute__((noinline)) static int drop(struct schedule *s, uint32_t handle) {
    if (handle > 63) return 1;
    struct connection *c = &s->connections[handle];
    if (!c->live) return 3;
    set_run(s->tree, c->k, c->anchor, 0, c->length, false);
    memset(c, 0, sizeof *c);
    return 0;
}

enum settled { KEPT, GROWN, SHRUNK, TIGHT };

static uint32_t moved(uint32_t estimate, uint32_t sample) {
    if (estimate <= sample) return estimate + (sample - estimate) / 8;
    return estimate - ((estimate - sample - 1) / 8 + 1);
}

static uint32_t target(uint32_t need, uint32_t floor, uint32_t ceiling) {
    if (need < floor) need = floor;
    return need < ceiling ? need : ceiling;
}

__attribute__((noinline)) static int report(struct schedule *s, uint32_t handle, uint32_t sample, enum settled *out) {
    if (handle > 63) return 1;
    struct connection *c = &s->connections[handle];
    if (!c->live) return 3;
    if (c->length * 7500u < sample) return 7;
    c->estimate = moved(c->estimate, sample);
    uint32_t aim = target((c->estimate + 2500 + 7499) / 7500, c->floor, c->ceiling);
    if (aim == c->length) {
        *out = KEPT;
    } else if (aim < c->length) {
        set_run(s->tree, c->k, c->anchor, aim, c->length, false);
        c->length = aim;
        *out = SHRUNK;
    } else if (!is_set(s->tree, node(c->k, class_at(c->k, c->anchor, c->length)))) {
        set_run(s->tree, c->k, c->anchor, c->length, c->length + 1, true);
        c->length++;
        *out = GROWN;
    } else {
        *out = TIGHT;
    }
    return 0;
}

// ---- the list of reports

enum { MOST_REPORTS = 64 };

struct report {
    uint32_t handle, sample;
};

__attribute__((noinline)) static int report_all(struct schedule *s, const struct report *reports, size_t count, uint32_t *answers, size_t entries) {
    if (count > MOST_REPORTS) return 13;
    if (entries < count) return 14;
    for (size_t i = 0; i < count; i++) {
        enum settled how;
        int no = report(s, reports[i].handle, reports[i].sample, &how);
        answers[i] = no != 0 ? (uint32_t)no : 65536u * (how + 1) + s->connections[reports[i].handle].length;
    }
    return 0;
}

// ---- tidy

enum { MOVE_WIDTH = 3 };

struct move {
    uint32_t handle, old, new;
};

// The row has a 1 for each class that is free.
static bool arrange_depth(const struct schedule *s, struct schedule *new, uint32_t k, uint16_t *room) {
    uint16_t anchors[256];
    uint32_t half = 1u << k >> 1;
    list_anchors(k, anchors);
    for (uint32_t c = 0; c < half; c++) room[half + c] = room[c];
    for (int h = 0; h < 64; h++) {
        struct connection c = s->connections[h];
        if (!c.live || c.k != k) continue;
        int anchor = search_row(room, anchors, k, c.length);
        if (anchor < 0) return false;
        for (uint32_t j = 0; j < c.length; j++) room[class_at(k, anchor, j)] = 0;
        set_run(new->tree, k, anchor, 0, c.length, true);
        c.anchor = anchor;
        new->connections[h] = c;
    }
    return true;
}

static bool has_moved(const struct schedule *s, const struct schedule *new, int h) {
    return s->connections[h].live && s->connections[h].anchor != new->connections[h].anchor;
}

__attribute__((noinline)) static int tidy(struct schedule *s, struct move *moves, size_t entries, uint32_t *count) {
    struct schedule new;
    uint16_t room[256];
    memset(&new, 0, sizeof new);
    room[0] = 1;
    for (uint32_t k = 0; k <= 8; k++)
        if (!arrange_depth(s, &new, k, room)) return 19;
    *count = 0;
    for (int h = 0; h < 64; h++) *count += has_moved(s, &new, h);
    if (entries < *count) return 14;
    for (int h = 0; h < 64; h++)
        if (has_moved(s, &new, h)) *moves++ = (struct move){h, s->connections[h].anchor, new.connections[h].anchor};
    *s = new;
    return 0;
}

// ---- owner, anchor

static uint32_t minus_mod(uint32_t k, uint32_t a, uint32_t b) { return (a - b) & ((1u << k) - 1); }

__attribute__((noinline)) static int owner(const struct schedule *s, uint32_t block) {
    if (!is_set(s->tree, node(9, block & 511))) return -1;
    for (int h = 0; h < 64; h++) {
        const struct connection *c = &s->connections[h];
        if (c->live && minus_mod(c->k, block, c->anchor) < c->length) return h;
    }
    return -1;
}

__attribute__((noinline)) static int anchor(const struct schedule *s, uint32_t handle, uint32_t block, uint32_t *slots) {
    if (handle > 63) return 1;
    const struct connection *c = &s->connections[handle];
    if (!c->live) return 3;
    *slots = 6 * minus_mod(c->k, c->anchor, block);
    return 0;
}

// ---- save, load

static uint32_t number(const uint8_t *bytes, uint32_t width) {
    uint32_t n = 0;
    while (width > 0) n = n << 8 | bytes[--width];
    return n;
}

static uint8_t *put(uint8_t *at, uint32_t width, uint32_t n) {
    for (; width > 0; width--, n >>= 8) *at++ = n;
    return at;
}

__attribute__((noinline)) static int save(const struct schedule *s, uint8_t *buffer, size_t room, size_t *size) {
    uint32_t n = 0;
    for (int h = 0; h < 64; h++) n += s->connections[h].live;
    *size = 138 + 18 * n;
    if (room < *size) return 8;
    uint8_t *at = put(put(put(buffer, 2, 2), 2, 1), 2, n);
    for (int h = 0; h < 64; h++) {
        const struct connection *c = &s->connections[h];
        if (!c->live) continue;
        at = put(put(put(put(at, 2, 14), 2, 2), 1, h), 1, c->k);
        at = put(put(put(at, 2, c->anchor), 2, c->length), 2, c->floor);
        at = put(put(at, 2, c->ceiling), 4, c->estimate);
    }
    memcpy(put(put(at, 2, 128), 2, 3), s->tree, 128);
    return 0;
}

static const uint8_t *pass(const uint8_t *at, const uint8_t *end, uint32_t kind, uint32_t size) {
    if (at == NULL || end - at < 4 || end - at < 4 + (ptrdiff_t)size) return NULL;
    if (number(at, 2) != size || number(at + 2, 2) != kind) return NULL;
    return at + 4 + size;
}

static bool framed(const uint8_t *bytes, const uint8_t *end, uint32_t *n) {
    const uint8_t *at = pass(bytes, end, 1, 2);
    if (at == NULL) return false;
    *n = number(bytes + 4, 2);
    if (*n > 64) return false;
    for (uint32_t i = 0; i < *n; i++) at = pass(at, end, 2, 14);
    return pass(at, end, 3, 128) == end;
}

static struct connection connection_at(const uint8_t *at) {
    return (struct connection){true, at[5], number(at + 6, 2), number(at + 8, 2), number(at + 10, 2), number(at + 12, 2), number(at + 14, 4)};
}

static bool numbers_within(struct connection c) {
    if (c.k > 9) return false;
    uint32_t f = 1u << c.k;
    return c.anchor < f && c.floor >= 1 && c.floor <= c.length && c.length <= c.ceiling && c.ceiling <= f && c.estimate <= c.length * 7500u;
}

static int check_records(const uint8_t *bytes, uint32_t n) {
    int least = 0;
    bool illegal = false;
    for (const uint8_t *at = bytes + 6; n > 0; n--, at += 18) {
        struct connection c = connection_at(at);
        if (at[4] > 63 || at[4] < least || !numbers_within(c)) return 10;
        illegal |= c.k > 8;
        least = at[4] + 1;
    }
    return illegal ? 18 : 0;
}

static bool run_free(const uint8_t *tree, struct connection c) {
    for (uint32_t j = 0; j < c.length; j++)
        if (is_set(tree, node(c.k, class_at(c.k, c.anchor, j)))) return false;
    return true;
}

static bool restore(struct schedule *s, const uint8_t *bytes, uint32_t n) {
    memset(s, 0, sizeof *s);
    for (const uint8_t *at = bytes + 6; n > 0; n--, at += 18) {
        struct connection c = connection_at(at);
        if (!run_free(s->tree, c)) return false;
        set_run(s->tree, c.k, c.anchor, 0, c.length, true);
        s->connections[at[4]] = c;
    }
    return true;
}

__attribute__((noinline)) static int load(struct schedule *s, const uint8_t *bytes, size_t size, uint32_t *count) {
    struct schedule new;
    if (!framed(bytes, bytes + size, count)) return 9;
    int no = check_records(bytes, *count);
    if (no != 0) return no;
    if (!restore(&new, bytes, *count)) return 11;
    if (memcmp(bytes + size - 128, new.tree, 128) != 0) return 12;
    *s = new;
    return 0;
}

// ---- messages

enum { DEFAULT_HEAD = 0x0a207d, REQUEST_HEAD = 0x0c207e, CHANGE_HEAD = 0x230c3e }; // the first three bytes as a number
enum { DEFAULT_SIZE = 13, REQUEST_SIZE = 15, CHANGE_SIZE = 14 };
enum { LARGEST_HANDLE = 3839 };

struct subrates {
    uint16_t min, max, latency, continuation, timeout;
};

struct change {
    uint8_t status;
    uint16_t handle, factor, latency, continuation, timeout;
};

struct message {
    enum { DEFAULT, REQUEST, CHANGE } kind;
    uint16_t handle;          // of a request
    struct subrates subrates; // of a command
    struct change change;     // of an event
};

// What this tests implies the other ends.
static bool is_subrating(uint32_t factor, uint32_t latency, uint32_t continuation, uint32_t timeout) {
    return timeout >= 10 && timeout <= 3200 && continuation < factor && factor * (latency + 1) <= 500;
}

static bool are_subrates(struct subrates v) {
    return v.min != 0 && v.min <= v.max && is_subrating(v.max, v.latency, v.continuation, v.timeout);
}

static bool is_change(struct change e) {
    return e.status != 0 || (e.handle <= LARGEST_HANDLE && is_subrating(e.factor, e.latency, e.continuation, e.timeout));
}

static bool is_allowed(const struct message *m) {
    if (m->kind == CHANGE) return is_change(m->change);
    return (m->kind == DEFAULT || m->handle <= LARGEST_HANDLE) && are_subrates(m->subrates);
}

static struct subrates subrates_at(const uint8_t *at) {
    return (struct subrates){number(at, 2), number(at + 2, 2), number(at + 4, 2), number(at + 6, 2), number(at + 8, 2)};
}

static struct change change_at(const uint8_t *at) {
    return (struct change){at[0], number(at + 1, 2), number(at + 3, 2), number(at + 5, 2), number(at + 7, 2), number(at + 9, 2)};
}

static bool is_message(const uint8_t *bytes, size_t size, uint32_t head, size_t whole) { return size == whole && number(bytes, 3) == head; }

__attribute__((noinline)) static int read_message(const uint8_t *bytes, size_t size, struct message *out) {
    if (is_message(bytes, size, DEFAULT_HEAD, DEFAULT_SIZE))
        *out = (struct message){.kind = DEFAULT, .subrates = subrates_at(bytes + 3)};
    else if (is_message(bytes, size, REQUEST_HEAD, REQUEST_SIZE))
        *out = (struct message){.kind = REQUEST, .handle = number(bytes + 3, 2), .subrates = subrates_at(bytes + 5)};
    else if (is_message(bytes, size, CHANGE_HEAD, CHANGE_SIZE))
        *out = (struct message){.kind = CHANGE, .change = change_at(bytes + 3)};
    else
        return 16;
    return is_allowed(out) ? 0 : 17;
}

static void put_subrates(uint8_t *at, struct subrates v) {
    put(put(put(put(put(at, 2, v.min), 2, v.max), 2, v.latency), 2, v.continuation), 2, v.timeout);
}

static void put_change(uint8_t *at, struct change e) {
    at = put(put(put(at, 1, e.status), 2, e.handle), 2, e.factor);
    put(put(put(at, 2, e.latency), 2, e.continuation), 2, e.timeout);
}

__attribute__((noinline)) static int write_message(const struct message *m, uint8_t *buffer, size_t room, size_t *size) {
    static const size_t sizes[] = {DEFAULT_SIZE, REQUEST_SIZE, CHANGE_SIZE};
    if (!is_allowed(m)) return 17;
    *size = sizes[m->kind];
    if (room < *size) return 8;
    if (m->kind == DEFAULT)
        put_subrates(put(buffer, 3, DEFAULT_HEAD), m->subrates);
    else if (m->kind == REQUEST)
        put_subrates(put(put(buffer, 3, REQUEST_HEAD), 2, m->handle), m->subrates);
    else
        put_change(put(buffer, 3, CHANGE_HEAD), m->change);
    return 0;
}

// ---- the script

static char script[65537];
static uint8_t bytes[32768];

static void mark(void) { (void)!write(1, "", 0); }

static void tell(const char *line) { (void)!write(1, line, strlen(line)); }

// A line `reports M H S H S ..`, after its word.
static void perform_list(struct schedule *s, const char *line) {
    static struct report reports[128];
    static uint32_t list[128];
    static char said[2048];
    size_t entries = 0, count = 0;
    int used = 0;
    if (sscanf(line, "%zu%n", &entries, &used) == 1) line += used;
    for (; sscanf(line, "%u %u%n", &reports[count].handle, &reports[count].sample, &used) == 2; line += used) count++;
    memset(list, 0xA5, sizeof list);
    mark();
    int no = report_all(s, reports, count, list, entries);
    mark();
    int at = no == 0 ? sprintf(said, "reported %zu", count) : sprintf(said, "no %d", no);
    for (size_t i = 0; i < entries; i++) at += sprintf(said + at, " %u", list[i]);
    sprintf(said + at, "\n");
    tell(said);
}

// A line `tidy N`, after its word.
static void perform_tidy(struct schedule *s, const char *line) {
    static uint32_t list[400];
    static char said[8192];
    size_t n = 0;
    uint32_t count;
    sscanf(line, "%zu", &n);
    memset(list, 0xA5, sizeof list);
    mark();
    int no = tidy(s, (struct move *)list, n / MOVE_WIDTH, &count);
    mark();
    int at = no == 0 ? sprintf(said, "tidied %u", count) : sprintf(said, "no %d", no);
    for (size_t i = 0; i < n; i++) at += sprintf(said + at, " %u", list[i]);
    sprintf(said + at, "\n");
    tell(said);
}

static void tell_message(const struct message *m) {
    const struct subrates *v = &m->subrates;
    const struct change *e = &m->change;
    char said[64];
    if (m->kind == DEFAULT)
        sprintf(said, "default %u %u %u %u %u\n", v->min, v->max, v->latency, v->continuation, v->timeout);
    else if (m->kind == REQUEST)
        sprintf(said, "request %u %u %u %u %u %u\n", m->handle, v->min, v->max, v->latency, v->continuation, v->timeout);
    else
        sprintf(said, "change %u %u %u %u %u %u\n", e->status, e->handle, e->factor, e->latency, e->continuation, e->timeout);
    tell(said);
}

static void tell_refused(int no) {
    char said[16];
    sprintf(said, "no %d\n", no);
    tell(said);
}

// A line `message` or `message HEX`, after its word.
static void perform_reading(const char *line) {
    struct message m;
    unsigned byte;
    size_t size = 0;
    for (int used = 0; sscanf(line, "%2x%n", &byte, &used) == 1; line += used) bytes[size++] = byte;
    mark();
    int no = read_message(bytes, size, &m);
    mark();
    if (no == 0)
        tell_message(&m);
    else
        tell_refused(no);
}

// Whether a line writes a message: into how much room, and which.
static bool writes(const char *line, size_t *room, struct message *m) {
    struct subrates *v = &m->subrates;
    struct change *e = &m->change;
    m->kind = DEFAULT;
    if (sscanf(line, "default %zu %hu %hu %hu %hu %hu", room, &v->min, &v->max, &v->latency, &v->continuation, &v->timeout) == 6) return true;
    m->kind = REQUEST;
    if (sscanf(line, "request %zu %hu %hu %hu %hu %hu %hu", room, &m->handle, &v->min, &v->max, &v->latency, &v->continuation, &v->timeout) == 7) return true;
    m->kind = CHANGE;
    return sscanf(line, "change %zu %hhu %hu %hu %hu %hu %hu", room, &e->status, &e->handle, &e->factor, &e->latency, &e->continuation, &e->timeout) == 7;
}

static void perform_writing(const struct message *m, size_t room) {
    char said[32];
    size_t size;
    mark();
    int no = write_message(m, bytes, room, &size);
    mark();
    if (no != 0) {
        tell_refused(no);
        return;
    }
    sprintf(said, "wrote %zu\n", size);
    tell(said);
}

// Whether it is a line of a message, which is then performed.
static bool perform_message(const char *line) {
    struct message m;
    size_t room;
    if (strncmp(line, "message", 7) == 0)
        perform_reading(line + 7);
    else if (writes(line, &room, &m))
        perform_writing(&m, room);
    else
        return false;
    return true;
}

static void perform(struct schedule *s, char *line) {
    static const char *const words[] = {"kept", "grown", "shrunk", "tight"};
    char said[64];
    uint32_t a, b, n[5], slots;
    size_t size;
    int no = 0, used = 0;
    int given = sscanf(line, "admit %u %u %u %u %u", &n[0], &n[1], &n[2], &n[3], &n[4]);
    if (given >= 4) {
        struct placed at;
        uint32_t smallest = given == 5 ? n[1] : LEAST_INTERVAL;
        const uint32_t *last = n + given - 3; // largest, floor, ceiling
        mark();
        no = admit(s, n[0], smallest, last[0], last[1], last[2], &at);
        mark();
        sprintf(said, "ok %u %u %u\n", at.factor, at.anchor, at.length);
    } else if (sscanf(line, "drop %u", &a) == 1) {
        mark();
        no = drop(s, a);
        mark();
        sprintf(said, "ok\n");
    } else if (sscanf(line, "report %u %u", &a, &b) == 2) {
        enum settled how;
        mark();
        no = report(s, a, b, &how);
        mark();
        if (no == 0) sprintf(said, "%s %u\n", words[how], s->connections[a].length);
    } else if (sscanf(line, "owner %u", &a) == 1) {
        mark();
        int h = owner(s, a);
        mark();
        if (h < 0)
            sprintf(said, "idle\n");
        else
            sprintf(said, "owner %d\n", h);
    } else if (sscanf(line, "anchor %u %u", &a, &b) == 2) {
        mark();
        no = anchor(s, a, b, &slots);
        mark();
        sprintf(said, "slots %u\n", slots);
    } else if (sscanf(line, "save %u", &a) == 1) {
        mark();
        no = save(s, bytes, a, &size);
        mark();
        sprintf(said, "saved %zu\n", size);
    } else if (strncmp(line, "load ", 5) == 0) {
        for (size = 0, line += 5; sscanf(line, "%2x%n", &a, &used) == 1; line += used) bytes[size++] = a;
        mark();
        no = load(s, bytes, size, &a);
        mark();
        sprintf(said, "loaded %u\n", a);
    } else if (perform_message(line)) {
        return;
    } else {
        mark();
        mark();
        sprintf(said, "nothing\n");
    }
    if (no != 0) sprintf(said, "no %d\n", no);
    tell(said);
}

int main(void) {
    static struct schedule s;
    size_t n = 0;
    for (ssize_t got; (got = read(0, script + n, sizeof script - 1 - n)) > 0;) n += got;
    for (char *line = strtok(script, "\n"); line != NULL; line = strtok(NULL, "\n")) {
        if (strncmp(line, "reports ", 8) == 0)
            perform_list(&s, line + 8);
        else if (strncmp(line, "tidy ", 5) == 0)
            perform_tidy(&s, line + 5);
        else
            perform(&s, line);
    }
    return 0;
}
