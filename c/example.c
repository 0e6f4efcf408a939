/* The rule sheet's whole case, call by call; a save, a fresh start, and a load of those bytes; reports of a whole cycle at once; admissions by a range;
 * the most that one may have; a tidy; and subrate messages. */
#include <stdbool.h>
#include <stdio.h>
#include <string.h>
#include "beak.h"

static struct beak house; /* static, so all zeros: fresh */
static bool right = true;

static void expect(bool fact, const char *words) {
    if (!fact) {
        right = false;
        printf("not so: %s\n", words);
    }
}

/* A call beside what it says, which must be this. */
static void told(const char *call, struct beak_said r, uint32_t kind, uint32_t first, uint32_t second, uint32_t third) {
    printf("%-29s kind %2u: %u %u %u\n", call, r.kind, r.first, r.second, r.third);
    expect(r.kind == kind && r.first == first && r.second == second && r.third == third, call);
}

static bool same_subrates(struct beak_subrates v, struct beak_subrates w) {
    return v.min == w.min && v.max == w.max && v.latency == w.latency && v.continuation == w.continuation && v.timeout == w.timeout;
}

static bool same_change(struct beak_change e, struct beak_change f) {
    return e.status == f.status && e.handle == f.handle && e.factor == f.factor && e.latency == f.latency && e.continuation == f.continuation &&
           e.timeout == f.timeout;
}

static bool has(struct beak_read r, uint16_t handle, struct beak_subrates v, struct beak_change e) {
    return r.handle == handle && same_subrates(r.subrates, v) && same_change(r.change, e);
}

/* A message beside its handle, its subrates and its change, which must be these: what it does not have is 0. */
static void told_read(const char *call, struct beak_read r, uint32_t kind, uint16_t handle, struct beak_subrates v, struct beak_change e) {
    printf("%-29s kind %2u: %u, ", call, r.said.kind, r.handle);
    printf("%u %u %u %u %u, ", r.subrates.min, r.subrates.max, r.subrates.latency, r.subrates.continuation, r.subrates.timeout);
    printf("%u %u %u %u %u %u\n", r.change.status, r.change.handle, r.change.factor, r.change.latency, r.change.continuation, r.change.timeout);
    expect(r.said.kind == kind && r.said.first == 0 && r.said.second == 0 && r.said.third == 0, call);
    expect(has(r, handle, v, e), call);
}

static bool all(const uint8_t *from, const uint8_t *end, uint8_t byte) {
    while (from < end && *from == byte) from++;
    return from == end;
}

static void whole_case(void) {
    told("admit 0 48 1 4     ok 8 0 1", beak_admit(&house, 0, BEAK_LEAST_INTERVAL, 48, 1, 4), BEAK_PLACED, 8, 0, 1);
    told("admit 1 48 1 1     ok 8 4 1", beak_admit(&house, 1, BEAK_LEAST_INTERVAL, 48, 1, 1), BEAK_PLACED, 8, 4, 1);
    told("report 0 7500      grown 2", beak_report(&house, 0, 7500), BEAK_GROWN, 2, 0, 0);
    told("owner 9            owner 0", beak_owner(&house, 9), BEAK_OWNER, 0, 0, 0);
    told("owner 7            idle", beak_owner(&house, 7), BEAK_IDLE, 0, 0, 0);
    told("anchor 1 6         slots 36", beak_anchor(&house, 1, 6), BEAK_SLOTS, 36, 0, 0);
    told("admit 2 6 1 1      no 20", beak_admit(&house, 2, BEAK_LEAST_INTERVAL, 6, 1, 1), BEAK_REFUSED, 20, 0, 0);
    told("drop 5             no 3", beak_drop(&house, 5), BEAK_REFUSED, 3, 0, 0);
}

static void save_and_load(void) {
    uint8_t image[1290];
    memset(image, 0x55, sizeof image);
    told("save into no bytes", beak_save(&house, NULL, 0), BEAK_REFUSED, 8, 0, 0);
    struct beak_said saved = beak_save(&house, image, sizeof image);
    told("save", saved, BEAK_SAVED, 138 + 2 * 18, 0, 0);
    expect(all(image + saved.first, image + sizeof image, 0x55), "the rest of the buffer is unchanged");

    struct beak other;
    beak_start(&other);
    told("load no bytes", beak_load(&other, NULL, 0), BEAK_REFUSED, 9, 0, 0);
    told("load", beak_load(&other, image, saved.first), BEAK_LOADED, 2, 0, 0);
    expect(memcmp(&house, &other, sizeof house) == 0, "what was saved and loaded is the same, byte by byte");

    image[11] = 9; /* k of the first connection */
    told("load with a k of 9", beak_load(&other, image, saved.first), BEAK_REFUSED, 18, 0, 0);
    expect(memcmp(&house, &other, sizeof house) == 0, "a refused load leaves the schedule as it was");

    image[11] = 3;
    image[18] = 8; /* its ceiling, all of F 8: no admission gives it, and an older image may have it */
    told("load a ceiling of 8", beak_load(&other, image, saved.first), BEAK_LOADED, 2, 0, 0);
}

/* Of three reports the second is of a handle that is not live, and the third of the same as the first; a fourth entry is left over. */
static void reports_at_once(void) {
    const struct beak_sample cycle[3] = {{0, 7500}, {9, 0}, {0, 7500}};
    const uint32_t before = 0xA5A5A5A5;
    uint32_t answers[4] = {before, before, before, before};
    struct beak other;
    beak_start(&other);
    told("admit 0 48 1 4     ok 8 0 1", beak_admit(&other, 0, BEAK_LEAST_INTERVAL, 48, 1, 4), BEAK_PLACED, 8, 0, 1);
    told("no reports         reported 0", beak_report_all(&other, NULL, 0, NULL, 0), BEAK_REPORTED, 0, 0, 0);
    told("3 reports into 2   no 14", beak_report_all(&other, cycle, 3, answers, 2), BEAK_REFUSED, 14, 0, 0);
    expect(answers[0] == before && answers[1] == before, "a refused list leaves the entries as they were");
    told("3 reports into 4   reported 3", beak_report_all(&other, cycle, 3, answers, 4), BEAK_REPORTED, 3, 0, 0);
    expect(answers[0] == 131074 && answers[1] == 3 && answers[2] == 65538, "the entries are 131074, 3 and 65538");
    expect(answers[3] == before, "the entry past the reports is as it was");
    told("entry 131074       grown 2", beak_entry(answers[0]), BEAK_GROWN, 2, 0, 0);
    told("entry 3            no 3", beak_entry(answers[1]), BEAK_REFUSED, 3, 0, 0);
    told("entry 65538        kept 2", beak_entry(answers[2]), BEAK_KEPT, 2, 0, 0);
    told("entry 196609       shrunk 1", beak_entry(196609), BEAK_SHRUNK, 1, 0, 0);
    told("entry 262400       tight 256", beak_entry(262400), BEAK_TIGHT, 256, 0, 0);
    told("entry 0            none", beak_entry(0), 0, 0, 0, 0);
    told("entry as it was    none", beak_entry(before), 0, 0, 0, 0);
}

/* Of 6, 12, 24, 48, .. 1,536 the largest from 12 to 30 is 24, four blocks; from 13 to 23 there is none. Up to 3,200 it is 1,536, and above that none. */
static void by_a_range(void) {
    struct beak other;
    beak_start(&other);
    told("admit 0 12 30 1 1  ok 4 0 1", beak_admit(&other, 0, 12, 30, 1, 1), BEAK_PLACED, 4, 0, 1);
    told("admit 1 13 23 1 1  no 15", beak_admit(&other, 1, 13, 23, 1, 1), BEAK_REFUSED, 15, 0, 0);
    told("admit 1 3200 1 1   ok 256 2 1", beak_admit(&other, 1, BEAK_LEAST_INTERVAL, 3200, 1, 1), BEAK_PLACED, 256, 2, 1);
    told("from 1537 to 3200  no 15", beak_admit(&other, 2, 1537, 3200, 1, 1), BEAK_REFUSED, 15, 0, 0);
}

/* A ceiling is at most half of F. That F 1 is turned away is in the whole case. */
static void at_most_half(void) {
    struct beak other;
    beak_start(&other);
    told("admit 0 48 1 5     no 20", beak_admit(&other, 0, BEAK_LEAST_INTERVAL, 48, 1, 5), BEAK_REFUSED, 20, 0, 0);
    told("admit 0 48 1 4     ok 8 0 1", beak_admit(&other, 0, BEAK_LEAST_INTERVAL, 48, 1, 4), BEAK_PLACED, 8, 0, 1);
}

/* An entry of a tidy, which must be this. */
static void moved(struct beak_move m, struct beak_move n) {
    printf("  handle %u moves from %u to %u\n", m.handle, m.old_anchor, m.new_anchor);
    expect(m.handle == n.handle && m.old_anchor == n.old_anchor && m.new_anchor == n.new_anchor, "a move");
}

/* Of eight loggers with a block of eight each those of blocks 0 and 1 leave, and no block of every four is free. A tidy moves the other six together. */
static void close_up(void) {
    const struct beak_move before = {0xA5A5A5A5, 0xA5A5A5A5, 0xA5A5A5A5};
    const struct beak_move six[6] = {{1, 4, 0}, {2, 2, 4}, {3, 6, 2}, {5, 5, 6}, {6, 3, 1}, {7, 7, 5}};
    struct beak_move moves[7] = {before, before, before, before, before, before, before};
    struct beak_move untouched[7], many[65];
    for (int i = 0; i < 65; i++) many[i] = before;
    struct beak other, same;
    beak_start(&other);
    for (uint32_t handle = 0; handle < 8; handle++) (void)beak_admit(&other, handle, BEAK_LEAST_INTERVAL, 48, 1, 1);
    told("drop 0             ok", beak_drop(&other, 0), BEAK_DROPPED, 0, 0, 0);
    told("drop 4             ok", beak_drop(&other, 4), BEAK_DROPPED, 0, 0, 0);
    told("admit 8 24 1 1     no 6", beak_admit(&other, 8, BEAK_LEAST_INTERVAL, 24, 1, 1), BEAK_REFUSED, 6, 0, 0);
    same = other;
    memcpy(untouched, moves, sizeof moves);
    told("tidy into 5        no 14", beak_tidy(&other, moves, 5), BEAK_REFUSED, 14, 0, 0);
    expect(memcmp(&other, &same, sizeof other) == 0 && memcmp(moves, untouched, sizeof moves) == 0, "a refused tidy leaves schedule and entries as they were");
    told("tidy into 7        tidied 6", beak_tidy(&other, moves, 7), BEAK_TIDIED, 6, 0, 0);
    for (int i = 0; i < 6; i++) moved(moves[i], six[i]);
    expect(memcmp(moves + 6, &before, sizeof before) == 0, "the entry past the moves is as it was");
    told("tidy into none     tidied 0", beak_tidy(&other, NULL, 0), BEAK_TIDIED, 0, 0, 0);
    told("tidy into 65       tidied 0", beak_tidy(&other, many, 65), BEAK_TIDIED, 0, 0, 0);
    for (int i = 0; i < 65; i++) expect(memcmp(many + i, &before, sizeof before) == 0, "an entry where nothing moves is as it was");
    told("admit 8 24 1 1     ok 4 3 1", beak_admit(&other, 8, BEAK_LEAST_INTERVAL, 24, 1, 1), BEAK_PLACED, 4, 3, 1);
}

/* The two of F 4 come first and take the even blocks, so that no two blocks in a row are left for that of F 8. */
static void no_anchor_for_all(void) {
    struct beak other;
    beak_start(&other);
    told("admit 0 48 2 2     ok 8 0 2", beak_admit(&other, 0, BEAK_LEAST_INTERVAL, 48, 2, 2), BEAK_PLACED, 8, 0, 2);
    told("admit 1 24 1 1     ok 4 2 1", beak_admit(&other, 1, BEAK_LEAST_INTERVAL, 24, 1, 1), BEAK_PLACED, 4, 2, 1);
    told("admit 2 24 1 1     ok 4 3 1", beak_admit(&other, 2, BEAK_LEAST_INTERVAL, 24, 1, 1), BEAK_PLACED, 4, 3, 1);
    told("tidy into none     no 19", beak_tidy(&other, NULL, 0), BEAK_REFUSED, 19, 0, 0);
}

/* A default is read, and written again; with latency 1 it is forbidden, as 500 * 2 is above 500. A request is written, and read again. */
static void subrate_commands(void) {
    const uint8_t bytes[13] = {0x7d, 0x20, 0x0a, 0x01, 0x00, 0xf4, 0x01, 0x00, 0x00, 0x00, 0x00, 0x0a, 0x00};
    const struct beak_subrates widest = {1, 500, 0, 0, 10}, beyond = {1, 500, 1, 0, 10}, eighth = {8, 8, 0, 1, 600};
    const struct beak_change no_change = {0, 0, 0, 0, 0, 0};
    static uint8_t many[65536];
    uint8_t buffer[16];
    struct beak_read r = beak_read_message(bytes, 13);
    told_read("read 13 bytes      default", r, BEAK_DEFAULT, 0, widest, no_change);
    told("read 12 of them    no 16", beak_read_message(bytes, 12).said, BEAK_REFUSED, 16, 0, 0);
    told("read no bytes      no 16", beak_read_message(NULL, 0).said, BEAK_REFUSED, 16, 0, 0);
    memcpy(many, bytes, 13);
    told("read 65,536 bytes  no 16", beak_read_message(many, sizeof many).said, BEAK_REFUSED, 16, 0, 0);
    told("default into 13    wrote 13", beak_write_default(r.subrates, buffer, 13), BEAK_WROTE, 13, 0, 0);
    expect(memcmp(buffer, bytes, 13) == 0, "what was read and written again is the same, byte by byte");
    told("default into 0     no 8", beak_write_default(widest, NULL, 0), BEAK_REFUSED, 8, 0, 0);
    told("latency 1 into 0   no 17", beak_write_default(beyond, NULL, 0), BEAK_REFUSED, 17, 0, 0);

    memset(buffer, 0x55, sizeof buffer);
    told("request into 14    no 8", beak_write_request(1, eighth, buffer, 14), BEAK_REFUSED, 8, 0, 0);
    expect(all(buffer, buffer + 16, 0x55), "a refused message leaves the buffer as it was");
    told("request into 16    wrote 15", beak_write_request(1, eighth, buffer, 16), BEAK_WROTE, 15, 0, 0);
    expect(buffer[15] == 0x55, "the byte past the message is as it was");
    told_read("read these 15      request", beak_read_message(buffer, 15), BEAK_REQUEST, 1, eighth, no_change);
    told("read all 16        no 16", beak_read_message(buffer, 16).said, BEAK_REFUSED, 16, 0, 0);
}

/* A continuation number that is not below the factor is forbidden in an event of status 0, and in no other. */
static void subrate_change(void) {
    const struct beak_subrates no_subrates = {0, 0, 0, 0, 0};
    const struct beak_change no_change = {0, 0, 0, 0, 0, 0}, changed = {0, 1, 8, 0, 1, 600}, failed = {1, 1, 8, 0, 8, 600};
    uint8_t buffer[15];
    memset(buffer, 0x55, sizeof buffer);
    told("change into 15     wrote 14", beak_write_change(changed, buffer, 15), BEAK_WROTE, 14, 0, 0);
    expect(buffer[14] == 0x55, "the byte past the message is as it was");
    told_read("read these 14      change", beak_read_message(buffer, 14), BEAK_CHANGE, 0, no_subrates, changed);
    buffer[10] = 8;
    struct beak_read refused = beak_read_message(buffer, 14);
    told("continuation 8     no 17", refused.said, BEAK_REFUSED, 17, 0, 0);
    expect(has(refused, 0, no_subrates, no_change), "a refused message has no values");
    buffer[3] = 1;
    told_read("status 1           change", beak_read_message(buffer, 14), BEAK_CHANGE, 0, no_subrates, failed);
}

/* A schedule of zeros is the fresh one: proved of its fields, and compared here byte by byte. */
static void zeros_are_fresh(void) {
    struct beak fresh, zeros;
    memset(&fresh, 0xAA, sizeof fresh);
    memset(&zeros, 0, sizeof zeros);
    beak_start(&fresh);
    expect(memcmp(&fresh, &zeros, sizeof zeros) == 0, "a schedule of zeros is the fresh one");
}

int main(void) {
    zeros_are_fresh();
    whole_case();
    save_and_load();
    reports_at_once();
    by_a_range();
    at_most_half();
    close_up();
    no_anchor_for_all();
    subrate_commands();
    subrate_change();
    puts(right ? "as the rule sheet has it" : "NOT as the rule sheet has it");
    return right ? 0 : 1;
}
