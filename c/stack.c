/* How much stack each call takes, with the copies of beak.h: it is made on a stack that was painted before, and from the deepest byte that is
 * no longer paint on it is counted. Of each call the case that goes deepest: as much of the tree taken or given back as the call can, a full house, an
 * allowed message. An admission takes half of the blocks at most; F 1, and a logger of F 2 that grows, come by a load. */
#include <stdio.h>
#include <string.h>
#include <ucontext.h>
#include "beak.h"

enum { PAINT = 0xA5 };

static struct beak s;
static struct beak_said said;
static struct beak_read was;
static const struct beak_subrates widest = {1, 500, 0, 499, 3200};
static const struct beak_change changed = {0, 3839, 500, 0, 499, 3200};
static struct beak_sample cycle[64];
static uint32_t answers[64];
static struct beak_move moves[64];
static uint8_t image[1290], painted[65536];
static size_t size;
static ucontext_t here, there;

static void nothing(void) {}
static void admit_half(void) { said = beak_admit(&s, 0, BEAK_LEAST_INTERVAL, 12, 1, 1); }
static void admit_longest(void) { said = beak_admit(&s, 0, BEAK_LEAST_INTERVAL, 3072, 128, 128); }
static void drop(void) { said = beak_drop(&s, 0); }
static void report(void) { said = beak_report(&s, 0, 7500); }
static void report_all(void) { said = beak_report_all(&s, cycle, 64, answers, 64); }
static void tidy(void) { said = beak_tidy(&s, moves, 64); }
static void owner(void) { said = beak_owner(&s, 511); }
static void anchor(void) { said = beak_anchor(&s, 63, 7); }
static void load(void) { said = beak_load(&s, image, size); }
static void save(void) {
    said = beak_save(&s, image, sizeof image);
    size = said.first;
}

static void message(void) { was = beak_read_message(image, size); }
static void write_default(void) { said = beak_write_default(widest, image, sizeof image); }
static void write_request(void) {
    said = beak_write_request(3839, widest, image, sizeof image);
    size = said.first;
}
static void write_change(void) { said = beak_write_change(changed, image, sizeof image); }

static void fresh(void) { beak_start(&s); }

/* The image of one connection of F 1: handle, k, anchor, length, floor, ceiling, estimate; and the tree, in which every node is taken. */
static void write_whole(void) {
    const uint8_t records[28] = {2, 0, 1, 0, 1, 0, 14, 0, 2, 0, 0, 0, 0, 0, 1, 0, 1, 0, 1, 0, 0x88, 0x13, 0, 0, 128, 0, 3, 0};
    memcpy(image, records, sizeof records);
    memset(image + 28, 0xFF, 128);
    image[28] = 0xFE;
    size = 156;
}

/* One of F 2 that may grow: as it is admitted, and then saved and loaded with a ceiling of 2. */
static void half(void) {
    fresh();
    admit_half();
    save();
    image[18] = 2;
    load();
}

static void fill(void) {
    fresh();
    for (uint32_t handle = 0; handle < 64; handle++) said = beak_admit(&s, handle, BEAK_LEAST_INTERVAL, 3072, 4, 4);
}

/* All of one handle, of which the first grows. */
static void gather(void) {
    for (uint32_t i = 0; i < 64; i++) cycle[i].sample = 7500;
}

static size_t touched(void (*call)(void)) {
    size_t low = 0;
    memset(painted, PAINT, sizeof painted);
    getcontext(&there);
    there.uc_stack.ss_sp = painted;
    there.uc_stack.ss_size = sizeof painted;
    there.uc_link = &here;
    makecontext(&there, call, 0);
    swapcontext(&here, &there);
    while (low < sizeof painted && painted[low] == PAINT) low++;
    return sizeof painted - low;
}

static void measure(const char *call, const char *which, void (*made)(void)) {
    size_t all = touched(made);
    printf("%s|%s|%zu\n", call, which, all - touched(nothing));
}

int main(void) {
    measure("admit", "half of the tree", admit_half);
    fresh();
    measure("admit", "a run of 128 blocks", admit_longest);
    fresh();
    write_whole();
    measure("load", "the whole tree", load);
    measure("tidy", "the whole tree", tidy);
    measure("drop", "the whole tree", drop);
    half();
    measure("report", "grown, half of the tree", report);
    half();
    gather();
    measure("reports", "64, the first grown, half of the tree", report_all);
    fill();
    measure("owner", "64 live", owner);
    measure("anchor", "of a live connection", anchor);
    measure("save", "64 live", save);
    measure("load", "64 live", load);
    write_request();
    measure("message", "a request", message);
    measure("default", "written", write_default);
    measure("request", "written", write_request);
    measure("change", "written", write_change);
    return 0;
}
