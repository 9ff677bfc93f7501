/* Calls of the library to be counted: count NAME TIMES makes the named call so many times, and with no argument prints each name and what it is.
 * count NAME stack prints the deepest stack of the call in bytes, on a thread that paints its own. */
#include "tarnflaw.h"

#include <pthread.h>
#include <stdio.h>
#include <stdlib.h>
#include <string.h>

#define STACK 65536
#define PAINT 0xa5
#define FRAME 128
#define BASE_AT 73
#define ENTRIES_AT 81
#define ENTRY 6

/* A timetable of 32 partitions with period 32 and R 1, one after the other in the cycle, after a transition of a length in which they take turns. */
static void turns(uint8_t *image, uint8_t length) {
    memset(image, 0, TARNFLAW_IMAGE);
    image[8] = length;
    for (uint8_t n = 0; n < length; n++) image[9 + n] = n % TARNFLAW_IDS;
    image[BASE_AT + 7] = length;
    for (uint8_t id = 0; id < TARNFLAW_IDS; id++) {
        uint8_t *entry = image + ENTRIES_AT + id * ENTRY;
        entry[1] = 32;
        entry[2] = id;
        entry[3] = 1;
        entry[5] = (uint8_t)(248 - 8 * id);
#if TARNFLAW_IMAGE_VERSION >= 5
        image[ENTRIES_AT + TARNFLAW_IDS * ENTRY + 2 * id + 1] = entry[5];
#endif
    }
}

/* What is called: the images, the request and the calls. */
static uint8_t none[TARNFLAW_IMAGE], after_a[TARNFLAW_IMAGE], short_turns[TARNFLAW_IMAGE], long_turns[TARNFLAW_IMAGE], image[TARNFLAW_IMAGE];
static uint8_t request_b[TARNFLAW_REQUEST], request_turns[TARNFLAW_REQUEST], area[TARNFLAW_AREA];
static size_t size_b, size_turns, place, written;
static uint64_t slices;
static uint16_t shortfall;
static uint8_t tries, owner, number;

static void change(const uint8_t *from, const uint8_t *request, size_t size) {
    memcpy(image, from, TARNFLAW_IMAGE);
    number = tarnflaw_change(image, TARNFLAW_IMAGE, request, size, area, TARNFLAW_AREA, &place, &tries, &written);
}

static void nothing(void) {}
static void change_b(void) { change(after_a, request_b, size_b); }
static void change_turns(void) { change(short_turns, request_turns, size_turns); }
static void change_long(void) { change(long_turns, request_turns, size_turns); }
static void owner_empty(void) { number = tarnflaw_owner(none, TARNFLAW_IMAGE, 70, &place, &owner); }
static void owner_short(void) { number = tarnflaw_owner(short_turns, TARNFLAW_IMAGE, 80, &place, &owner); }
static void owner_long(void) { number = tarnflaw_owner(long_turns, TARNFLAW_IMAGE, 80, &place, &owner); }
static void standing_short(void) { number = tarnflaw_standing(short_turns, TARNFLAW_IMAGE, 16, 80, &place, &shortfall, &slices); }
static void standing_long(void) { number = tarnflaw_standing(long_turns, TARNFLAW_IMAGE, 16, 80, &place, &shortfall, &slices); }
static void standing_within(void) { number = tarnflaw_standing(long_turns, TARNFLAW_IMAGE, 16, 63, &place, &shortfall, &slices); }

static const struct {
    const char *name, *what;
    void (*call)(void);
} calls[] = {
    {"nothing", "no call", nothing},
    {"change-b", "change: case B, length 1", change_b},
    {"change-turns", "change: 32 partitions asked for again, length 0", change_turns},
    {"change-long", "the same after a transition of 64 slots", change_long},
    {"owner-empty", "owner: the empty timetable", owner_empty},
    {"owner-turns", "owner: 32 partitions, no transition", owner_short},
    {"owner-long", "owner: 32 partitions, after a transition of 64 slots", owner_long},
    {"standing-turns", "standing: 32 partitions, no transition", standing_short},
    {"standing-long", "standing: 32 partitions, after a transition of 64 slots", standing_long},
    {"standing-within", "standing: the same, in the last slot of the transition", standing_within},
};

/* The requests, and the image after case A. */
static void prepare(void) {
    const uint8_t listing[] = {0, 2, 1, 1, 2, 1, 2, 1, 2};
    uint8_t all[3 * TARNFLAW_IDS];
    for (uint8_t id = 0; id < TARNFLAW_IDS; id++) {
        all[3 * id] = id;
        all[3 * id + 1] = 5;
        all[3 * id + 2] = 1;
    }
    turns(short_turns, 0);
    turns(long_turns, 64);
    tarnflaw_write_request(0, 0, listing, 6, request_b, TARNFLAW_REQUEST, &place, &size_b);
    change(none, request_b, size_b);
    memcpy(after_a, image, TARNFLAW_IMAGE);
    tarnflaw_write_request(6, 1, listing, 9, request_b, TARNFLAW_REQUEST, &place, &size_b);
    tarnflaw_write_request(96, 64, all, sizeof all, request_turns, TARNFLAW_REQUEST, &place, &size_turns);
}

static uint8_t *stack;
static size_t deepest;

/* Paints the stack below its own frame, makes the call, and looks how far the paint is gone: the thread's begin and end use the stack too. */
static void *on_stack(void *call) {
    volatile uint8_t here;
    volatile uint8_t *painted = stack;
    size_t top = (uintptr_t)&here - (uintptr_t)stack;
    size_t untouched = 0;
    for (size_t n = 0; n + FRAME < top; n++) painted[n] = PAINT;
    (*(void (**)(void))call)();
    while (painted[untouched] == PAINT) untouched++;
    deepest = top - untouched;
    return NULL;
}

/* The bytes below the thread's first function that the call touches, or at most those of that function's frame where it touches less. */
static size_t depth(void (*call)(void)) {
    pthread_attr_t attributes;
    pthread_t thread;
    stack = aligned_alloc(4096, STACK);
    pthread_attr_init(&attributes);
    pthread_attr_setstack(&attributes, stack, STACK);
    pthread_create(&thread, &attributes, on_stack, &call);
    pthread_join(thread, NULL);
    return deepest;
}

int main(int count, char **words) {
    prepare();
    for (size_t i = 0; i < sizeof calls / sizeof *calls; i++) {
        if (count == 1) {
            printf("%s %s\n", calls[i].name, calls[i].what);
        } else if (count == 3 && strcmp(words[1], calls[i].name) == 0) {
            if (strcmp(words[2], "stack") == 0) printf("%zu\n", depth(calls[i].call));
            else for (int n = atoi(words[2]); n > 0; n--) calls[i].call();
        }
    }
    return number == TARNFLAW_ACCEPTED ? 0 : number;
}
