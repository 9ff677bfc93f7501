/* The library as a firmware uses it: a dispatcher beside a task that changes the timetable by cases A, C and E (docs/RULES.md 11.A, 11.C and 11.E),
 * where C with the longest T is answered as B is, and by a request that the method software sent; an id that leaves and returns with what it is owed; a
 * service screen, during a change too; an answer that is archived and read; and a stored image at a start, also one of versions 1 to 5. The interrupts
 * are plain calls here. See include/tarnflaw.h. Compiles as C99 and as C++11. */
#include <signal.h>
#include <stdio.h>
#include <string.h>

#include "tarnflaw.h"

/* What cases A, C and E list, three bytes a partition: id, k (its period is 2^k) and R; and a listing with an id twice. */
static const uint8_t listed_a[] = { 0, 2, 1, 1, 2, 1 };
static const uint8_t listed_c[] = { 0, 2, 1, 1, 2, 1, 2, 1, 2 };
static const uint8_t listed_e[] = { 0, 2, 1, 1, 2, 1, 2, 1, 1 };
static const uint8_t listed_twice[] = { 0, 2, 1, 1, 2, 1, 1, 2, 1 };

/* A request as the method software sends it: from slot 10 on id 1 is to have half its share, one slot in 8 with R 1. Ids 0 and 2 it doesn't touch, and
 * need not know their R: their fields are short, and ask R as before. */
static const uint8_t half_share[] = { 1, 0, 8, 0, 0, 0, 0, 0, 0, 0, 10, 2, 0, 1, 0, 3, 0, 2, 0, 2, 3, 0, 3, 1, 3, 1, 3, 0, 2, 2, 1 };

/* Two images. The task writes the one that is not in force, unless it waits; the dispatcher takes it over at its request slot. */
enum { TAKEN, WAITING, LATE };
static uint8_t images[2][TARNFLAW_IMAGE];
static volatile sig_atomic_t in_force; /* which of the two; only the dispatcher stores it */
static volatile sig_atomic_t copy;     /* of the other one: the task stores WAITING, and then the dispatcher TAKEN or LATE */
static volatile sig_atomic_t refused;  /* the slots that ran idle because the query was refused; only the dispatcher stores it */

/* The request slot of an image. */
static uint64_t request_slot(const uint8_t *image)
{
    uint64_t slot = 0;
    int i;

    for (i = 0; i < 8; i++)
        slot = slot << 8 | image[i];
    return slot;
}

/* The dispatcher, called by the interrupt at each slot's start. It takes over a copy that waits for this slot, drops one that waits for a slot
 * that has passed, and tells who has the slot. It ends before the task goes on. */
static uint8_t dispatch(uint64_t slot)
{
    size_t place;
    uint8_t owner;

    if (copy == WAITING) {
        const uint64_t from = request_slot(images[!in_force]);
        if (slot == from)
            in_force = !in_force;
        if (slot >= from)
            copy = slot == from ? TAKEN : LATE;
    }
    if (tarnflaw_owner(images[in_force], TARNFLAW_IMAGE, slot, &place, &owner) == TARNFLAW_ACCEPTED)
        return owner;
    refused = refused + 1;
    return TARNFLAW_IDLE;
}

/* The answer of the last change that was accepted, as an archive keeps it: the bytes that were written, and how many. (A firmware archives it once its
 * copy is TAKEN: the answer of a copy that is LATE was never in force. It keeps a checksum, the request and the version beside it.) */
static uint8_t archived[TARNFLAW_AREA];
static size_t archived_size;

/* Prints the archived answer, a field at a time, up to its end or to the field that is refused: the number tells which. */
static void print_archived(void)
{
    size_t at = 0, place, i;
    uint8_t number, tag, first, second;

    printf(" ");
    do {
        number = tarnflaw_answer_field(archived, archived_size, &at, &place, &tag, &first, &second);
        if (tag == TARNFLAW_LENGTH_FIELD)
            printf(" length %u", first);
        if (tag == TARNFLAW_OWNERS_FIELD) {
            printf(first > 0 ? ", owners" : ", no owners");
            for (i = at - first; i < at; i++)
                printf(" %u", archived[i]);
        }
        if (tag == TARNFLAW_OFFSET_FIELD)
            printf(", id %u at offset %u", first, second);
    } while (tag != TARNFLAW_NO_FIELD);
    if (number != TARNFLAW_ACCEPTED)
        printf("; no answer, %u, place %zu", number, place);
    printf("\n");
}

/* Asks for the change of an image by a request, and keeps the answer. Prints what is returned and told. Returns the number. */
static uint8_t ask(const char *name, uint8_t *image, const uint8_t *request, size_t request_size)
{
    uint8_t area[TARNFLAW_AREA];
    size_t place, written;
    uint8_t tries;
    const uint8_t number = tarnflaw_change(image, TARNFLAW_IMAGE, request, request_size, area, sizeof area, &place, &tries, &written);

    printf("%s: %u, place %zu, tries %u, %zu bytes\n", name, number, place, tries, written);
    if (number == TARNFLAW_ACCEPTED) {
        memcpy(archived, area, written);
        archived_size = written;
        print_archived();
    }
    return number;
}

/* The task's change by a request, on a copy of the image in force. If all lengths up to T were searched in vain, it asks once more, with the longest T,
 * which is byte 14. (A firmware that can't bear so long a transition has a limit of its own.) If a slot is missed, no T helps. If the change is
 * accepted, the copy waits for its request slot. */
static void change_by(const char *name, const uint8_t *request, size_t request_size)
{
    uint8_t longer[TARNFLAW_REQUEST];
    uint8_t number;
    int next;

    if (copy == WAITING) {
        printf("%s: put off, another change waits\n", name);
        return;
    }
    next = !in_force; /* not before: until here the dispatcher may have stored it */
    memcpy(images[next], images[in_force], TARNFLAW_IMAGE);
    number = ask(name, images[next], request, request_size);
    if (number == TARNFLAW_LENGTHS_EXHAUSTED && request[14] < TARNFLAW_LONGEST) {
        memcpy(longer, request, request_size); /* it was read, so it is no longer than that */
        longer[14] = TARNFLAW_LONGEST;
        number = ask("the same with the longest T", images[next], longer, request_size);
    }
    if (number == TARNFLAW_SLOT_MISSED || number == TARNFLAW_LENGTHS_EXHAUSTED)
        printf("no T helps: a later slot, a larger R or a smaller share may\n");
    if (number == TARNFLAW_ACCEPTED)
        copy = WAITING;
}

/* The task's change to a listing: the request is written, with each R in full. */
static void change(const char *name, uint64_t slot, uint8_t limit, const uint8_t *listed, size_t listed_size)
{
    uint8_t request[TARNFLAW_REQUEST];
    size_t place, size;
    const uint8_t number = tarnflaw_write_request(slot, limit, listed, listed_size, request, sizeof request, &place, &size);

    if (number == TARNFLAW_ACCEPTED)
        change_by(name, request, size);
    else
        printf("%s: no request, %u, place %zu\n", name, number, place);
}

/* Prints the ids that the image in force lists, each with its R, and its request slot. */
static void print_bounds(void)
{
    const uint8_t *image = images[in_force];
    unsigned id;

    printf("in force:");
    for (id = 0; id < TARNFLAW_IDS; id++)
        if (image[84 + 6 * id] > 0)
            printf(" id %u with R %u,", id, image[84 + 6 * id]);
    printf(" from slot %u on\n", (unsigned)request_slot(image));
}

/* Prints the ids that the image in force does not list, each with what it is owed and returns with. No query tells that; it is the same at the request
 * slot and at the base. */
static void print_debts(void)
{
    const uint8_t *image = images[in_force];
    unsigned id, owed, all = 0;

    printf("owed while not listed:");
    for (id = 0; id < TARNFLAW_IDS; id++) {
        owed = (unsigned)image[273 + 2 * id] << 8 | image[274 + 2 * id];
        if (image[84 + 6 * id] == 0 && owed > 0)
            printf(" id %u %u", id, owed);
        if (image[84 + 6 * id] == 0)
            all += owed;
    }
    printf(all > 0 ? "\n" : " nothing\n");
}

/* The service screen at a slot: how each listed partition stands, by the image in force. Each slot has one, in a transition too. (A firmware looks at
 * its slot first and then at in_force: if 6 is told, the dispatcher took a copy over in between, and it looks again.) */
static void screen(uint64_t slot)
{
    const char *joint = ":";
    size_t place;
    uint16_t shortfall;
    uint64_t slices;
    uint8_t id, number;

    printf("  screen");
    for (id = 0; id < TARNFLAW_IDS; id++) {
        number = tarnflaw_standing(images[in_force], TARNFLAW_IMAGE, id, slot, &place, &shortfall, &slices);
        if (number == TARNFLAW_NOT_LISTED)
            continue;
        if (number == TARNFLAW_ACCEPTED)
            printf("%s id %u at %u, slices %u", joint, id, shortfall, (unsigned)slices);
        else
            printf("%s id %u refused, %u", joint, id, number);
        joint = ";";
    }
    printf("\n");
}

/* Reads the archived answer whole, and prints what it says of the transition and how many ids it lists, or why it is refused. */
static void read_archived(const char *name)
{
    uint8_t schedule[TARNFLAW_SCHEDULE];
    size_t place;
    unsigned id, listed = 0;
    const uint8_t number = tarnflaw_read_answer(archived, archived_size, schedule, sizeof schedule, &place);

    printf("%s: %u, place %zu", name, number, place);
    if (number == TARNFLAW_ACCEPTED) {
        for (id = 0; id < TARNFLAW_IDS; id++)
            listed += schedule[65 + id];
        printf(", length %u, %u ids", schedule[0], listed);
    }
    printf("\n");
}

/* Lets the slots from one to another begin. Prints who has them, what became of the copy, and how many slots were refused. */
static void run(uint64_t slot, uint64_t last)
{
    const sig_atomic_t before = refused;

    if (slot == last)
        printf("slot %u:", (unsigned)slot);
    else
        printf("slots %u to %u:", (unsigned)slot, (unsigned)last);
    for (; slot <= last; slot++) {
        uint8_t owner = dispatch(slot);
        if (owner == TARNFLAW_IDLE)
            printf(" idle");
        else
            printf(" %u", owner);
    }
    printf("; copy %s, refused %d\n", copy == WAITING ? "waiting" : copy == LATE ? "late" : "taken", (int)(refused - before));
}

/* Lets the slots from one to another begin, one at a time, and prints what the screen shows at each. */
static void watch(uint64_t slot, uint64_t last)
{
    for (; slot <= last; slot++) {
        run(slot, slot);
        screen(slot);
    }
}

/* What the board stores: an image, the version that its meaning has, the next slot, and a checksum over these. */
struct stored {
    uint8_t image[TARNFLAW_IMAGE];
    uint8_t version;
    uint64_t slot;
    uint64_t sum;
};

/* The checksum, a simple one: a firmware has its own. */
static uint64_t sum_of(const struct stored *s)
{
    uint64_t sum = s->slot * 257 + s->version;
    size_t i;

    for (i = 0; i < TARNFLAW_IMAGE; i++)
        sum = sum * 257 + s->image[i];
    return sum;
}

/* An image of version 5, and of versions 1 to 4, which has no shortfalls at the request slot: the version that is stored beside each, and the bytes of
 * the latter. One of version 5 is taken as it is: what ids that are not listed were owed was forgotten there, and is 0. */
#define IMAGE_VERSION_5 5
#define OLD_IMAGE 273
#define OLD_IMAGE_VERSION 1

/* Starts, before the first interrupt: goes on from a stored image at the next slot, or starts empty at slot 0 if anything speaks against it. */
static void start(const char *name, const struct stored *s)
{
    const char *against = NULL;
    size_t place;
    uint8_t owner;

    if (s->version != TARNFLAW_IMAGE_VERSION && s->version != IMAGE_VERSION_5)
        against = "other version";
    else if (s->sum != sum_of(s))
        against = "checksum";
    else if (tarnflaw_owner(s->image, TARNFLAW_IMAGE, s->slot, &place, &owner) != TARNFLAW_ACCEPTED)
        against = "query refused";
    in_force = 0;
    copy = TAKEN;
    printf("%s: %s, %s\n", name, against ? against : "good", against ? "starts empty" : "goes on");
    if (against)
        tarnflaw_empty(images[0], TARNFLAW_IMAGE);
    else
        memcpy(images[0], s->image, TARNFLAW_IMAGE);
    run(against ? 0 : s->slot, against ? 3 : s->slot + 3);
}

/* Carries an old image over, as a timetable from its base on, with the next slot: what would be stored of it today. (A firmware tests the checksum of the
 * old bytes first.) A next slot before the base is refused at the start. */
static struct stored carried_over(const uint8_t *old, uint8_t version, uint64_t slot)
{
    struct stored s;
    size_t id;

    memset(s.image, 0, TARNFLAW_IMAGE);
    memcpy(s.image, old + 73, 8);
    memcpy(s.image + 73, old + 73, 8 + 6 * TARNFLAW_IDS);
    for (id = 0; id < TARNFLAW_IDS; id++)
        memcpy(s.image + 273 + 2 * id, old + 85 + 6 * id, 2);
    s.version = version == OLD_IMAGE_VERSION ? TARNFLAW_IMAGE_VERSION : version;
    s.slot = slot;
    s.sum = sum_of(&s);
    return s;
}

/* Starts from a stored image, from the same with one thing changed, and from those that versions 5 and 4 would have stored: the latter is its first
 * bytes. */
static void starts(struct stored *s)
{
    struct stored other = *s;
    uint8_t old[OLD_IMAGE];

    start("stored", s);
    other.version++;
    other.sum = sum_of(&other);
    start("of another version", &other);
    other = *s;
    other.image[276] = 0;
    start("byte 276 damaged, which leaves it sound", &other);
    other.image[276] = s->image[276];
    other.image[8] = TARNFLAW_LONGEST + 1;
    other.sum = sum_of(&other);
    start("not sound, under a right checksum", &other);
    other = *s;
    other.slot = 0;
    other.sum = sum_of(&other);
    start("with slots counted from 0 again", &other);
    other = *s;
    other.version = IMAGE_VERSION_5;
    other.sum = sum_of(&other);
    start("of version 5, as it is", &other);
    memcpy(old, s->image, OLD_IMAGE);
    other = carried_over(old, OLD_IMAGE_VERSION, s->slot);
    start("of version 4, carried over", &other);
    other = carried_over(old, OLD_IMAGE_VERSION, 6);
    start("of version 4, stored in its transition", &other);
}

int main(void)
{
    struct stored s;

    tarnflaw_empty(images[in_force], TARNFLAW_IMAGE);
    change("A, for slot 0", 0, 0, listed_a, sizeof listed_a);
    run(0, 1);
    change("an id twice", 6, 0, listed_twice, sizeof listed_twice);
    change("C, for slot 6", 6, 0, listed_c, sizeof listed_c);
    change("another, while that waits", 12, 0, listed_a, sizeof listed_a);
    read_archived("C's answer, read whole");
    archived[7]++;
    read_archived("with another owner, which leaves its form");
    archived[archived_size - 2] = 0;
    read_archived("with its last id at 0");
    print_archived();
    run(2, 4);
    watch(5, 8);
    change("E, for slot 9", 9, 0, listed_e, sizeof listed_e);
    change("E with T 3", 9, 3, listed_e, sizeof listed_e);

    memcpy(s.image, images[in_force], TARNFLAW_IMAGE);
    s.version = TARNFLAW_IMAGE_VERSION;
    s.slot = 9;
    s.sum = sum_of(&s);

    print_bounds();
    change_by("id 1 has half its share, for slot 10", half_share, sizeof half_share);
    run(9, 10);
    print_bounds();
    change("id 2 leaves, for slot 10, which has begun", 10, 0, listed_a, sizeof listed_a);
    run(11, 12);
    change("once more, for slot 14", 14, 0, listed_a, sizeof listed_a);
    run(13, 17);
    print_debts();
    change("id 2 returns with R 1, for slot 19", 19, 0, listed_e, sizeof listed_e);
    change("with R 2", 19, 0, listed_c, sizeof listed_c);
    run(18, 18);
    watch(19, 21);
    print_debts();
    starts(&s);
    return 0;
}
