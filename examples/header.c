/* What include/tarnflaw.h says, tried: each number and each limit, the order in which functions refuse, the forms of image, schedule, request and answer,
 * what a short field asks, what an id that leaves and returns is owed, the standing during a change, reading answers and writing requests, an old image
 * carried over, and what soundness does not notice. Compiles as C99 and as C++11. */
#include <stdio.h>
#include <string.h>

#include "tarnflaw.h"

/* The fields of a request: the request slot (below 256 here), T, a partition with its period 2^k and its bound, and one whose bound stays as before,
 * by a short field. */
#define SLOT(slot) 1, 0, 8, 0, 0, 0, 0, 0, 0, 0, slot
#define LIMIT(t) 2, 0, 1, t
#define LIST(id, k, bound) 3, 0, 3, id, k, bound
#define SHORT(id, k) 3, 0, 2, id, k
/* What cases B and C list, and what D and E do; and what is there after case B, each bound as before. */
#define LISTED_B LIST(0, 2, 1), SHORT(1, 2), LIST(2, 1, 2)
#define LISTED_D LIST(0, 2, 1), LIST(1, 2, 1), LIST(2, 1, 1)
#define LISTED_THERE SHORT(0, 2), SHORT(1, 2), SHORT(2, 1)

static const uint8_t case_a[] = { SLOT(0), LIMIT(0), LIST(0, 2, 1), LIST(1, 2, 1) };
static const uint8_t there_after_a[] = { SLOT(6), LIMIT(0), SHORT(0, 2), SHORT(1, 2) };
static const uint8_t case_b[] = { SLOT(6), LIMIT(1), LISTED_B };
static const uint8_t case_c[] = { SLOT(6), LIMIT(0), LISTED_B };
static const uint8_t case_d[] = { SLOT(8), LIMIT(0), LISTED_D };
static const uint8_t case_d_short[] = { SLOT(8), LIMIT(0), LIST(0, 2, 1), LIST(1, 2, 1), SHORT(2, 1) };
static const uint8_t case_d_full[] = { SLOT(8), LIMIT(0), LIST(0, 2, 1), LIST(1, 2, 1), LIST(2, 1, 2) };
static const uint8_t there_6[] = { SLOT(6), LIMIT(0), LISTED_THERE };
static const uint8_t there_7[] = { SLOT(7), LIMIT(0), LISTED_THERE };
static const uint8_t there_8[] = { SLOT(8), LIMIT(0), LISTED_THERE };
static const uint8_t there_9[] = { SLOT(9), LIMIT(0), LISTED_THERE };
static const uint8_t leaves_7[] = { SLOT(7), LIMIT(0), SHORT(0, 2), SHORT(1, 2) };
static const uint8_t leaves_8[] = { SLOT(8), LIMIT(0), SHORT(0, 2), SHORT(1, 2) };
static const uint8_t returns_20[] = { SLOT(20), LIMIT(0), SHORT(0, 2), SHORT(1, 2), LIST(2, 1, 2) };
static const uint8_t case_e_2[] = { SLOT(9), LIMIT(2), LISTED_D };
static const uint8_t case_e_3[] = { SLOT(9), LIMIT(3), LISTED_D };
static const uint8_t case_e_64[] = { SLOT(9), LIMIT(TARNFLAW_LONGEST), LISTED_D };
static const uint8_t case_j[] = { SLOT(8), LIMIT(0), LIST(0, 0, 1), LIST(7, 8, 1) };
static const uint8_t long_t[] = { SLOT(9), LIMIT(TARNFLAW_LONGEST + 1) };
static const uint8_t high_id[] = { SLOT(9), LIMIT(0), LIST(TARNFLAW_IDS - 1, 2, 1), LIST(TARNFLAW_IDS, 2, 1) };
static const uint8_t twice[] = { SLOT(8), LIMIT(0), LIST(4, 2, 1), LIST(4, 2, 1) };
static uint8_t image[TARNFLAW_IMAGE];
static uint8_t area[TARNFLAW_AREA];
static size_t place; /* what is told, where it is not printed */
static uint8_t owner;

/* What a number says. A constant of the header that has no case here is a warning. */
static const char *says(uint8_t number)
{
    switch ((enum tarnflaw_number)number) {
    case TARNFLAW_ACCEPTED: return "accepted";
    case TARNFLAW_NOT_SOUND: return "not sound";
    case TARNFLAW_SMALL_AREA: return "small area";
    case TARNFLAW_BAD_FIELD: return "bad field";
    case TARNFLAW_OUT_OF_RANGE: return "out of range";
    case TARNFLAW_NOT_RISING: return "not rising";
    case TARNFLAW_TOO_EARLY: return "too early";
    case TARNFLAW_OVERFULL: return "overfull";
    case TARNFLAW_BEHIND: return "behind";
    case TARNFLAW_SLOT_MISSED: return "slot missed";
    case TARNFLAW_NOT_LISTED: return "not listed";
    case TARNFLAW_LENGTHS_EXHAUSTED: return "lengths exhausted";
    }
    return "no number of the header";
}

/* Changes the image, and prints what is returned and told. Returns the bytes of the answer. */
static size_t change(const char *name, const uint8_t *request, size_t request_size, size_t image_size, size_t area_size)
{
    size_t where, written;
    uint8_t tries;
    uint8_t number = tarnflaw_change(image, image_size, request, request_size, area, area_size, &where, &tries, &written);

    printf("%s: %u %s, place %zu, tries %u, %zu bytes\n", name, number, says(number), where, tries, written);
    return written;
}

#define CHANGE(name, request) change(name, request, sizeof(request), TARNFLAW_IMAGE, TARNFLAW_AREA)

/* Prints how a partition stands at a slot. Returns the number. */
static uint8_t standing(uint8_t id, uint64_t slot, size_t image_size)
{
    uint16_t shortfall;
    uint64_t slices;
    uint8_t number = tarnflaw_standing(image, image_size, id, slot, &place, &shortfall, &slices);

    printf("id %u at slot %llu: %u %s, shortfall %u, slices %u\n", id, (unsigned long long)slot, number, says(number), shortfall, (unsigned)slices);
    return number;
}

/* Asks queries with all faults at once, and then with one less each time: the numbers come in the header's order. */
static void show_order(void)
{
    uint8_t n[4];

    n[0] = tarnflaw_owner(image, TARNFLAW_IMAGE - 1, TARNFLAW_LAST_SLOT + 1, &place, &owner);
    n[1] = tarnflaw_owner(image, TARNFLAW_IMAGE, TARNFLAW_LAST_SLOT + 1, &place, &owner);
    n[2] = tarnflaw_owner(image, TARNFLAW_IMAGE, 5, &place, &owner);
    n[3] = tarnflaw_owner(image, TARNFLAW_IMAGE, TARNFLAW_LAST_SLOT, &place, &owner);
    printf("the owner query refuses %u, then %u, then %u\n", n[0], n[1], n[2]);
    printf("the last slot: %u %s, owner %u\n", n[3], says(n[3]), owner);

    n[0] = standing(TARNFLAW_IDS, 5, TARNFLAW_IMAGE - 1);
    n[1] = standing(TARNFLAW_IDS, 5, TARNFLAW_IMAGE);
    n[2] = standing(TARNFLAW_IDS - 1, 5, TARNFLAW_IMAGE);
    n[3] = standing(TARNFLAW_IDS - 1, 6, TARNFLAW_IMAGE);
    printf("the standing query refuses %u, then %u, then %u, then %u\n", n[0], n[1], n[2], n[3]);
    standing(0, TARNFLAW_LAST_SLOT + 1, TARNFLAW_IMAGE);
}

/* Prints how the partitions of case B stand from its request slot on: in the transition, at the base, and a slot and three slots behind it. */
static void show_standing(void)
{
    static const uint64_t slots[] = { 6, 7, 8, 10 };
    size_t i;
    uint8_t id;

    for (i = 0; i < sizeof slots / sizeof slots[0]; i++)
        for (id = 0; id < 3; id++)
            standing(id, slots[i], TARNFLAW_IMAGE);
}

/* Prints a record, a field a line. */
static void show_record(const uint8_t *record, size_t size)
{
    size_t at, i;

    for (at = 0; at + 3 <= size; at += i) {
        printf("field");
        for (i = 0; i < 3u + record[at + 2] && at + i < size; i++)
            printf(" %02x", record[at + i]);
        printf("\n");
    }
}

/* A part of an image or of a schedule: its name, first byte and size. Where there is one for each id, the bytes from one to the next, else 0. */
struct part { const char *name; size_t first, size, step; };

/* Prints the parts of an image or of a schedule at their bytes, and of those for each id that of id 2. */
static void show_parts(const char *name, const uint8_t *bytes, const struct part *parts, size_t count)
{
    size_t i, j;

    for (i = 0; i < count; i++) {
        const struct part p = parts[i];
        printf("%s %zu", name, p.first);
        if (p.step > 1)
            printf(" + %zu * id", p.step);
        else if (p.step == 1)
            printf(" + id");
        else if (p.size > 1)
            printf("..%zu", p.first + p.size - 1);
        printf(" %s: ", p.name);
        for (j = 0; j < p.size; j++)
            printf("%02x", bytes[p.first + 2 * p.step + j]);
        printf("\n");
    }
}

/* Prints the parts of the image. */
static void show_image(void)
{
    static const struct part parts[] = {
        { "request slot", 0, 8, 0 }, { "transition length", 8, 1, 0 }, { "owners", 9, TARNFLAW_LONGEST, 0 }, { "base", 73, 8, 0 },
        { "period", 81, 2, 6 }, { "offset", 83, 1, 6 }, { "bound R", 84, 1, 6 }, { "shortfall at the base", 85, 2, 6 },
        { "shortfall at the request slot", 273, 2, 2 }
    };

    show_parts("image", image, parts, sizeof parts / sizeof parts[0]);
}

/* Prints the bytes of id 2 in the image: period, offset, bound and shortfall at the base, and shortfall at the request slot. */
static void show_owed(void)
{
    size_t i;

    printf("id 2 in the image:");
    for (i = 93; i < 99; i++)
        printf(" %02x", image[i]);
    printf(", %02x %02x\n", image[277], image[278]);
}

/* Puts a request to an image, and prints what is returned and told, and of the image then its length and each id with its offset and bound. */
static void change_of(const char *name, const uint8_t *before, const uint8_t *request, size_t request_size)
{
    unsigned id;

    memcpy(image, before, TARNFLAW_IMAGE);
    if (change(name, request, request_size, TARNFLAW_IMAGE, TARNFLAW_AREA) == 0)
        return;
    printf("  length %u", image[8]);
    for (id = 0; id < TARNFLAW_IDS; id++)
        if (image[84 + 6 * id] > 0)
            printf("; id %u: offset %u, R %u", id, image[83 + 6 * id], image[84 + 6 * id]);
    printf("\n");
}

#define CHANGE_OF(name, before, request) change_of(name, before, request, sizeof(request))

/* Tries short fields on case B's image, which is in force again afterwards: D in full and with a short field; what is there, at several slots; and an
 * id that leaves and returns. */
static void show_short(void)
{
    uint8_t b[TARNFLAW_IMAGE], by_short[TARNFLAW_IMAGE], answer[TARNFLAW_AREA];

    memcpy(b, image, TARNFLAW_IMAGE);
    CHANGE_OF("D, R 1 for id 2 in full", b, case_d);
    CHANGE_OF("D with a short field for id 2", b, case_d_short);
    memcpy(by_short, image, TARNFLAW_IMAGE);
    memcpy(answer, area, TARNFLAW_AREA);
    CHANGE_OF("D, R 2 for id 2 in full", b, case_d_full);
    printf("by the short field: %s image, %s answer\n", memcmp(by_short, image, TARNFLAW_IMAGE) == 0 ? "the same" : "another",
           memcmp(answer, area, TARNFLAW_AREA) == 0 ? "the same" : "another");

    CHANGE_OF("what is there, before the base", b, there_6);
    CHANGE_OF("what is there, at slot 7", b, there_7);
    CHANGE_OF("what is there, at slot 8", b, there_8);
    CHANGE_OF("what is there, at slot 9", b, there_9);

    CHANGE_OF("id 2 leaves at slot 7", b, leaves_7);
    memcpy(by_short, image, TARNFLAW_IMAGE);
    CHANGE_OF("id 2 returns at slot 8 with a short field", by_short, there_8);
    memcpy(image, b, TARNFLAW_IMAGE);
}

/* Lets id 2 leave case B's image, which is in force again afterwards, with a whole slot that it is owed, and return in the same slot and later; last from
 * an image as version 5 left it, in which it is owed nothing. */
static void show_debt(void)
{
    uint8_t b[TARNFLAW_IMAGE], left[TARNFLAW_IMAGE];

    memcpy(b, image, TARNFLAW_IMAGE);
    CHANGE_OF("id 2 leaves at slot 8", b, leaves_8);
    memcpy(left, image, TARNFLAW_IMAGE);
    show_owed();
    standing(2, 8, TARNFLAW_IMAGE);
    CHANGE_OF("id 2 returns at slot 8 with R 1", left, case_d);
    CHANGE_OF("id 2 returns at slot 8 with a short field", left, case_d_short);
    CHANGE_OF("id 2 returns at slot 8 with R 2", left, case_d_full);
    standing(2, 8, TARNFLAW_IMAGE);
    CHANGE_OF("id 2 returns at slot 20 with R 2", left, returns_20);
    standing(2, 20, TARNFLAW_IMAGE);
    memset(left + 97, 0, 2);
    memset(left + 277, 0, 2);
    CHANGE_OF("id 2 returns at slot 8 with R 1, as in version 5", left, case_d);
    standing(2, 8, TARNFLAW_IMAGE);
    memcpy(image, b, TARNFLAW_IMAGE);
}

/* Makes images with nothing listed, in which id 2 is owed something at the base and at the request slot, and prints which are sound. */
static void show_owing(void)
{
    static const unsigned at_base[] = { 2047, 2048, 2047 }, at_request[] = { 2047, 2048, 2046 };
    uint8_t b[TARNFLAW_IMAGE];
    uint8_t number;
    size_t i;

    memcpy(b, image, TARNFLAW_IMAGE);
    for (i = 0; i < sizeof at_base / sizeof at_base[0]; i++) {
        tarnflaw_empty(image, TARNFLAW_IMAGE);
        image[97] = (uint8_t)(at_base[i] >> 8);
        image[98] = (uint8_t)at_base[i];
        image[277] = (uint8_t)(at_request[i] >> 8);
        image[278] = (uint8_t)at_request[i];
        number = tarnflaw_owner(image, TARNFLAW_IMAGE, 0, &place, &owner);
        printf("not listed, id 2 at %u and %u: %u %s\n", at_request[i], at_base[i], number, says(number));
    }
    memcpy(image, b, TARNFLAW_IMAGE);
}

/* Asks for what is there after case A at slot 6, and prints who has slot 7 by an image that is torn: its first bytes, up to the base, of the new image
 * and the others of the old one. The old one is in force again afterwards. */
static void show_torn(void)
{
    uint8_t older[TARNFLAW_IMAGE], torn[TARNFLAW_IMAGE];
    uint8_t number;

    memcpy(older, image, TARNFLAW_IMAGE);
    CHANGE("what is there after A, at slot 6", there_after_a);
    memcpy(torn, older, TARNFLAW_IMAGE);
    memcpy(torn, image, 81);
    tarnflaw_owner(older, TARNFLAW_IMAGE, 7, &place, &owner);
    printf("slot 7: owner %u before,", owner);
    tarnflaw_owner(image, TARNFLAW_IMAGE, 7, &place, &owner);
    printf(" %u after,", owner);
    number = tarnflaw_owner(torn, TARNFLAW_IMAGE, 7, &place, &owner);
    printf(" %s in a torn image, %u %s\n", owner == TARNFLAW_IDLE ? "idle" : "right", number, says(number));
    memcpy(image, older, TARNFLAW_IMAGE);
}

/* Prints how many of the images that differ in one byte are sound. */
static void show_damage(void)
{
    unsigned damaged = 0, sound = 0, bits;
    size_t i;

    for (i = 0; i < TARNFLAW_IMAGE; i++) {
        const uint8_t right = image[i];
        for (bits = 1; bits < 256; bits++) {
            image[i] = (uint8_t)(right ^ bits);
            damaged++;
            if (tarnflaw_owner(image, TARNFLAW_IMAGE, TARNFLAW_LAST_SLOT, &place, &owner) == TARNFLAW_ACCEPTED)
                sound++;
        }
        image[i] = right;
    }
    printf("of %u,%03u images that differ from case B's in one byte %u are sound\n", damaged / 1000, damaged % 1000, sound);
}

/* Changes a byte of the image, prints how a partition then stands at a slot, and changes it back. */
static void damaged(size_t byte, uint8_t value, uint8_t id, uint64_t slot)
{
    const uint8_t right = image[byte];

    image[byte] = value;
    printf("byte %zu at %u: ", byte, value);
    standing(id, slot, TARNFLAW_IMAGE);
    image[byte] = right;
}

/* Asks for what is there by short fields where id 0's R is damaged: it is asked as before. Case B's image is in force again afterwards. */
static void show_other_bound(void)
{
    uint8_t b[TARNFLAW_IMAGE], other[TARNFLAW_IMAGE];

    memcpy(b, image, TARNFLAW_IMAGE);
    memcpy(other, image, TARNFLAW_IMAGE);
    other[84] = 2;
    CHANGE_OF("what is there, at slot 8, with byte 84 at 2", other, there_8);
    memcpy(image, b, TARNFLAW_IMAGE);
}

#define OLD_IMAGE 273 /* bytes of an image of versions 1 to 4, which has no shortfalls at the request slot */

/* Carries an old image over: from its base on, as a timetable without a transition. */
static void carry_over(uint8_t *to, const uint8_t *old)
{
    size_t id;

    memset(to, 0, TARNFLAW_IMAGE);
    memcpy(to, old + 73, 8);
    memcpy(to + 73, old + 73, 8 + 6 * TARNFLAW_IDS);
    for (id = 0; id < TARNFLAW_IDS; id++)
        memcpy(to + 273 + 2 * id, old + 85 + 6 * id, 2);
}

/* Prints in how many slots from the base on, of a thousand, an image and the present one tell another owner, or of ids 0 to 2 another shortfall, and
 * by how many slices each of these has less there. */
static void compare_from(uint64_t base, const uint8_t *other)
{
    unsigned differ = 0;
    uint64_t less[3] = { 0, 0, 0 };
    uint64_t slot, slices, counted;
    uint16_t shortfall, owed;
    uint8_t has, id;

    for (slot = base; slot < base + 1000; slot++) {
        tarnflaw_owner(image, TARNFLAW_IMAGE, slot, &place, &owner);
        differ += tarnflaw_owner(other, TARNFLAW_IMAGE, slot, &place, &has) != TARNFLAW_ACCEPTED || has != owner;
        for (id = 0; id < 3; id++) {
            tarnflaw_standing(image, TARNFLAW_IMAGE, id, slot, &place, &shortfall, &slices);
            differ += tarnflaw_standing(other, TARNFLAW_IMAGE, id, slot, &place, &owed, &counted) != TARNFLAW_ACCEPTED || owed != shortfall;
            differ += slot > base && slices - counted != less[id];
            less[id] = slices - counted;
        }
    }
    printf("carried over: %u differ from slot %u on; slices less by %u, %u and %u\n", differ, (unsigned)base, (unsigned)less[0], (unsigned)less[1],
           (unsigned)less[2]);
}

/* Tries an image of versions 1 to 4, which is the first bytes of case B's, as it is and carried over; and one whose base is above the last slot. */
static void show_old(void)
{
    static const uint8_t late[] = { 0, 0, 0xff, 0xff, 0xff, 0xff, 0xff, 0xff }, behind[] = { 0, 1, 0, 0, 0, 0, 0, 0 };
    uint8_t b[TARNFLAW_IMAGE], old[OLD_IMAGE], to[TARNFLAW_IMAGE], changed[TARNFLAW_IMAGE], answer[TARNFLAW_AREA];
    uint8_t number;

    memcpy(b, image, TARNFLAW_IMAGE);
    memcpy(old, image, OLD_IMAGE);
    number = tarnflaw_owner(old, OLD_IMAGE, 7, &place, &owner);
    printf("an image of version 4: %u %s,", number, says(number));
    number = tarnflaw_empty(old, OLD_IMAGE);
    printf(" empty of it %u %s, %s\n", number, says(number), memcmp(old, image, OLD_IMAGE) == 0 ? "as it was" : "changed");

    carry_over(to, old);
    number = tarnflaw_owner(to, TARNFLAW_IMAGE, 6, &place, &owner);
    printf("carried over, slot 6: %u %s;", number, says(number));
    number = tarnflaw_owner(to, TARNFLAW_IMAGE, 7, &place, &owner);
    printf(" slot 7: %u %s, owner %u\n", number, says(number), owner);
    compare_from(7, to);
    change_of("what is there, at slot 8, carried over", to, there_8, sizeof there_8);
    memcpy(changed, image, TARNFLAW_IMAGE);
    memcpy(answer, area, TARNFLAW_AREA);
    change_of("what is there, at slot 8", b, there_8, sizeof there_8);
    printf("carried over: %s image, %s answer\n", memcmp(changed, image, TARNFLAW_IMAGE) == 0 ? "the same" : "another",
           memcmp(answer, area, TARNFLAW_AREA) == 0 ? "the same" : "another");

    memcpy(image, b, TARNFLAW_IMAGE);
    memcpy(image, late, 8);
    memcpy(image + 73, behind, 8);
    number = tarnflaw_owner(image, TARNFLAW_IMAGE, TARNFLAW_LAST_SLOT, &place, &owner);
    printf("with its base above the last slot: %u %s,", number, says(number));
    carry_over(to, image);
    number = tarnflaw_owner(to, TARNFLAW_IMAGE, TARNFLAW_LAST_SLOT, &place, &owner);
    printf(" carried over %u %s\n", number, says(number));
    memcpy(image, b, TARNFLAW_IMAGE);
}

#define ROOM 300    /* the bytes that calls without an image may write to, filled before each */
#define FILLED 0xa5 /* with this */
static uint8_t room[ROOM];

/* How many bytes of the room were written: up to the last that is not as it was filled. */
static size_t touched(void)
{
    size_t size = ROOM;

    while (size > 0 && room[size - 1] == FILLED)
        size--;
    return size;
}

/* Reads an answer into the room, and prints what is returned, told and touched. Returns the number. */
static uint8_t read_answer(const char *name, const uint8_t *answer, size_t answer_size, size_t area_size)
{
    size_t where;
    uint8_t number;

    memset(room, FILLED, ROOM);
    number = tarnflaw_read_answer(answer, answer_size, room, area_size, &where);
    printf("read %s: %u %s, place %zu, %zu bytes touched\n", name, number, says(number), where, touched());
    return number;
}

/* Writes a request into the room, and prints what is returned, told and touched. Returns the number. */
static uint8_t write_request(const char *name, uint64_t slot, uint8_t limit, const uint8_t *listing, size_t listing_size, size_t area_size)
{
    size_t where, written;
    uint8_t number;

    memset(room, FILLED, ROOM);
    number = tarnflaw_write_request(slot, limit, listing, listing_size, room, area_size, &where, &written);
    printf("write %s: %u %s, place %zu, %zu bytes, %zu touched\n", name, number, says(number), where, written, touched());
    return number;
}

/* Reads the field at a place, prints what is returned and told, and where the place is then. Returns that. */
static size_t read_field(const uint8_t *answer, size_t answer_size, size_t at)
{
    size_t next = at, where;
    uint8_t tag, first, second;
    uint8_t number = tarnflaw_answer_field(answer, answer_size, &next, &where, &tag, &first, &second);

    printf("at %zu: %u %s, place %zu, tag %02x, %u %u, then at %zu\n", at, number, says(number), where, tag, first, second, next);
    return next;
}

/* Reads case B's answer, whole and a field at a time, and tries what is refused. */
static void show_reading(const uint8_t *answer, size_t size)
{
    static const struct part parts[] = {
        { "transition length", 0, 1, 0 }, { "owners", 1, TARNFLAW_LONGEST, 0 }, { "listed", 65, 1, 1 }, { "offset", 97, 1, 1 }
    };
    uint8_t other[TARNFLAW_AREA + 1];
    uint8_t n[2];
    size_t at, next;

    memcpy(other, answer, size);
    read_answer("B's answer", answer, size, TARNFLAW_SCHEDULE);
    show_parts("schedule", room, parts, sizeof parts / sizeof parts[0]);
    read_answer("it cut by a byte", answer, size - 1, TARNFLAW_SCHEDULE);
    read_answer("its length alone", answer, 4, TARNFLAW_SCHEDULE);
    read_answer("nothing", answer, 0, TARNFLAW_SCHEDULE);
    other[size] = 0;
    read_answer("it with a byte behind", other, size + 1, TARNFLAW_SCHEDULE);
    other[7] = TARNFLAW_IDS;
    read_answer("it with owner 32", other, size, TARNFLAW_SCHEDULE);
    other[3] = TARNFLAW_LONGEST + 1;
    read_answer("it with length 65", other, size, TARNFLAW_SCHEDULE);
    memcpy(other, answer, size);
    other[size - 2] = 1;
    n[0] = read_answer("it with an id twice, into a byte less", other, size, TARNFLAW_SCHEDULE - 1);
    n[1] = read_answer("it into a byte less", answer, size, TARNFLAW_SCHEDULE - 1);
    printf("the reader refuses %u, then %u\n", n[0], n[1]);

    for (at = 0; (next = read_field(answer, size, at)) != at; at = next)
        ;
    read_field(answer, size, size + 1);
    read_field(other, size, size - 5);
}

/* Writes case B's request, and tries what is refused. */
static void show_writing(void)
{
    static const uint8_t listed_b[] = { 0, 2, 1, 1, 2, 1, 2, 1, 2 };
    static const uint8_t bad[] = { 0, 2, 1, 1, 9, 1 }, none[] = { 0, 2, 0 }, again[] = { 0, 2, 1, 0, 2, 1 };
    uint8_t many[3 * TARNFLAW_IDS + 3];
    uint8_t n[5], id;

    write_request("B's request", 6, 1, listed_b, sizeof listed_b, TARNFLAW_REQUEST);
    change("B by it, once more", room, 33, TARNFLAW_IMAGE, TARNFLAW_AREA);
    write_request("one that lists nothing", 6, 1, listed_b, 0, 15);
    for (id = 0; id <= TARNFLAW_IDS; id++) {
        many[3 * id] = id;
        many[3 * id + 1] = 5;
        many[3 * id + 2] = 8;
    }
    write_request("the longest", TARNFLAW_LAST_SLOT, TARNFLAW_LONGEST, many, sizeof many - 3, TARNFLAW_REQUEST);
    write_request("it with a partition more", TARNFLAW_LAST_SLOT, TARNFLAW_LONGEST, many, sizeof many, TARNFLAW_REQUEST);
    write_request("a partition cut short", 6, 1, listed_b, sizeof listed_b - 1, TARNFLAW_REQUEST);
    write_request("R 0", 6, 1, none, sizeof none, TARNFLAW_REQUEST);

    n[0] = write_request("all at once", TARNFLAW_LAST_SLOT + 1, TARNFLAW_LONGEST + 1, bad, sizeof bad, 14);
    n[1] = write_request("T and the listing", 6, TARNFLAW_LONGEST + 1, bad, sizeof bad, 14);
    n[2] = write_request("k 9", 6, 1, bad, sizeof bad, 14);
    n[3] = write_request("an id twice", 6, 1, again, sizeof again, 14);
    n[4] = write_request("a byte less", 6, 1, listed_b, sizeof listed_b, 32);
    printf("the writer refuses %u, then %u, then %u or %u, then %u\n", n[0], n[1], n[2], n[3], n[4]);
}

/* The longest request, and one of a byte less: all ids, each with period 32 and R 8. */
static void longest(void)
{
    static const uint8_t head[] = { SLOT(9), LIMIT(TARNFLAW_LONGEST) };
    static uint8_t request[512];
    size_t size = sizeof head;
    uint8_t id;

    memcpy(request, head, sizeof head);
    for (id = 0; id < TARNFLAW_IDS; id++, size += 6) {
        const uint8_t field[] = { LIST(id, 5, 8) };
        memcpy(request + size, field, sizeof field);
    }
    change("a longest request cut by a byte", request, TARNFLAW_REQUEST - 1, TARNFLAW_IMAGE, TARNFLAW_AREA);
    change("the longest request", request, TARNFLAW_REQUEST, TARNFLAW_IMAGE, TARNFLAW_AREA);
}

/* Tries what is refused after case B. */
static void refusals(void)
{
    change("B on an image of a byte less", case_b, sizeof case_b, TARNFLAW_IMAGE - 1, TARNFLAW_AREA);
    change("B in an area of a byte less", case_b, sizeof case_b, TARNFLAW_IMAGE, TARNFLAW_AREA - 1);
    change("D cut behind its slot", case_d, 11, TARNFLAW_IMAGE, TARNFLAW_AREA);
    CHANGE("T above the longest", long_t);
    CHANGE("an id too high", high_id);
    CHANGE("an id twice", twice);
    CHANGE("F, B once more", case_b);
    CHANGE("J, after B", case_j);
    CHANGE("D", case_d);
    CHANGE("E with T 2", case_e_2);
    CHANGE("E with T 3", case_e_3);
    CHANGE("E with the longest T", case_e_64);
}

/* Makes the empty timetable of other bytes. */
static void show_empty(void)
{
    static const uint8_t zero[TARNFLAW_IMAGE] = { 0 };
    uint8_t number;

    memset(image, 0xff, sizeof image);
    number = tarnflaw_owner(image, TARNFLAW_IMAGE, 0, &place, &owner);
    printf("bytes ff: %u %s\n", number, says(number));
    number = tarnflaw_empty(image, TARNFLAW_IMAGE - 1);
    printf("empty of a byte less: %u %s, first byte %02x\n", number, says(number), image[0]);
    number = tarnflaw_empty(image, TARNFLAW_IMAGE);
    printf("empty: %u %s, %s\n", number, says(number), memcmp(image, zero, sizeof zero) == 0 ? "all zero" : "not all zero");
    tarnflaw_owner(zero, TARNFLAW_IMAGE, 0, &place, &owner);
    printf("its slot 0: %s\n", owner == TARNFLAW_IDLE ? "idle" : "not idle");
}

int main(void)
{
    uint8_t answer[TARNFLAW_AREA];
    size_t size;

    printf("version %d, images since version %d\n", TARNFLAW_VERSION, TARNFLAW_IMAGE_VERSION);
    show_empty();
    CHANGE("A", case_a);
    CHANGE("C", case_c);
    show_torn();
    show_record(case_b, sizeof case_b);
    size = CHANGE("B", case_b);
    memcpy(answer, area, size);
    show_record(answer, size);
    show_image();
    refusals();
    show_short();
    show_debt();
    show_owing();
    show_order();
    show_standing();
    show_reading(answer, size);
    show_writing();
    show_damage();
    damaged(276, 0, 1, 6);
    damaged(276, 193, 1, 6);
    damaged(86, 0, 0, 7);
    show_other_bound();
    show_old();
    tarnflaw_empty(image, TARNFLAW_IMAGE);
    longest();
    return 0;
}
