/* Tarnflaw: the timetable changer of one core, for a C program on the board or in the lab network. C99 or C++.
 *
 * A C program keeps the timetable as an image of TARNFLAW_IMAGE bytes (docs/RULES.md 10.1). Numbers are high byte first:
 *
 *     byte          what
 *     0..7          request slot
 *     8             transition length, 0 to TARNFLAW_LONGEST
 *     9..72         owners, one byte for each transition slot; unused ones 0
 *     73..80        base: request slot + length
 *     81 + 6 * id   period, 2 bytes; 0 where the id is not listed, and then offset and bound are 0 too
 *     83 + 6 * id   offset
 *     84 + 6 * id   bound R
 *     85 + 6 * id   shortfall at the base, 2 bytes, in 256ths of a slot
 *     273 + 2 * id  shortfall at the request slot, 2 bytes, in 256ths of a slot
 *
 * An id that is not listed keeps the shortfall with which it left, in both places, and returns with it (docs/RULES.md 2.6). No query tells it meanwhile.
 * One that was never listed has 0.
 *
 * Start with tarnflaw_empty, and hand to each later call the image that the last accepted change left. It may be copied, stored and sent:
 * nothing else is kept. The empty timetable's image is all zero bytes, so memory that was cleared to 0 counts as an empty timetable.
 *
 * Each function returns a number, TARNFLAW_ACCEPTED or the refusal (docs/RULES.md 7.1). An image of another size than TARNFLAW_IMAGE is refused by
 * TARNFLAW_NOT_SOUND, and so are bytes that are no sound timetable (docs/RULES.md 3.5); only tarnflaw_empty takes any TARNFLAW_IMAGE bytes. Of the two
 * shortfalls sound says, for each listed id: both are below 256 R, and walking the transition leads from the one at the request slot to the one at the
 * base (docs/RULES.md 3.10, 3.13 and 3.14). Where the length is 0 the two are the same. So they are for every other id, and below 2,048, which is 256 x 8.
 * The last three functions have no image: see "Archived answers, and requests from figures". On a refusal no byte of the image or of the area changes.
 * What is told through the other pointers is always written.
 *
 * Any bytes may be handed in, and give one result. But sound means possible, not true: the bounds are promised for images that came from calls,
 * not for bytes that were changed elsewhere. See "Stored images".
 *
 * No pointer may be null, also where its size is 0, and none may lead into what another one points to. Nothing is kept after the call,
 * and nothing is allocated. examples/board.c is a whole program; examples/header.c tries what is said here. include/tarnflaw.rs has the same functions for a
 * Rust program, over slices.
 *
 * Requests and answers
 *
 * A request (docs/RULES.md 6.2 to 6.6) has up to TARNFLAW_REQUEST bytes, an answer (docs/RULES.md 6.7) up to TARNFLAW_AREA. Both are fields one
 * behind the other, in the order below: a tag (1 byte), the length of the content (2 bytes, high byte first), the content. All bytes are in hex:
 *
 *     request           tag, length   content
 *     request slot      01 00 08      8 bytes, at most TARNFLAW_LAST_SLOT
 *     T                 02 00 01      the longest transition allowed, at most TARNFLAW_LONGEST
 *     each listed id,   03 00 03      id (below TARNFLAW_IDS), k (0 to 8; its period is 2^k), R (1 to 8)
 *     ids rising, or    03 00 02      id, k: the short field, which asks R as before
 *
 *     answer            tag, length   content
 *     length            10 00 01      transition length
 *     owners            11 00 nn      nn bytes: the owner of each transition slot. The field is there with length 0, too
 *     each listed id,   12 00 02      id, offset
 *     ids rising
 *
 * As before is the R with which the image lists the id when the request is put to it, and 1 for an id that it does not list, also for one that has
 * left. (What left with a shortfall of 256 or more, and returns by a short field, is refused 8: give its R in full, large enough.) So a request with
 * short fields is exactly the one that gives these R in full, and one whose fields are all short, with the present ids and periods, is accepted from
 * the base on, with length 0 (docs/RULES.md 1.10 and 1.11). Its offsets may be others. To ask for R 1, or any R, write it in full.
 *
 * Archived answers, and requests from figures
 *
 * tarnflaw_write_request writes the record of a request from its figures, in the form above and always with R. tarnflaw_read_answer reads an answer that
 * was archived, and tells what it says, its schedule, in TARNFLAW_SCHEDULE bytes (docs/RULES.md 10.6):
 *
 *     byte          what
 *     0             transition length, 0 to TARNFLAW_LONGEST
 *     1..64         owners, one byte for each transition slot; unused ones 0
 *     65 + id       listed: 1 where the id is, and else 0
 *     97 + id       offset; 0 where the id is not listed
 *
 * tarnflaw_answer_field reads an answer a field at a time, with no room for a schedule: the program keeps a place in the answer, at first 0, and each
 * call tells the field that stands there and moves the place behind it. It ends with tag TARNFLAW_NO_FIELD, told with 0 at the answer's end and with 3
 * where a field is refused. Read so to the end, an answer is accepted or refused as a whole one is, with the same place.
 *
 * The form alone is tested (docs/RULES.md 6.8), and a schedule has one record in it. So an answer that is accepted need not be one that a controller
 * gave. Who archives answers keeps beside each one:
 *
 *     its size        how many bytes were written. The bytes behind them in the area are not the answer's
 *     a checksum      of its own, since many a damage leaves the form
 *     the request     which has the slot, from which the transition slots count, and the periods. (The R of a short field is in the requests before it)
 *     the version     TARNFLAW_VERSION of the firmware that wrote it
 *
 * What to do with a 3 of the reader, and with a 2, 4 or 5 of the writer, stands in docs/DICTIONARY.md: "What a 3 tells the archive" and "Writing a
 * request".
 *
 * Refused for want of a schedule
 *
 * 9 and 11 both say that no transition of up to T slots leads to a schedule. They tell whether a larger T may help, where the image and the rest of
 * the request stay as they are (docs/RULES.md 1.8 and 4.7):
 *
 *     TARNFLAW_LENGTHS_EXHAUSTED   place T: all lengths 0 to T were searched. A larger T, up to TARNFLAW_LONGEST, may help: ask again with one. What
 *                                  is accepted then has a transition of more than T slots
 *     TARNFLAW_SLOT_MISSED         place k: transition slot k, counted from 0, is missed. Every larger T gets the same answer
 *
 * So after 9, or after 11 with T at TARNFLAW_LONGEST, no T helps. A later slot, a larger R or a smaller share (a larger k) may. T is byte 14 of a
 * request, counted from 0.
 *
 * Stored images
 *
 * The library has a version, TARNFLAW_VERSION, which is raised whenever an answer, a record or the image changes its meaning, and whenever functions are
 * added. TARNFLAW_IMAGE_VERSION is the first version whose images mean what they mean today; such an image is the same on every machine. A firmware that
 * stores an image stores beside it:
 *
 *     the version     TARNFLAW_IMAGE_VERSION. Where another number stands there, it starts from tarnflaw_empty, or refuses to start. (An image of an
 *                     older version can be carried over: "From version 4 to version 5" and "From version 5 to version 6")
 *     a checksum      of its own, since soundness is none: of 85,935 images that differ from case B's in one byte 217 are sound. Byte 276,
 *                     say, the low byte of id 1's shortfall at the request slot, may hold 0 to 192: with 0 there id 1 stands at 0 at slot 6, and not
 *                     at 192. Byte 84, id 0's R, may hold 1 to 8: with 2 there a short field for id 0 asks R 2
 *     the next slot   since the slots belong to the image. A board that counts from 0 again is refused 6 before the image's request slot; one that
 *                     skips slots, as over a power failure, is told a shortfall as if they had been given
 *
 * So it goes on at the next slot without a gap, or starts empty, and then counts from 0, and every shortfall is 0. Before it goes on it asks one query:
 * on a refusal it starts empty too. A change that waits (below) is not in the image in force, and is asked for again.
 *
 * From version 1 to version 2
 *
 * Exchange the header and the archive together: the archive tells no version. Images stay, up to version 4: what a firmware of version 1 stored as the
 * version, its TARNFLAW_VERSION 1, is TARNFLAW_IMAGE_VERSION there. It has to be compared with that, since a test against TARNFLAW_VERSION would throw
 * good images away. In version 1 both refusals above were 9 with place 0, TARNFLAW_NO_SCHEDULE. The name is gone, so that what compared with it is looked
 * at: it asks for 9 and for 11 now. A literal 9 compiles on, and misses the 11. Numbers go up to 11: a table by number has 12 entries. How a logged 9 of
 * version 1 is read stands in docs/DICTIONARY.md, "Earlier meanings"; a firmware that logs answers logs TARNFLAW_VERSION with them.
 *
 * From version 2 to version 3
 *
 * Exchange the header and the archive together. No answer, record or image has another meaning, nor has a number that an older function gives. So a
 * firmware of version 2 goes on with its stored images and its logs, and logs 3 as the version from then on. What is new:
 *
 *     functions       tarnflaw_read_answer, tarnflaw_write_request and tarnflaw_answer_field
 *     numbers         2 to 5 come from these too, with places of their own: a log says which function gave a number
 *     registers       the SSE registers were xmm0 to xmm3, and are more now (see "What the archive needs"): a handler that saved those four alone
 *                     saves all that are named there
 *     constants       there were none, and there are some now (the same place): a linker script that placed the code alone places .rodata too
 *     memset          tarnflaw_read_answer calls it: what links the archive has memset besides memcpy
 *
 * From version 3 to version 4
 *
 * Exchange the header and the archive together. Functions, numbers and the forms of records and images are those of version 3, and images mean what they
 * meant, so stored ones go on. But a request with short fields has another meaning: up to version 3 a short field asked R 1 of every id. Look at:
 *
 *     short fields    Where they were sent to ask R 1 of an id that the image lists with a larger R, write R 1 in full now. Where the id has R 1, or is
 *                     not listed, nothing moves; nor does a request in full, as tarnflaw_write_request has always written it
 *     refusals        What was refused 8, 9 or 11 because of that R 1 may be accepted now. No 8 names an id whose field is short (up to version 5)
 *     acceptances     Such an id keeps its larger R, and so may fall further behind than before. Transition and offsets may be others, too
 *     logs            4 is the version from now on. It tells how a logged request with short fields is read (docs/DICTIONARY.md, "Earlier meanings")
 *
 * From version 4 to version 5
 *
 * Exchange the header and the archive together, and compile anew all that has an image. Requests, answers and schedules have the form and the meaning
 * that they had, and so have the numbers of changes and of the owner query. The image has another form, and tarnflaw_standing tells more. Look at:
 *
 *     memory          An image has 337 bytes, and had 273: 64 more for each one that is kept, stored or sent. The first 273 are what they were; the
 *                     shortfalls at the request slot follow. 273 as a literal size is refused 1 by every function, and no byte of the image changes
 *     stored images   One of 273 bytes is refused 1. It can be carried over from its base on (below); else start from tarnflaw_empty
 *     other images    One that was not made by calls needs the shortfalls at the request slot too, such that the walk leads to those at the base
 *     the screen      tarnflaw_standing answers from the request slot on, during a transition too. It gave 6 up to the base, and gives it only before
 *                     the request slot now: what left a service screen blank during a change can go. What took that 6 for the sign of a transition
 *                     compares the slot with the base, bytes 73 to 80
 *     slices          They are counted from the request slot on, and were from the base: also in the cycle there are more, by the transition slots
 *                     that the id had. Who added these by hand does so no longer
 *     logs            5 is the version from now on. It tells how a logged standing is read (docs/DICTIONARY.md, "Earlier meanings")
 *
 * An image of versions 1 to 4, which is stored with the version 1, does not have the shortfalls at its request slot. But from its base on they are not
 * needed: the base becomes the request slot of a timetable without a transition, where the shortfalls at the base are those at the request slot too. With
 * `old` the 273 bytes, once their version, their checksum and the next slot were found good:
 *
 *     memset(image, 0, TARNFLAW_IMAGE);                             no transition: length 0, and the owners 0
 *     memcpy(image, old + 73, 8);                                   the request slot: the old base
 *     memcpy(image + 73, old + 73, 8 + 6 * TARNFLAW_IDS);           the base, and each id's period, offset, R and shortfall at the base
 *     for (id = 0; id < TARNFLAW_IDS; id++)
 *         memcpy(image + 273 + 2 * id, old + 85 + 6 * id, 2);       the shortfall at the request slot: that at the base
 *
 * If the old image was sound, and its base is at most TARNFLAW_LAST_SLOT, this one is sound. From the base on it tells the owners and the shortfalls of
 * the old one, slices counted from the base, and each change of it has the answer, and leaves the image, that it would have with the transition still
 * there. Before the base it refuses 6: so a board whose next slot lies in the old transition starts from tarnflaw_empty.
 *
 * From version 5 to version 6
 *
 * Exchange the header and the archive together. Functions, numbers and the forms of records and images are those of version 5. But an id that leaves keeps
 * its shortfall, and returns with it, in the same slot or later; up to version 5 it was forgotten, and returned with 0. Its R is forgotten, as it was. What
 * is asked while no id returns with a shortfall is answered as before. Look at:
 *
 *     refusals        8 may name an id that returns, also one whose field is short, which asks R 1. Ask with an R that is large enough, in full. No 8
 *                     named an id that the image did not list, and what took an 8 for that of a listed id looks again
 *     scripts         Taking an id out and back clears nothing. A shortfall falls by the id's own slots alone (docs/RULES.md 1.12): what was cleared so
 *                     up to now, to get a smaller R, is refused 8. No request clears it
 *     acceptances     An id that returns with a shortfall is more urgent than one that has 0: transition and offsets may be others, and 9 or 11 may
 *                     come where there was an acceptance
 *     the screen      tarnflaw_standing tells such an id's shortfall from the slot of its return on, and the column "deficit" with it. While the id is
 *                     not listed it refuses 10, as it did; what the id is owed then stands in the image
 *     images          In the bytes of an id that is not listed, period, offset and bound are 0, and the two shortfalls need not be: what took such an
 *                     id for 0 throughout looks at the period alone. One that was not made by calls has the same below 2,048 in both
 *     stored images   One of version 5, which is stored with the version 5, has the same form and is sound: it can go on as it is, and has 0 for each
 *                     id that is not listed, whatever that was owed. Store it with TARNFLAW_IMAGE_VERSION from then on. An older one is carried over as
 *                     above. A library of version 5 refuses 1 where an id that is not listed has a shortfall: there is no way back with such an image
 *     logs            6 is the version from now on. It tells how a logged shortfall is read (docs/DICTIONARY.md, "Earlier meanings")
 *
 * Calls that overlap
 *
 * tarnflaw_empty and tarnflaw_change write the image piece by piece, in no promised order. Until they have returned, no other call on that image
 * may run: an interrupt that asks tarnflaw_owner in the midst of a change reads a torn image, and can be told a wrong owner as accepted. (After case A
 * what is there is asked for at slot 6: with bytes 0 to 80 of the new image and the others still of the old one, slot 7 is told idle, though id 0 has it
 * in both.) Nor may anything else write the image, the request or the area during a call. The two queries only read the image, and write only what their
 * own pointers lead to: any number of them may overlap on one image. Calls on different images may overlap as they like. The three functions that have no
 * image read and write only what their own pointers lead to. They may overlap with every call that writes nothing that they read or write, and reads
 * nothing that they write: so not tarnflaw_write_request with a tarnflaw_change that reads the request from the same bytes.
 *
 * A change beside a dispatcher
 *
 * A new image answers from its request slot on, and refuses 6 before it. Up to the slot before, the old image has to be asked, and from the
 * request slot on the new one. A swap too early (refused 6 meanwhile) or too late (no number tells it) can break bounds. So the task that changes
 * the timetable does not swap. It changes a copy and leaves it waiting; the dispatcher, which runs at each slot's start, takes it over at that slot:
 *
 *     static uint8_t images[2][TARNFLAW_IMAGE];
 *     static volatile sig_atomic_t in_force;     which of the two is in force; only the dispatcher stores it
 *     static volatile sig_atomic_t copy;         WAITING: the other one waits; TAKEN (at first) or LATE: it is the task's
 *
 *     the dispatcher:   if (copy == WAITING) {
 *                           from = the request slot, bytes 0 to 7, of images[!in_force];
 *                           if (slot == from)
 *                               in_force = !in_force;
 *                           if (slot >= from)
 *                               copy = slot == from ? TAKEN : LATE;
 *                       }
 *                       number = tarnflaw_owner(images[in_force], TARNFLAW_IMAGE, slot, &place, &owner);
 *
 *     the task:         if (copy == WAITING)
 *                           come back later;
 *                       next = !in_force;                        not before: up to here the dispatcher may store it
 *                       memcpy(images[next], images[in_force], TARNFLAW_IMAGE);
 *                       number = tarnflaw_change(images[next], TARNFLAW_IMAGE, ...);
 *                       if (number == TARNFLAW_ACCEPTED)
 *                           copy = WAITING;
 *
 * This is safe where the dispatcher interrupts the task on one core, runs to its end before the task goes on, and runs for every slot in turn:
 *
 *     who writes      While copy is not WAITING, the dispatcher stores nothing, and the task alone writes: the image that is not in force, and at
 *                     last copy, by one store. While it is WAITING, the task writes nothing, and the dispatcher alone writes in_force and copy.
 *     no torn image   The dispatcher looks at a copy only when it is WAITING, and that is stored after tarnflaw_change has returned. The compiler
 *                     can't move the change behind the store, since it does not see into the archive; an interrupt sees its own core's stores.
 *     never early     The dispatcher takes a copy over at its request slot and at no other, however long before it was accepted.
 *     too late        If the dispatcher has already asked for the request slot when copy becomes WAITING, it drops the copy at the next slot: the
 *                     old image stays in force, and nothing is lost but the change. The task finds LATE, and asks again for a later slot.
 *     its answer      An answer is archived once its copy is TAKEN: that of a copy that was dropped was never in force.
 *     a second one    A change while another waits is put off until that is TAKEN or LATE. So a request slot lies a few slots ahead, and not far.
 *
 * The task may ask queries on images[in_force] at any time: nobody but the task writes an image. So a service screen shows the present slot, during a
 * transition too. It looks at the slot first and then at in_force: a 6 then says that a copy was taken over in between, and it looks again. (The other
 * way round an image that is no longer in force may tell it a later slot, as if it still were.) A dispatcher that is refused runs the slot idle,
 * but it counts it or reports it: after a right start there are none up to TARNFLAW_LAST_SLOT. The above is not enough where two tasks change (they
 * need an exclusion of their own), where the task can interrupt the dispatcher, or on two cores.
 *
 * What the archive needs
 *
 * Link with libboard.a (tools/build archive). The command beside each line shows it on target/staticlib/libboard.a, and examples/board fails where
 * the archive needs other functions, has other data, or uses other instructions, SSE registers or stack than is said here.
 *
 *     ABI             x86-64, System V, 64-bit ELF (readelf -h); code and constants together run at any address, since calls and references are relative
 *                     (objdump -r)
 *     from outside    memcpy memset (nm -u)
 *     data            96 bytes of constants, none writable (objdump -h)
 *     instructions    those of the first x86-64 processors, and tzcnt (objdump -d). Processors without BMI1 run tzcnt as bsf, which gives the same
 *                     here: its operand, a period, or one with a bit set above it, is never 0 where it is reached, and the flags that it sets are
 *                     not read
 *     SSE             xmm0 to xmm15, to move, clear, compare, add, subtract, shift, mask, pack and unpack whole numbers, in most functions or in what
 *                     they call; no floating point arithmetic, and no x87, MMX or AVX register (objdump -d). Your memcpy and memset may use more
 *     red zone        change::before::sound_stage, tarnflaw_write_request keep figures in the 128 bytes below the stack pointer (objdump -d):
 *                     a change and both queries call the first
 *
 * So SSE has to be enabled. Every caller, as the ABI has it, calls with the stack pointer at a multiple of 16: the code moves 16 bytes at a time to
 * and from the stack, and faults otherwise. An interrupt handler that calls it besides saves the SSE registers first, like all that the ABI lets a
 * call lose. (Most earlier builds of version 6 used fewer of them: a handler that saved only those has to save all that are named above now.) A handler
 * that interrupts a call and runs on its stack leaves the 128 bytes below the stack pointer alone, as the ABI has it: the code uses them, and your memcpy
 * may.
 *
 * What it takes
 *
 * Measured, not proved, and the worst that was found, not a bound. Stack, with that of memcpy and memset (bench/count): of a change 1,647 bytes, of an
 * owner query 639, of a standing query 671; that of the other functions was not measured. Times of this library before today's forms of its code, as an older
 * toolchain built it, on an x86-64 machine (docs/BENCHMARKS.md has it, the inputs, and what today's forms cost): a change took 0.4 microseconds at the median of (a), and 19 at the worst; a query 0.4 at the worst, and reading an answer and
 * writing a request 0.1. Earlier builds took longer. Up to version 4 the worst change took 95 to 103 microseconds on a quiet x86-64 machine, 142 where other
 * work disturbed it, and 201 on a slower one with an unsteady clock (docs/landings/ground.md); made for an Arm machine and timed there, 77 with versions 4
 * and 5 (docs/landings/CR-04.md), and 42 once slots were marked in bits (docs/landings/CR-06.md). Measure on your board. */
#ifndef TARNFLAW_H
#define TARNFLAW_H

#include <stddef.h>
#include <stdint.h>

#ifdef __cplusplus
extern "C" {
#endif

#define TARNFLAW_VERSION 6                   /* the version of the library, to be logged with an answer */
#define TARNFLAW_IMAGE_VERSION 6             /* the first version whose images mean what they mean today, to be stored beside an image */
#define TARNFLAW_IMAGE 337                   /* bytes of an image */
#define TARNFLAW_REQUEST 207                 /* bytes that a request has at most */
#define TARNFLAW_AREA 231                    /* bytes that an answer has at most, and an answer area at least */
#define TARNFLAW_SCHEDULE 129                /* bytes of a schedule, and what an answer is read into has at least */
#define TARNFLAW_IDS 32                      /* ids are below it */
#define TARNFLAW_LONGEST 64                  /* slots that a transition has at most, and the largest T */
#define TARNFLAW_LAST_SLOT 0xffffffffffffUL  /* 2^48 - 1, the last slot that a request or a query may name */
#define TARNFLAW_IDLE 255                    /* the owner of an idle slot */

/* What tarnflaw_answer_field tells as the tag. */
#define TARNFLAW_NO_FIELD 0                  /* nothing is left, or the field is refused */
#define TARNFLAW_LENGTH_FIELD 0x10           /* the transition length */
#define TARNFLAW_OWNERS_FIELD 0x11           /* the owners */
#define TARNFLAW_OFFSET_FIELD 0x12           /* an id and its offset */

/* The places that tarnflaw_write_request tells with 4 for a figure outside the listing. */
#define TARNFLAW_SLOT_PLACE 64               /* the slot */
#define TARNFLAW_LIMIT_PLACE 65              /* T */

/* The numbers (docs/RULES.md 7.1). */
enum tarnflaw_number {
    TARNFLAW_ACCEPTED = 0,           /* accepted */
    TARNFLAW_NOT_SOUND = 1,          /* timetable not sound */
    TARNFLAW_SMALL_AREA = 2,         /* answer area under 231 bytes (or an area too short for a schedule or a request) */
    TARNFLAW_BAD_FIELD = 3,          /* field cut off, missing, unknown, out of order or of wrong length (in an archived answer every fault) */
    TARNFLAW_OUT_OF_RANGE = 4,       /* value out of range (or a listing that ends within an entry) */
    TARNFLAW_NOT_RISING = 5,         /* id not above the one before */
    TARNFLAW_TOO_EARLY = 6,          /* slot too early */
    TARNFLAW_OVERFULL = 7,           /* weights sum above 256 */
    TARNFLAW_BEHIND = 8,             /* shortfall at the request slot not below 256 x new R */
    TARNFLAW_SLOT_MISSED = 9,        /* a transition slot below T is missed, no length up to it gives a schedule */
    TARNFLAW_NOT_LISTED = 10,        /* id not listed */
    TARNFLAW_LENGTHS_EXHAUSTED = 11  /* no length up to T gives a schedule, all were searched */
};

/* Makes the image of the empty timetable (docs/RULES.md 3.3): request slot 0, nothing listed. Whatever the bytes held before is lost.
 *
 *     image, image_size   the image, TARNFLAW_IMAGE bytes
 *
 * Refuses 1 for another size, and then writes nothing. Any TARNFLAW_IMAGE bytes are accepted, and are 0 afterwards. */
uint8_t tarnflaw_empty(uint8_t *image, size_t image_size);

/* Changes the timetable by a request, and answers with the transition and the new cyclic slots (docs/RULES.md 4 and 6).
 *
 *     image, image_size       the image; on acceptance it becomes that of the new timetable
 *     request, request_size   the bytes of the request, in the form above
 *     area, area_size         the answer area, TARNFLAW_AREA bytes or more; on acceptance the answer is at its start,
 *                             and the bytes after it stay as they were
 *     place                   told: where the refusal is. For 3 to 5 the byte of the request where the field begins (its size, where a field
 *                             is missing at its end), for 7 and 8 an id, for 9 the transition slot that is missed, counted from 0,
 *                             for 11 T, otherwise 0
 *     tries                   told: the number of transition lengths searched; 0 where 1 to 8 is returned
 *     written                 told: the bytes of the answer; 0 on a refusal
 *
 * Refuses 1 to 9 and 11, by the first stage that refuses (docs/RULES.md 7.2); 9 and 11 are the last. 6 means that the request slot lies before the
 * base: no change begins within the transition of the one before (docs/RULES.md 7.3). What slot it is now it does not know: from the base on it
 * accepts one that has passed. After 11 a larger T may help, after 9 it can't: see "Refused for want of a schedule". */
uint8_t tarnflaw_change(uint8_t *image, size_t image_size,
                        const uint8_t *request, size_t request_size,
                        uint8_t *area, size_t area_size,
                        size_t *place, uint8_t *tries, size_t *written);

/* Who has a slot (docs/RULES.md 8.1).
 *
 *     image, image_size   the image
 *     slot                the slot, from the last accepted request slot on, at most TARNFLAW_LAST_SLOT
 *     place               told: 0
 *     owner               told: the id that has the slot, or TARNFLAW_IDLE; 0 on a refusal
 *
 * Refuses 1, then 4 (slot above the limit), then 6 (slot before the last accepted request slot). */
uint8_t tarnflaw_owner(const uint8_t *image, size_t image_size, uint64_t slot,
                       size_t *place, uint8_t *owner);

/* How a partition stands at the start of a slot, in a transition as well as in the cycle (docs/RULES.md 3.15 and 8.2).
 *
 *     image, image_size   the image
 *     id                  the partition, below TARNFLAW_IDS
 *     slot                the slot, from the last accepted request slot on, at most TARNFLAW_LAST_SLOT
 *     place               told: 0
 *     shortfall           told: its shortfall at the slot's start, in 256ths of a slot; 0 on a refusal
 *     slices              told: the slots it has had from the last accepted request slot up to there, its transition slots among them; 0 on a refusal
 *
 * While an id is not listed its shortfall stays as it is, and is in the image: bytes 273 + 2 * id.
 *
 * Refuses 1, then 4 (id or slot), then 6 (slot before the last accepted request slot), then 10 (id not listed). */
uint8_t tarnflaw_standing(const uint8_t *image, size_t image_size, uint8_t id, uint64_t slot,
                          size_t *place, uint16_t *shortfall, uint64_t *slices);

/* Reads an archived answer, and tells what it says (docs/RULES.md 6.8, 6.9 and 10.6).
 *
 *     answer, answer_size   the bytes of the answer, in the form above, and no others
 *     area, area_size       TARNFLAW_SCHEDULE bytes or more; on acceptance the schedule is at its start, and the bytes after it stay as they were
 *     place                 told: for 3 the byte of the answer where the field begins in which the fault shows (its size, where the length or the
 *                           owners are missing at its end), otherwise 0
 *
 * 3 is told for every other form: a field that is cut off, missing, unknown, out of order or of wrong length, a transition length above
 * TARNFLAW_LONGEST, another number of owners than that, an owner or id from TARNFLAW_IDS on, an id that is not above the one before, and bytes behind the
 * last field.
 * Refuses 3, then 2 (area under TARNFLAW_SCHEDULE bytes). */
uint8_t tarnflaw_read_answer(const uint8_t *answer, size_t answer_size,
                             uint8_t *area, size_t area_size,
                             size_t *place);

/* Writes a request (docs/RULES.md 6.11 and 6.12).
 *
 *     slot                    the request slot, at most TARNFLAW_LAST_SLOT
 *     limit                   T, the longest transition allowed, at most TARNFLAW_LONGEST. It is one byte: test a number above 255 before it is
 *                             handed in, since 256 arrives, and is written, as T 0
 *     listing, listing_size   an entry for each partition, three bytes, ids rising: id (below TARNFLAW_IDS), k (0 to 8; its period is 2^k), R (1 to 8)
 *     area, area_size         15 bytes and 6 for each entry, or more; TARNFLAW_REQUEST bytes are always enough. On acceptance the request is at its
 *                             start, and the bytes after it stay as they were
 *     place                   told: for 4 TARNFLAW_SLOT_PLACE, TARNFLAW_LIMIT_PLACE, or the entry, for 5 the entry, otherwise 0. An entry is told by
 *                             its index in the listing, counted from 0, at most 32
 *     written                 told: the bytes of the request; 0 on a refusal
 *
 * 4 is told for a value out of range and for a listing that ends within an entry, 5 for an id that is not above the one before. A request that is
 * written is read by tarnflaw_change as the same slot, T and listing, on any image; whether it is accepted is another thing.
 * Refuses 4 (slot), then 4 (T), then 4 or 5 (entry by entry), then 2 (area shorter than the request). */
uint8_t tarnflaw_write_request(uint64_t slot, uint8_t limit,
                               const uint8_t *listing, size_t listing_size,
                               uint8_t *area, size_t area_size,
                               size_t *place, size_t *written);

/* Reads one field of an archived answer (docs/RULES.md 6.10 and 10.8).
 *
 *     answer, answer_size   the bytes of the answer, in the form above; the same bytes in each call
 *     at                    the place of the field: 0 for the first, and then what the call before left there. Moved behind the field; stays where
 *                           nothing is left or the field is refused
 *     place                 told: for 3 the place of the field, otherwise 0
 *     tag                   told: TARNFLAW_LENGTH_FIELD, TARNFLAW_OWNERS_FIELD or TARNFLAW_OFFSET_FIELD; TARNFLAW_NO_FIELD where nothing is left, and
 *                           on a refusal: the number tells the two apart
 *     first                 told: the transition length, the number of owners or the id, by the tag; 0 where there is none
 *     second                told: the id's offset; 0 for every other tag
 *
 * The owners are bytes of the answer: behind TARNFLAW_OWNERS_FIELD the last `first` bytes before `at`, which begin at byte 7, one for each transition
 * slot. Until TARNFLAW_NO_FIELD is told with 0 a fault may still follow: what was told up to there is not yet known to be an answer. Any other place than
 * one that was told has one result too (docs/RULES.md 6.10), but says nothing of the answer; behind its end nothing is left (only at 4, where the
 * owners are due, it is 3).
 * Refuses 3, for every other form, as tarnflaw_read_answer does. */
uint8_t tarnflaw_answer_field(const uint8_t *answer, size_t answer_size,
                              size_t *at, size_t *place, uint8_t *tag, uint8_t *first, uint8_t *second);

#ifdef __cplusplus
}
#endif

#endif
