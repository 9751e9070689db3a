/* What bjargolsk.h says of its callers' buffers, tried: any alignment, NULL with length 0, sessions that calls which change nothing leave unwritten, watch-only ones too, data that a
 * read of the SEEPROM gives and what it keeps, orders that plans write, proposals, saves, the text of where two traces part. */
#define _DEFAULT_SOURCE /* mmap's MAP_ANONYMOUS */
#include <stdio.h>
#include <sys/mman.h>

#include "bjargolsk.h"

enum { ROOM = 2 * 4096 };

static const uint8_t poll_packet[] = {1, 0x00, 0, 1, 0x10, 0, 0x12};
static const uint8_t refused_packet[] = {2, 0x22, 0, 2, 0xFF, 0xFF, 0x02, 0x24};
/* D7 03: 16 bytes from offset 8 on. */
static const uint8_t read_request[BJARGOLSK_SBE_REPLY] = {0, 0, 1, 0, 0, 1, 0xD7, 0x03, 0, 0, 0, 8, 0, 0, 0, 16};
static uint8_t reply[BJARGOLSK_OCC_REPLY + 64];
static uint8_t image[24 + 64], data[17 + 64];
static uint8_t packets[6 * BJARGOLSK_SLOT + 64], order[6 + 64];
static uint8_t saved[BJARGOLSK_SAVED + 64], moved[BJARGOLSK_SAVED + 1 + 64];
static uint8_t text[BJARGOLSK_PART + 64];
static int failures;

static void expect(const char *what, uint32_t result, uint32_t answer)
{
    if (BJARGOLSK_ANSWER(result) != answer) {
        printf("%s: answer %u, not %u\n", what, (unsigned)BJARGOLSK_ANSWER(result), (unsigned)answer);
        failures++;
    }
}

static void expect_status(const char *what, unsigned status, unsigned due)
{
    if (status != due) {
        printf("%s: status %X, not %X\n", what, status, due);
        failures++;
    }
}

static uint32_t occ(uint8_t *session, const uint8_t *command, size_t length, size_t shift)
{
    return bjargolsk_occ(session, BJARGOLSK_SESSION, BJARGOLSK_HTMGT, command, length, reply + shift, BJARGOLSK_OCC_REPLY);
}

static uint32_t sbe(uint8_t *session, const uint8_t *request)
{
    return bjargolsk_sbe(session, BJARGOLSK_SESSION, request, BJARGOLSK_SBE_REPLY, reply, BJARGOLSK_SBE_REPLY);
}

/* An image of 24 bytes is lent, and a buffer of so many. */
static uint32_t seeprom(uint8_t *session, size_t shift, size_t room)
{
    return bjargolsk_sbe_seeprom(session, BJARGOLSK_SESSION, read_request, sizeof read_request, reply + shift, BJARGOLSK_SBE_REPLY, image + shift, 24, data + shift, room);
}

/* The data stands at the front of the buffer, and the byte past it is kept; with a byte too few (status 02/18) all is kept. */
static void reads(uint8_t *session, size_t shift)
{
    for (size_t room = 15; room <= 17; room++) {
        for (size_t i = 0; i < sizeof image; i++)
            image[i] = (uint8_t)(shift + i);
        for (size_t i = 0; i < sizeof data; i++)
            data[i] = 0xEE;
        expect("read, any alignment", seeprom(session, shift, room), 0);
        for (size_t i = 0; i < sizeof data; i++) {
            uint8_t due = room >= 16 && i >= shift && i < shift + 16 ? image[8 + i] : 0xEE;
            if (data[i] != due) {
                printf("read, buffer of %u at %u: byte %u is %02X, not %02X\n", (unsigned)room, (unsigned)shift, (unsigned)i, data[i], due);
                failures++;
            }
        }
    }
}

static void expect_result(const char *what, uint32_t result, uint32_t due)
{
    if (result != due) {
        printf("%s: result %X, not %X\n", what, (unsigned)result, (unsigned)due);
        failures++;
    }
}

static uint32_t plan(const uint8_t *session, size_t shift, size_t length, unsigned wanted, size_t room)
{
    return bjargolsk_plan(session, BJARGOLSK_SESSION, packets + shift, length, (uint8_t)wanted, order + shift, room);
}

static uint32_t check(const uint8_t *session, const uint8_t *proposal, size_t length)
{
    return bjargolsk_plan_ok(session, BJARGOLSK_SESSION, packets, 3 * BJARGOLSK_SLOT, 2, proposal, length);
}

/* State 2, thermal thresholds, and the role of a slave, each in its slot. */
static void prepare(size_t shift)
{
    static const uint8_t prepared[3][13] = {{1, 0x20, 0, 3, 0, 2, 0, 0, 0x26},
                                            {2, 0x21, 0, 7, 0x13, 0x10, 1, 0, 85, 95, 5, 1, 7},
                                            {3, 0x21, 0, 2, 3, 0, 0, 0x29}};
    for (size_t i = 0; i < sizeof packets; i++)
        packets[i] = 0xEE;
    for (size_t i = 0; i < 3; i++)
        for (size_t j = 0; j < sizeof prepared[i]; j++)
            packets[shift + i * BJARGOLSK_SLOT + j] = prepared[i][j];
}

/* The plan is 2 3 1; it stands at the front of the order, and the byte past it is kept. With a byte too few (answer 3), and where there is no plan, all is kept. */
static void plans(const uint8_t *session, size_t shift)
{
    static const uint8_t due[] = {2, 3, 1};
    prepare(shift);
    for (size_t room = 4; room <= 6; room++)
        for (unsigned wanted = 2; wanted <= 3; wanted++) {
            for (size_t i = 0; i < sizeof order; i++)
                order[i] = 0xEE;
            expect_result("plan, any alignment", plan(session, shift, 3 * BJARGOLSK_SLOT, wanted, room), room < 5 ? 3 : wanted == 2 ? 0x30100 : 0);
            for (size_t i = 0; i < sizeof order; i++)
                if (order[i] != (room >= 5 && wanted == 2 && i >= shift && i < shift + 3 ? due[i - shift] : 0xEE)) {
                    printf("plan for %u, order of %u at %u: byte %u is %02X\n", wanted, (unsigned)room, (unsigned)shift, (unsigned)i, order[i]);
                    failures++;
                }
        }
}

/* On a page that can't be written: answer 10 before 3, proposals right and wrong. */
static void planned(const uint8_t *session)
{
    static const uint8_t least[] = {2, 3, 1}, other[] = {3, 2, 1}, zero[] = {0, 2, 3, 1}, six[] = {2, 3, 1, 6}, twice[] = {2, 3, 3, 1}, early[] = {1, 2, 3};
    static const uint8_t longer[] = {2, 3, 1, 2, 3, 1};
    prepare(0);
    expect_result("plan, read-only", plan(session, 0, 3 * BJARGOLSK_SLOT, 2, 5), 0x30100);
    expect_result("no plan, read-only", plan(session, 0, 3 * BJARGOLSK_SLOT, 3, 5), 0);
    expect_result("plan with the state cut", plan(session, 0, 8, 2, 5), 0);
    expect_result("five packets", plan(session, 0, 5 * BJARGOLSK_SLOT, 2, 5), 0x30100);
    expect_result("a sixth of one byte", plan(session, 0, 5 * BJARGOLSK_SLOT + 1, 2, 5), 10);
    expect_result("six packets, short order", plan(session, 0, 6 * BJARGOLSK_SLOT, 2, 4), 10);
    expect_result("state 1, short order", plan(session, 0, 0, 1, 4), 10);
    expect_result("state 255", plan(session, 0, 0, 255, 5), 10);
    expect_result("proposal", check(session, least, sizeof least), 0x100);
    expect_result("another proposal", check(session, other, sizeof other), 0x100);
    expect_result("proposal with 0", check(session, zero, sizeof zero), 0);
    expect_result("proposal with 6", check(session, six, sizeof six), 0);
    expect_result("proposal with 3 twice", check(session, twice, sizeof twice), 0);
    expect_result("proposal with the state first", check(session, early, sizeof early), 0);
    expect_result("proposal of six", check(session, longer, sizeof longer), 0);
    expect_result("empty proposal", check(session, NULL, 0), 0);
}

/* With a byte too few (answer 13) all is kept, with one more the byte past it; which bytes are written, the way up and down tells. */
static void kept_past(const char *what, size_t shift, size_t length)
{
    for (size_t i = 0; i < sizeof moved; i++)
        if ((i < shift || i >= shift + length) && moved[i] != 0xEE) {
            printf("%s at %u: byte %u is %02X\n", what, (unsigned)shift, (unsigned)i, moved[i]);
            failures++;
        }
    for (size_t i = 0; i < sizeof moved; i++)
        moved[i] = 0xEE;
}

static void saves(uint8_t *session, size_t shift)
{
    uint8_t *from = saved + shift, *to = moved + shift;
    kept_past("before", 0, sizeof moved);
    for (size_t more = 0; more <= 2; more++) {
        size_t due = more == 0 ? 0 : BJARGOLSK_SAVED, base = more == 0 ? 0 : 232;
        uint32_t answer = more == 0 ? 13 : 0;
        expect_result("save, any alignment", bjargolsk_save(session, BJARGOLSK_SESSION, to, BJARGOLSK_SAVED - 1 + more), (uint32_t)due << 16 | answer);
        kept_past("save", shift, due);
        expect("save to move", bjargolsk_save(session, BJARGOLSK_SESSION, from, BJARGOLSK_SAVED), 0);
        expect_result("down, any alignment", bjargolsk_move_down(from, BJARGOLSK_SAVED, to, 231 + more), (uint32_t)base << 16 | answer);
        kept_past("down", shift, base);
        expect("base to move", bjargolsk_move_down(from, BJARGOLSK_SAVED, to, 232), 0);
        for (size_t i = 0; i < 232; i++)
            from[i] = to[i];
        kept_past("down again", shift, 232);
        expect_result("up, any alignment", bjargolsk_move_up(from, 232, to, BJARGOLSK_SAVED - 1 + more), (uint32_t)due << 16 | answer);
        if (more != 0)
            expect("restore, any alignment", bjargolsk_restore(session, BJARGOLSK_SESSION, to, BJARGOLSK_SAVED), 0);
        kept_past("up", shift, due);
    }
}

/* On a page that can't be written: saves, and refusals of a restore. The order is 1, 13; 1, 11; 11, 12, 13. A timer that runs can't go down. */
static void kept(uint8_t *session)
{
    expect_result("save, read-only", bjargolsk_save(session, BJARGOLSK_SESSION, saved, BJARGOLSK_SAVED), (uint32_t)BJARGOLSK_SAVED << 16);
    expect("save, no session, no room", bjargolsk_save(session, BJARGOLSK_SESSION - 1, NULL, 0), 1);
    expect("restore, short session, short save", bjargolsk_restore(session, BJARGOLSK_SESSION - 1, saved, BJARGOLSK_SAVED - 1), 1);
    expect("restore, short, read-only", bjargolsk_restore(session, BJARGOLSK_SESSION, saved, BJARGOLSK_SAVED - 1), 11);
    expect("restore, long, read-only", bjargolsk_restore(session, BJARGOLSK_SESSION, saved, BJARGOLSK_SAVED + 1), 11);
    saved[4400] = 1;
    expect("down with a timer, no room", bjargolsk_move_down(saved, BJARGOLSK_SAVED, NULL, 0), 12);
    saved[0] = 2;
    expect("restore, damaged, read-only", bjargolsk_restore(session, BJARGOLSK_SESSION, saved, BJARGOLSK_SAVED), 11);
    expect("down, damaged, with a timer, no room", bjargolsk_move_down(saved, BJARGOLSK_SAVED, NULL, 0), 11);
    expect("up of a new form, no room", bjargolsk_move_up(saved, BJARGOLSK_SAVED, NULL, 0), 11);
}

/* Two undos, and one with a cut entry behind it: the text stands at the front of the buffer, and the bytes past it are kept; with a byte too few (answer 3) all are. */
static void parts(size_t shift)
{
    static const uint8_t undos[] = {4, 4}, cut[] = {4, 1};
    static const char due[] = "shared 1 entries, 1 bytes; next 2\n";
    for (size_t room = BJARGOLSK_PART - 1; room <= BJARGOLSK_PART; room++) {
        size_t length = room < BJARGOLSK_PART ? 0 : sizeof due - 1;
        for (size_t i = 0; i < sizeof text; i++)
            text[i] = 0xEE;
        expect_result("part, any alignment", bjargolsk_part(undos, sizeof undos, cut, sizeof cut, text + shift, room), length ? (uint32_t)length << 16 : 3);
        for (size_t i = 0; i < sizeof text; i++)
            if (text[i] != (i >= shift && i < shift + length ? (uint8_t)due[i - shift] : 0xEE)) {
                printf("part, buffer of %u at %u: byte %u is %02X\n", (unsigned)room, (unsigned)shift, (unsigned)i, text[i]);
                failures++;
            }
    }
}

static void nulls(uint8_t *session)
{
    expect("fresh, no session", bjargolsk_fresh(NULL, 0), 1);
    expect("occ, no session", bjargolsk_occ(NULL, 0, BJARGOLSK_HTMGT, poll_packet, sizeof poll_packet, reply, BJARGOLSK_OCC_REPLY), 1);
    expect("occ, no command", occ(session, NULL, 0, 0), 4);
    expect("occ, no reply", bjargolsk_occ(session, BJARGOLSK_SESSION, BJARGOLSK_HTMGT, poll_packet, sizeof poll_packet, NULL, 0), 3);
    expect("sbe, no request", bjargolsk_sbe(session, BJARGOLSK_SESSION, NULL, 0, reply, BJARGOLSK_SBE_REPLY), 4);
    expect("sbe, no reply", bjargolsk_sbe(session, BJARGOLSK_SESSION, poll_packet, sizeof poll_packet, NULL, 0), 3);
    expect("read, no session", bjargolsk_sbe_seeprom(NULL, 0, read_request, sizeof read_request, reply, BJARGOLSK_SBE_REPLY, image, 24, data, 16), 1);
    expect("read, no request", bjargolsk_sbe_seeprom(session, BJARGOLSK_SESSION, NULL, 0, reply, BJARGOLSK_SBE_REPLY, image, 24, data, 16), 4);
    expect("read, no reply", bjargolsk_sbe_seeprom(session, BJARGOLSK_SESSION, read_request, sizeof read_request, NULL, 0, image, 24, data, 16), 3);
    expect("read, no image, no buffer", bjargolsk_sbe_seeprom(session, BJARGOLSK_SESSION, read_request, sizeof read_request, reply, BJARGOLSK_SBE_REPLY, NULL, 0, NULL, 0), 0);
    expect("time, no session", bjargolsk_time(NULL, 0, 0), 1);
    expect("undo, no session", bjargolsk_undo(NULL, 0), 1);
    expect("redo, no session", bjargolsk_redo(NULL, 0), 1);
    expect("forget, no session", bjargolsk_forget(NULL, 0, 0), 1);
    expect("watch, no session", bjargolsk_watch(NULL, 0), 1);
    expect("plan, no session", bjargolsk_plan(NULL, 0, packets, 1, 2, order, BJARGOLSK_ORDER), 1);
    expect("plan, no session, nothing right", bjargolsk_plan(NULL, 0, packets, sizeof packets, 1, NULL, 0), 1);
    expect("plan, no packets", bjargolsk_plan(session, BJARGOLSK_SESSION, NULL, 0, 2, order, BJARGOLSK_ORDER), 0);
    expect("plan, no order", bjargolsk_plan(session, BJARGOLSK_SESSION, NULL, 0, 2, NULL, 0), 3);
    expect("check, no session", bjargolsk_plan_ok(NULL, 0, NULL, 0, 2, NULL, 0), 1);
    expect("check, no packets, no order", bjargolsk_plan_ok(session, BJARGOLSK_SESSION, NULL, 0, 2, NULL, 0), 0);
    expect("save, no session", bjargolsk_save(NULL, 0, saved, BJARGOLSK_SAVED), 1);
    expect("save, no room", bjargolsk_save(session, BJARGOLSK_SESSION, NULL, 0), 13);
    expect("restore, no session, no save", bjargolsk_restore(NULL, 0, NULL, 0), 1);
    expect("restore, no save", bjargolsk_restore(session, BJARGOLSK_SESSION, NULL, 0), 11);
    expect("up, no save, no room", bjargolsk_move_up(NULL, 0, NULL, 0), 11);
    expect("down, no save, no room", bjargolsk_move_down(NULL, 0, NULL, 0), 11);
    expect("part, no traces", bjargolsk_part(NULL, 0, NULL, 0, text, BJARGOLSK_PART), 0);
    expect("part, no traces, no text", bjargolsk_part(NULL, 0, NULL, 0, NULL, 0), 3);
}

/* On a page that can't be written: a call that wrote would end the program. */
static void unwritten(uint8_t *session)
{
    static const uint8_t unknown_request[BJARGOLSK_SBE_REPLY] = {0, 0, 1, 0, 0, 1, 0xEE, 0xEE};
    static const uint8_t exit_request[BJARGOLSK_SBE_REPLY] = {0, 0, 1, 0, 0, 1, 0xD1, 0x02};
    static const uint8_t ring_request[BJARGOLSK_SBE_REPLY] = {0, 0, 1, 0, 0, 1, 0xD3, 0x01};
    expect("poll, read-only", occ(session, poll_packet, sizeof poll_packet, 0), 0);
    expect("refused by status, read-only", occ(session, refused_packet, sizeof refused_packet, 0), 0);
    expect("refused by answer, read-only", occ(session, poll_packet, 3, 0), 4);
    expect("unknown request, read-only", sbe(session, unknown_request), 0);
    expect("exit, read-only", sbe(session, exit_request), 0);
    expect("ring, read-only", sbe(session, ring_request), 0);
    expect("read, read-only", seeprom(session, 0, 16), 0);
    expect("undo of nothing, read-only", bjargolsk_undo(session, BJARGOLSK_SESSION), 6);
    expect("redo of nothing, read-only", bjargolsk_redo(session, BJARGOLSK_SESSION), 8);
    expect("forget more than there is, read-only", bjargolsk_forget(session, BJARGOLSK_SESSION, 1), 9);
}

/* A journal that is full: the same request is answered 5, on a page that can't be written too; and 0 once the oldest change is forgotten. */
static void full(uint8_t *session)
{
    static const uint8_t mask_request[BJARGOLSK_SBE_REPLY] = {0, 0, 0, 0, 0, 1, 0xD1, 0x03};
    uint32_t result = 0;
    bjargolsk_fresh(session, BJARGOLSK_SESSION);
    while (BJARGOLSK_ANSWER(result) == 0)
        result = sbe(session, mask_request);
    expect("full journal", result, 5);
    mprotect(session, ROOM, PROT_READ);
    expect("full journal, read-only", sbe(session, mask_request), 5);
    mprotect(session, ROOM, PROT_READ | PROT_WRITE);
    expect("forget, full journal", bjargolsk_forget(session, BJARGOLSK_SESSION, 1), 0);
    expect("room again", sbe(session, mask_request), 0);
}

/* An entry that can't be put in (docs/IMAGE.md): a log is to come back at place 1, and none pends; next id 2, 4 bytes of journal. */
static void damaged(uint8_t *session)
{
    static const uint8_t tail[] = {0, 2, 0, 4, 1, 1, 1, 1};
    bjargolsk_fresh(session, BJARGOLSK_SESSION);
    for (size_t i = 0; i < sizeof tail; i++)
        session[235 + i] = tail[i];
    mprotect(session, ROOM, PROT_READ);
    expect("undo that can't be, read-only", bjargolsk_undo(session, BJARGOLSK_SESSION), 7);
    mprotect(session, ROOM, PROT_READ | PROT_WRITE);
}

/* A watch-only session: what is shut writes nothing. Nor does opening one over a session with another profile than 0 and 1, the image's last byte. */
static void watched(uint8_t *session)
{
    static const uint8_t state_packet[] = {3, 0x20, 0, 3, 0, 1, 0, 0, 0x27};
    static const uint8_t mask_request[BJARGOLSK_SBE_REPLY] = {0, 0, 0, 0, 0, 1, 0xD1, 0x03};
    bjargolsk_fresh(session, BJARGOLSK_SESSION);
    expect("watch", bjargolsk_watch(session, BJARGOLSK_SESSION), 0);
    mprotect(session, ROOM, PROT_READ);
    expect("shut command, read-only", occ(session, state_packet, sizeof state_packet, 0), 0);
    expect_status("shut command", reply[2], 0x16);
    expect("shut request, read-only", sbe(session, mask_request), 0);
    expect_status("shut request", reply[1] * 256u + reply[3], 0x0520);
    mprotect(session, ROOM, PROT_READ | PROT_WRITE);
    session[BJARGOLSK_SESSION - 1] = 2;
    mprotect(session, ROOM, PROT_READ);
    expect("watch over a damaged session, read-only", bjargolsk_watch(session, BJARGOLSK_SESSION), 1);
    mprotect(session, ROOM, PROT_READ | PROT_WRITE);
}

int main(void)
{
    uint8_t *pages = mmap(NULL, ROOM, PROT_READ | PROT_WRITE, MAP_PRIVATE | MAP_ANONYMOUS, -1, 0);
    if (pages == MAP_FAILED)
        return 2;
    for (size_t shift = 0; shift < 64; shift++) {
        expect("fresh, any alignment", bjargolsk_fresh(pages + shift, BJARGOLSK_SESSION), 0);
        expect("poll, any alignment", occ(pages + shift, poll_packet, sizeof poll_packet, shift), 0);
        expect("time, any alignment", bjargolsk_time(pages + shift, BJARGOLSK_SESSION, 1), 0);
        reads(pages + shift, shift);
        plans(pages + shift, shift);
        saves(pages + shift, shift);
        parts(shift);
        expect("watch, any alignment", bjargolsk_watch(pages + shift, BJARGOLSK_SESSION), 0);
    }
    bjargolsk_fresh(pages, BJARGOLSK_SESSION);
    nulls(pages);
    full(pages);
    damaged(pages);
    watched(pages);
    bjargolsk_fresh(pages, BJARGOLSK_SESSION);
    mprotect(pages, ROOM, PROT_READ);
    unwritten(pages);
    planned(pages);
    kept(pages);
    return failures != 0;
}
