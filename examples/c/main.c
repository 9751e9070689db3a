/* A master OCC brought up and capped; changes taken back, one step too far, and one put in again; a cap that is too high; the oldest changes forgotten; the
 * SBE's timer; a part of its SEEPROM read; a session that can only be watched; a plan for a bring-up; a session
 * saved, moved to the base version's form and back, and restored. */
#include <stdio.h>

#include "bjargolsk.h"

static uint8_t session[BJARGOLSK_SESSION];
static uint8_t reply[BJARGOLSK_OCC_REPLY];

static void show(size_t length)
{
    for (size_t i = 0; i < length; i++)
        printf(" %02X", reply[i]);
    printf("\n");
}

/* A packet is sequence, type, two bytes of data length, data, and the two-byte sum of all that. Its length is returned. */
static size_t frame(uint8_t *packet, uint8_t type, const uint8_t *data, uint8_t length)
{
    static uint8_t sequence = 0;
    unsigned sum = 0;
    packet[0] = ++sequence;
    packet[1] = type;
    packet[2] = 0;
    packet[3] = length;
    for (size_t i = 0; i < length; i++)
        packet[4 + i] = data[i];
    for (size_t i = 0; i < 4u + length; i++)
        sum += packet[i];
    packet[4 + length] = (uint8_t)(sum >> 8);
    packet[5 + length] = (uint8_t)sum;
    return 6u + length;
}

static void sent(const char *name, uint8_t sender, const uint8_t *packet, size_t length)
{
    uint32_t result = bjargolsk_occ(session, sizeof session, sender, packet, length, reply, sizeof reply);
    printf("%s: answer %u", name, (unsigned)BJARGOLSK_ANSWER(result));
    if (BJARGOLSK_REASON(result) != 0)
        printf(" reason %u byte %u", (unsigned)BJARGOLSK_REASON(result), (unsigned)BJARGOLSK_PLACE(result));
    show(BJARGOLSK_ANSWER(result) == 0 ? 7u + reply[3] * 256u + reply[4] : 0);
}

static void occ(const char *name, uint8_t sender, uint8_t type, const uint8_t *data, uint8_t length)
{
    uint8_t packet[64];
    sent(name, sender, packet, frame(packet, type, data, length));
}

static void sbe(const char *name, const uint8_t *request, size_t length)
{
    uint32_t result = bjargolsk_sbe(session, sizeof session, request, length, reply, sizeof reply);
    printf("%s: answer %u bell %04X", name, (unsigned)BJARGOLSK_ANSWER(result), (unsigned)BJARGOLSK_HIGH(result));
    show(BJARGOLSK_ANSWER(result) == 0 ? BJARGOLSK_SBE_REPLY : 0);
}

/* The call lends an image of the SEEPROM, and a buffer for what the request reads of it. */
static void seeprom(const uint8_t *request, size_t length, const uint8_t *image, size_t image_length)
{
    uint8_t data[8] = {0};
    uint32_t result = bjargolsk_sbe_seeprom(session, sizeof session, request, length, reply, sizeof reply, image, image_length, data, sizeof data);
    printf("seeprom: answer %u bell %04X", (unsigned)BJARGOLSK_ANSWER(result), (unsigned)BJARGOLSK_HIGH(result));
    show(BJARGOLSK_ANSWER(result) == 0 ? BJARGOLSK_SBE_REPLY : 0);
    printf("data:");
    for (size_t i = 0; i < sizeof data; i++)
        printf(" %02X", data[i]);
    printf("\n");
}

static void passes(unsigned microseconds)
{
    uint32_t result = bjargolsk_time(session, sizeof session, microseconds);
    printf("time %u: answer %u bell %04X\n", microseconds, (unsigned)BJARGOLSK_ANSWER(result), (unsigned)BJARGOLSK_HIGH(result));
}

static void undo(void)
{
    uint32_t result = bjargolsk_undo(session, sizeof session);
    printf("undo: answer %u kind %02X", (unsigned)BJARGOLSK_ANSWER(result), (unsigned)BJARGOLSK_HIGH(result));
    printf(" passed %u\n", (unsigned)BJARGOLSK_PASSED(result));
}

static void redo(void)
{
    uint32_t result = bjargolsk_redo(session, sizeof session);
    printf("redo: answer %u kind %02X\n", (unsigned)BJARGOLSK_ANSWER(result), (unsigned)BJARGOLSK_HIGH(result));
}

static void forget(uint32_t n)
{
    uint32_t result = bjargolsk_forget(session, sizeof session, n);
    printf("forget: answer %u\n", (unsigned)BJARGOLSK_ANSWER(result));
}

static void watch(void)
{
    uint32_t result = bjargolsk_watch(session, sizeof session);
    printf("watch: answer %u\n", (unsigned)BJARGOLSK_ANSWER(result));
}

/* Packets for a plan, each at its slot's front. */
static uint8_t packets[5 * BJARGOLSK_SLOT];
static uint8_t order[BJARGOLSK_ORDER];

static size_t plan(unsigned wanted)
{
    uint32_t result = bjargolsk_plan(session, sizeof session, packets, sizeof packets, (uint8_t)wanted, order, sizeof order);
    printf("plan %u: answer %u", wanted, (unsigned)BJARGOLSK_ANSWER(result));
    if (BJARGOLSK_ANSWER(result) == 0)
        printf(BJARGOLSK_PLANNED(result) ? " plan" : " no plan");
    for (size_t i = 0; i < BJARGOLSK_HIGH(result); i++)
        printf(" %u", order[i]);
    printf("\n");
    return BJARGOLSK_HIGH(result);
}

static void check(unsigned wanted, const uint8_t *proposal, size_t length)
{
    uint32_t result = bjargolsk_plan_ok(session, sizeof session, packets, sizeof packets, (uint8_t)wanted, proposal, length);
    printf("proposal");
    for (size_t i = 0; i < length; i++)
        printf(" %u", proposal[i]);
    printf(": answer %u %s\n", (unsigned)BJARGOLSK_ANSWER(result), BJARGOLSK_PLANNED(result) ? "accepted" : "not accepted");
}

/* The session in the form for keeping, twice, and in the base version's. */
static uint8_t saved[BJARGOLSK_SAVED], again[BJARGOLSK_SAVED], base[BJARGOLSK_BASE_SAVED];

static size_t moved(const char *name, uint32_t result)
{
    printf("%s: answer %u bytes %u\n", name, (unsigned)BJARGOLSK_ANSWER(result), (unsigned)BJARGOLSK_HIGH(result));
    return BJARGOLSK_HIGH(result);
}

static void restore(void)
{
    uint32_t result = bjargolsk_restore(session, sizeof session, saved, sizeof saved);
    printf("restore: answer %u\n", (unsigned)BJARGOLSK_ANSWER(result));
}

int main(void)
{
    static const uint8_t poll[] = {0x10};
    static const uint8_t master[] = {0x03, 0x01};
    static const uint8_t thermal[] = {0x13, 0x10, 1, 0, 80, 90, 10};
    static const uint8_t caps[] = {0x07, 0x10, 0x01, 0xF4, 0x05, 0xDC, 0x07, 0xD0};
    static const uint8_t throttles[] = {0x12, 0x10, 1, 0, 0, 0, 1, 0, 2, 0, 3, 0, 4, 0, 5};
    static const uint8_t active[] = {0, 3, 0};
    static const uint8_t user[] = {0x03, 0xE8};
    static const uint8_t high[] = {0x07, 0xD0};
    static const uint8_t failed[] = {0, 1};
    static const uint8_t first[] = {1};
    static const uint8_t deadman[32] = {0, 0, 0x01, 0x01, 0, 7, 0xD1, 0x01, 0, 0, 0, 0, 0, 0, 0x03, 0xE8};
    static const uint8_t timer[32] = {0, 0, 0x00, 0x01, 0, 8, 0xD4, 0x01, 0, 0, 0, 0, 0, 0, 0x03, 0xE8};
    static const uint8_t read[32] = {0, 0, 0x01, 0x00, 0, 9, 0xD7, 0x03, 0, 0, 0, 8, 0, 0, 0, 8};
    static const uint8_t mine[] = {5, 4, 3, 2, 1};
    static const uint8_t early[] = {1, 2, 3, 4, 5};
    static const uint8_t image[] = {0, 1, 2, 3, 4, 5, 6, 7, 8, 9, 10, 11, 12, 13, 14, 15};

    printf("fresh: answer %u\n", (unsigned)bjargolsk_fresh(session, sizeof session));
    occ("poll", BJARGOLSK_HTMGT, 0x00, poll, sizeof poll);
    occ("role", BJARGOLSK_HTMGT, 0x21, master, sizeof master);
    occ("thermal", BJARGOLSK_HTMGT, 0x21, thermal, sizeof thermal);
    occ("caps", BJARGOLSK_HTMGT, 0x21, caps, sizeof caps);
    occ("throttles", BJARGOLSK_HTMGT, 0x21, throttles, sizeof throttles);
    occ("state", BJARGOLSK_HTMGT, 0x20, active, sizeof active);
    occ("user cap", BJARGOLSK_BMC, 0x22, user, sizeof user);
    occ("poll", BJARGOLSK_BMC, 0x00, poll, sizeof poll);
    undo();
    occ("poll", BJARGOLSK_BMC, 0x00, poll, sizeof poll);
    sbe("deadman", deadman, sizeof deadman);
    /* The deadman is to go. The state went too: that was one step too far. */
    undo();
    undo();
    redo();
    occ("poll", BJARGOLSK_BMC, 0x00, poll, sizeof poll);
    /* Status 0x13; the result says which data byte is wrong, and why. */
    occ("high cap", BJARGOLSK_BMC, 0x22, high, sizeof high);
    occ("stranger", 0x30, 0x00, poll, sizeof poll);
    /* Five changes are held. All but the newest are forgotten: undo takes that one back, and no more. */
    forget(6);
    forget(4);
    undo();
    undo();
    /* A timer of 1,000 microseconds, of which 400 pass. Undo stops it, redo gives it back with 600 left; it expires when these have passed, and rings once. */
    sbe("timer", timer, sizeof timer);
    passes(400);
    undo();
    passes(600);
    redo();
    passes(600);
    passes(600);
    /* 8 bytes from offset 8 on. */
    seeprom(read, sizeof read, image, sizeof image);
    /* A reset leaves log 1. For a training room the session is made watch-only: status 0x16 to the state, 05/20 to the deadman; the log may be cleared, and that
     * taken back. No change from before can be. */
    occ("reset", BJARGOLSK_HTMGT, 0x25, failed, sizeof failed);
    watch();
    occ("state", BJARGOLSK_HTMGT, 0x20, active, sizeof active);
    sbe("deadman", deadman, sizeof deadman);
    occ("clear", BJARGOLSK_HTMGT, 0x12, first, sizeof first);
    undo();
    undo();
    occ("poll", BJARGOLSK_BMC, 0x00, poll, sizeof poll);
    /* Five packets in the wrong order, for a fresh session: the plan for active, and none for observation, which no packet asks for. Another order that leads
     * there is accepted too. The plan is sent; a command's bytes past its packet are ignored. Then active is there, and the plan for it is empty. */
    printf("fresh: answer %u\n", (unsigned)bjargolsk_fresh(session, sizeof session));
    frame(packets, 0x20, active, sizeof active);
    frame(packets + BJARGOLSK_SLOT, 0x21, throttles, sizeof throttles);
    frame(packets + 2 * BJARGOLSK_SLOT, 0x21, caps, sizeof caps);
    frame(packets + 3 * BJARGOLSK_SLOT, 0x21, thermal, sizeof thermal);
    frame(packets + 4 * BJARGOLSK_SLOT, 0x21, master, sizeof master);
    plan(2);
    size_t count = plan(3);
    check(3, mine, sizeof mine);
    check(3, early, sizeof early);
    for (size_t i = 0; i < count; i++)
        sent("planned", BJARGOLSK_HTMGT, packets + (order[i] - 1) * BJARGOLSK_SLOT, BJARGOLSK_SLOT);
    plan(3);
    plan(4);
    /* Saved, and the state taken back. It could be redone, and the base version has no place for that: saved now, the session can't go down. The first save can,
     * and up again it has the same bytes; cut by a byte it won't read. Restored, the state is active again. */
    moved("save", bjargolsk_save(session, sizeof session, saved, sizeof saved));
    undo();
    moved("save", bjargolsk_save(session, sizeof session, again, sizeof again));
    moved("move down", bjargolsk_move_down(again, sizeof again, base, sizeof base));
    size_t length = moved("move down", bjargolsk_move_down(saved, sizeof saved, base, sizeof base));
    moved("move up", bjargolsk_move_up(base, length, again, sizeof again));
    size_t same = 0;
    while (same < sizeof saved && saved[same] == again[same])
        same++;
    printf("same: bytes %u\n", (unsigned)same);
    moved("move up", bjargolsk_move_up(base, length - 1, again, sizeof again));
    restore();
    occ("poll", BJARGOLSK_BMC, 0x00, poll, sizeof poll);
    return 0;
}
