/* Bjargolsk for C, and for whatever calls C: a proved stand-in for the on-chip controller (OCC) and the self-boot engine (SBE).
 *
 * A session is lent as its image of BJARGOLSK_SESSION bytes (docs/IMAGE.md), which a call updates in place. Nothing is allocated and
 * nothing is kept between calls: a copy of the bytes is a copy of the session, and threads may call at once on different sessions.
 *
 * A buffer is a pointer, of any alignment, and its length in bytes. It is good for that length; with length 0 it may be NULL, and is answered as any
 * buffer that is too short. The buffers of one call don't overlap. The proofs take that for granted: where they do, nothing is promised of the
 * result nor of the bytes in them.
 *
 * A call that changes nothing writes nothing to the session: polls, SBE requests that make no entry (D1 02, D3 01, D7 03), error replies, every answer
 * but 0, plans and their checks, saves. That its bytes stay is proved; that nothing is stored at all is tried, on memory that can't be written
 * (examples/c/edges.c). Polls, plans and saves may so share a session; a call that changes it needs it alone, and so do forgetting no changes, which stores the
 * bytes that stand there, every time report, opening a watch-only session again over one, and restoring.
 *
 * The archive takes memcpy, memmove and memset from the C library, or from you, and nothing else. A call takes under 4 KB of stack; a restore, and a
 * save moved up or down, under 12 KB.
 *
 * On x86-64 valgrind found nothing. In an archive that an older kit made for Arm it was seen to report a conditional jump on uninitialised
 * bytes after an accepted D1 03: the compiler merged two compares, and the result depends on neither of those bytes.
 *
 * A result has the answer in bits 0 to 7 (no answer is over 255), a small number in bits 8 to 15 and one of 16 bits above; each function says
 * what these two are, and they are 0 where it says nothing. The answers:
 *   0  done; an OCC or SBE reply is written, good or error
 *   1  the session isn't BJARGOLSK_SESSION bytes long, or isn't well formed
 *   2  the OCC sender is neither BJARGOLSK_HTMGT nor BJARGOLSK_BMC
 *   3  the reply buffer is too short: under BJARGOLSK_OCC_REPLY or BJARGOLSK_SBE_REPLY bytes; or a plan's buffer for the order is under
 *      BJARGOLSK_ORDER bytes; or the one for where two traces part under BJARGOLSK_PART
 *   4  the command is too short: under 4 bytes for the OCC, under 32 for the SBE
 *   5  the journal has no room for the change
 *   6  nothing to undo
 *   7  the newest entry can't be put in. Undo and redo: the record would be ill formed. Undo: the place of a cleared log is above the number
 *      pending, or 4 pend; or the entry says that a log was made, and none pends. Redo: a log that is to be cleared again isn't at its place,
 *      with its id and reason; or a reset's log is to come back, and 4 pend. Never on a session that began fresh
 *   8  nothing to redo
 *   9  fewer changes are held than are to be forgotten
 *  10  more than five packets for a plan, or a wanted state other than 2 and 3
 *  11  a saved session won't read or is ill formed; one in the base version's form by the rule of thresholds of that version
 *  12  a saved session can't go down: the base version has no form for it
 *  13  the buffer for a saved session is too short
 * After any answer but 0 the session and every buffer that is lent to be written hold the bytes that they held before.
 *
 * The doorbell is a number of 16 bits, bit 0 the most significant: 0x8000 response (bit 0), 0x4000 acknowledge (bit 1), 0x0002 the timer has expired
 * (bit 14). The first two are rung by SBE calls as the request's flags ask, with every answer 0, whatever the status; the third by a time report.
 */
#ifndef BJARGOLSK_H
#define BJARGOLSK_H

#include <stddef.h>
#include <stdint.h>

#ifdef __cplusplus
extern "C" {
#endif

/* Goes up with every change of a function, a constant or the image's bytes. */
#define BJARGOLSK_VERSION 7

enum {
    BJARGOLSK_SESSION = 4411, /* the image's length */
    BJARGOLSK_OCC_REPLY = 4096,
    BJARGOLSK_SBE_REPLY = 32,
    BJARGOLSK_SLOT = 4096, /* the place of a packet among those for a plan */
    BJARGOLSK_ORDER = 5, /* the longest plan */
    BJARGOLSK_PART = 118, /* the longest text of where two traces part */
    BJARGOLSK_SAVED = 4409, /* a saved session's length */
    BJARGOLSK_BASE_SAVED = 2280, /* the longest of the base version; the shortest has 232 */
    BJARGOLSK_HTMGT = 0x10,
    BJARGOLSK_BMC = 0x20
};

#define BJARGOLSK_ANSWER(result) ((result) & 0xFFu)
#define BJARGOLSK_HIGH(result) ((result) >> 16)

/* Of an OCC call whose reply has status 0x13: the reason, and the number of the data byte that is wrong, from 1; of other calls 0. */
#define BJARGOLSK_REASON(result) (((result) >> 8) & 0xFFu)
#define BJARGOLSK_PLACE(result) BJARGOLSK_HIGH(result)

enum {
    BJARGOLSK_BAD_VERSION = 1,
    BJARGOLSK_BAD_COUNT = 2,
    BJARGOLSK_OUT_OF_RANGE = 3,
    BJARGOLSK_REPEATED = 4,
    BJARGOLSK_CLASH = 5,
    BJARGOLSK_NOT_PENDING = 6
};

/* Of an undo: how many entries of the journal were passed to find the newest, 0 to 31; 0 if none was taken back. */
#define BJARGOLSK_PASSED(result) (((result) >> 8) & 0xFFu)

/* Of a plan: 1 if there is one. Of the check of a proposal: 1 if it is accepted. Else 0, and with every answer but 0. */
#define BJARGOLSK_PLANNED(result) (((result) >> 8) & 0xFFu)

/* Makes the session the fresh one. Answers 0 and 1; the bytes need not be a session before. */
uint32_t bjargolsk_fresh(uint8_t *session, size_t session_length);

/* Answers an OCC command packet from a sender. A reply has 7 bytes and its data: sequence, type, status, two bytes of data length, data,
 * two bytes of checksum; the reply buffer past it is kept. Answers 0 to 5. If the status is 0x13, bits 8 to 15 are the reason and the high 16
 * bits the number of the data byte. The least number of a byte that is wrong is given, and of two reasons there the one that stands
 * first above. A pair or FRU is repeated where it is seen the second time; of two fields that clash it is the later one; a field of two bytes
 * counts as its first. */
uint32_t bjargolsk_occ(uint8_t *session, size_t session_length, uint8_t sender, const uint8_t *command, size_t command_length,
                       uint8_t *reply, size_t reply_length);

/* Answers an SBE mailbox request of 32 bytes by a response of 32; the reply buffer past it is kept. Answers 0, 1 and 3 to 5; the high 16
 * bits are the doorbell. It is bjargolsk_sbe_seeprom with an empty SEEPROM image and an empty buffer for data: so D7 03 with offset 0 and size 0
 * succeeds, and every other read is refused by status 02/19. */
uint32_t bjargolsk_sbe(uint8_t *session, size_t session_length, const uint8_t *request, size_t request_length, uint8_t *reply,
                       size_t reply_length);

/* The same, with the image lent that D7 03 reads the SEEPROM from, and a buffer for the data that it reads. Of an image only the first 65,536 bytes
 * count. Offset and size, which are to be multiples of 8, are judged against the image (02/19), then the size against the buffer (02/18). On success
 * the data stands at the front of the buffer, as many bytes as the request's size asks for; past them, after a refusal and after every other request
 * the buffer is kept. Neither is looked at by other requests; either may be of any length, also 0. Answers and doorbell as bjargolsk_sbe. */
uint32_t bjargolsk_sbe_seeprom(uint8_t *session, size_t session_length, const uint8_t *request, size_t request_length, uint8_t *reply,
                               size_t reply_length, const uint8_t *seeprom, size_t seeprom_length, uint8_t *data, size_t data_length);

/* Reports that so many microseconds have passed. A timer that runs (D4 01 starts it) loses them; where as many as are left, or more, have passed, it
 * is off, and the high 16 bits, the doorbell, are 0x0002, this once. With fewer, and while the timer is off, they are 0. It is no change: the journal and
 * what can be redone stay. Answers 0 and 1. Time passes by this call alone. */
uint32_t bjargolsk_time(uint8_t *session, size_t session_length, uint64_t microseconds);

/* Takes the newest change back. Answers 0, 1, 6 and 7; the high 16 bits are the kind of the entry that was taken back, 0 if none was. Bits 8 to 15
 * are the number of entries passed on the way to it from the last mark (docs/IMAGE.md): those held, less one, less the greatest multiple of 32
 * not above that. Of a timer command (kind 0x0C) it restores the timer as it stood just before that command or, if that was redone since, just before
 * its last redo; no other undo touches the timer. */
uint32_t bjargolsk_undo(uint8_t *session, size_t session_length);

/* Puts the change that was last taken back in again; an accepted command that makes a change leaves none to put in. Answers 0, 1, 7 and 8;
 * the high 16 bits are the kind of its entry, 0 if none was put in. Of a timer command it restores the timer as it stood just before that undo; no other
 * redo touches it. */
uint32_t bjargolsk_redo(uint8_t *session, size_t session_length);

/* Forgets the n oldest changes, which can't be taken back any more, and moves the rest down: their room in the journal is used again. The record, the
 * timer, the profile, the next id and what can be redone stay; n = 0 changes nothing. Answers 0, 1 and 9; nothing stands beside the answer. */
uint32_t bjargolsk_forget(uint8_t *session, size_t session_length, uint32_t n);

/* Opens a watch-only session over this one and in its place: the record, the timer and the next id stay, and the journal and what can be redone are empty.
 * In it polls are open, from both senders, and clear log, from BJARGOLSK_HTMGT; every other OCC command gets status 0x16 where its data is right. An SBE
 * request that would make an entry gets status 05/20 where all else in it is right; D1 02, D3 01 and D7 03 are open. So are undo, redo, forgetting, time
 * reports and opening again. No call but bjargolsk_fresh, and no undo, makes a watch-only session a full one again; the profile is the image's last byte.
 * Answers 0 and 1; nothing stands beside the answer. */
uint32_t bjargolsk_watch(uint8_t *session, size_t session_length);

/* Looks for an order of prepared packets from BJARGOLSK_HTMGT that leads to the wanted state, 2 (observation) or 3 (active): a plan. Packet 1 stands at
 * the first byte, 2 at BJARGOLSK_SLOT, and so on, five at most; the last slot may be shorter, and bytes after a packet are ignored, as in a command.
 * Length 0: no packets. A plan uses each packet once at most, some perhaps not at all. Sent one by one to a session with this one's record and next id, an
 * empty journal and the full profile, every packet in it gets answer 0 and success, and the state is then the wanted one. Of all plans the one with the
 * fewest packets is given, and of these the least, number by number; it is empty if the state is the wanted one already.
 * The numbers, from 1, are written to the order, whose bytes past them are kept; without a plan all are. Answers 0, 1, 10 and 3, tested in the order 1, 10, 3.
 * Bits 8 to 15 are 1 if there is a plan, and 0 exactly if no such order exists; the high 16 bits are the number of packets in it. Nothing is sent. */
uint32_t bjargolsk_plan(const uint8_t *session, size_t session_length, const uint8_t *packets, size_t packets_length, uint8_t wanted,
                        uint8_t *order, size_t order_length);

/* Checks a proposal, whoever made it: bits 8 to 15 are 1 exactly if it is a plan as above, not only the least. It is as long as the order's length says; a
 * number that names no packet, or comes twice, makes it none. Answers 0, 1 and 10. */
uint32_t bjargolsk_plan_ok(const uint8_t *session, size_t session_length, const uint8_t *packets, size_t packets_length, uint8_t wanted,
                           const uint8_t *order, size_t order_length);

/* Writes the session in the form for keeping, BJARGOLSK_SAVED bytes (docs/SAVES.md); the buffer past them is kept. An image is bytes to work on, and
 * another version may have another one; the form for keeping is what later versions take. Used lengths and what is worked out aren't in it. Answers 0, 1 and
 * 13, tested in the order 1, 13; the high 16 bits are the number of bytes written. */
uint32_t bjargolsk_save(const uint8_t *session, size_t session_length, uint8_t *out, size_t out_length);

/* Makes the session the one that was saved, journal, what can be redone, timer and profile too. The bytes need not be a session before. Answers 0; 1 if the
 * session isn't BJARGOLSK_SESSION bytes long; then 11 if the save isn't BJARGOLSK_SAVED bytes long, doesn't read as its parts, or its session isn't well
 * formed. Nothing stands beside the answer. */
uint32_t bjargolsk_restore(uint8_t *session, size_t session_length, const uint8_t *saved, size_t saved_length);

/* Writes a session that the base version saved (record, next id, used journal) in the form for keeping: nothing can be redone, the profile is full, the
 * timer off, and the marks are worked out. Answers 0; 11 if it won't read or isn't a session that the base version holds to be well formed: thresholds by its
 * rule, DVFS at most ERROR even where one is 0xFF, now and in the journal; then 13. The high 16 bits are the number of bytes written, BJARGOLSK_SAVED; the
 * buffer past them is kept. Neither this nor the next function takes a session. */
uint32_t bjargolsk_move_up(const uint8_t *saved, size_t saved_length, uint8_t *out, size_t out_length);

/* Writes a saved session in the base version's form. Answers 0; 11 as bjargolsk_restore; 12 if something can be redone, the profile is watch-only, the
 * timer runs, the journal has an entry of the timer (kind 0x0C), or a threshold, now or in the journal, is one that the base version's rule forbids; then
 * 13. The high 16 bits are the number of bytes written: 232 and those of the used journal, BJARGOLSK_BASE_SAVED at most; the buffer past them is kept. Up
 * and then down gives the same bytes, and so does down and then up. */
uint32_t bjargolsk_move_down(const uint8_t *saved, size_t saved_length, uint8_t *out, size_t out_length);

/* Tells where two recorded traces part, in the lines that the program part prints (docs/INTERFACE.md): how many whole entries both begin with, how many bytes
 * these have, and the number of the entry after them; then, if the first entry of one won't read, why. Each line ends in LF. They stand at the front of the
 * text's buffer, whose bytes past them are kept. Takes no session; neither trace is played. Answers 0; 3 if that buffer is under BJARGOLSK_PART bytes, and
 * it is kept. The high 16 bits are the number of bytes written. */
uint32_t bjargolsk_part(const uint8_t *first, size_t first_length, const uint8_t *second, size_t second_length, uint8_t *text, size_t text_length);

#ifdef __cplusplus
}
#endif

#endif
