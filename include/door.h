/* The proved chip, the proved dock and captures for programs in C: document 01's software chip behind six calls, the plain engine, which is the same chip over a
 * whole stretch of bytes, behind one, a capture played into it behind two, a capture converted behind two, and the dock behind five.
 *
 * Every call is total: no argument makes it undefined, as long as each pointer points to as many bytes or numbers as its array or the length after it says, nothing
 * that is lent to be changed overlaps anything else, and no pointer is null but that of a slice of length 0. What a call does is proved equal to a definition
 * (specs/ of the crates chip_door, engine_door, replay_door, conversion_door and dock_door); nothing checks this header against the source, so it is kept to
 * numbers and bytes.
 *
 * Lengths and the numbers told are 64 bits on every processor, so that firmware of 32 bits and a page in wasm link the same module. There is no state but
 * what is lent: calls on different states may run at once, in interrupts too. Stack, measured by painting it over a rehearsed job and a replay (64-bit Arm): 4.7 kB
 * for the replays, 3.6 kB for zc_feed, 2.9 kB for the other events, 0.8 kB for the dock's calls, 0.2 kB for the conversions, under 0.1 kB for zc_fresh and zc_sums.
 *
 * A part is ZC_PART bytes, a job ZC_JOB bytes beside its part and an image as long as its range; zc_part and zc_job below write them:
 *     part: 0 code blocks   1 data blocks   2 clock   3-5 device code   6-15 name   16-18 firmware version
 *     job: 0-3 first address   4-7 last address   8 rate code   9 supply in 100 mV   10 retries allowed
 * A chip's state is ZC_STATE bytes, which the caller keeps and lends:
 *     0 flags   1 last boot block   2-3 window start   4-5 window end   6 rate   7 phase (ZC_PHASE_..)
 *     8 command that awaits data   9-16 next address   17-24 last address   25-32 count of collected bytes   33-292 collected bytes
 *     293 whether a page of this 13h has differed from flash (0 or 1)
 * In phases 1 to 3 the bytes 8 to 24 and byte 293 are 0, and byte 293 is never over 1; bytes that have it otherwise are no state (9). 40h, 13h and A0h begin with
 * byte 293 as 0. In phase 4 either value is accepted for each of the three, and only 13h looks at it: each good page but the last gets 06h 06h, also where it
 * differs, and the last 06h 0Fh if any page differed, itself included (document 02, section 2).
 * Collected bytes past the count are kept as they are, and nothing looks at them.
 * A dock's state is ZC_DOCK bytes. It does not hold the job: hand in the same part, job and image at every call.
 *     0 stage (ZC_STAGE_..)   1 whether the answer to that frame is awaited (0 or 1)   2-5 retries used   6-9 frames used
 *     10 whether a block is named (0 or 1)   11-14 the block, counted in the job from 0   15 whether a page is named (0 or 1)   16-19 the page
 *     20 why the job failed (ZC_BY_..)   21 the command of the frame that failed   22 the status named
 *     23 the fault of the answer that could not be read (ZC_FAULT_..)   24-25 its place
 * Stages 4 to 9 name their block, 7 and 9 their page, and 11 what the failure names; whatever is not named is 0. Numbers are low byte first. In
 * stage 11 any fault of the table below is accepted, beside any cause, a footer's or a SUM's with any place; another number or place is no state (9).
 *
 * A chip's sums are ZC_SUMS numbers, which the caller keeps beside its state and lends to every event (document 02, section 1): for each block what B0h says of
 * it, 0000h less each of its 1,024 bytes, in 16 bits; a blank block has 0400h. A bench screen reads them after each frame. They are numbers as the machine holds
 * them, not bytes:
 *     0-63 the code blocks, block b in slot b   64-71 the data blocks, block b in slot ZC_DATA_SUMS + b
 * zc_sums works them out from flash. Call it when a chip is taken up, after zc_fresh as well as with a state and flash that were kept: until then they are
 * whatever the caller put there. From then on they stay right, as long as nothing but the calls changes flash: an erase and a good page of 40h, answered 06h
 * or 1Ch, work the sum of their block out afresh, and nothing else writes a sum. The slots of blocks that the part has not are never written.
 * Wrong sums are no fault of a call: none judges them, and none is refused for them. B0h over one block says the number that is kept, right or wrong; over more
 * blocks it adds up the bytes of flash. A wrong sum stays until zc_sums is called, its block is erased, or a good page of 40h comes for it.
 *
 * A page of 40h clears bits and sets none: each byte of flash becomes what it was AND what was sent (document 02, section 6). The answer is 06h 06h where every
 * byte then is as sent, as over FFh throughout, with the same page again and with more 0 bits. Else it is 06h 1Ch: the mixed bytes stay and the command is over,
 * without the further 06h where it was the last page.
 *
 * Which fault a bad frame has, and at which byte (document 02, section 4). On the wire 07h is a wrong SUM, but 15h a wrong footer or an unfit LEN. A number tells
 * the faults apart, and a place says which byte, counted from the header of its own frame, which is 0. n is what LEN counts, 00h being 256, so places reach 259:
 *     number               place   fault
 *     0 ZC_FAULT_NONE      0       none
 *     1 ZC_FAULT_FOOTER    n + 3   wrong footer
 *     2 ZC_FAULT_SUM       n + 2   wrong SUM
 *     3 ZC_FAULT_LEN       1       unfit LEN
 *     4 ZC_FAULT_FIRST     0       first byte missing or not 02h; of an answer to the dock alone, since the chip skips what comes before a frame
 * An event of the chip tells the fault of the frame that it completes: a wrong footer, else a wrong SUM, else an unfit LEN, of a data frame or of a command that is
 * known and allowed in the phase. A byte that completes no frame, a gap, power-on, and a frame that is answered for anything else (04h, whatever its LEN, 05h, 10h
 * and so on) tell 0 and 0.
 * A job that an unreadable answer ends names the fault of the answer's first faulty frame; n is then what that frame should hold. Answers are judged in another
 * order: first byte, LEN, footer, SUM. LEN is also unfit where it is missing, where its frame is cut short, and where bytes follow the last frame. Which frames
 * are expected is read from bytes 2 and 3 of the answer, where its statuses lie, whatever else is wrong with it. So an empty answer and a missing second frame
 * are ZC_FAULT_FIRST; a lone 02h, a bare 06h to 9Ah, and an answer to C0h whose 06h became 07h with its second frame behind it are ZC_FAULT_LEN.
 *
 * A capture is records end to end, all of one form and without a header: the old form has ZC_RECORD bytes (document 01, "Replay"), the new one ZC_RECORD_NEW
 * (document 02, section 5). Nothing in a capture says which it is, so the caller does, by the call:
 *     old: 0 kind   1 count   2-7 bytes carried
 *     new: 0 kind   1 count   2 seat (0 or 1)   3 always 00h   4-7 tick   8-15 bytes carried
 * Kind 00h is a gap: its count is 0, and the bytes carried are all 00h. Kind 01h carries as many bytes as its count says, 1 to 6 in the old form and 1 to 8 in the
 * new, and those past the count are 00h. Seat and tick are free in either kind. Whatever else a record holds, it is bad, and so is a short one at the end.
 *
 * Each call answers 0, or the number of its refusal: for the chip in document 01's order 1, 2, 3, 9, 4, for the plain engine 1, 2, 3, 9, 12, for the dock 1, 5, 6,
 * 7, 9, 4, 8, for a conversion in document 02's order 10, 11, 12. After a refusal nothing that was lent has changed, the sums and the numbers told included; but a
 * conversion always tells its two.
 * A replay that was not refused can also end before the end of its capture, with ZC_BAD_RECORD or ZC_OUTPUT_FULL. There neither is a refusal: the records before
 * that place were played, and told has their number.
 */
#ifndef ZC_DOOR_H
#define ZC_DOOR_H

#include <stdint.h>

/* Sizes. */
#define ZC_PART 19
#define ZC_NAMES 16
#define ZC_JOB 11
#define ZC_STATE 294
#define ZC_SUMS 72
#define ZC_DATA_SUMS 64 /* the slot of data block 0 */
#define ZC_DOCK 26
#define ZC_ROOM 32 /* the least reply room; of the plain engine, for each byte fed */
#define ZC_FRAME_ROOM 260 /* the least frame room */
#define ZC_RECORD 8 /* a capture record of the old form */
#define ZC_RECORD_NEW 16 /* a capture record of the new form */
#define ZC_OUTPUT 192 /* output for the replies to one record of the old form */
#define ZC_OUTPUT_NEW 256 /* output for the replies to one record of the new form */
#define ZC_ANSWER 31 /* the longest answer to a frame of the dock */

/* Refusals. */
#define ZC_BAD_PART 1 /* the part, or the rate or the supply of a job, is outside the document's numbers */
#define ZC_CODE_LENGTH 2 /* the code slice is not 1,024 times the part's code blocks */
#define ZC_DATA_LENGTH 3
#define ZC_SHORT_ROOM 4 /* the reply room is under 32 bytes, or the frame room under 260 */
#define ZC_BAD_RANGE 5
#define ZC_IMAGE_LENGTH 6 /* the image is not as long as the range */
#define ZC_MANY_RETRIES 7 /* more than 15 */
#define ZC_OUT_OF_TURN 8 /* a frame asked while an answer is awaited, an answer or a timeout while none is, or anything once the job is over */
#define ZC_BAD_STATE 9 /* the bytes are no state, or none that the document accepts */
#define ZC_BAD_RECORD 10 /* a record is bad, or short; of a conversion the refusal, of a replay where it ends */
#define ZC_NOT_HELD 11 /* a record that the old form cannot hold: seat 1, a tick that is not 0, or a count over 6 */
#define ZC_SHORT_OUTPUT 12 /* the output is shorter than the capture converted, or the plain engine's room than 32 bytes for each byte fed */

/* How a replay ends, beside 0, its refusals and ZC_BAD_RECORD. */
#define ZC_OUTPUT_FULL 17 /* the output has not the 192 or 256 bytes left that the next record needs: go on from it with fresh output */

/* The phase of a chip. */
#define ZC_PHASE_MODE_BYTE 1
#define ZC_PHASE_SETUP 2
#define ZC_PHASE_READY 3
#define ZC_PHASE_DATA 4

/* The stage of a dock, and the frame that it sends. */
#define ZC_STAGE_RATE 1 /* 9Ah */
#define ZC_STAGE_RESET 2 /* 00h */
#define ZC_STAGE_SIGNATURE 3 /* C0h */
#define ZC_STAGE_BLANK 4 /* 32h */
#define ZC_STAGE_ERASE 5 /* 22h */
#define ZC_STAGE_PROGRAM 6 /* 40h */
#define ZC_STAGE_PROGRAM_PAGE 7
#define ZC_STAGE_VERIFY 8 /* 13h */
#define ZC_STAGE_VERIFY_PAGE 9
#define ZC_STAGE_FINISHED 10
#define ZC_STAGE_FAILED 11

/* How a job stands, as zc_answer and zc_timeout tell it. */
#define ZC_GOES_ON 0
#define ZC_FINISHED 1
#define ZC_FAILED 2

/* Why a job failed: byte 20 of the dock's state. */
#define ZC_BY_STATUS 1
#define ZC_BY_MISMATCH 2
#define ZC_BY_UNREADABLE 3
#define ZC_BY_TIMEOUT 4

/* What is wrong with a frame: told by the chip's events, and byte 23 of the dock's state. Places count from the frame's header, and n is what its LEN counts. */
#define ZC_FAULT_NONE 0 /* place 0 */
#define ZC_FAULT_FOOTER 1 /* place n + 3, up to 259 */
#define ZC_FAULT_SUM 2 /* place n + 2, up to 258 */
#define ZC_FAULT_LEN 3 /* place 1 */
#define ZC_FAULT_FIRST 4 /* place 0; of answers to the dock alone */

#ifdef __cplusplus
extern "C" {
#endif

/* A fresh chip of the part: at the mode byte, fresh options, nothing collected. The flash is the caller's to set to FFh; then zc_sums works out its sums.
 * Refusal: 1. */
uint32_t zc_fresh(const uint8_t part[ZC_PART], uint8_t state[ZC_STATE]);

/* The sums of all blocks of the part, worked out from flash; the other slots stay. Refusals: 1, 2, 3. */
uint32_t zc_sums(const uint8_t part[ZC_PART], const uint8_t *code, uint64_t code_len, const uint8_t *data, uint64_t data_len, uint16_t sums[ZC_SUMS]);

/* One event. A reply lies at the start of the room: told[0] bytes, which are told[1] frames; the room past them stays. told[2] is the fault of the frame that the
 * event completed (ZC_FAULT_..), and told[3] its place; 0 and 0 where it completed none, or one without fault, and so for every gap and power-on. */
uint32_t zc_byte(const uint8_t part[ZC_PART], uint8_t state[ZC_STATE], uint8_t byte, uint8_t *code, uint64_t code_len, uint8_t *data, uint64_t data_len,
                 uint16_t sums[ZC_SUMS], uint8_t *room, uint64_t room_len, uint64_t told[4]);
uint32_t zc_gap(const uint8_t part[ZC_PART], uint8_t state[ZC_STATE], uint8_t *code, uint64_t code_len, uint8_t *data, uint64_t data_len,
                uint16_t sums[ZC_SUMS], uint8_t *room, uint64_t room_len, uint64_t told[4]);
uint32_t zc_power_on(const uint8_t part[ZC_PART], uint8_t state[ZC_STATE], uint8_t *code, uint64_t code_len, uint8_t *data, uint64_t data_len,
                     uint16_t sums[ZC_SUMS], uint8_t *room, uint64_t room_len, uint64_t told[4]);

/* Bytes one after the other, each as zc_byte would take it, up to the first that is answered; told[0] of them were taken, told[1] and told[2] are the reply's
 * bytes and frames, and told[3] and told[4] the fault and the place of the frame that the last byte taken completed. Hand in the rest again. It is refused as
 * zc_byte would be, also where there is no byte. */
uint32_t zc_feed(const uint8_t part[ZC_PART], uint8_t state[ZC_STATE], const uint8_t *fed, uint64_t fed_len, uint8_t *code, uint64_t code_len, uint8_t *data,
                 uint64_t data_len, uint16_t sums[ZC_SUMS], uint8_t *room, uint64_t room_len, uint64_t told[5]);

/* The plain engine: a whole stretch of bytes without gaps, split into frames where they lie (document 02, section 7). All bytes are taken, and what comes of them is
 * what zc_byte would make of one after the other, from any state that it accepts and wherever the stretch begins and ends: the same flash and sums, and in the
 * room all replies end to end, told[0] bytes, which are told[1] frames; the room past them stays. told[2] of the frames were judged bad, and told[3] and told[4]
 * are the fault and the place of the first of them; 0 and 0 where there is none. The state is the one that zc_byte would leave, but for the collected bytes past
 * the count, which stay as they were handed in.
 * It is refused as zc_byte would be, but for the room: 12, after the others and in place of 4, if room_len is less than 32 times fed_len. So a stretch without a
 * byte needs no room, and is still refused for 1, 2, 3 and 9. */
uint32_t zc_engine(const uint8_t part[ZC_PART], uint8_t state[ZC_STATE], const uint8_t *fed, uint64_t fed_len, uint8_t *code, uint64_t code_len, uint8_t *data,
                   uint64_t data_len, uint16_t sums[ZC_SUMS], uint8_t *room, uint64_t room_len, uint64_t told[5]);

/* Capture records one after the other, of the old form by zc_replay and of the new by zc_replay_new. told[0] records were played; their replies, told[1] bytes and
 * told[2] frames, lie end to end in the output. It is refused before any record, as zc_gap would be, also where there is none. Before each good record the output
 * must have ZC_OUTPUT bytes left, ZC_OUTPUT_NEW in the new form, else the replay ends there with ZC_OUTPUT_FULL, whatever would be said to it; a bad record ends it
 * with ZC_BAD_RECORD, whatever output is left. An empty capture needs no output.
 * A record of seat 1 is judged and counted as the others are, and plays nothing: its bytes are not heard, and its gap drops nothing. Ticks are not looked at. */
uint32_t zc_replay(const uint8_t part[ZC_PART], uint8_t state[ZC_STATE], const uint8_t *capture, uint64_t capture_len, uint8_t *code, uint64_t code_len,
                   uint8_t *data, uint64_t data_len, uint16_t sums[ZC_SUMS], uint8_t *room, uint64_t room_len, uint8_t *output, uint64_t output_len,
                   uint64_t told[3]);
uint32_t zc_replay_new(const uint8_t part[ZC_PART], uint8_t state[ZC_STATE], const uint8_t *capture, uint64_t capture_len, uint8_t *code, uint64_t code_len,
                       uint8_t *data, uint64_t data_len, uint16_t sums[ZC_SUMS], uint8_t *room, uint64_t room_len, uint8_t *output, uint64_t output_len,
                       uint64_t told[3]);

/* A capture of one form written in the other at the start of the output, which must not overlap it; one record for one. From old to new each record gets seat 0 and
 * tick 0. From new to old a record must have them, and carry 6 bytes at most. told[0] bytes were written; the output past them stays. There and back again gives
 * the same bytes, from either form, where neither way is refused.
 * Refusals: 10 if any record is bad, and told[1] is the number of the first, counted from 0; a short one at the end has the number of the whole ones before it.
 * Then 11, from new to old alone, if there is any record that the old form cannot hold, and told[1] is the number of the first. So a bad record goes before one that
 * cannot be held, wherever the two stand. Then 12 if output_len is less than the bytes to be written; an empty capture needs none. A refusal tells 0 bytes, and
 * 12 also 0 for the record; the output stays whole as it was. Without a refusal told[1] is 0. */
uint32_t zc_to_new(const uint8_t *capture, uint64_t capture_len, uint8_t *output, uint64_t output_len, uint64_t told[2]);
uint32_t zc_to_old(const uint8_t *capture, uint64_t capture_len, uint8_t *output, uint64_t output_len, uint64_t told[2]);

/* A dock before its first frame. The chip that it is for has its mode byte. Refusals: 1, 5, 6, 7. */
uint32_t zc_start(const uint8_t part[ZC_PART], const uint8_t job[ZC_JOB], const uint8_t *image, uint64_t image_len, uint8_t dock[ZC_DOCK]);

/* The next frame, at the start of the room: told[0] bytes; the room past them stays. Send a gap before it. Its answer is awaited from now on. */
uint32_t zc_ask(const uint8_t part[ZC_PART], const uint8_t job[ZC_JOB], const uint8_t *image, uint64_t image_len, uint8_t dock[ZC_DOCK], uint8_t *room,
                uint64_t room_len, uint64_t told[1]);

/* The whole answer to that frame, handed in at once. told[0]: ZC_GOES_ON, the next frame is due; ZC_FINISHED; ZC_FAILED, and the state says why, and of an
 * unreadable answer which byte was wrong. Once the job has ended, told[1] and told[2] are the frames and the retries that it took; else both are 0. A status 07h
 * or 15h spends a retry, an unreadable answer none: it ends the job, as a timeout does. */
uint32_t zc_answer(const uint8_t part[ZC_PART], const uint8_t job[ZC_JOB], const uint8_t *image, uint64_t image_len, uint8_t dock[ZC_DOCK],
                   const uint8_t *answer, uint64_t answer_len, uint64_t told[3]);

/* How many bytes are still wanted of that answer, of which these have come, before it can be readable; 0: hand it in, it is whole (or zc_answer will refuse it
 * whatever it is). A readable answer wants more after each byte but its last, and none wants more than 31 bytes in all, so a line that is read byte by byte
 * needs a clock only for an answer that stops short: hand in what came then, or report a timeout where nothing did. */
uint64_t zc_wants(const uint8_t part[ZC_PART], const uint8_t job[ZC_JOB], const uint8_t *image, uint64_t image_len, const uint8_t dock[ZC_DOCK],
                  const uint8_t *answer, uint64_t answer_len);

/* No answer came to that frame. Told as by zc_answer. */
uint32_t zc_timeout(const uint8_t part[ZC_PART], const uint8_t job[ZC_JOB], const uint8_t *image, uint64_t image_len, uint8_t dock[ZC_DOCK],
                    uint64_t told[3]);

/* Layouts written and read. A number that no byte holds is written as 255, which is outside the document's numbers as well. */
static inline uint8_t zc_low(uint32_t number) { return (uint8_t)(number < 255 ? number : 255); }

static inline void zc_put4(uint8_t *at, uint32_t number) {
    for (int i = 0; i < 4; i++) at[i] = (uint8_t)(number >> 8 * i);
}

static inline uint32_t zc_get4(const uint8_t *at) { return at[0] | (uint32_t)at[1] << 8 | (uint32_t)at[2] << 16 | (uint32_t)at[3] << 24; }

static inline void zc_part(uint8_t part[ZC_PART], uint32_t code_blocks, uint32_t data_blocks, uint32_t clock, const uint8_t names[ZC_NAMES]) {
    part[0] = zc_low(code_blocks);
    part[1] = zc_low(data_blocks);
    part[2] = zc_low(clock);
    for (int i = 0; i < ZC_NAMES; i++) part[3 + i] = names[i];
}

static inline void zc_job(uint8_t job[ZC_JOB], uint32_t first, uint32_t last, uint32_t rate, uint32_t supply, uint32_t retries) {
    zc_put4(job, first);
    zc_put4(job + 4, last);
    job[8] = zc_low(rate);
    job[9] = zc_low(supply);
    job[10] = zc_low(retries);
}

/* Of a record of the new form its seat, and its tick, read and set. */
static inline uint8_t zc_record_seat(const uint8_t record[ZC_RECORD_NEW]) { return record[2]; }
static inline uint32_t zc_record_tick(const uint8_t record[ZC_RECORD_NEW]) { return zc_get4(record + 4); }
static inline void zc_record_put_seat(uint8_t record[ZC_RECORD_NEW], uint32_t seat) { record[2] = zc_low(seat); }
static inline void zc_record_put_tick(uint8_t record[ZC_RECORD_NEW], uint32_t tick) { zc_put4(record + 4, tick); }

static inline uint8_t zc_chip_phase(const uint8_t state[ZC_STATE]) { return state[7]; }
/* How many bytes are collected; they begin at state + 33. */
static inline uint64_t zc_chip_collected(const uint8_t state[ZC_STATE]) { return zc_get4(state + 25) | (uint64_t)zc_get4(state + 29) << 32; }

/* Whether a page of the 13h under way has differed from flash (0 or 1), which the wire tells with the last page alone. */
static inline uint8_t zc_chip_differed(const uint8_t state[ZC_STATE]) { return state[293]; }

static inline uint8_t zc_dock_stage(const uint8_t dock[ZC_DOCK]) { return dock[0]; }
static inline uint32_t zc_dock_retries(const uint8_t dock[ZC_DOCK]) { return zc_get4(dock + 2); }
static inline uint32_t zc_dock_frames(const uint8_t dock[ZC_DOCK]) { return zc_get4(dock + 6); }
/* The block and the page named, or -1. */
static inline int64_t zc_dock_block(const uint8_t dock[ZC_DOCK]) { return dock[10] ? (int64_t)zc_get4(dock + 11) : -1; }
static inline int64_t zc_dock_page(const uint8_t dock[ZC_DOCK]) { return dock[15] ? (int64_t)zc_get4(dock + 16) : -1; }
static inline uint8_t zc_dock_cause(const uint8_t dock[ZC_DOCK]) { return dock[20]; }
static inline uint8_t zc_dock_command(const uint8_t dock[ZC_DOCK]) { return dock[21]; }
static inline uint8_t zc_dock_status(const uint8_t dock[ZC_DOCK]) { return dock[22]; }
/* The fault of the answer that could not be read, and its place in its frame; 0 and 0 where none is named. */
static inline uint8_t zc_dock_fault(const uint8_t dock[ZC_DOCK]) { return dock[23]; }
static inline uint16_t zc_dock_place(const uint8_t dock[ZC_DOCK]) { return (uint16_t)(dock[24] | dock[25] << 8); }

#ifdef __cplusplus
}
#endif

#endif
