/* What the C examples that rehearse a job, or damage what is sent in one, have in common: a chip of the replay's part (document 01, "Replay") with its flash,
 * sums and reply room, and a dock with its job. A program says START and END, the range of the job, before it takes this file. */
#include <stdio.h>
#include <stdlib.h>
#include <string.h>

#include "../include/door.h"

static const uint8_t names[ZC_NAMES] = {0x10, 0x00, 0x06, 'R', '5', 'F', '1', '0', '0', 'L', 'E', ' ', ' ', 1, 2, 3};

static uint8_t part[ZC_PART], state[ZC_STATE], code[1024 * 16], data[1024 * 4], room[ZC_ROOM];
static uint16_t sums[ZC_SUMS];
static uint8_t job[ZC_JOB], dock[ZC_DOCK], image[END + 1 - START], frame[ZC_FRAME_ROOM];
/* Even a damaged line makes no more than 52 frames of 5 bytes out of one of 260, and no answer to one is longer than 31 bytes. */
static uint8_t answer[52 * ZC_ANSWER];

/* What every call of the chip and of the dock begins with, and what the chip's events end with. */
#define CHIP part, state
#define FLASH code, sizeof code, data, sizeof data, sums, room, sizeof room
#define DOCK part, job, image, sizeof image, dock

static void must(const char *call, uint32_t refusal) {
    if (refusal == 0) return;
    printf("%s: refused, %u\n", call, (unsigned)refusal);
    exit(1);
}

/* The bytes reach the chip. What it says is gathered in `answer`; its length is handed back. */
static size_t hear(const uint8_t *heard, size_t length) {
    size_t said = 0;
    while (length > 0) {
        uint64_t told[5];
        must("zc_feed", zc_feed(CHIP, heard, length, FLASH, told));
        uint64_t taken = told[0], bytes = told[1];
        memcpy(answer + said, room, bytes);
        said += bytes;
        heard += taken;
        length -= taken;
    }
    return said;
}

/* A fresh chip is taken up with the flash as it is, and hears its mode byte; the dock stands before its first frame. The job is at 115,200 baud and 3.3 V, with
 * up to three retries. The flash need not be blank, so the sums are worked out from it. */
static void take_up(void) {
    static const uint8_t mode_byte = 0x3A;
    zc_part(part, 16, 4, 32, names);
    zc_job(job, START, END, 0, 33, 3);
    must("zc_fresh", zc_fresh(CHIP));
    must("zc_sums", zc_sums(part, code, sizeof code, data, sizeof data, sums));
    must("zc_start", zc_start(DOCK));
    hear(&mode_byte, 1);
}

static inline void print_bytes(const uint8_t *bytes, size_t length, size_t most) {
    for (size_t at = 0; at < length && at < most; at++) printf(at == 0 ? "%02X" : " %02X", bytes[at]);
    if (length > most) printf(" ..");
}

/* What is wrong with a frame, and which of its bytes, the header being byte 0; nothing where nothing is. */
static inline void print_fault(uint64_t fault, uint64_t place) {
    static const char *const what[] = {"", "wrong footer", "wrong SUM", "unfit LEN", "first byte missing or not 02h"};
    if (fault != ZC_FAULT_NONE) printf(", %s (byte %u)", what[fault], (unsigned)place);
}

/* How the job ended, of an unreadable answer with what was wrong in it, and whether flash holds the image; the status of the program. */
static inline int print_end(const uint64_t told[3]) {
    static const char *const why[] = {"", " by status", " by mismatch", ", unreadable", " by timeout"};
    printf("%s%s", told[0] == ZC_FINISHED ? "finished" : "failed", why[zc_dock_cause(dock)]);
    print_fault(zc_dock_fault(dock), zc_dock_place(dock));
    printf(", %u frames, %u retries\n", (unsigned)told[1], (unsigned)told[2]);
    int holds = memcmp(code + START, image, sizeof image) == 0;
    printf("%05Xh to %05Xh %s the image\n", START, END, holds ? "holds" : "does not hold");
    return told[0] == ZC_FINISHED && holds ? 0 : 1;
}
