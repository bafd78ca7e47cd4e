/* A capture by the plain engine, from C (document 02, section 7): all bytes between two gaps are one stretch, handed in at once. Each line says what is told of a
 * stretch, and the reply frames to it follow. What is printed of the frames is what a replay prints of the same records. */
#include <stdio.h>
#include <string.h>

#include "../include/door.h"

#define CODE_BLOCKS 16
#define DATA_BLOCKS 4
#define CLOCK 32
/* Three stretches: the mode byte and 9Ah; a frame whose SUM is wrong, with a good Reset inside that is not heard, then A1h, and a frame begun, which the gap drops; and
 * a Reset, with a frame begun behind it. */
static const uint8_t capture[][ZC_RECORD] = {
    {1, 1, 0x3A}, {1, 6, 0x01, 0x03, 0x9A, 0x00, 0x21, 0x42}, {1, 1, 0x03}, {0},
    {1, 6, 0x01, 0x05, 0x01, 0x01, 0x00, 0xFF}, {1, 6, 0x03, 0xF6, 0x03, 0x01, 0x01, 0xA1}, {1, 5, 0x5E, 0x03, 0x01, 0x07, 0xB0}, {0},
    {1, 6, 0x01, 0x01, 0x00, 0xFF, 0x03, 0x01}, {1, 2, 0x01, 0xC0}, {0},
};
#define RECORDS (sizeof capture / sizeof capture[0])

static const uint8_t names[ZC_NAMES] = {0x10, 0x00, 0x06, 'R', '5', 'F', '1', '0', '0', 'L', 'E', ' ', ' ', 1, 2, 3};

static uint8_t part[ZC_PART], state[ZC_STATE], code[1024 * CODE_BLOCKS], data[1024 * DATA_BLOCKS];
static uint16_t sums[ZC_SUMS];
/* The room must have 32 bytes for each byte fed, whatever is said to them. */
static uint8_t stretch[6 * RECORDS], room[ZC_ROOM * sizeof stretch];

/* Reply frames lie end to end; a frame has LEN + 4 bytes, and none here is longer than 26. */
static void print_frames(const uint8_t *replies, uint64_t bytes) {
    for (uint64_t at = 0; at < bytes;) {
        uint64_t end = at + replies[at + 1] + 4;
        for (; at < end; at++) printf(at + 1 < end ? "%02X " : "%02X\n", replies[at]);
    }
}

int main(void) {
    static const char *const what[] = {"", "wrong footer", "wrong SUM", "unfit LEN"};
    uint64_t length = 0, frames = 0, told[5], paused[4];
    memset(code, 0xFF, sizeof code);
    memset(data, 0xFF, sizeof data);
    zc_part(part, CODE_BLOCKS, DATA_BLOCKS, CLOCK, names);
    uint32_t refused = zc_fresh(part, state);
    if (refused == 0) refused = zc_sums(part, code, sizeof code, data, sizeof data, sums);
    for (size_t at = 0; refused == 0 && at < RECORDS; at++) {
        if (capture[at][0] == 1) {
            memcpy(stretch + length, capture[at] + 2, capture[at][1]);
            length += capture[at][1];
            continue;
        }
        refused = zc_engine(part, state, stretch, length, code, sizeof code, data, sizeof data, sums, room, sizeof room, told);
        if (refused != 0) break;
        printf("%u bytes fed, reply frames: %u, bad frames: %u", (unsigned)length, (unsigned)told[1], (unsigned)told[2]);
        if (told[2] > 0) printf(" (%s, byte %u)", what[told[3]], (unsigned)told[4]);
        printf(", bytes held: %u\n", (unsigned)zc_chip_collected(state));
        print_frames(room, told[0]);
        frames += told[1];
        length = 0;
        refused = zc_gap(part, state, code, sizeof code, data, sizeof data, sums, room, sizeof room, paused);
    }
    if (refused != 0) {
        printf("REFUSED %u\n", (unsigned)refused);
        return 1;
    }
    printf("END %u\n", (unsigned)frames);
    return 0;
}
