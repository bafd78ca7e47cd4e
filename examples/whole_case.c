/* Document 01's whole case from C: a fresh chip of the replay's part hears four records' bytes and prints its reply frames. */
#include <stdio.h>
#include <string.h>

#include "../include/door.h"

#define CODE_BLOCKS 16
#define DATA_BLOCKS 4
#define CLOCK 32

static const uint8_t names[ZC_NAMES] = {0x10, 0x00, 0x06, 'R', '5', 'F', '1', '0', '0', 'L', 'E', ' ', ' ', 1, 2, 3};
static const uint8_t heard[] = {0x3A, 0x01, 0x03, 0x9A, 0x00, 0x21, 0x42, 0x03, 0x01, 0x01, 0xA1, 0x5E, 0x03};

static uint8_t part[ZC_PART], state[ZC_STATE], code[1024 * CODE_BLOCKS], data[1024 * DATA_BLOCKS], room[ZC_ROOM];
static uint16_t sums[ZC_SUMS];

/* Reply frames lie end to end; a frame has LEN + 4 bytes, and LEN 00h is 256. */
static size_t print_frames(const uint8_t *reply, size_t bytes) {
    size_t frames = 0;
    for (size_t at = 0; at < bytes; frames++) {
        size_t end = at + (reply[at + 1] == 0 ? 256 : reply[at + 1]) + 4;
        for (; at < end; at++) printf(at + 1 < end ? "%02X " : "%02X\n", reply[at]);
    }
    return frames;
}

int main(void) {
    size_t total = 0, at = 0;
    memset(code, 0xFF, sizeof code);
    memset(data, 0xFF, sizeof data);
    zc_part(part, CODE_BLOCKS, DATA_BLOCKS, CLOCK, names);
    uint32_t refused = zc_fresh(part, state);
    if (refused == 0) refused = zc_sums(part, code, sizeof code, data, sizeof data, sums);
    while (refused == 0 && at < sizeof heard) {
        uint64_t told[5];
        refused = zc_feed(part, state, heard + at, sizeof heard - at, code, sizeof code, data, sizeof data, sums, room, sizeof room, told);
        if (refused != 0) break;
        at += told[0];
        if (print_frames(room, told[1]) != told[2]) return 2;
        total += told[2];
    }
    if (refused != 0) {
        printf("REFUSED %u\n", (unsigned)refused);
        return 1;
    }
    printf("END %zu\n", total);
    return 0;
}
