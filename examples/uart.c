/* The rehearsal of rehearsal.c with the chip's answers read off a line one byte at a time, as firmware reads a UART: zc_wants says when an answer is whole, so no
 * clock is needed for its end. It prints the same lines. */

/* Code blocks 6 and 7. */
#define START 0x1800
#define END 0x1FFF

#include "bench.h"

/* What the chip has said lies in `answer`, and the dock has read this much of it. */
static size_t waiting, at;

/* The next byte of the line, or -1 where none comes; there a clock would be needed. */
static int next_byte(void) { return at < waiting ? answer[at++] : -1; }

int main(void) {
    uint64_t length[1], reply[4], told[3] = {ZC_GOES_ON};

    memset(code, 0x5A, sizeof code);
    memset(data, 0xFF, sizeof data);
    for (size_t i = 0; i < sizeof image; i++) image[i] = (uint8_t)(7 * i + i / 256);
    take_up();

    while (told[0] == ZC_GOES_ON) {
        must("zc_ask", zc_ask(DOCK, frame, sizeof frame, length));
        must("zc_gap", zc_gap(CHIP, FLASH, reply));
        waiting = hear(frame, length[0]);
        at = 0;
        /* zc_wants asks for no more than this in all. */
        uint8_t read[ZC_ANSWER];
        uint64_t count = 0;
        while (zc_wants(DOCK, read, count) > 0) {
            int byte = next_byte();
            if (byte < 0) break;
            read[count++] = (uint8_t)byte;
        }
        print_bytes(frame, length[0], 12);
        printf(" -> ");
        print_bytes(read, count, sizeof read);
        printf(at < waiting ? ", and more\n" : "\n");
        if (count > 0)
            must("zc_answer", zc_answer(DOCK, read, count, told));
        else
            must("zc_timeout", zc_timeout(DOCK, told));
    }

    /* By hand: three frames of setup, then for each block that is not blank 32h, 22h, 40h, four pages, 13h and four pages: 3 + 2 * 12 = 27. */
    return print_end(told);
}
