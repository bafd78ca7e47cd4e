/* A rehearsal from C: the proved dock rewrites two blocks of the proved chip, over flash that is not blank (document 01, "The dock's flow"). Each frame is a
 * line: its first bytes, and the chip's answer. */

/* Code blocks 6 and 7. */
#define START 0x1800
#define END 0x1FFF

#include "bench.h"

int main(void) {
    uint64_t length[1], reply[4], told[3] = {ZC_GOES_ON};

    memset(code, 0x5A, sizeof code);
    memset(data, 0xFF, sizeof data);
    for (size_t at = 0; at < sizeof image; at++) image[at] = (uint8_t)(7 * at + at / 256);
    take_up();

    while (told[0] == ZC_GOES_ON) {
        must("zc_ask", zc_ask(DOCK, frame, sizeof frame, length));
        must("zc_gap", zc_gap(CHIP, FLASH, reply));
        size_t said = hear(frame, length[0]);
        print_bytes(frame, length[0], 12);
        printf(" -> ");
        print_bytes(answer, said, sizeof answer);
        printf("\n");
        if (said > 0)
            must("zc_answer", zc_answer(DOCK, answer, said, told));
        else
            must("zc_timeout", zc_timeout(DOCK, told));
    }

    /* By hand: three frames of setup, then for each block that is not blank 32h, 22h, 40h, four pages, 13h and four pages: 3 + 2 * 12 = 27. */
    return print_end(told);
}
