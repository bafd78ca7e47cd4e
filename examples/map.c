/* A map of blocks from C, as a bench screen draws it after every frame (document 02, section 1): the proved dock rewrites four blocks of the proved chip, and each
 * block is one character that its kept sum alone decides. On a terminal the map is drawn again where it stands; elsewhere each one is a line more.
 * A sum is not the bytes: other bytes may have the sum of the image's block. 13h, which the dock sends after each 40h, compares the bytes themselves. */
#define _POSIX_C_SOURCE 200809L
#include <time.h>
#include <unistd.h>

/* Code blocks 6 to 9. */
#define START 0x1800
#define END 0x27FF

#include "bench.h"

#define BLOCK 1024
#define FIRST (START / BLOCK)
#define BLOCKS (sizeof image / BLOCK)
#define BLANK 0x0400 /* what B0h says of a block of FFh (document 01, "Examples") */

static uint16_t at_start[ZC_SUMS], of_image[BLOCKS];
static int terminal, drawn;

/* 0000h less each byte, in 16 bits, as B0h does it. */
static uint16_t sum_of(const uint8_t *bytes) {
    uint16_t sum = 0;
    for (size_t at = 0; at < BLOCK; at++) sum = (uint16_t)(sum - bytes[at]);
    return sum;
}

static char mark(size_t slot) {
    if (slot >= FIRST && slot < FIRST + BLOCKS && sums[slot] == of_image[slot - FIRST]) return '#';
    if (sums[slot] == BLANK) return '.';
    return sums[slot] == at_start[slot] ? 'o' : 'w';
}

/* The map, and the frame after which it is drawn: the dock's state names it until its answer is handed in. */
static void draw(void) {
    static const char *const command[] = {"", "9Ah", "00h", "C0h", "32h", "22h", "40h", "40h", "13h", "13h"};
    static const struct timespec a_while = {0, 100000000};
    unsigned frames = zc_dock_frames(dock);
    if (terminal && drawn) {
        nanosleep(&a_while, NULL);
        printf("\033[A"); /* one line up */
    }
    drawn = 1;
    printf("code ");
    for (size_t block = 0; block < sizeof code / BLOCK; block++) putchar(mark(block));
    printf("  data ");
    for (size_t block = 0; block < sizeof data / BLOCK; block++) putchar(mark(ZC_DATA_SUMS + block));
    if (frames == 0)
        printf("  taken up");
    else
        printf("  frame %2u, %s", frames, command[zc_dock_stage(dock)]);
    if (zc_dock_block(dock) >= 0) printf(", block %d", (int)(FIRST + zc_dock_block(dock)));
    if (zc_dock_page(dock) >= 0) printf(", page %d", (int)zc_dock_page(dock));
    printf(terminal ? "\033[K\n" : "\n"); /* nothing stays of a longer line */
}

int main(void) {
    uint64_t length[1], reply[4], told[3] = {ZC_GOES_ON};
    uint16_t afresh[ZC_SUMS] = {0};
    terminal = isatty(STDOUT_FILENO);

    /* An older program in the lower half of code flash, and two save slots that are taken. */
    memset(code, 0xFF, sizeof code);
    memset(code, 0x5A, sizeof code / 2);
    memset(data, 0xFF, sizeof data);
    memset(data, 0x5A, sizeof data / 2);
    for (size_t at = 0; at < sizeof image; at++) image[at] = (uint8_t)(at * at / 5 + at / 256);
    take_up();
    memcpy(at_start, sums, sizeof sums);
    for (size_t block = 0; block < BLOCKS; block++) of_image[block] = sum_of(image + block * BLOCK);

    printf("by its sum alone a block is: . blank, o as at the start, w being written, # as the image has it\n");
    draw();
    while (told[0] == ZC_GOES_ON) {
        must("zc_ask", zc_ask(DOCK, frame, sizeof frame, length));
        must("zc_gap", zc_gap(CHIP, FLASH, reply));
        size_t said = hear(frame, length[0]);
        draw();
        if (said > 0)
            must("zc_answer", zc_answer(DOCK, answer, said, told));
        else
            must("zc_timeout", zc_timeout(DOCK, told));
    }

    int status = print_end(told);
    must("zc_sums", zc_sums(part, code, sizeof code, data, sizeof data, afresh));
    int right = memcmp(sums, afresh, sizeof sums) == 0;
    printf("the kept sums are %s worked out afresh\n", right ? "those" : "not those");
    return right ? status : 1;
}
