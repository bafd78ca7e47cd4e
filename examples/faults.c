/* Which byte was wrong, from C (document 02, section 4): damaged frames reach the proved chip, and damaged answers the proved dock, and each line ends with what is
 * told of them. On the wire, 15h alone does not say whether a footer or a LEN is wrong, nor which of a page's 260 bytes. */

/* Code block 6. */
#define START 0x1800
#define END 0x1BFF

#include "bench.h"

#define BYTES(...) (const uint8_t[]){__VA_ARGS__}, sizeof((const uint8_t[]){__VA_ARGS__})

/* A frame to the chip, after a pause: what it says, and what is told of the frame. */
static void to_chip(const uint8_t *sent, size_t length) {
    uint64_t paused[4], told[5];
    must("zc_gap", zc_gap(CHIP, FLASH, paused));
    must("zc_feed", zc_feed(CHIP, sent, length, FLASH, told));
    print_bytes(sent, length, 12);
    printf(" -> ");
    print_bytes(room, told[1], sizeof room);
    print_fault(told[3], told[4]);
    printf("\n");
}

/* 40h for the block, and its first page: the first of the bytes 00h, 01h, 02h and so on, with this LEN, SUM and footer. */
static void page_to_chip(uint8_t len, uint8_t sum, uint8_t footer) {
    uint8_t page[260] = {0x02, len};
    size_t count = len == 0 ? 256 : len;
    for (size_t at = 0; at < count; at++) page[2 + at] = (uint8_t)at;
    page[2 + count] = sum;
    page[3 + count] = footer;
    to_chip(BYTES(0x01, 0x07, 0x40, 0x00, 0x18, 0x00, 0xFF, 0x1B, 0x00, 0x87, 0x03));
    to_chip(page, count + 4);
}

static const uint8_t right[2][7] = {{0x02, 0x03, 0x06, 0x20, 0x00, 0xD7, 0x03}, {0x02, 0x01, 0x06, 0xF9, 0x03}};
static const size_t right_length[2] = {7, 5};

/* An answer to a new dock, which has heard so many right ones before it: what a job that fails for it names. */
static void to_dock(size_t before, const uint8_t *heard, size_t length) {
    uint64_t asked[1], told[3];
    must("zc_start", zc_start(DOCK));
    for (size_t at = 0; at < before; at++) {
        must("zc_ask", zc_ask(DOCK, frame, sizeof frame, asked));
        must("zc_answer", zc_answer(DOCK, right[at], right_length[at], told));
    }
    must("zc_ask", zc_ask(DOCK, frame, sizeof frame, asked));
    must("zc_answer", zc_answer(DOCK, heard, length, told));
    print_bytes(frame, asked[0], 12);
    printf(" <- ");
    print_bytes(heard, length, ZC_ANSWER);
    printf(zc_dock_cause(dock) == ZC_BY_UNREADABLE ? ", unreadable" : "");
    print_fault(zc_dock_fault(dock), zc_dock_place(dock));
    printf("\n");
}

int main(void) {
    memset(code, 0xFF, sizeof code);
    memset(data, 0xFF, sizeof data);
    take_up();

    to_chip(BYTES(0x01, 0x03, 0x9A, 0x00, 0x21, 0x42, 0x03));
    to_chip(BYTES(0x01, 0x01, 0xA1, 0x5D, 0x03));
    to_chip(BYTES(0x01, 0x01, 0xA1, 0x5E, 0x17));
    to_chip(BYTES(0x01, 0x02, 0xA1, 0x00, 0x5D, 0x03));
    /* An unknown command, whatever its LEN: nothing is wrong with the frame. */
    to_chip(BYTES(0x01, 0x02, 0x55, 0x00, 0xA9, 0x03));
    to_chip(BYTES(0x01, 0x01, 0xA0, 0x5F, 0x03));
    to_chip(BYTES(0x02, 0x04, 0xFF, 0x80, 0x40, 0x22, 0x1A, 0x03));
    /* 03h on a page that is not the last, a wrong SUM, a page of 255 bytes, and the page as it should be. */
    page_to_chip(0x00, 0x80, 0x03);
    page_to_chip(0x00, 0x81, 0x17);
    page_to_chip(0xFF, 0x80, 0x17);
    page_to_chip(0x00, 0x80, 0x17);

    to_dock(0, BYTES(0x02, 0x03, 0x06, 0x20, 0x00, 0xD7, 0x17));
    to_dock(0, BYTES(0x02, 0x03, 0x06, 0x21, 0x00, 0xD7, 0x03));
    to_dock(0, BYTES(0x02, 0x01, 0x06, 0xF9, 0x03));
    to_dock(0, BYTES(0x02, 0x03, 0x06, 0x20, 0x00));
    to_dock(0, BYTES(0x03, 0x06, 0x20, 0x00, 0xD7, 0x03));
    /* 05h is read, and ends the job by its status. */
    to_dock(0, BYTES(0x02, 0x01, 0x05, 0xFA, 0x03));
    /* C0h is answered with two frames; the second is missing, or its SUM is wrong, whose place counts from that frame's own header. */
    to_dock(2, BYTES(0x02, 0x01, 0x06, 0xF9, 0x03));
    to_dock(2, BYTES(0x02, 0x01, 0x06, 0xF9, 0x03, 0x02, 0x16, 0x10, 0x00, 0x06, 0x52, 0x35, 0x46, 0x31, 0x30, 0x30, 0x4C, 0x45, 0x20, 0x20, 0xFF, 0x3F, 0x00, 0xFF,
                     0x1F, 0x0F, 0x01, 0x02, 0x03, 0x35, 0x03));
    return 0;
}
