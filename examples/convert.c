/* Wider capture records, from C (document 02, section 5): an old capture is written in the new form, a record of seat 1 is put into it, and it is replayed, which
 * skips that record. Back in the old form there is no place for it, so that is refused; without it the old bytes come back. */
#include <stdio.h>
#include <stdlib.h>
#include <string.h>

#include "../include/door.h"

/* Document 01's whole case. */
static const uint8_t old_form[4 * ZC_RECORD] = {
    0x01, 0x01, 0x3A, 0x00, 0x00, 0x00, 0x00, 0x00, /* the mode byte */
    0x01, 0x06, 0x01, 0x03, 0x9A, 0x00, 0x21, 0x42, /* Baud Rate Set .. */
    0x01, 0x01, 0x03, 0x00, 0x00, 0x00, 0x00, 0x00, /* .. and its footer */
    0x01, 0x05, 0x01, 0x01, 0xA1, 0x5E, 0x03, 0x00, /* Security Get */
};

/* Eight bytes in one record: a Silicon Signature and the beginning of a Reset. */
static const uint8_t heard_by_seat_1[8] = {0x01, 0x01, 0xC0, 0x3F, 0x03, 0x01, 0x01, 0x00};
#define PLACE 2

static const uint8_t names[ZC_NAMES] = {0x10, 0x00, 0x06, 'R', '5', 'F', '1', '0', '0', 'L', 'E', ' ', ' ', 1, 2, 3};

static uint8_t part[ZC_PART], state[ZC_STATE], code[1024 * 16], data[1024 * 4], room[ZC_ROOM], output[5 * ZC_OUTPUT_NEW];
static uint16_t sums[ZC_SUMS];

static void print_bytes(const uint8_t *bytes, size_t length) {
    for (size_t at = 0; at < length; at++) printf(at + 1 < length ? "%02X " : "%02X\n", bytes[at]);
}

static void print_records(const char *what, const uint8_t *records, size_t size, size_t count) {
    printf("%s:\n", what);
    for (size_t at = 0; at < count; at++) print_bytes(records + size * at, size);
}

static void must(const char *call, uint32_t refusal) {
    if (refusal == 0) return;
    printf("%s: refused %u\n", call, (unsigned)refusal);
    exit(1);
}

/* A capture of the new form, played into a fresh chip of the replay's part. */
static void replay(const uint8_t *capture, size_t length) {
    uint64_t told[3];
    memset(code, 0xFF, sizeof code);
    memset(data, 0xFF, sizeof data);
    zc_part(part, 16, 4, 32, names);
    must("zc_fresh", zc_fresh(part, state));
    must("zc_sums", zc_sums(part, code, sizeof code, data, sizeof data, sums));
    must("zc_replay_new", zc_replay_new(part, state, capture, length, code, sizeof code, data, sizeof data, sums, room, sizeof room, output, sizeof output, told));
    /* Reply frames lie end to end; a frame has LEN + 4 bytes, and LEN 00h is 256. */
    for (size_t at = 0; at < told[1];) {
        size_t bytes = (output[at + 1] == 0 ? 256 : output[at + 1]) + 4;
        print_bytes(output + at, bytes);
        at += bytes;
    }
    printf("%u records played, %u reply frames\n", (unsigned)told[0], (unsigned)told[2]);
}

/* A capture of the new form back to the old, and whether that is the one at the start. */
static void to_old(const uint8_t *capture, size_t length) {
    uint8_t back[sizeof old_form];
    uint64_t told[2];
    uint32_t refusal = zc_to_old(capture, length, back, sizeof back, told);
    if (refusal == ZC_BAD_RECORD || refusal == ZC_NOT_HELD) {
        printf("to old: refused %u, record %u\n", (unsigned)refusal, (unsigned)told[1]);
        return;
    }
    must("zc_to_old", refusal);
    int same = told[0] == sizeof old_form && memcmp(back, old_form, sizeof old_form) == 0;
    printf("to old: %u bytes, %s\n", (unsigned)told[0], same ? "the same as at the start" : "not the same");
}

int main(void) {
    uint8_t new_form[4 * ZC_RECORD_NEW], two_seats[5 * ZC_RECORD_NEW];
    uint64_t told[2];
    print_records("old", old_form, ZC_RECORD, 4);
    must("zc_to_new", zc_to_new(old_form, sizeof old_form, new_form, sizeof new_form, told));
    print_records("new", new_form, ZC_RECORD_NEW, told[0] / ZC_RECORD_NEW);

    /* Amid seat 0's Baud Rate Set. */
    uint8_t *record = two_seats + PLACE * ZC_RECORD_NEW;
    memcpy(two_seats, new_form, PLACE * ZC_RECORD_NEW);
    memset(record, 0, ZC_RECORD_NEW);
    record[0] = 1;
    record[1] = sizeof heard_by_seat_1;
    zc_record_put_seat(record, 1);
    zc_record_put_tick(record, 4660);
    memcpy(record + 8, heard_by_seat_1, sizeof heard_by_seat_1);
    memcpy(record + ZC_RECORD_NEW, new_form + PLACE * ZC_RECORD_NEW, sizeof new_form - PLACE * ZC_RECORD_NEW);
    print_records("and seat 1 at tick 4660", two_seats, ZC_RECORD_NEW, 5);

    replay(two_seats, sizeof two_seats);
    to_old(two_seats, sizeof two_seats);
    to_old(new_form, sizeof new_form);
    return 0;
}
