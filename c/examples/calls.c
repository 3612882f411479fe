/* Makes each call of octets.h, and compares the results with the examples of RFC 9000 (A.1) and RFC
 * 7541 (C.4), and with results that were calculated by hand. The program prints the line of each
 * check that fails, and then how many checks passed and failed. */
#include <stdio.h>
#include <string.h>

#include "octets.h"

static int passed, failed;

static void check(bool holds, int line) {
    if (holds) {
        passed++;
    } else {
        failed++;
        printf("calls.c:%d: wrong result\n", line);
    }
}

#define CHECK(holds) check(holds, __LINE__)

static void numbers(void) {
    const uint8_t bytes[] = {1, 2, 3, 4, 5, 6, 7, 8};
    size_t off = 0;
    uint8_t one = 0;
    uint16_t two = 0;
    uint32_t three = 0, four = 0;
    uint64_t eight = 9;
    CHECK(octets_get_u8(bytes, 8, &off, &one) == OCTETS_DONE && one == 1 && off == 1);
    CHECK(octets_get_u16(bytes, 8, &off, &two) == OCTETS_DONE && two == 0x0203 && off == 3);
    CHECK(octets_get_u24(bytes, 8, &off, &three) == OCTETS_DONE && three == 0x040506 && off == 6);
    CHECK(octets_get_u32(bytes, 8, &off, &four) == OCTETS_SHORT && four == 0 && off == 6);
    off = 4;
    CHECK(octets_get_u32(bytes, 8, &off, &four) == OCTETS_DONE && four == 0x05060708 && off == 8);
    off = 1;
    CHECK(octets_get_u64(bytes, 8, &off, &eight) == OCTETS_SHORT && eight == 9 && off == 1);
    off = 0;
    CHECK(octets_get_u64(bytes, 8, &off, &eight) == OCTETS_DONE && eight == 0x0102030405060708);
    off = SIZE_MAX;
    CHECK(octets_get_u8(bytes, 8, &off, &one) == OCTETS_SHORT && one == 1 && off == SIZE_MAX);
}

static void varints(void) {
    const uint8_t rows[] = {0xc2, 0x19, 0x7c, 0x5e, 0xff, 0x14, 0xe8, 0x8c, 0x9d,
                            0x7f, 0x3e, 0x7d, 0x7b, 0xbd, 0x25, 0x40, 0x25};
    const uint64_t values[] = {151288809941952652, 494878333, 15293, 37, 37};
    const size_t ends[] = {8, 12, 14, 15, 17};
    size_t off = 0;
    uint64_t value = 0;
    for (int i = 0; i < 5; i++) {
        CHECK(octets_get_varint(rows, sizeof rows, &off, &value) == OCTETS_DONE);
        CHECK(value == values[i] && off == ends[i]);
    }
    CHECK(octets_get_varint(rows, sizeof rows, &off, &value) == OCTETS_SHORT && off == 17);
    off = 14;
    CHECK(octets_get_varint_shortest(rows, 17, &off, &value) == OCTETS_DONE && off == 15);
    value = 1;
    CHECK(octets_get_varint_shortest(rows, 17, &off, &value) == OCTETS_OVERLONG && off == 15);
    CHECK(octets_get_varint_shortest(rows, 16, &off, &value) == OCTETS_SHORT && value == 1);
}

/* Each width holds numbers of 8 * width - 2 bits. A put takes the least width that holds a number, or
 * a given width, and fails if no varint holds the number, or none of that width. */
static void widths(void) {
    const struct {
        uint64_t most;
        size_t width;
    } rows[] = {{63, 1}, {16383, 2}, {1073741823, 4}, {4611686018427387903, 8}};
    uint8_t out[9] = {0};
    for (size_t i = 0; i < 4; i++) {
        const uint64_t most = rows[i].most, more = most + 1;
        const size_t width = rows[i].width, next = i < 3 ? 2 * width : 0;
        size_t off = 0, from = 0;
        uint64_t value = 0;
        CHECK(octets_varint_len(most) == width && octets_varint_len(more) == next);
        CHECK(octets_put_varint(out, width, &off, most) == OCTETS_DONE && off == width);
        CHECK(octets_get_varint_shortest(out, width, &from, &value) == OCTETS_DONE);
        CHECK(from == width && value == most);
        off = 0;
        CHECK(octets_put_varint(out, width - 1, &off, most) == OCTETS_SHORT && off == 0);
        CHECK(octets_put_varint(out, width, &off, more) == (next ? OCTETS_SHORT : OCTETS_UNFIT));
        CHECK(octets_put_varint_with_len(out, 9, &off, more, width) == OCTETS_UNFIT && off == 0);
        CHECK(octets_put_varint_with_len(out, width - 1, &off, most, width) == OCTETS_SHORT);
        CHECK(octets_put_varint_with_len(out, 9, &off, most, width) == OCTETS_DONE);
        CHECK(off == width);
    }
    CHECK(octets_varint_len(0) == 1 && octets_varint_len(UINT64_MAX) == 0);
    for (int first = 0; first < 256; first++) {
        const uint8_t bytes[8] = {(uint8_t)first};
        size_t off = 0;
        uint64_t value = 0;
        CHECK(octets_get_varint(bytes, sizeof bytes, &off, &value) == OCTETS_DONE);
        CHECK(octets_varint_parse_len((uint8_t)first) == off);
    }
    CHECK(octets_varint_parse_len(0x3f) == 1 && octets_varint_parse_len(0x40) == 2);
    CHECK(octets_varint_parse_len(0x9d) == 4 && octets_varint_parse_len(0xc2) == 8);
    for (size_t width = 0; width < 10; width++) {
        size_t off = 0;
        bool is_width = width == 1 || width == 2 || width == 4 || width == 8;
        CHECK(octets_put_varint_with_len(out, 9, &off, 0, width) ==
              (is_width ? OCTETS_DONE : OCTETS_UNFIT));
    }
}

/* A call succeeds if exactly as many bytes remain as it reads or writes, and not with one fewer. If
 * eight bytes remain, a varint is complete. */
static void edges(void) {
    const uint8_t ones[] = {255, 255, 255, 255, 255, 255, 255, 255};
    uint8_t out[8] = {0}, one = 0;
    uint16_t two = 0;
    uint32_t four = 0;
    uint64_t eight = 0;
    for (size_t len = 0; len < 9; len++) {
        size_t offs[11] = {0};
        const octets_status statuses[] = {
            octets_get_u8(ones, len, &offs[0], &one),    octets_get_u16(ones, len, &offs[1], &two),
            octets_get_u24(ones, len, &offs[2], &four),  octets_get_u32(ones, len, &offs[3], &four),
            octets_get_u64(ones, len, &offs[4], &eight), octets_get_varint(ones, len, &offs[5], &eight),
            octets_put_u8(out, len, &offs[6], 1),        octets_put_u16(out, len, &offs[7], 1),
            octets_put_u24(out, len, &offs[8], 1),       octets_put_u32(out, len, &offs[9], 1),
            octets_put_u64(out, len, &offs[10], 1)};
        const size_t widths[] = {1, 2, 3, 4, 8, 8, 1, 2, 3, 4, 8};
        for (size_t i = 0; i < 11; i++) {
            CHECK(statuses[i] == (len < widths[i] ? OCTETS_SHORT : OCTETS_DONE));
            CHECK(offs[i] == (len < widths[i] ? 0 : widths[i]));
        }
    }
    CHECK(eight == UINT64_C(4611686018427387903));
}

static void runs(void) {
    const uint8_t bytes[] = {2, 'a', 'b', 0, 1, 'c', 0x40, 2, 'd', 'e', 3};
    size_t off = 0;
    octets_run run = {9, 9};
    CHECK(octets_get_bytes_with_u8_length(bytes, 11, &off, &run) == OCTETS_DONE);
    CHECK(run.from == 1 && run.len == 2 && off == 3);
    CHECK(octets_get_bytes_with_u16_length(bytes, 11, &off, &run) == OCTETS_DONE);
    CHECK(run.from == 5 && run.len == 1 && off == 6);
    CHECK(octets_get_bytes_with_varint_length(bytes, 11, &off, &run) == OCTETS_DONE);
    CHECK(run.from == 8 && run.len == 2 && off == 10);
    CHECK(octets_get_bytes_with_u16_length(bytes, 11, &off, &run) == OCTETS_SHORT && off == 10);
    CHECK(octets_get_bytes_with_u8_length(bytes, 11, &off, &run) == OCTETS_SHORT);
    CHECK(run.from == 8 && off == 11);
    off = 3;
    CHECK(octets_get_bytes(bytes, 11, &off, 9, &run) == OCTETS_SHORT && off == 3);
    CHECK(octets_get_bytes(bytes, 11, &off, 8, &run) == OCTETS_DONE && off == 11);
    CHECK(run.from == 3 && run.len == 8);
    CHECK(OCTETS_RUN_START(bytes, run) == bytes + 3);
    off = 0;
    CHECK(octets_get_bytes_u64(bytes, 11, &off, 12, &run) == OCTETS_SHORT && off == 0);
    CHECK(octets_get_bytes_u64(bytes, 11, &off, UINT64_C(0x100000005), &run) == OCTETS_SHORT);
    CHECK(octets_get_bytes_u64(bytes, 11, &off, UINT64_MAX, &run) == OCTETS_SHORT && off == 0);
    CHECK(run.from == 3 && run.len == 8);
    off = 2;
    CHECK(octets_get_bytes_u64(bytes, 11, &off, 9, &run) == OCTETS_DONE && off == 11);
    CHECK(run.from == 2 && run.len == 9);
    off = 9;
    CHECK(octets_skip(bytes, 11, &off, 2) == OCTETS_DONE && off == 11);
    CHECK(octets_skip(bytes, 11, &off, 1) == OCTETS_SHORT && off == 11);
}

/* If the offset is past the end, a call fails whatever its other arguments are, and changes nothing
 * but the len of a decode or a literal. */
static void outside(void) {
    uint8_t bytes[] = {0x81, 0xff}, out[2] = {7, 7};
    const uint8_t none[] = "";
    size_t off = 3, len = 9;
    octets_run run = {9, 9};
    CHECK(octets_skip(bytes, 2, &off, 0) == OCTETS_SHORT);
    CHECK(octets_get_bytes(bytes, 2, &off, 0, &run) == OCTETS_SHORT);
    CHECK(octets_get_bytes_with_varint_length(bytes, 2, &off, &run) == OCTETS_SHORT);
    CHECK(octets_get_bytes_u64(bytes, 2, &off, 0, &run) == OCTETS_SHORT);
    CHECK(octets_put_bytes(bytes, 2, &off, none, 0) == OCTETS_SHORT);
    CHECK(octets_put_bytes_with_varint_length(bytes, 2, &off, none, 0) == OCTETS_SHORT);
    CHECK(octets_put_varint(bytes, 2, &off, 0) == OCTETS_SHORT);
    CHECK(octets_put_varint(bytes, 2, &off, UINT64_MAX) == OCTETS_UNFIT);
    CHECK(octets_put_varint_with_len(bytes, 2, &off, 0, 3) == OCTETS_UNFIT);
    CHECK(octets_put_huffman_encoded(bytes, 2, &off, none, 0, false) == OCTETS_SHORT);
    CHECK(octets_put_string(bytes, 2, &off, none, 0, false) == OCTETS_SHORT);
    CHECK(octets_get_huffman_decoded(bytes, 2, &off, out, 2, &len) == OCTETS_SHORT);
    CHECK(octets_get_string(bytes, 2, &off, out, 2, &len) == OCTETS_SHORT);
    CHECK(off == 3 && len == 0 && run.from == 9 && run.len == 9);
    CHECK(bytes[0] == 0x81 && bytes[1] == 0xff && out[0] == 7 && out[1] == 7);
}

static void writes(void) {
    const uint8_t wanted[] = {1,  2,  3,  4,  5,  6,  7,    8,    9,    10,  11,  12,
                              13, 14, 15, 16, 17, 18, 0x25, 0x40, 0x25, 'a', 'b', 0xee};
    uint8_t out[24];
    size_t off = 0;
    memset(out, 0xee, sizeof out);
    CHECK(octets_put_u8(out, 23, &off, 1) == OCTETS_DONE);
    CHECK(octets_put_u16(out, 23, &off, 0x0203) == OCTETS_DONE);
    CHECK(octets_put_u24(out, 23, &off, 0xff040506) == OCTETS_DONE);
    CHECK(octets_put_u32(out, 23, &off, 0x0708090a) == OCTETS_DONE);
    CHECK(octets_put_u64(out, 23, &off, 0x0b0c0d0e0f101112) == OCTETS_DONE);
    CHECK(octets_put_varint(out, 23, &off, 37) == OCTETS_DONE);
    CHECK(octets_put_varint(out, 23, &off, UINT64_C(1) << 62) == OCTETS_UNFIT);
    CHECK(octets_put_varint_with_len(out, 23, &off, 37, 3) == OCTETS_UNFIT);
    CHECK(octets_put_varint_with_len(out, 23, &off, 64, 1) == OCTETS_UNFIT);
    CHECK(octets_put_varint_with_len(out, 23, &off, 37, 2) == OCTETS_DONE && off == 21);
    CHECK(octets_put_bytes(out, 23, &off, wanted, 3) == OCTETS_SHORT && off == 21);
    CHECK(octets_put_bytes(out, 23, &off, wanted + 21, 2) == OCTETS_DONE && off == 23);
    CHECK(memcmp(out, wanted, 24) == 0);
}

/* A length of 63 has one byte, and a length of 64 has two. */
static void prefixed(void) {
    uint8_t value[64], out[67], same[67];
    memset(value, 'a', sizeof value);
    for (size_t len = 0; len <= 64; len++) {
        const size_t width = len < 64 ? 1 : 2;
        size_t off = 1;
        octets_run run = {9, 9};
        memset(out, 0xee, sizeof out);
        memset(same, 0xee, sizeof same);
        CHECK(octets_put_bytes_with_varint_length(out, width + len, &off, value, len) == OCTETS_SHORT);
        CHECK(off == 1 && memcmp(out, same, sizeof out) == 0);
        CHECK(octets_put_bytes_with_varint_length(out, 1 + width + len, &off, value, len) ==
              OCTETS_DONE);
        CHECK(off == 1 + width + len);
        same[1] = len < 64 ? (uint8_t)len : 0x40;
        same[width] = (uint8_t)len;
        memcpy(same + 1 + width, value, len);
        CHECK(memcmp(out, same, sizeof out) == 0);
        off = 1;
        CHECK(octets_get_bytes_with_varint_length(out, sizeof out, &off, &run) == OCTETS_DONE);
        CHECK(run.from == 1 + width && run.len == len && off == 1 + width + len);
    }
}

static void texts(void) {
    const uint8_t value[] = "www.example.com", upper[] = "WWW.example.com";
    const uint8_t text[] = {0xf1, 0xe3, 0xc2, 0xe5, 0xf2, 0x3a, 0x6b, 0xa0, 0xab, 0x90, 0xf4, 0xff};
    uint8_t out[15] = {0};
    size_t off = 0, len = 0;
    CHECK(octets_huffman_encoding_len(value, 15, false, &len) == OCTETS_DONE && len == 12);
    CHECK(octets_huffman_encoding_len((const uint8_t *)"\0", 1, false, &len) == OCTETS_SHORT);
    CHECK(octets_put_huffman_encoded(out, 15, &off, upper, 15, true) == OCTETS_DONE);
    CHECK(off == 12 && memcmp(out, text, 12) == 0);
    off = 4;
    CHECK(octets_put_huffman_encoded(out, 15, &off, value, 15, false) == OCTETS_SHORT && off == 12);
    CHECK(memcmp(out, text, 4) == 0 && memcmp(out + 4, text, 8) == 0);
    off = 0;
    CHECK(octets_get_huffman_decoded(text, 12, &off, out, 15, &len) == OCTETS_DONE);
    CHECK(off == 12 && len == 15 && memcmp(out, value, 15) == 0);
    CHECK(octets_huffman_text_len((const uint8_t *)"\0", 1, false, &len) == OCTETS_DONE &&
          len == 2);
    CHECK(octets_huffman_text_len(upper, 15, true, &len) == OCTETS_DONE && len == 12);
}

/* A decode that fails returns the status of the first error in the encoding: the next byte of the
 * value doesn't fit out, or the bytes aren't a valid Huffman encoding. */
static void faults(void) {
    const struct {
        uint8_t text[5];
        size_t text_len, out_len;
        uint8_t status;
        size_t off, len;
    } rows[] = {
        {{0x18, 0xc7}, 2, 3, OCTETS_DONE, 2, 3},
        {{0x18, 0xc7}, 2, 2, OCTETS_NO_ROOM, 2, 2},
        {{0x18, 0xc7}, 2, 0, OCTETS_NO_ROOM, 1, 0},
        {{0x18, 0xc6}, 2, 3, OCTETS_NOT_TEXT, 2, 3},
        {{0x18, 0xc6}, 2, 2, OCTETS_NO_ROOM, 2, 2},
        {{0x18, 0xc7, 0xff}, 3, 3, OCTETS_NOT_TEXT, 3, 3},
        {{0x18, 0xc6, 0x31, 0xff}, 4, 5, OCTETS_DONE, 4, 5},
        {{0xff, 0xff, 0xff, 0xfc}, 4, 0, OCTETS_NOT_TEXT, 4, 0},
        {{0x1f, 0xff, 0xff, 0xff, 0xff}, 5, 1, OCTETS_NOT_TEXT, 5, 1},
        {{0x1f, 0xff, 0xff, 0xff, 0xff}, 5, 0, OCTETS_NO_ROOM, 1, 0},
        {{0}, 0, 0, OCTETS_DONE, 0, 0},
    };
    for (size_t i = 0; i < sizeof rows / sizeof rows[0]; i++) {
        uint8_t out[6];
        size_t off = 0, len = 9;
        memset(out, 0xee, sizeof out);
        CHECK(octets_get_huffman_decoded(rows[i].text, rows[i].text_len, &off, out, rows[i].out_len,
                                         &len) == rows[i].status);
        CHECK(off == rows[i].off && len == rows[i].len);
        CHECK(memcmp(out, "aaaaa", len) == 0 && out[len] == 0xee);
    }
}

/* The code of "a" is 00011. Twelve of these codes have 60 bits, which are padded to eight bytes and
 * written as one piece of four bytes and four pieces of one byte. Thirteen have 65 bits: a piece of
 * eight bytes has the first 64 bits, and a piece of one byte has the last bit and the padding. A
 * call writes the pieces up to the first that doesn't fit. */
static void pieces(void) {
    const uint8_t value[] = "aaaaaaaaaaaaa";
    const uint8_t twelve[] = {0x18, 0xc6, 0x31, 0x8c, 0x63, 0x18, 0xc6, 0x3f};
    const uint8_t thirteen[] = {0x18, 0xc6, 0x31, 0x8c, 0x63, 0x18, 0xc6, 0x31, 0xff};
    uint8_t out[10];
    size_t off = 0;
    memset(out, 0xee, sizeof out);
    CHECK(octets_put_huffman_encoded(out, 3, &off, value, 12, false) == OCTETS_SHORT && off == 0);
    CHECK(octets_put_huffman_encoded(out, 7, &off, value, 13, false) == OCTETS_SHORT && off == 0);
    CHECK(out[0] == 0xee && out[7] == 0xee);
    CHECK(octets_put_huffman_encoded(out, 5, &off, value, 12, false) == OCTETS_SHORT && off == 5);
    CHECK(memcmp(out, twelve, 5) == 0 && out[5] == 0xee);
    off = 0;
    CHECK(octets_put_huffman_encoded(out, 8, &off, value, 13, false) == OCTETS_SHORT && off == 8);
    CHECK(memcmp(out, thirteen, 8) == 0 && out[8] == 0xee);
    off = 0;
    CHECK(octets_put_huffman_encoded(out, 10, &off, value, 12, false) == OCTETS_DONE && off == 8);
    CHECK(memcmp(out, twelve, 8) == 0);
    off = 0;
    CHECK(octets_put_huffman_encoded(out, 10, &off, value, 13, false) == OCTETS_DONE && off == 9);
    CHECK(memcmp(out, thirteen, 9) == 0 && out[9] == 0xee);
}

/* After a call that ran short, octets_next_piece returns the rest of the encoding, once it has
 * returned as many bytes as the call wrote. Here the pieces have 8, 4, 1, 1, 1 and 1 bytes. */
static void resumed(void) {
    const uint8_t value[] = "aaaaaaaaaaaaaaaaaaaaaaaaa";
    const size_t value_len = sizeof value - 1;
    uint8_t whole[OCTETS_TEXT_MOST(sizeof value)] = {0}, out[sizeof whole], piece[8] = {0};
    size_t whole_len = 0;
    CHECK(octets_put_huffman_encoded(whole, sizeof whole, &whole_len, value, value_len, false) ==
          OCTETS_DONE);
    for (size_t room = 0; room < whole_len; room++) {
        octets_place place = {0, 0, 0, 0};
        size_t off = 0, done = 0, len = 1;
        memset(out, 0, sizeof out);
        CHECK(octets_put_huffman_encoded(out, room, &off, value, value_len, false) == OCTETS_SHORT);
        while (done < off && len > 0) {
            CHECK(octets_next_piece(value, value_len, false, &place, &piece, &len) == OCTETS_DONE);
            done += len;
        }
        CHECK(done == off && off <= room);
        do {
            CHECK(octets_next_piece(value, value_len, false, &place, &piece, &len) == OCTETS_DONE);
            memcpy(out + off, piece, len);
            off += len;
        } while (len > 0 && off < whole_len);
        CHECK(off == whole_len && memcmp(out, whole, whole_len) == 0);
    }
}

/* octets_next_piece returns these pieces one by one, and fails if no encode has the state. */
static void streams(void) {
    const uint8_t value[] = "aaaaaaaaaaaaa";
    const uint8_t twelve[] = {0x18, 0xc6, 0x31, 0x8c, 0x63, 0x18, 0xc6, 0x3f};
    const size_t sizes[] = {4, 1, 1, 1, 1, 0, 0};
    uint8_t piece[8] = {0}, text[8];
    octets_place place = {0, 0, 0, 0};
    size_t len = 9, all = 0;
    for (int i = 0; i < 7; i++) {
        CHECK(octets_next_piece(value, 12, false, &place, &piece, &len) == OCTETS_DONE);
        CHECK(len == sizes[i]);
        memcpy(text + all, piece, len);
        all += len;
        CHECK(place.at == 12 && place.count == 60 && place.given == all);
        CHECK(place.bits == UINT64_C(0x18c6318c6318c630));
    }
    CHECK(all == 8 && memcmp(text, twelve, 8) == 0);
    memset(&place, 0, sizeof place);
    CHECK(octets_next_piece(value, 13, false, &place, &piece, &len) == OCTETS_DONE && len == 8);
    CHECK(octets_next_piece(value, 13, false, &place, &piece, &len) == OCTETS_DONE && len == 1);
    CHECK(piece[0] == 0xff);
    CHECK(octets_next_piece(value, 13, false, &place, &piece, &len) == OCTETS_DONE && len == 0);
    place.count = 63;
    CHECK(octets_next_piece(value, 13, false, &place, &piece, &len) == OCTETS_DONE);
    place.count = 64;
    len = 9;
    CHECK(octets_next_piece(value, 13, false, &place, &piece, &len) == OCTETS_UNFIT && len == 9);
    memset(&place, 0, sizeof place);
    place.bits = 1;
    CHECK(octets_next_piece(value, 13, false, &place, &piece, &len) == OCTETS_UNFIT);
    place.bits = 0;
    place.given = 1;
    CHECK(octets_next_piece(value, 13, false, &place, &piece, &len) == OCTETS_UNFIT);
    CHECK(octets_next_piece(value, 0, false, &place, &piece, &len) == OCTETS_DONE && len == 0);
    place.at = 14;
    CHECK(octets_next_piece(value, 13, false, &place, &piece, &len) == OCTETS_UNFIT);
    place.at = 13;
    CHECK(octets_next_piece(value, 13, false, &place, &piece, &len) == OCTETS_DONE && len == 0);
}

/* The encoding of "www.example.com" (RFC 7541, appendix C.4.1) arrives in two pieces. */
static void arrives(void) {
    const uint8_t text[] = {0xf1, 0xe3, 0xc2, 0xe5, 0xf2, 0x3a, 0x6b, 0xa0, 0xab, 0x90, 0xf4, 0xff};
    for (size_t cut = 0; cut <= sizeof text; cut++) {
        octets_decoder decoder = {0};
        uint8_t out[24] = {0};
        size_t off = 0, len = 0, all = 0;
        CHECK(octets_decode_piece(text, cut, &off, &decoder, out, sizeof out, &len) == OCTETS_DONE && off == cut);
        all = len;
        octets_decoder copy = decoder;
        CHECK(octets_decode_piece(text, sizeof text, &off, &copy, out + all, sizeof out - all, &len) == OCTETS_DONE);
        CHECK(off == sizeof text && all + len == 15 && memcmp(out, "www.example.com", 16) == 0);
        CHECK(octets_decode_end(&copy) == OCTETS_DONE);
    }
}

/* Where a decode of a piece stops: for want of room, at EOS, which has 30 one bits, and at the end. */
static void stops(void) {
    const uint8_t digits[] = {0x00, 0x44}; /* 00000 00001 00010 are `0`, `1` and `2` */
    const uint8_t ones[] = {0xff, 0xff, 0xff, 0xff};
    octets_decoder decoder = {0};
    uint8_t out[4] = {9, 9, 9, 9};
    size_t off = 0, len = 7;
    CHECK(octets_decode_piece(digits, 2, &off, &decoder, out, 2, &len) == OCTETS_NO_ROOM && off == 1 && len == 1);
    CHECK(out[0] == '0' && out[1] == 9 && octets_decode_end(&decoder) == OCTETS_NOT_TEXT);
    CHECK(octets_decode_piece(digits, 2, &off, &decoder, out + 1, 1, &len) == OCTETS_NO_ROOM && off == 1 && len == 0);
    CHECK(octets_decode_piece(digits, 2, &off, &decoder, out + 1, 2, &len) == OCTETS_DONE && off == 2 && len == 2);
    CHECK(memcmp(out, "012\x09", 4) == 0 && octets_decode_end(&decoder) == OCTETS_NOT_TEXT);
    off = 3;
    CHECK(octets_decode_piece(digits, 2, &off, &decoder, out, 4, &len) == OCTETS_SHORT && off == 3 && len == 0);
    decoder.state = 0;
    off = 0;
    CHECK(octets_decode_piece(ones, 4, &off, &decoder, NULL, 0, &len) == OCTETS_NOT_TEXT && off == 3 && len == 0);
    CHECK(octets_decode_piece(ones, 4, &off, &decoder, NULL, 0, &len) == OCTETS_NOT_TEXT && off == 3);
    CHECK(octets_decode_end(&decoder) == OCTETS_NOT_TEXT);
}

/* Writes the Huffman encoding of a value into a buffer of OCTETS_TEXT_MOST bytes, decodes it, and
 * returns whether both calls succeeded and the value is the same. */
static bool fits_text(const uint8_t *value, size_t value_len) {
    uint8_t text[OCTETS_TEXT_MOST(40)] = {0}, back[40] = {0};
    size_t off = 0, from = 0, len = 0;
    return octets_put_huffman_encoded(text, OCTETS_TEXT_MOST(value_len), &off, value, value_len,
                                      false) == OCTETS_DONE &&
           off <= OCTETS_TEXT_MOST(value_len) &&
           octets_get_huffman_decoded(text, off, &from, back, value_len, &len) == OCTETS_DONE &&
           len == value_len && memcmp(back, value, value_len) == 0;
}

/* The sizes that the macros compute suffice for the longest codes and for the shortest codes. A
 * line feed has one of the longest codes, of 30 bits. The digit 0 has one of the shortest codes,
 * which is five zero bits. */
static void rooms(void) {
    uint8_t feeds[40], zeros[40], text[40] = {0}, back[OCTETS_VALUE_MOST(40)] = {0};
    memset(feeds, '\n', sizeof feeds);
    memset(zeros, 0, sizeof zeros);
    for (size_t n = 0; n < 40; n++) {
        size_t off = 0, from = 0, len = 0;
        CHECK(fits_text(feeds, n));
        memset(text, 0, n);
        if (n > 0) {
            text[n - 1] = (uint8_t)((1 << 8 * n % 5) - 1);
        }
        CHECK(octets_get_huffman_decoded(text, n, &off, back, OCTETS_VALUE_MOST(n), &len) ==
              OCTETS_DONE);
        CHECK(len == 8 * n / 5 && len == OCTETS_VALUE_MOST(n));
        off = 0;
        CHECK(octets_put_string(text, OCTETS_LITERAL_MOST(n), &off, zeros, n, false) ==
              OCTETS_DONE);
        CHECK(off <= sizeof text && octets_get_string(text, off, &from, back,
                                                      OCTETS_VALUE_MOST(off), &len) == OCTETS_DONE);
        CHECK(len == n && memcmp(back, zeros, n) == 0);
    }
    CHECK(octets_version() == OCTETS_VERSION);
}

static void literals(void) {
    const uint8_t bytes[] = {0x8c, 0xf1, 0xe3, 0xc2, 0xe5, 0xf2, 0x3a, 0x6b, 0xa0,
                             0xab, 0x90, 0xf4, 0xff, 0x03, 'k',  'e',  'y',  0x7f,
                             0x80, 0x80, 0x80, 0x80, 0x80, 0x02, 'a'};
    uint8_t out[16];
    size_t off = 0, len = 0;
    memset(out, 0xee, sizeof out);
    CHECK(octets_get_string(bytes, 25, &off, out, 14, &len) == OCTETS_NO_ROOM && off == 0);
    CHECK(memcmp(out, "www.example.co\xee", 15) == 0 && len == 14);
    CHECK(octets_get_string(bytes, 25, &off, out, 15, &len) == OCTETS_DONE && off == 13);
    CHECK(len == 15 && memcmp(out, "www.example.com", 15) == 0);
    CHECK(octets_get_string(bytes, 16, &off, out, 16, &len) == OCTETS_SHORT && off == 13);
    CHECK(octets_get_string(bytes, 25, &off, out, 16, &len) == OCTETS_DONE && off == 17);
    CHECK(len == 3 && memcmp(out, "key.example.com", 15) == 0);
    off = 13;
    CHECK(octets_get_string(bytes, 25, &off, out, 2, &len) == OCTETS_NO_ROOM && off == 13);
    CHECK(len == 0 && memcmp(out, "key.example.com", 15) == 0);
    off = 17;
    CHECK(octets_get_string(bytes, 25, &off, out, 16, &len) == OCTETS_LONG && off == 17 &&
          len == 0);
    off = 0;
    CHECK(octets_get_string((const uint8_t *)"\x82\x18\xc6", 3, &off, out, 16, &len) ==
              OCTETS_NOT_TEXT &&
          off == 0 && len == 3 && memcmp(out, "aaa", 3) == 0);
}

static void written_literals(void) {
    const struct {
        const char *value;
        bool lower_case;
        size_t len;
        const char *literal;
    } rows[] = {
        {"", false, 1, "\x00"},
        {"A", false, 2, "\x01\x41"},
        {"A", true, 2, "\x01\x61"},
        {"a", false, 2, "\x01\x61"},
        {"aa", false, 3, "\x02\x61\x61"},
        {"aaa", false, 3, "\x82\x18\xc7"},
        {"AaA", true, 3, "\x82\x18\xc7"},
        {"custom-key", false, 9, "\x88\x25\xa8\x49\xe9\x5b\xa9\x7d\x7f"},
    };
    for (size_t i = 0; i < sizeof rows / sizeof rows[0]; i++) {
        const uint8_t *value = (const uint8_t *)rows[i].value;
        size_t value_len = strlen(rows[i].value), len = rows[i].len, off = 1;
        uint8_t out[11], same[11];
        memset(out, 0xee, sizeof out);
        memset(same, 0xee, sizeof same);
        CHECK(octets_put_string(out, len, &off, value, value_len, rows[i].lower_case) ==
                  OCTETS_SHORT &&
              off == 1 && memcmp(out, same, sizeof out) == 0);
        CHECK(octets_put_string(out, sizeof out, &off, value, value_len, rows[i].lower_case) ==
                  OCTETS_DONE &&
              off == 1 + len);
        memcpy(same + 1, rows[i].literal, len);
        CHECK(memcmp(out, same, sizeof out) == 0);
    }
}

/* The length of a literal has one byte up to 126, two bytes up to 254, and then three. The code of
 * a zero byte has 13 bits, so values of zero bytes aren't Huffman-encoded in their literals. */
static void literal_lengths(void) {
    const uint8_t zeros[255] = {0};
    const struct {
        size_t value_len, len;
        uint8_t length[3];
    } rows[] = {
        {126, 1, {0x7e}},
        {127, 2, {0x7f, 0x00}},
        {128, 2, {0x7f, 0x01}},
        {255, 3, {0x7f, 0x80, 0x01}},
    };
    for (size_t i = 0; i < sizeof rows / sizeof rows[0]; i++) {
        size_t value_len = rows[i].value_len, len = rows[i].len, off = 0;
        uint8_t out[258] = {0};
        CHECK(octets_put_string(out, sizeof out, &off, zeros, value_len, false) == OCTETS_DONE &&
              off == len + value_len);
        CHECK(memcmp(out, rows[i].length, len) == 0 && memcmp(out + len, zeros, value_len) == 0);
    }
}

/* If a length is 0, the pointer that comes with it may be NULL or any other pointer, and the call
 * reads and writes no byte there. */
static void no_bytes(uint8_t *none, uint8_t *value) {
    uint8_t one = 9, literal = 0xee, piece[8] = {0};
    size_t off = 0, len = 9;
    uint64_t number = 9;
    octets_run run = {9, 9};
    octets_place place = {0, 0, 0, 0};
    octets_decoder decoder = {0};
    CHECK(octets_get_u8(none, 0, &off, &one) == OCTETS_SHORT && one == 9 && off == 0);
    CHECK(octets_get_varint(none, 0, &off, &number) == OCTETS_SHORT && number == 9);
    CHECK(octets_skip(none, 0, &off, 0) == OCTETS_DONE && off == 0);
    CHECK(octets_get_bytes(none, 0, &off, 0, &run) == OCTETS_DONE && run.len == 0 && run.from == 0);
    CHECK(OCTETS_RUN_START(none, run) == none);
    CHECK(octets_get_bytes_u64(none, 0, &off, 0, &run) == OCTETS_DONE && run.len == 0 && off == 0);
    CHECK(octets_get_bytes_u64(none, 0, &off, 1, &run) == OCTETS_SHORT && off == 0);
    CHECK(octets_get_bytes_with_u8_length(none, 0, &off, &run) == OCTETS_SHORT && off == 0);
    CHECK(octets_put_bytes_with_varint_length(none, 0, &off, value, 0) == OCTETS_SHORT && off == 0);
    CHECK(octets_put_u8(none, 0, &off, 1) == OCTETS_SHORT && off == 0);
    CHECK(octets_put_varint(none, 0, &off, 1) == OCTETS_SHORT && off == 0);
    CHECK(octets_put_bytes(none, 0, &off, value, 0) == OCTETS_DONE && off == 0);
    CHECK(octets_put_bytes(&literal, 1, &off, value, 0) == OCTETS_DONE && off == 0);
    CHECK(octets_put_huffman_encoded(none, 0, &off, value, 0, true) == OCTETS_DONE && off == 0);
    CHECK(octets_huffman_encoding_len(value, 0, true, &len) == OCTETS_DONE && len == 0);
    len = 9;
    CHECK(octets_huffman_text_len(value, 0, true, &len) == OCTETS_DONE && len == 0);
    len = 9;
    CHECK(octets_next_piece(value, 0, true, &place, &piece, &len) == OCTETS_DONE && len == 0);
    len = 9;
    CHECK(octets_get_huffman_decoded(none, 0, &off, value, 0, &len) == OCTETS_DONE && len == 0);
    len = 9;
    CHECK(octets_decode_piece(none, 0, &off, &decoder, value, 0, &len) == OCTETS_DONE && len == 0);
    CHECK(octets_put_string(&literal, 1, &off, value, 0, true) == OCTETS_DONE && literal == 0);
    off = 0;
    len = 9;
    CHECK(octets_get_string(&literal, 1, &off, value, 0, &len) == OCTETS_DONE && len == 0);
    off = 0;
    CHECK(octets_get_string(none, 0, &off, value, 0, &len) == OCTETS_SHORT && off == 0);
}

/* The lengths in the bytes that are read are about 2^32 or more, so that a size_t of 32 bits can't
 * hold most of them. */
static void great_lengths(void) {
    const uint8_t run_of[] = {0xc0, 0, 0, 1, 0, 0, 0, 1, 'a', 'b'};
    const struct {
        uint8_t literal[12];
        uint8_t status;
    } rows[] = {
        /* The first length is 127 + 4294967170, which is 2^32 + 1. The second addend is in groups
           of seven bits: 2 + 127 * 128 + 127 * 128^2 + 127 * 128^3 + 15 * 128^4. The next two
           lengths are 2^32 and 2^32 - 1. */
        {{0x7f, 0x82, 0xff, 0xff, 0xff, 0x0f}, OCTETS_LONG},
        {{0x7f, 0x81, 0xff, 0xff, 0xff, 0x0f}, OCTETS_LONG},
        {{0x7f, 0x80, 0xff, 0xff, 0xff, 0x0f}, OCTETS_SHORT},
        /* 2^32 - 6, which together with the six bytes of the length itself is 2^32; 2^32 - 5; and
           2^32 - 6 again, of a Huffman-encoded value. */
        {{0x7f, 0xfb, 0xfe, 0xff, 0xff, 0x0f}, OCTETS_SHORT},
        {{0x7f, 0xfc, 0xfe, 0xff, 0xff, 0x0f}, OCTETS_SHORT},
        {{0xff, 0xfb, 0xfe, 0xff, 0xff, 0x0f}, OCTETS_SHORT},
        /* 2^35 + 126, and 2^34 + 127. */
        {{0x7f, 0xff, 0xff, 0xff, 0xff, 0x7f}, OCTETS_LONG},
        {{0x7f, 0x80, 0x80, 0x80, 0x80, 0x40}, OCTETS_LONG},
    };
    uint8_t out[8] = {0};
    size_t off = 0, len = 9;
    octets_run run = {9, 9};
    CHECK(octets_get_bytes_with_varint_length(run_of, 10, &off, &run) == OCTETS_SHORT && off == 8);
    CHECK(run.from == 9 && run.len == 9);
    for (size_t i = 0; i < sizeof rows / sizeof rows[0]; i++) {
        off = 0;
        CHECK(octets_get_string(rows[i].literal, 12, &off, out, 8, &len) == rows[i].status);
        CHECK(off == 0 && len == 0);
    }
}

/* Sizes and widths that would be small if the library cut them to a narrower type. */
static void great_sizes(void) {
    uint8_t bytes[4] = {1, 2, 3, 4};
    const size_t great = SIZE_MAX > UINT32_MAX ? (size_t)UINT64_C(0x100000001) : SIZE_MAX - 1;
    size_t off = 0;
    octets_run run = {9, 9};
    CHECK(octets_put_varint_with_len(bytes, 4, &off, 1, 257) == OCTETS_UNFIT);
    CHECK(octets_put_varint_with_len(bytes, 4, &off, 1, great) == OCTETS_UNFIT && off == 0);
    CHECK(octets_skip(bytes, 4, &off, 257) == OCTETS_SHORT);
    CHECK(octets_skip(bytes, 4, &off, great) == OCTETS_SHORT && off == 0);
    CHECK(octets_get_bytes(bytes, 4, &off, 257, &run) == OCTETS_SHORT);
    CHECK(octets_get_bytes(bytes, 4, &off, great, &run) == OCTETS_SHORT && off == 0);
    CHECK(octets_put_u8(bytes, 4, &off, 0xff) == OCTETS_DONE && bytes[0] == 0xff && off == 1);
    off = great;
    CHECK(octets_skip(bytes, 4, &off, 0) == OCTETS_SHORT && off == great);
    CHECK(octets_get_bytes(bytes, 4, &off, SIZE_MAX - great + 2, &run) == OCTETS_SHORT);
    CHECK(run.from == 9 && run.len == 9);
}

int main(void) {
    uint8_t object = 0;
    no_bytes(OCTETS_NO_BYTES, OCTETS_NO_BYTES);
    no_bytes(NULL, NULL);
    no_bytes(&object, NULL);
    numbers();
    varints();
    widths();
    edges();
    runs();
    outside();
    writes();
    prefixed();
    texts();
    faults();
    pieces();
    resumed();
    streams();
    arrives();
    stops();
    rooms();
    literals();
    written_literals();
    literal_lengths();
    great_lengths();
    great_sizes();
    printf("%d passed, %d failed\n", passed, failed);
    return failed != 0;
}
