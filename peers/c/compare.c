/* usage: compare SEED CALLS [EXPORT]
 *
 * Makes CALLS random calls of each export of octets.h, or of the export with this number, and prints
 * a line for each export: a hash of all results, and how often each status was returned. The hash
 * includes each status and output, the distance that the offset moved, and every byte of each
 * buffer, with eight bytes before and after it. If two libraries print the same, on any two targets,
 * they returned and wrote the same. */
#include <stdio.h>
#include <stdlib.h>
#include <string.h>

#include "octets.h"

#define MOST 70000
#define AROUND 8
#define EXPORTS 34

typedef struct buffer {
    uint8_t all[AROUND + MOST + AROUND];
    size_t len;
} buffer;

static buffer one, two, room;
static uint64_t state, hash;
static unsigned long statuses[8];
static int which;

/* Returns the next number of the generator SplitMix64. */
static uint64_t next(void) {
    uint64_t z = state += UINT64_C(0x9e3779b97f4a7c15);
    z = (z ^ z >> 30) * UINT64_C(0xbf58476d1ce4e5b9);
    z = (z ^ z >> 27) * UINT64_C(0x94d049bb133111eb);
    return z ^ z >> 31;
}

static size_t below(size_t n) { return (size_t)(next() % n); }
static bool one_in(size_t n) { return below(n) == 0; }

static void mix(uint64_t v) {
    hash = (hash ^ v) * UINT64_C(0x9ddfea08eb382d69);
    hash ^= hash >> 29;
}

static void mix_bytes(const uint8_t *p, size_t n) {
    for (; n >= 8; p += 8, n -= 8) {
        uint64_t v = 0;
        for (int i = 0; i < 8; i++) {
            v |= (uint64_t)p[i] << 8 * i;
        }
        mix(v);
    }
    for (; n > 0; p++, n--) {
        mix(*p);
    }
}

/* Returns a byte of a kind: a small one, a character, an edge case, one of mostly one bits, or any. */
static uint8_t some_byte(size_t kind) {
    static const uint8_t edges[] = {0,    1,    0x3f, 0x40, 0x7f, 0x80, 0x81, 0xbf,
                                    0xc0, 0xfe, 0xff, 'A',  'Z',  '@',  '['};
    static const char text[] = "abcdeiost0123/ -.%=AZBWwxyz_&:;?^|{}~\"";
    switch (kind) {
    case 0:
        return (uint8_t)below(8);
    case 1:
        return (uint8_t)text[below(sizeof text - 1)];
    case 2:
        return edges[below(sizeof edges)];
    case 3:
        return one_in(4) ? (uint8_t)next() : 0xff;
    default:
        return (uint8_t)next();
    }
}

static size_t some_len(void) {
    switch (below(64)) {
    case 0:
        return one_in(256) ? below(MOST + 1) : below(4000);
    case 1:
    case 2:
        return below(400);
    case 3:
        return 0;
    case 4:
    case 5:
    case 6:
    case 7:
        return below(80);
    default:
        return below(25);
    }
}

static uint8_t *at(buffer *b) { return b->all + AROUND; }

/* Returns the pointer that a call gets. If the buffer is empty, it may be NULL or another pointer. */
static uint8_t *given(buffer *b) {
    if (b->len > 0) {
        return at(b);
    }
    return one_in(2) ? NULL : OCTETS_NO_BYTES;
}

static void end_at(buffer *b, size_t len) {
    b->len = len;
    memset(at(b) + len, 0x5a, AROUND);
}

static void fill(buffer *b, size_t len) {
    size_t kind = below(7);
    memset(b->all, 0xa5, AROUND);
    for (size_t i = 0; i < len;) {
        uint64_t eight = next();
        if (kind < 5) {
            at(b)[i++] = some_byte(kind);
        }
        for (int j = 0; kind >= 5 && j < 8 && i < len; j++) {
            at(b)[i++] = (uint8_t)(eight >> 8 * j);
        }
    }
    end_at(b, len);
}

static void left(buffer *b) { mix_bytes(b->all, b->len + 2 * AROUND); }

/* Returns a size near 2^32 or near SIZE_MAX; near SIZE_MAX only, if size_t has 32 bits. */
static size_t some_great(void) {
    size_t less = below(20);
    bool middle = one_in(2);
    return middle && SIZE_MAX > UINT32_MAX ? (size_t)(UINT64_C(0x10000000a) - less)
                                           : SIZE_MAX - less;
}

/* Returns an offset before, at or after the end. */
static size_t some_off(size_t len) {
    switch (below(16)) {
    case 0:
        return len;
    case 1:
        return len + 1;
    case 2:
        return some_great();
    default:
        return below(len + 1);
    }
}

/* Returns a number of bytes after an offset: as many as remain or fewer, more, or so many that the
 * sum with the offset overflows. */
static size_t some_count(size_t len, size_t off) {
    size_t rest = off <= len ? len - off : 0;
    switch (below(16)) {
    case 0:
        return some_great();
    case 1:
        return rest;
    case 2:
        return rest + 1;
    case 3:
        return SIZE_MAX - off + 1;
    default:
        return below(rest + 3);
    }
}

/* Returns a number of any width, or one at the bound of a width. */
static uint64_t some_value(void) {
    static const int edges[] = {0, 6, 8, 14, 16, 24, 30, 32, 62};
    uint64_t any = next() >> below(64), edge = UINT64_C(1) << edges[below(9)];
    switch (below(8)) {
    case 0:
        return edge;
    case 1:
        return edge - 1;
    case 2:
        return UINT64_MAX;
    default:
        return any;
    }
}

/* The offset in `one` that a call gets and moves, and its value before the call. The functions below
 * add the results of a call to the hash. */
static size_t off, old;

static void place_in(size_t len) {
    fill(&one, len);
    off = old = some_off(one.len);
}

static void status(octets_status s) {
    mix(s);
    statuses[s & 7]++;
}

static void moved(void) {
    mix((uint32_t)(off - old));
    left(&one);
}

static void mix_run(const octets_run *run) {
    mix((uint32_t)run->from);
    mix((uint32_t)run->len);
}

#define READ(name, type)                                                                           \
    do {                                                                                           \
        type v = (type)next();                                                                     \
        place_in(some_len());                                                                      \
        status(name(given(&one), one.len, &off, &v));                                              \
        mix(v);                                                                                    \
    } while (0)

static void read_number(void) {
    switch (which) {
    case 1:
        READ(octets_get_u8, uint8_t);
        break;
    case 2:
        READ(octets_get_u16, uint16_t);
        break;
    case 3:
        READ(octets_get_u24, uint32_t);
        break;
    case 4:
        READ(octets_get_u32, uint32_t);
        break;
    case 5:
        READ(octets_get_u64, uint64_t);
        break;
    case 6:
        READ(octets_get_varint, uint64_t);
        break;
    default:
        READ(octets_get_varint_shortest, uint64_t);
    }
    moved();
}

/* Writes a length at the offset, for a call that reads a length and the bytes after it. It is a
 * small number or, as a varint, one whose lower 32 bits are a small number. */
static void put_length(void) {
    size_t rest = off <= one.len ? one.len - off : 0;
    size_t width = which == 12 ? 8 : (size_t)which - 9, i;
    if (rest < width) {
        return;
    }
    for (i = 0; i + 1 < width; i++) {
        at(&one)[off + i] = which == 12 && i < 4 && one_in(2) ? (uint8_t)below(4) : 0;
    }
    at(&one)[off + i] = (uint8_t)below(rest);
    if (which == 12) {
        at(&one)[off] |= 0xc0;
    }
}

static void read_run(void) {
    octets_run run = {7, 9};
    place_in(some_len());
    size_t count = some_count(one.len, off);
    if (which >= 10 && which <= 12 && one_in(4)) {
        put_length();
    }
    switch (which) {
    case 8:
        status(octets_skip(given(&one), one.len, &off, count));
        break;
    case 9:
        status(octets_get_bytes(given(&one), one.len, &off, count, &run));
        break;
    case 10:
        status(octets_get_bytes_with_u8_length(given(&one), one.len, &off, &run));
        break;
    case 11:
        status(octets_get_bytes_with_u16_length(given(&one), one.len, &off, &run));
        break;
    case 12:
        status(octets_get_bytes_with_varint_length(given(&one), one.len, &off, &run));
        break;
    default:
        status(octets_get_bytes_u64(given(&one), one.len, &off,
                                    count + (one_in(2) ? (uint64_t)below(3) << 32 : 0), &run));
    }
    mix_run(&run);
    moved();
}

static void write_number(void) {
    uint64_t v = some_value();
    size_t width = one_in(20) ? some_great() : below(10);
    place_in(some_len());
    switch (which) {
    case 13:
        status(octets_put_u8(given(&one), one.len, &off, (uint8_t)v));
        break;
    case 14:
        status(octets_put_u16(given(&one), one.len, &off, (uint16_t)v));
        break;
    case 15:
        status(octets_put_u24(given(&one), one.len, &off, (uint32_t)v));
        break;
    case 16:
        status(octets_put_u32(given(&one), one.len, &off, (uint32_t)v));
        break;
    case 17:
        status(octets_put_u64(given(&one), one.len, &off, v));
        break;
    case 18:
        status(octets_put_varint(given(&one), one.len, &off, v));
        break;
    default:
        status(octets_put_varint_with_len(given(&one), one.len, &off, v, width));
    }
    moved();
}

/* Writes bytes, their Huffman encoding or their string literal, into a buffer that may be too short. */
static void write_value(void) {
    bool lower_case = one_in(2);
    size_t near;
    fill(&two, some_len());
    near = two.len + below(12);
    place_in(one_in(2) ? some_len() : near > MOST ? MOST : near);
    if (one_in(2) && off <= one.len && two.len > one.len - off) {
        end_at(&two, one.len - off);
    }
    switch (which) {
    case 20:
        status(octets_put_bytes(given(&one), one.len, &off, given(&two), two.len));
        break;
    case 29:
        status(octets_put_bytes_with_varint_length(given(&one), one.len, &off, given(&two),
                                                   two.len));
        break;
    case 23:
        status(octets_put_huffman_encoded(given(&one), one.len, &off, given(&two), two.len,
                                          lower_case));
        break;
    default:
        status(octets_put_string(given(&one), one.len, &off, given(&two), two.len, lower_case));
    }
    left(&two);
    moved();
}

static void count_text(void) {
    size_t len = 0x1234567;
    bool lower_case = one_in(2);
    fill(&two, some_len());
    if (which == 21) {
        status(octets_huffman_encoding_len(given(&two), two.len, lower_case, &len));
    } else {
        status(octets_huffman_text_len(given(&two), two.len, lower_case, &len));
    }
    mix(len);
    left(&two);
}

/* The state of an encode in pieces. The pieces of one value after the other are encoded, and
 * sometimes the state is one that no encode has. */
static octets_place place;
static bool going, cased;

static void make_place(void) {
    bool waits = !one_in(4);
    memset(&place, 0, sizeof place);
    fill(&two, one_in(32) ? some_len() : below(40));
    cased = one_in(2);
    going = waits;
    if (waits) {
        return;
    }
    place.at = one_in(2) ? two.len : some_off(two.len);
    place.count = one_in(32) ? (uint32_t)next() : (uint32_t)below(70);
    place.bits = next();
    if (place.count < 64 && !one_in(4)) {
        /* Keeps the bits that the state counts, and sometimes sets the bit after them. */
        place.bits &= place.count > 0 ? ~(UINT64_MAX >> place.count) : 0;
        place.bits |= one_in(8) ? UINT64_C(1) << 63 >> place.count : 0;
    }
    place.given = one_in(3) ? (uint32_t)below(12) : one_in(16) ? (uint32_t)next() : 0;
}

static void next_piece(void) {
    uint8_t piece[8] = {1, 2, 3, 4, 5, 6, 7, 8};
    size_t len = 0x1234567, before;
    if (!going) {
        make_place();
    }
    before = place.at;
    status(octets_next_piece(given(&two), two.len, cased, &place, &piece, &len));
    going = going && len > 0;
    mix_bytes(piece, 8);
    mix((uint32_t)(place.at - before));
    mix(place.bits);
    mix(place.count);
    mix(place.given);
    mix(len);
    left(&two);
}

/* Replaces the length of a literal by a length of any size, which is often near 2^32. */
static size_t put_other_length(size_t from) {
    uint64_t near = UINT64_C(4294967296) - 147 + below(200), any = next() >> (28 + below(8));
    uint64_t n = one_in(2) ? near : any;
    size_t end = from;
    at(&one)[end++] = (uint8_t)(127 + 128 * below(2));
    for (int i = 0; i < 5 && n >= 128; i++, n /= 128) {
        at(&one)[end++] = (uint8_t)(n % 128 + 128);
    }
    at(&one)[end++] = (uint8_t)n;
    return end + below(30);
}

/* Writes the Huffman encoding or the string literal of a value at an offset. Sometimes one of its
 * bits is changed, or bytes are cut off at its end. */
static void make_text(bool literal) {
    size_t len = one_in(32) ? below(one_in(256) ? MOST / 4 : 1000) : below(40), end, cut;
    off = old = below(6);
    end = off;
    fill(&one, 4 * len + 200 > MOST ? MOST : 4 * len + 200);
    fill(&two, len);
    cased = one_in(2);
    if (literal ? octets_put_string(at(&one), one.len, &end, given(&two), len, cased)
                : octets_put_huffman_encoded(at(&one), one.len, &end, given(&two), len, cased)) {
        abort();
    }
    if (literal && one_in(16)) {
        end = put_other_length(off);
    }
    end_at(&one, end + (literal && one_in(2) ? below(9) : 0));
    if (one_in(3) && one.len > 0) {
        at(&one)[below(one.len)] ^= (uint8_t)(1 << below(8));
    }
    cut = below(4);
    if (one_in(8) && cut < one.len) {
        end_at(&one, one.len - cut);
    }
}

/* Decodes bytes that continue what was decoded before, or from another state, and sometimes into too little room. */
static void decode_piece(void) {
    static octets_decoder decoder;
    size_t len = 0x1234567;
    if (one_in(3)) {
        decoder.state = (uint8_t)next();
    }
    if (which == 33) {
        status(octets_decode_end(&decoder));
        return;
    }
    if (one_in(2)) {
        place_in(some_len());
    } else {
        make_text(false);
    }
    fill(&room, one_in(4) ? some_len() : below(60));
    status(octets_decode_piece(given(&one), one.len, &off, &decoder, given(&room), room.len, &len));
    mix(decoder.state);
    mix(len);
    left(&room);
    moved();
}

static void read_value(void) {
    size_t len = 0x1234567;
    if (one_in(4)) {
        place_in(some_len());
    } else {
        make_text(which == 26);
    }
    fill(&room, one_in(4) ? some_len() : one_in(64) ? MOST : below(60));
    if (which == 25) {
        status(
            octets_get_huffman_decoded(given(&one), one.len, &off, given(&room), room.len, &len));
    } else {
        status(octets_get_string(given(&one), one.len, &off, given(&room), room.len, &len));
    }
    mix(len);
    left(&room);
    moved();
}

static void say_status(void) {
    octets_status any = (octets_status)(uint8_t)next();
    const char *text = octets_status_text(any), *name = octets_status_name(any);
    mix_bytes((const uint8_t *)text, strlen(text));
    mix_bytes((const uint8_t *)name, strlen(name));
}

static void call(void) {
    if (which == 30) {
        mix(octets_varint_len(some_value()));
        mix(octets_varint_parse_len((uint8_t)next()));
    } else if (which == 31) {
        say_status();
    } else if (which == 0) {
        mix(octets_version());
    } else if (which <= 7) {
        read_number();
    } else if (which <= 12 || which == 28) {
        read_run();
    } else if (which <= 19) {
        write_number();
    } else if (which == 20 || which == 23 || which == 27 || which == 29) {
        write_value();
    } else if (which <= 22) {
        count_text();
    } else if (which == 24) {
        next_piece();
    } else if (which >= 32) {
        decode_piece();
    } else {
        read_value();
    }
}

int main(int argc, char **argv) {
    uint64_t seed = argc > 1 ? strtoull(argv[1], NULL, 10) : 1;
    long calls = argc > 2 ? atol(argv[2]) : 10000;
    int only = argc > 3 ? atoi(argv[3]) : -1;
    for (which = 0; which < EXPORTS; which++) {
        if (only >= 0 && which != only) {
            continue;
        }
        state = seed * 1000003 + (uint64_t)which * 7919;
        hash = 0;
        going = false;
        memset(statuses, 0, sizeof statuses);
        for (long i = 0; i < calls; i++) {
            call();
        }
        printf("%2d %08lx%08lx", which, (unsigned long)(hash >> 32),
               (unsigned long)(hash & 0xffffffff));
        for (int s = 0; s < 7; s++) {
            printf(" %lu", statuses[s]);
        }
        printf("\n");
    }
    return 0;
}
