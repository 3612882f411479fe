/* Times octets_get_huffman_decoded and nghttp2's decoder on the same encodings, and prints a table in Markdown.
 *
 * A row has the bytes of one kind. A column has the length of the values: the least of several rounds of 1,000 decodes,
 * one after the other, and then the median of single decodes, each after 256 KB of other memory was read and written.
 * In these the encoding is copied to its place just before the decode, like one that has just arrived. Each cell has our
 * time divided by that of nghttp2.
 */
#include <octets.h>
#include <stdio.h>
#include <stdlib.h>
#include <string.h>
#include <time.h>

/* nghttp2's public header doesn't declare the decoder. These are the structures of its files nghttp2_hd_huffman.h and
 * nghttp2_buf.h. */
typedef struct { uint64_t state[2]; } context;
typedef struct { uint8_t *begin, *end, *pos, *last, *mark; } buffer;
void nghttp2_hd_huff_decode_context_init(context *);
ptrdiff_t nghttp2_hd_huff_decode(context *, buffer *, const uint8_t *, size_t, int);

enum { VALUES = 1000, ROUNDS = 60, SINGLE = 3001, OTHER = 256 << 10 };

typedef struct { uint8_t text[VALUES][1024]; size_t text_len[VALUES]; size_t len; } values;
static values all;
static uint8_t out[4096], other[OTHER];

static uint64_t next_random(void) {
    static uint64_t x = 88172645463325252u;
    x ^= x << 13, x ^= x >> 7, x ^= x << 17;
    return x >> 24;
}

static double now(void) {
    struct timespec t;
    clock_gettime(CLOCK_MONOTONIC, &t);
    return (double)t.tv_sec * 1e9 + (double)t.tv_nsec;
}

/* Encodes random values of these bytes, or of all 256 bytes if no bytes are given. */
static void make(const char *bytes, size_t len) {
    uint8_t value[256];
    all.len = len;
    for (size_t i = 0; i < VALUES; i++) {
        for (size_t j = 0; j < len; j++)
            value[j] = *bytes ? (uint8_t)bytes[next_random() % strlen(bytes)] : (uint8_t)next_random();
        size_t off = 0;
        if (octets_put_huffman_encoded(all.text[i], sizeof all.text[i], &off, value, len, false) != OCTETS_DONE) abort();
        all.text_len[i] = off;
    }
}

typedef size_t decode_call(const uint8_t *text, size_t len);

static size_t ours(const uint8_t *text, size_t text_len) {
    size_t off = 0, len = 0;
    octets_status status = octets_get_huffman_decoded(text, text_len, &off, out, sizeof out, &len);
    return status == OCTETS_DONE ? len : SIZE_MAX;
}

static size_t theirs(const uint8_t *text, size_t text_len) {
    context decoder;
    buffer to = {out, out + sizeof out, out, out, out};
    nghttp2_hd_huff_decode_context_init(&decoder);
    ptrdiff_t read = nghttp2_hd_huff_decode(&decoder, &to, text, text_len, 1);
    return read < 0 ? SIZE_MAX : (size_t)(to.last - out);
}

static double hot(decode_call *decode) {
    double began = now();
    for (size_t i = 0; i < VALUES; i++)
        if (decode(all.text[i], all.text_len[i]) != all.len) abort();
    return now() - began;
}

static double once(decode_call *decode, size_t i) {
    static uint8_t arrived[1024];
    size_t len = all.text_len[i];
    for (size_t at = 0; at < OTHER; at += 64) other[at]++;
    memcpy(arrived, all.text[i], len);
    double began = now();
    if (decode && decode(arrived, len) != all.len) abort();
    return now() - began;
}

static int compare(const void *a, const void *b) { return (*(double *)a > *(double *)b) - (*(double *)a < *(double *)b); }

static double median(double *times) {
    qsort(times, SINGLE, sizeof *times, compare);
    return times[SINGLE / 2];
}

static double least_ratio(void) {
    double best[2] = {1e18, 1e18};
    for (int round = 0; round < ROUNDS; round++)
        for (int which = 0; which < 2; which++) {
            double time = hot(which ? theirs : ours);
            if (time < best[which]) best[which] = time;
        }
    return best[0] / best[1];
}

/* Returns our median time after other work, divided by that of nghttp2. The time of the clock itself is subtracted. */
static double ratio_after_work(void) {
    static double times[3][SINGLE];
    for (size_t i = 0; i < SINGLE; i++) {
        times[0][i] = once(ours, i % VALUES);
        times[1][i] = once(theirs, i % VALUES);
        times[2][i] = once(NULL, i % VALUES);
    }
    double clock = median(times[2]);
    return (median(times[0]) - clock) / (median(times[1]) - clock);
}

int main(void) {
    static const char *const KINDS[][2] = {
        {"header text, lower case", "abcdefghijklmnopqrstuvwxyz0123456789-/.:;= "},
        {"upper case", "ABCDEFGHIJKLMNOPQRSTUVWXYZ"},
        {"base64", "ABCDEFGHIJKLMNOPQRSTUVWXYZabcdefghijklmnopqrstuvwxyz0123456789+/"},
        {"digits", "0123456789"},
        {"punctuation", "!\"#$%&'()*+,-./:;<=>?@[]^_`{|}~"},
        {"any bytes", ""},
    };
    static const size_t LENGTHS[] = {1, 2, 3, 4, 5, 6, 7, 8, 12, 24, 200};
    printf("| What |");
    for (size_t j = 0; j < sizeof LENGTHS / sizeof *LENGTHS; j++) printf(" To %zu |", LENGTHS[j]);
    printf("\n");
    for (size_t i = 0; i < sizeof KINDS / sizeof *KINDS; i++) {
        printf("| %s |", KINDS[i][0]);
        for (size_t j = 0; j < sizeof LENGTHS / sizeof *LENGTHS; j++) {
            make(KINDS[i][1], LENGTHS[j]);
            printf(" %.2f; %.2f |", least_ratio(), ratio_after_work());
            fflush(stdout);
        }
        printf("\n");
    }
}
