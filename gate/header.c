/* Checks octets.h: the macros by their values and types, when this is compiled; then the texts of all statuses, the
 * bounds, and the starts of runs. c/examples/calls.c tries the calls. Only the first part is compiled for 32 bits, where
 * there is no C library. gate/header writes declared.inc, in which each function that the library has is used and
 * declared once more. */
#include "octets.h"

#ifdef __cplusplus
#define HOLDS(what) static_assert(what, #what)
template <typename A, typename B> struct same { enum { holds = 0 }; };
template <typename A> struct same<A, A> { enum { holds = 1 }; };
#define IS_OF(what, type) HOLDS((same<decltype(what), type>::holds && sizeof(what) == sizeof(type)))
HOLDS(__is_enum(octets_status));
#else
#define HOLDS(what) _Static_assert(what, #what)
#define IS_OF(what, type) HOLDS(_Generic((what), type: 1, default: 0))
HOLDS(_Generic(OCTETS_VERSION, int: 1, default: 0));
HOLDS(_Generic(&OCTETS_RELEASE, char(*)[sizeof OCTETS_RELEASE]: 1, default: 0));
HOLDS(_Generic(&OCTETS_COMMIT, char(*)[sizeof OCTETS_COMMIT]: 1, default: 0));
HOLDS(_Generic(&OCTETS_KIT, char(*)[sizeof OCTETS_KIT]: 1, default: 0));
HOLDS(_Generic((octets_status)0, uint8_t: 1, default: 0));
#endif

#define IS_SIZE(what) IS_OF(what, size_t)
#include "declared.inc"

/* Of type size_t, whether the argument is narrower than that or, at 32 bits, wider. */
#define ARE_SIZES(n) \
    IS_SIZE(OCTETS_SIZE(n)); \
    IS_SIZE(OCTETS_TEXT_MOST(n)); \
    IS_SIZE(OCTETS_VALUE_MOST(n)); \
    IS_SIZE(OCTETS_LITERAL_MOST(n))
ARE_SIZES(1);
ARE_SIZES((uint8_t)1);
ARE_SIZES(UINT64_C(1));

/* The greatest number of bytes for which the macros hold; and by how much they exceed it, each counted without a wrap. */
#define END (SIZE_MAX / 4)
HOLDS(OCTETS_TEXT_MOST(END) == SIZE_MAX - 3);
HOLDS(OCTETS_TEXT_MOST(END - 1) == SIZE_MAX - 7);
HOLDS(OCTETS_VALUE_MOST(END) == END + END / 5 * 3 + END % 5 * 3 / 5);
HOLDS(OCTETS_VALUE_MOST(END - 4) == END - 4 + (END - 4) / 5 * 3 + (END - 4) % 5 * 3 / 5);
HOLDS(OCTETS_LITERAL_MOST(END) == END + 6);
HOLDS(OCTETS_TEXT_MOST(0) == 0 && OCTETS_VALUE_MOST(0) == 0 && OCTETS_LITERAL_MOST(0) == 6);
HOLDS(OCTETS_VALUE_MOST(1) == 1 && OCTETS_VALUE_MOST(2) == 3 && OCTETS_VALUE_MOST(3) == 4);
HOLDS(OCTETS_VALUE_MOST(4) == 6 && OCTETS_VALUE_MOST(5) == 8 && OCTETS_VALUE_MOST(6) == 9);
HOLDS(OCTETS_VALUE_MOST(7) == 11 && OCTETS_VALUE_MOST(8) == 12 && OCTETS_VALUE_MOST(9) == 14);

/* An int, whose own sums end at INT_MAX; and numbers of 32 bits, whose sums wrap. */
#define ONE_GIGABYTE 0x3fffffff
HOLDS(OCTETS_TEXT_MOST(ONE_GIGABYTE) == SIZE_MAX % 0x100000000 - 3);
HOLDS(OCTETS_VALUE_MOST(ONE_GIGABYTE) == 1717986916);
HOLDS(OCTETS_LITERAL_MOST(ONE_GIGABYTE) == 1073741829);
#if SIZE_MAX > 0xffffffff
HOLDS(OCTETS_TEXT_MOST(0x7fffffff) == 8589934588 && OCTETS_TEXT_MOST(0xffffffff) == 17179869180);
HOLDS(OCTETS_VALUE_MOST(0x7fffffff) == 3435973835 && OCTETS_VALUE_MOST(0xffffffff) == 6871947672);
HOLDS(OCTETS_LITERAL_MOST(0x7fffffff) == 2147483653 && OCTETS_LITERAL_MOST(0xffffffff) == 4294967301);
#endif

/* Expressions whose operators bind less than those of the macros, as arguments and around them. */
HOLDS(OCTETS_TEXT_MOST(1 | 2) == 12 && OCTETS_TEXT_MOST(1 ? 2 : 3) == 8 && OCTETS_TEXT_MOST(1 + 1) == 8);
HOLDS(OCTETS_VALUE_MOST(5 | 2) == 11 && OCTETS_VALUE_MOST(1 ? 7 : 3) == 11 && OCTETS_VALUE_MOST(4 + 3) == 11);
HOLDS(OCTETS_LITERAL_MOST(1 | 2) == 9 && OCTETS_LITERAL_MOST(1 ? 2 : 3) == 8 && OCTETS_LITERAL_MOST(1 << 1) == 8);
HOLDS(OCTETS_SIZE(1 ? -1 : 0) == SIZE_MAX && sizeof OCTETS_SIZE(1)[""] == 1 && sizeof OCTETS_NO_BYTES[0] == 1);
HOLDS(24 / OCTETS_TEXT_MOST(2) == 3 && 22 / OCTETS_VALUE_MOST(7) == 2 && 2 * OCTETS_LITERAL_MOST(1) == 14);
HOLDS(2 * OCTETS_VERSION / OCTETS_VERSION == 2 && -OCTETS_VERSION < 0);
#if OCTETS_VERSION < 1
#error OCTETS_VERSION has to be a number
#endif
HOLDS(sizeof("" OCTETS_RELEASE "") >= 6 && sizeof("" OCTETS_COMMIT "") > 1 && sizeof("" OCTETS_KIT "") > 1);
HOLDS(sizeof(octets_run) == 2 * sizeof(size_t) && sizeof(octets_status) == 1);

#if __STDC_HOSTED__
#include <stdio.h>
#include <string.h>

static int passed, failed;

static void check(const char *what, bool holds) {
    if (holds) {
        passed++;
    } else {
        failed++;
        printf("header.c: this doesn't hold: %s\n", what);
    }
}

/* Each status has its name, and a text that no other has; every other number has the same text. */
static void texts(void) {
    const char *const names[] = {"OCTETS_DONE", "OCTETS_SHORT", "OCTETS_OVERLONG", "OCTETS_UNFIT", "OCTETS_LONG",
        "OCTETS_NOT_TEXT", "OCTETS_NO_ROOM"};
    const octets_status statuses[] = {OCTETS_DONE, OCTETS_SHORT, OCTETS_OVERLONG, OCTETS_UNFIT, OCTETS_LONG, OCTETS_NOT_TEXT,
        OCTETS_NO_ROOM};
    for (int at = 0; at < 256; at++) {
        const char *text = octets_status_text((octets_status)at), *name = octets_status_name((octets_status)at);
        bool is_other = at >= 7;
        check("the text of another number", (strcmp(text, "unknown status") == 0) == is_other);
        check("the name of a status", strcmp(name, is_other ? "unknown status" : names[at]) == 0);
        check("the number of a name", is_other || (int)statuses[at] == at);
        for (int other = 0; other < at && !is_other; other++) {
            check("a text of its own", strcmp(text, octets_status_text((octets_status)other)) != 0);
        }
    }
    check("a text of a short buffer and of a long encoding",
        strstr(octets_status_text(OCTETS_SHORT), "remain") && strstr(octets_status_text(OCTETS_SHORT), "encoding"));
}

/* The greatest number and the greatest length, and one more. The six bytes of each literal have its length (RFC 7541,
 * section 5.1): 127 + 0 + 127 * 128 + 127 * 128^2 + 127 * 128^3 + 15 * 128^4 is 2^32 - 1 if the second byte has a 0. */
static void bounds(void) {
    const uint8_t most[] = {0x7f, 0x80, 0xff, 0xff, 0xff, 0x0f}, more[] = {0x7f, 0x81, 0xff, 0xff, 0xff, 0x0f};
    uint8_t out[8] = {0};
    size_t off = 0, len = 0;
    check("the greatest varint", octets_put_varint(out, 8, &off, OCTETS_VARINT_MAX) == OCTETS_DONE);
    check("one that is greater", octets_put_varint(out, 8, &off, OCTETS_VARINT_MAX + 1) == OCTETS_UNFIT);
    check("the width of both", octets_varint_len(OCTETS_VARINT_MAX) == 8 && octets_varint_len(OCTETS_VARINT_MAX + 1) == 0);
    off = 0;
    check("the greatest length", octets_get_string(most, 6, &off, out, 8, &len) == OCTETS_SHORT);
    check("one that is greater", octets_get_string(more, 6, &off, out, 8, &len) == OCTETS_LONG);
    check("both as numbers", OCTETS_LITERAL_MAX == 0xffffffff && OCTETS_LITERAL_MAX + UINT64_C(1) > OCTETS_LITERAL_MAX);
}

#ifdef __cplusplus
/* A pointer that counts the additions to it. */
struct counted {
    size_t added, additions;
    counted operator+(size_t more) const { return {added + more, additions + 1}; }
};

static void additions(void) {
    const octets_run none = {0, 9}, some = {3, 9};
    const counted start = {0, 0};
    check("no addition for a run at the start", OCTETS_RUN_START(start, none).additions == 0);
    check("one for another", OCTETS_RUN_START(start, some).added == 3);
}
#else
static void additions(void) {}
#endif

/* Expressions whose operators bind less than those of the macro, as arguments and around it. */
static void starts(void) {
    uint8_t bytes[4] = {1, 2, 3, 4}, *none = NULL;
    const octets_run runs[] = {{0, 4}, {2, 2}}, *at = runs;
    check("the start of no bytes", OCTETS_RUN_START(none, runs[0]) == NULL);
    check("its arguments", *OCTETS_RUN_START(at == runs ? bytes : none, *(at + 1)) == 3);
    check("a start", OCTETS_RUN_START(bytes + 1, *at)[1] == 3 && *OCTETS_RUN_START(bytes, *at) == 1);
    *OCTETS_RUN_START(bytes, runs[1]) = 9;
    check("the byte at it", bytes[2] == 9);
    additions();
}

int main(void) {
    texts();
    char release[48];
    snprintf(release, sizeof release, "%d.%d.%d+%d", OCTETS_VERSION / 1000000, OCTETS_VERSION / 10000 % 100,
        OCTETS_VERSION / 100 % 100, OCTETS_VERSION % 100);
    check("the version", octets_version() == OCTETS_VERSION && strcmp(OCTETS_RELEASE, release) == 0);
    check("a pointer to no bytes", OCTETS_SIZE(2.5) == 2 && OCTETS_NO_BYTES != NULL);
    bounds();
    starts();
    printf("%d passed, %d failed\n", passed, failed);
    return failed != 0;
}
#endif
