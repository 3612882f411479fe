/* Eight threads run at the same time. Each thread writes packets into its own buffer and reads them
 * back, and all threads read one shared value. The program prints the line and the thread of each
 * result that isn't the expected one, and then how many checks passed and failed. */
#include <pthread.h>
#include <stdio.h>
#include <string.h>

#include "octets.h"

#define THREADS 8
#define ROUNDS 200

static const uint8_t shared[] = "WWW.example.com";

typedef struct worker {
    uint64_t number;
    int passed, failed;
} worker;

static void check(worker *self, bool holds, int line) {
    if (holds) {
        self->passed++;
    } else {
        self->failed++;
        printf("threads.c:%d: wrong result in thread %d\n", line, (int)self->number);
    }
}

#define CHECK(holds) check(self, holds, __LINE__)

/* Writes a kind, a number as a varint, and the shared value as a string literal, and returns the
 * packet's length. */
static size_t write_packet(worker *self, uint64_t number, uint8_t *packet, size_t packet_len) {
    size_t off = 0;
    CHECK(octets_put_u8(packet, packet_len, &off, (uint8_t)self->number) == OCTETS_DONE);
    CHECK(octets_put_varint(packet, packet_len, &off, number) == OCTETS_DONE);
    CHECK(octets_put_string(packet, packet_len, &off, shared, 15, true) == OCTETS_DONE);
    return off;
}

/* Reads what write_packet wrote, and checks that nothing follows. */
static void read_packet(worker *self, uint64_t number, const uint8_t *packet, size_t packet_len) {
    uint8_t kind = 0, name[15] = {0};
    uint64_t read = 0;
    size_t off = 0, len = 0;
    CHECK(octets_get_u8(packet, packet_len, &off, &kind) == OCTETS_DONE && kind == self->number);
    CHECK(octets_get_varint(packet, packet_len, &off, &read) == OCTETS_DONE && read == number);
    CHECK(octets_get_string(packet, packet_len, &off, name, 15, &len) == OCTETS_DONE && len == 15);
    CHECK(off == packet_len && memcmp(name, "www.example.com", 15) == 0);
    CHECK(octets_get_u8(packet, packet_len, &off, &kind) == OCTETS_SHORT);
}

/* Writes the Huffman encoding of the shared value at once, compares it with the pieces of
 * octets_next_piece, and decodes it. */
static void write_text(worker *self) {
    uint8_t text[12] = {0}, piece[8] = {0}, name[15] = {0};
    octets_place place = {0, 0, 0, 0};
    size_t off = 0, all = 0, len = 0;
    CHECK(octets_put_huffman_encoded(text, 12, &off, shared, 15, true) == OCTETS_DONE && off == 12);
    do {
        CHECK(octets_next_piece(shared, 15, true, &place, &piece, &len) == OCTETS_DONE);
        CHECK(len <= 12 - all && memcmp(text + all, piece, len) == 0);
        all += len;
    } while (len > 0 && all < 12);
    off = 0;
    CHECK(octets_get_huffman_decoded(text, 12, &off, name, 15, &len) == OCTETS_DONE && len == 15);
    CHECK(memcmp(name, "www.example.com", 15) == 0);
}

static void *work(void *argument) {
    worker *self = (worker *)argument;
    for (uint64_t round = 0; round < ROUNDS; round++) {
        uint8_t packet[64] = {0};
        uint64_t number = self->number << (round % 56);
        read_packet(self, number, packet, write_packet(self, number, packet, sizeof packet));
        write_text(self);
    }
    return NULL;
}

int main(void) {
    pthread_t threads[THREADS];
    worker workers[THREADS];
    int passed = 0, failed = 0;
    for (size_t i = 0; i < THREADS; i++) {
        workers[i].number = i + 1;
        workers[i].passed = workers[i].failed = 0;
        if (pthread_create(&threads[i], NULL, work, &workers[i]) != 0) {
            return 1;
        }
    }
    for (size_t i = 0; i < THREADS; i++) {
        pthread_join(threads[i], NULL);
        passed += workers[i].passed;
        failed += workers[i].failed;
    }
    printf("%d passed, %d failed\n", passed, failed);
    return failed != 0;
}
