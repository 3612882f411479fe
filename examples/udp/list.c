#include "udp_c.h"
#include <stdio.h>

int main(void) {
    const uint8_t buffer[] = {1, 2, 0xaa, 0xbb, 9, 0};
    size_t off = 0;
    Record next = {0};

    while (off < sizeof buffer) {
        if (next_record(buffer, sizeof buffer, &off, &next) != UDP_DONE) {
            return 1;
        }
        printf("kind %u with %zu bytes at %zu\n", next.kind, next.len, next.from);
    }
    return 0;
}
