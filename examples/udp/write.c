#include "udp_c.h"
#include <stdio.h>

int main(void) {
    const uint8_t value[] = {0xaa, 0xbb};
    uint8_t buffer[8] = {0};
    size_t len = 0;

    if (write_record(buffer, sizeof buffer, &len, 1, value, sizeof value) != UDP_DONE) {
        return 1;
    }
    for (size_t i = 0; i < len; i++) {
        printf("%02x", buffer[i]);
    }
    printf("\n");
    return 0;
}
