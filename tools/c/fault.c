/* A record one byte too short for its length: the library writes past the
 * end, as the caller said that it may. Sanitizers do not see into the library;
 * the byte is then read here, past the buffer. */
#include "espenknoten.h"

#include <stdlib.h>

int main(void) {
    uint8_t *frame = malloc(4);
    int64_t n;
    if (frame == NULL) {
        return 0;
    }
    frame[0] = 0x26;
    frame[1] = 0x01;
    frame[2] = 0x00;
    n = ek_seal(frame, 5, 3);
    if (n == 5 && frame[4] == 0xff) {
        return 0;
    }
    free(frame);
    return 0;
}
