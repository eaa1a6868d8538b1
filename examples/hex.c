/* Lists a file of Intel HEX: hex < night.hex */
#include <stdio.h>
#include "pirukames.h"

static uint8_t text[1 << 20], image[1 << 16], out[18 << 16];

int main(void) {
    size_t length = fread(text, 1, sizeof text, stdin);
    uint64_t answer = avr_read_hex(text, length, image, sizeof image);
    if (answer >> 32) {
        fprintf(stderr, "refusal %u, line %u\n", (unsigned)(answer >> 32), (unsigned)answer);
        return 1;
    }
    answer = avr_list(image, (uint32_t)answer, 0, out, sizeof out);
    fwrite(out, 1, (uint32_t)answer, stdout);
    return 0;
}
