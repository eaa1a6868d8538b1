#include <stdio.h>
#include "pirukames.h"

int main(void) {
    const uint8_t image[] = {0x0E, 0x94, 0x34, 0x12, 0x03, 0x90, 0xFF};
    uint8_t out[18 * sizeof image];
    uint64_t answer = avr_list(image, sizeof image, 0, out, sizeof out);
    if (answer >> 32) return (int)(answer >> 32);   /* the refusal's number */
    fwrite(out, 1, (uint32_t)answer, stdout);
    return 0;
}
