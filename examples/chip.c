// Uses the macros of chip.h. From the folder of the repository,
//
//     cc -std=c99 -Wall -Wextra -pedantic examples/chip.c -o /tmp/chip && /tmp/chip
//
// prints
//
//     pll after a reset: 0x20028
//     pll enabled, times 50: 0x100020032
//     mode of channel 3 of timer 2: at 0x42B0
//     revision: 2
#include <inttypes.h>
#include <stdint.h>
#include <stdio.h>

#include "chip.h"

int main(void)
{
    // After a reset each field has its reset at its place. A reset is cast before the shift: 0x28 alone is an int.
    uint64_t pll = (uint64_t)chip__system__pll__multiply_reset << chip__system__pll__multiply_bp
        | (uint64_t)chip__system__pll__divide_reset << chip__system__pll__divide_bp;
    printf("pll after a reset: 0x%" PRIX64 "\n", pll);

    // A field gets another value. A mask is cast before ~, which else may clear the upper half of the register.
    pll &= ~(uint64_t)chip__system__pll__multiply_bm;
    pll |= (uint64_t)50 << chip__system__pll__multiply_bp;
    pll |= (uint64_t)chip__system__pll__enable_bm;
    printf("pll enabled, times 50: 0x%" PRIX64 "\n", pll);

    // In an element of an array a register stands at the array's base, so many strides on, and its own offset.
    uint64_t mode = chip__timer2__channels_base + 3 * (uint64_t)chip__timer2__channels_stride
        + chip__timer2__channels__mode_offset;
    printf("mode of channel 3 of timer 2: at 0x%" PRIX64 "\n", mode);

    // A register of 128 bits is read as four words, the lowest first, and a field of it has a mask for each.
    uint32_t id[4] = {0x00401A2B, 0x00000702, 0, 0};
    uint32_t revision = (id[1] & chip__system__id__revision_bm1) >> (chip__system__id__revision_bp - 32);
    printf("revision: %" PRIu32 "\n", revision);
    return 0;
}
