/* The sample of each level, by the exported call: 0 and 255 stay, 39 is 95, and nothing is written beside the 256 bytes.
 * `tests/c_interface` builds and runs it. */
#include "dofnihet.h"

#include <stdio.h>
#include <string.h>

#define OLD 0xEE

int main(void)
{
    uint8_t samples[258];
    memset(samples, OLD, sizeof samples);
    dofnihet_screen_table(samples + 1);
    const uint8_t shown[] = {0, 1, 4, 5, 29, 39, 52, 255};
    printf("screen: %02X", samples[0]);
    for (size_t i = 0; i < sizeof shown; i++)
        printf(" %d", samples[1 + shown[i]]);
    printf(" %02X\n", samples[257]);
    return 0;
}
