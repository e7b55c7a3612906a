/* The README's example in C: packs two positions that a single float cannot tell apart, and compares their bodies. */
#include <stdio.h>
#include <string.h>
#include "hulgyevan.h"

int main(void)
{
    const uint8_t contents[] = "\1\13########.##";
    uint8_t first[5], second[5];
    uint64_t position;
    size_t size;

    if (hulgyevan_from_steps(false, 16777216, &position) != 0 ||
        hulgyevan_pack(contents, sizeof contents - 1, &position, 1, first, 5, &size) != 0 ||
        hulgyevan_convert((const uint8_t *)"16777216.25", 11, &position) != 0 ||
        hulgyevan_pack(contents, sizeof contents - 1, &position, 1, second, 5, &size) != 0)
        return 1;
    puts(memcmp(first, second, size) < 0 ? "in order" : "out of order");
    return 0;
}
