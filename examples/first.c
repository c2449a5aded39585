#include "cellfacet.h"
#include <stdio.h>

int main(void)
{
    const uint8_t bytes[] = {0, 0, 0, 0, 0, 9};
    uint64_t answer = cellfacet_check(bytes, sizeof bytes);
    printf("%u at %u\n", (unsigned)cellfacet_number(answer), (unsigned)cellfacet_place(answer));
}
