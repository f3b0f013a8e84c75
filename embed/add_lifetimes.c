/* Rewrites an old answer table, through talavorn.h: reads a table of the layout before W-209 from
 * all of standard input and writes the new table, in which each entry has a lifetime of 0, to
 * standard output: bytes, without a newline. It prints `refused`, number and place for a refusal.
 * What it prints is what the proved program add_lifetimes prints. */
#include <stdio.h>

#include "talavorn.h"

enum { MOST = 65535 };

int main(void)
{
    static uint8_t old[MOST + 1], new_table[MOST]; /* the byte more makes the old one too long */
    size_t n = fread(old, 1, sizeof old, stdin), value;
    uint8_t number = talavorn_add_lifetimes(old, n, new_table, sizeof new_table, &value);
    if (number)
        printf("refused %u at %zu\n", number, value);
    else
        fwrite(new_table, 1, value, stdout);
    return 0;
}
