/* Holds a record against the house rules, through talavorn.h: reads a domain name from the first
 * line of standard input and the record from all that follows, without one final newline, and
 * prints three lines for each breach: the rule, the place and the rule's words; the record; and `^`
 * under the place. It prints `ok` if there is none, and `refused`, number and place for a refusal.
 * What it prints is what the proved program lint_record prints. */
#include <stdio.h>

#include "talavorn.h"

/* A name, a newline, the longest record that is read and a newline, and a byte that makes it too
 * long: what follows these changes nothing. */
enum { MOST_INPUT = 255 + 1 + 4096 + 1 + 1 };

int main(void)
{
    static char input[MOST_INPUT];
    uint8_t list[TALAVORN_HOUSE_LIST], number;
    size_t n = fread(input, 1, sizeof input, stdin), value;
    const char *newline = memchr(input, '\n', n);
    size_t name = newline ? (size_t)(newline - input) : n, from = newline ? name + 1 : n;
    const char *record = input + from;
    size_t size = n - from;
    if (size && record[size - 1] == '\n')
        size--;
    number = talavorn_house_rules(input, name, record, size, list, sizeof list, &value);
    if (number)
        printf("refused %u at %zu\n", number, value);
    else if (value == 0)
        puts("ok");
    for (size_t i = 0; number == 0 && i < value; i++) {
        struct talavorn_breach b = talavorn_breach_at(list, i);
        printf("%u at %zu: %s\n", b.rule, b.place, talavorn_rule_name(b.rule));
        fwrite(record, 1, size, stdout);
        printf("\n%*s^\n", (int)b.place, "");
    }
    return 0;
}
