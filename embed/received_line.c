/* Writes a Received-SPF line or reads one back, through talavorn.h: reads a result's word, the
 * client, the sender, the HELO name, the receiver and the identity from standard input, a line
 * each, and prints the line, or `refused` and a number; `input` where it cannot read one of them.
 * An input that begins with `Received-SPF:` is read back to these six lines, or is refused. What it
 * prints is what the proved program received_line prints. */
#include <stdio.h>

#include "talavorn.h"

/* Takes a line off the front of what is left; one that is missing is empty. */
static struct talavorn_view take_line(struct talavorn_view *rest)
{
    const char *at = rest->at, *end = rest->len ? memchr(at, '\n', rest->len) : NULL;
    size_t len = end ? (size_t)(end - at) : rest->len, taken = end ? len + 1 : len;
    *rest = talavorn_bytes(at + taken, rest->len - taken);
    return talavorn_bytes(at, len);
}

static int is(struct talavorn_view s, const char *word)
{
    return s.len == strlen(word) && (s.len == 0 || memcmp(s.at, word, s.len) == 0);
}

/* The number of a result's word; 7 for any other. */
static unsigned number_of(struct talavorn_view word)
{
    unsigned number = TALAVORN_NONE;
    while (number < TALAVORN_WANTING && !is(word, talavorn_result_name(number)))
        number++;
    return number;
}

static void write_six(struct talavorn_view rest)
{
    struct talavorn_view word = take_line(&rest), client = take_line(&rest);
    struct talavorn_view sender = take_line(&rest), helo = take_line(&rest);
    struct talavorn_view receiver = take_line(&rest), identity = take_line(&rest);
    unsigned result = number_of(word);
    uint8_t octets[16], line[1500], number;
    size_t family = talavorn_read_address(client.at, client.len, octets), size;
    if (result == TALAVORN_WANTING || family == 0
        || (!is(identity, "mailfrom") && !is(identity, "helo")) || rest.len) {
        puts("input");
        return;
    }
    number = talavorn_write_line(
        (uint8_t)result, octets, family, sender.at, sender.len, helo.at, helo.len,
        receiver.at, receiver.len, is(identity, "helo") ? TALAVORN_IDENTITY_HELO
                                                        : TALAVORN_IDENTITY_MAILFROM,
        line, sizeof line, &size);
    if (number)
        printf("refused %u\n", number);
    else
        fwrite(line, 1, size, stdout);
}

static void read_back(struct talavorn_view line)
{
    static const unsigned order[] = { TALAVORN_LINE_CLIENT, TALAVORN_LINE_SENDER,
                                      TALAVORN_LINE_HELO, TALAVORN_LINE_RECEIVER,
                                      TALAVORN_LINE_IDENTITY };
    size_t values[TALAVORN_LINE_VALUES];
    uint8_t number = talavorn_read_line(line.at, line.len, values);
    char value[321];
    if (number) {
        printf("refused %u\n", number);
        return;
    }
    puts(talavorn_result_name((unsigned)values[TALAVORN_LINE_RESULT]));
    for (size_t i = 0; i < sizeof order / sizeof *order; i++) {
        talavorn_line_value(line.at, values, order[i], value);
        puts(value);
    }
}

int main(void)
{
    static const char name[] = "Received-SPF:";
    static char input[4097];
    size_t n = fread(input, 1, sizeof input, stdin);
    struct talavorn_view all = talavorn_bytes(input, n);
    if (sizeof name - 1 <= n && memcmp(input, name, sizeof name - 1) == 0)
        read_back(all);
    else if (n == sizeof input)
        puts("input");
    else
        write_six(all);
    return 0;
}
