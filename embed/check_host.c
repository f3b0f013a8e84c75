/* Checks a client, through talavorn.h: reads client, domain, sender, HELO, receiver and t from
 * standard input, a line each, then the answer table, and prints number, kind or place, both counts
 * and the lifetime on a line, and for 3 and 7 the text or name on a second. For a fail the number,
 * the kind and what stands on the second line are those of the second call. A client or t that
 * cannot be read prints `input`. What it prints is what the proved program check_host prints. */
#include <stdio.h>
#include <stdlib.h>

#include "talavorn.h"

struct bytes {
    const uint8_t *at;
    size_t len;
};

/* All of standard input. */
static struct bytes read_all(void)
{
    size_t len = 0, room = 1 << 16;
    uint8_t *all = malloc(room);
    while (all) {
        size_t got = fread(all + len, 1, room - len, stdin);
        if (got == 0)
            break;
        len += got;
        if (len == room) {
            uint8_t *more = realloc(all, room * 2);
            if (!more) {
                free(all);
                all = NULL;
                break;
            }
            all = more;
            room *= 2;
        }
    }
    if (!all || ferror(stdin)) {
        fputs("check_host: standard input cannot be read\n", stderr);
        exit(1);
    }
    return (struct bytes){ all, len };
}

/* Takes a line off the front of what is left; one that is missing is empty. */
static struct bytes take_line(struct bytes *rest)
{
    struct bytes line = { rest->at, 0 };
    while (line.len < rest->len && rest->at[line.len] != '\n')
        line.len++;
    size_t taken = line.len < rest->len ? line.len + 1 : line.len;
    rest->at += taken;
    rest->len -= taken;
    return line;
}

/* A decimal number below 2^64, leading zeros allowed. */
static int read_number(struct bytes s, uint64_t *value)
{
    *value = 0;
    for (size_t i = 0; i < s.len; i++) {
        if (s.at[i] < '0' || '9' < s.at[i])
            return 0;
        unsigned digit = s.at[i] - 48u;
        if (*value > (UINT64_MAX - digit) / 10)
            return 0;
        *value = *value * 10 + digit;
    }
    return s.len != 0;
}

static struct talavorn_view view(struct bytes s)
{
    return talavorn_bytes(s.at, s.len);
}

static void check(struct bytes rest)
{
    struct bytes client = take_line(&rest), domain = take_line(&rest), sender = take_line(&rest);
    struct bytes helo = take_line(&rest), receiver = take_line(&rest), t = take_line(&rest);
    uint8_t octets[16];
    uint64_t seconds;
    size_t family = talavorn_read_address(client.at, client.len, octets);
    if (family == 0 || !read_number(t, &seconds)) {
        puts("input");
        return;
    }
    struct talavorn_mail mail = {
        .client = talavorn_bytes(octets, family),
        .domain = view(domain),
        .sender = view(sender),
        .helo = view(helo),
        .receiver = view(receiver),
        .seconds = seconds,
    };
    char text[501];
    struct talavorn_answer result = talavorn_check(&mail, rest.at, rest.len), a = result;
    if (result.number == TALAVORN_FAIL)
        a = talavorn_fail_text(&mail, &result, rest.at, rest.len, text);
    printf("%u ", a.number);
    if (a.number == TALAVORN_WANTING)
        printf("%u", a.kind);
    else if (a.number == TALAVORN_BAD_ENTRY || a.number == TALAVORN_REPEATED_ENTRY)
        printf("%zu", a.place);
    else
        putchar('.');
    printf(" %u %u %lu\n", a.lookups, a.voids, (unsigned long)a.lifetime);
    if (a.number == TALAVORN_FAIL)
        puts(text);
    if (a.number == TALAVORN_WANTING)
        puts(a.name);
}

int main(void)
{
    struct bytes input = read_all();
    check(input);
    free((void *)input.at);
    return 0;
}
