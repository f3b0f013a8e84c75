/* Times evaluations, explanations, readings of records and rewritings of old tables, through talavorn.h; where libspf2 was there to build with, the
 * same questions through libspf2 over its in-memory zone.
 *
 * bench                      one round: every case once; a line each, with the case's word and the microseconds of one evaluation, ours and libspf2's
 * bench CASE TIMES           one case by its number, so often, and nothing else: for a profiler
 * bench CASE TIMES libspf2   the same through libspf2, cases 1 to 3
 *
 * run.py plays rounds, takes medians, and counts instructions.
 */
#define _POSIX_C_SOURCE 200809L
#include <stdio.h>
#include <stdlib.h>
#include <string.h>
#include <time.h>

#include "../embed/talavorn.h"
#include "libspf2.h"
#include "table.h"

static const double SECONDS = 0.03; /* of processor time that a case takes at least in a round */

/* The reference record, with its answers. */
static const char reference[] = "v=spf1 ip4:192.0.2.0/24 a mx include:b.example -all";
static const uint8_t some_address[4] = { 198, 51, 100, 1 };

static void make_with(struct table *t, const char *record)
{
    static const uint8_t b[4] = { 198, 51, 100, 2 };
    add_text(t, "example.com", record);
    add_entry(t, 1, "example.com");
    add_item(t, some_address, 4);
    add_entry(t, 15, "example.com");
    add_item(t, "\x0a\0mx.example.com", 16);
    add_entry(t, 1, "mx.example.com");
    add_item(t, b, 4);
    add_text(t, "b.example", "v=spf1 ip4:203.0.113.0/24 -all");
}

static void make_reference(struct table *t, int unused)
{
    (void)unused;
    make_with(t, reference);
}

/* The reference record with an explanation, and its text. */
static void make_explained(struct table *t, int unused)
{
    (void)unused;
    make_with(t, "v=spf1 ip4:192.0.2.0/24 a mx include:b.example -all exp=why.%{d}");
    add_text(t, "why.example.com", "%{i} may not send as %{s}: see http://www.%{d}/why");
}

/* Includes that don't match. */
static void make_includes(struct table *t, int count)
{
    char record[400] = "v=spf1", name[32];
    for (int i = 0; i < count; i++)
        sprintf(record + strlen(record), " include:i%d.example", i);
    strcat(record, " -all");
    add_text(t, "example.com", record);
    for (int i = 0; i < count; i++) {
        sprintf(name, "i%d.example", i);
        add_text(t, name, "v=spf1 ip4:203.0.113.0/24 -all");
    }
}

/* A record of so many bytes: networks that don't match, then -all. */
static void make_networks(struct table *t, int size)
{
    static char record[4128];
    size_t at = 6, end = (size_t)size - 5;
    strcpy(record, "v=spf1");
    for (int i = 0; at < end - 20; i++)
        at += (size_t)sprintf(record + at, " ip4:10.1.%d.%d", i / 256, i % 256);
    memset(record + at, ' ', end - at);
    strcpy(record + end, " -all");
    add_text(t, "example.com", record);
}

/* The reference record and so many entries in all; the names differ in three digits. */
static void make_entries(struct table *t, int count)
{
    char name[32];
    add_text(t, "example.com", reference);
    for (int i = 0; i < count - 1; i++) {
        sprintf(name, "host%03d.example.com", i);
        add_entry(t, 1, name);
        add_item(t, some_address, 4);
    }
}

/* The marks that the check of a table makes of a pair: crates/answer_table/src/marks.rt. */
static uint32_t digest(uint32_t kind, const char *name)
{
    uint32_t h = kind;
    while (*name)
        h = h * 1664525u + (uint8_t)*name++;
    return h;
}

/* The same, chosen by someone who knows the marks: but for the first 100, both marks of each name are set by those before, so that each is searched for
 * among all before it. */
static void make_hostile(struct table *t, int count)
{
    static char set[16384];
    char name[32];
    memset(set, 0, sizeof set);
    add_text(t, "example.com", reference);
    for (int i = 0, tried = 0; i < count - 1; tried++) {
        sprintf(name, "host%d.example.com", tried);
        uint32_t h = digest(1, name), a = h % 16384, b = h / 262144;
        if (i >= 100 && !(set[a] && set[b]))
            continue;
        set[a] = set[b] = 1;
        add_entry(t, 1, name);
        add_item(t, some_address, 4);
        i++;
    }
}

/* So many mail hosts, of which only the last has an address, that of the client. */
static void make_hosts(struct table *t, int count)
{
    static const uint8_t client[4] = { 10, 0, 0, 1 };
    char host[32] = "\x0a";
    add_text(t, "example.com", "v=spf1 mx -all");
    add_entry(t, 15, "example.com");
    for (int i = 0; i < count; i++)
        add_item(t, host, 2 + (size_t)sprintf(host + 2, "h%d.example.com", i));
    for (int i = 0; i < count; i++) {
        sprintf(host, "h%d.example.com", i);
        add_entry(t, 1, host);
    }
    add_item(t, client, 4);
}

/* The reference record with a bad last term. */
static void make_refused(struct table *t, int unused)
{
    (void)unused;
    add_text(t, "example.com", "v=spf1 ip4:192.0.2.0/24 a mx include:b.example -al");
}

/* The reference record with a bad prefix length. */
static void make_bad_length(struct table *t, int unused)
{
    (void)unused;
    add_text(t, "example.com", "v=spf1 ip4:192.0.2.0/33 a mx include:b.example -all");
}

/* A term of so many bytes, macros and then literals, the first three quarters of which begin a term: of the terms that were tried, the slowest. */
static void make_bad_term(struct table *t, int size)
{
    static char record[4128];
    size_t at = (size_t)sprintf(record, "v=spf1 mx:"), end = 7 + (size_t)size;
    while (at < end / 4 * 3)
        at += (size_t)sprintf(record + at, "%%{d}");
    at += (size_t)sprintf(record + at, "%%y");
    memset(record + at, 'y', end - at);
    add_text(t, "example.com", record);
}

/* A record of so many networks, all different, the largest first. */
static void make_distinct(struct table *t, int count)
{
    static char record[4128];
    size_t at = (size_t)sprintf(record, "v=spf1");
    for (int n = count; n > 0; n--)
        at += (size_t)sprintf(record + at, " ip6:%x::", (unsigned)n);
    sprintf(record + at, " -all");
    add_text(t, "example.com", record);
}

/* The same as make_entries, in the layout without lifetimes. */
static void make_old(struct table *t, int count)
{
    size_t to = 0;
    make_entries(t, count);
    for (size_t at = 0; at < t->size;) {
        size_t size = 2 + t->bytes[at] + 256 * (size_t)t->bytes[at + 1];
        memmove(t->bytes + to, t->bytes + at, 5);
        memmove(t->bytes + to + 5, t->bytes + at + 9, size - 9);
        t->bytes[to] = (uint8_t)((size - 6) % 256);
        t->bytes[to + 1] = (uint8_t)((size - 6) / 256);
        to += size - 4;
        at += size;
    }
    t->size = to;
}

static struct table table, zone;

static int evaluate(int i);
static int explain(int i);
static int play(int i);
static int read_record(int i);
static int house_rules(int i);
static int rewrite(int i);
static int ask_libspf2(int i);

static const struct {
    const char *word, *what;
    void (*make)(struct table *, int);
    int size;
    uint8_t client[4];
    uint8_t number;
    int libspf2;        /* whether libspf2 is asked too */
    int (*call)(int);   /* one evaluation, perhaps with its explanation, all rounds from an empty table, one reading of the record, its breaches, or one
                           rewriting of an old table */
} cases[] = {
    { "first", "first match: pass", make_reference, 0, { 192, 0, 2, 1 }, TALAVORN_PASS, 1, evaluate },
    { "include", "include match: pass", make_reference, 0, { 203, 0, 113, 1 }, TALAVORN_PASS, 1, evaluate },
    { "fail", "final -all: fail", make_reference, 0, { 10, 0, 0, 1 }, TALAVORN_FAIL, 1, evaluate },
    { "includes", "ten includes: fail", make_includes, 10, { 10, 0, 0, 1 }, TALAVORN_FAIL, 0, evaluate },
    { "terms-4096", "4,096 bytes of terms: fail", make_networks, 4096, { 192, 0, 2, 1 }, TALAVORN_FAIL, 0, evaluate },
    { "entries-512", "table of 512 entries: pass", make_entries, 512, { 192, 0, 2, 1 }, TALAVORN_PASS, 0, evaluate },
    { "refused", "refused record: permerror", make_refused, 0, { 192, 0, 2, 1 }, TALAVORN_PERMERROR, 0, evaluate },
    { "terms-1024", "1,024 bytes of terms: fail", make_networks, 1024, { 192, 0, 2, 1 }, TALAVORN_FAIL, 0, evaluate },
    { "terms-2048", "2,048 bytes of terms: fail", make_networks, 2048, { 192, 0, 2, 1 }, TALAVORN_FAIL, 0, evaluate },
    { "entries-64", "table of 64 entries: pass", make_entries, 64, { 192, 0, 2, 1 }, TALAVORN_PASS, 0, evaluate },
    { "entries-128", "table of 128 entries: pass", make_entries, 128, { 192, 0, 2, 1 }, TALAVORN_PASS, 0, evaluate },
    { "entries-256", "table of 256 entries: pass", make_entries, 256, { 192, 0, 2, 1 }, TALAVORN_PASS, 0, evaluate },
    { "hostile-512", "512 entries with chosen marks: pass", make_hostile, 512, { 192, 0, 2, 1 }, TALAVORN_PASS, 0, evaluate },
    { "play-first", "first match, from an empty table", make_reference, 0, { 192, 0, 2, 1 }, TALAVORN_PASS, 0, play },
    { "play-fail", "final -all, from an empty table", make_reference, 0, { 10, 0, 0, 1 }, TALAVORN_FAIL, 0, play },
    { "play-includes", "ten includes, from an empty table", make_includes, 10, { 10, 0, 0, 1 }, TALAVORN_FAIL, 0, play },
    { "play-hosts", "nine hosts gone, from an empty table", make_hosts, 10, { 10, 0, 0, 1 }, TALAVORN_PERMERROR, 0, play },
    { "read-reference", "reference record read: accepted", make_reference, 0, { 0 }, 0, 0, read_record },
    { "read-refused", "refused record read: 32", make_refused, 0, { 0 }, TALAVORN_BAD_TERM, 0, read_record },
    { "read-length", "length of 33 read: 32", make_bad_length, 0, { 0 }, TALAVORN_BAD_TERM, 0, read_record },
    { "read-term", "bad term of 4,000 bytes read: 32", make_bad_term, 4000, { 0 }, TALAVORN_BAD_TERM, 0, read_record },
    { "exp-result", "final -all with exp, the result: fail", make_explained, 0, { 10, 0, 0, 1 }, TALAVORN_FAIL, 0, evaluate },
    { "exp-text", "the same, result and text: fail", make_explained, 0, { 10, 0, 0, 1 }, TALAVORN_FAIL, 0, explain },
    { "house-reference", "reference record, its breaches", make_reference, 0, { 0 }, 0, 0, house_rules },
    { "house-80", "80 networks, their breaches", make_distinct, 80, { 0 }, 0, 0, house_rules },
    { "house-160", "160 networks, their breaches", make_distinct, 160, { 0 }, 0, 0, house_rules },
    { "house-320", "320 networks, their breaches", make_distinct, 320, { 0 }, 0, 0, house_rules },
    { "rewrite-64", "old table of 64 entries: rewritten", make_old, 64, { 0 }, 0, 0, rewrite },
    { "rewrite-512", "old table of 512 entries: rewritten", make_old, 512, { 0 }, 0, 0, rewrite },
};
enum { CASES = sizeof cases / sizeof *cases };

static uint8_t name[253];
static size_t values[TALAVORN_VALUES];

/* The first call. No case wants the text of its fail. */
static int evaluate(int i)
{
#define TEXT(s) (const uint8_t *)(s), sizeof(s) - 1
    return talavorn_evaluate(cases[i].client, 4, TEXT("example.com"), TEXT("user@example.com"), TEXT("mail.example.com"), TEXT("mx.relay.example"), 1700000000,
                             table.bytes, table.size, name, sizeof name, values);
}

/* Both calls: a fail and its text. */
static int explain(int i)
{
    static uint8_t wanted[253], text[500];
    size_t made[TALAVORN_EXPLAIN_VALUES];
    int number = evaluate(i);
    if (number != TALAVORN_FAIL)
        return number;
    number = talavorn_explain(cases[i].client, 4, name, values[TALAVORN_LENGTH], TEXT("user@example.com"), TEXT("mail.example.com"), TEXT("mx.relay.example"),
                              1700000000, table.bytes, table.size, values[TALAVORN_EXP_PLACE], values[TALAVORN_EXP_LENGTH], wanted, sizeof wanted, text,
                              sizeof text, made);
    return made[TALAVORN_EXPLAIN_LENGTH] == 0 ? -1 : number;
}

/* What a relay does that begins with an empty table: it evaluates, asks for what is wanting, adds the answer and evaluates again, up to the result. Its
 * resolver's answers stand in the zone. */
static int play(int i)
{
    int number;
    table.size = 0;
    while ((number = evaluate(i)) == TALAVORN_WANTING)
        if (!copy_entry(&table, &zone, values[TALAVORN_KIND], name, values[TALAVORN_LENGTH]))
            return -1;
    return number;
}

/* The record in the table's first entry: its text stands behind the header, the name and its own length. */
static const uint8_t *first_record(size_t *size)
{
    const uint8_t *text = table.bytes + 10 + table.bytes[9];
    *size = text[0] + 256u * text[1];
    return text + 2;
}

/* Reads that record. */
static int read_record(int i)
{
    size_t size, place;
    const uint8_t *record = first_record(&size);
    (void)i;
    return talavorn_read_record(record, size, &place);
}

/* Holds it against the rules for publishing. */
static int house_rules(int i)
{
    static uint8_t list[TALAVORN_HOUSE_LIST];
    size_t size, breaches;
    const uint8_t *record = first_record(&size);
    (void)i;
    return talavorn_house_rules(TEXT("example.com"), record, size, list, sizeof list, &breaches);
}

/* Rewrites an old table with lifetimes. */
static int rewrite(int i)
{
    size_t value;
    (void)i;
    return talavorn_add_lifetimes(table.bytes, table.size, zone.bytes, sizeof zone.bytes, &value);
}

static int ask_libspf2(int i)
{
    return libspf2_check(cases[i].client, "mail.example.com", "user@example.com");
}

static double now(void)
{
    struct timespec t;
    clock_gettime(CLOCK_PROCESS_CPUTIME_ID, &t);
    return (double)t.tv_sec + (double)t.tv_nsec * 1e-9;
}

/* Microseconds for one of them, over so many seconds at least. */
static double run(int (*call)(int), int i, double seconds)
{
    long done = 0, batch = 1;
    double start = now(), passed;
    do {
        for (long k = 0; k < batch; k++)
            call(i);
        done += batch;
        batch *= 2;
        passed = now() - start;
    } while (passed < seconds);
    return passed / (double)done * 1e6;
}

/* The same, warm. */
static double timed(int (*call)(int), int i)
{
    run(call, i, SECONDS / 3);
    return run(call, i, SECONDS);
}

static int check(const char *who, const char *what, int got, int expected)
{
    if (got == expected)
        return 1;
    fprintf(stderr, "%s answers %d and not %d: %s\n", who, got, expected, what);
    return 0;
}

static void set_up(int i)
{
    struct table *t = cases[i].call == play ? &zone : &table;
    t->size = 0;
    cases[i].make(t, cases[i].size);
}

/* One case, so often, for a profiler. */
static int repeat(int i, long times, int through_libspf2)
{
    set_up(i);
    if (through_libspf2 && !(cases[i].libspf2 && libspf2_open(reference))) {
        fprintf(stderr, "bench: case %d has no libspf2\n", i + 1);
        return 2;
    }
    int (*call)(int) = through_libspf2 ? ask_libspf2 : cases[i].call;
    for (long k = 0; k < times; k++)
        if (!check("bench", cases[i].what, call(i), cases[i].number))
            return 1;
    return 0;
}

/* One case on a line. Each answer is compared before it is timed. */
static int measure(int i, int beside)
{
    set_up(i);
    if (!check("talavorn", cases[i].what, cases[i].call(i), cases[i].number))
        return 1;
    printf("%d\t%s\t%s\t%.4f", i + 1, cases[i].word, cases[i].what, timed(cases[i].call, i));
    if (beside && cases[i].libspf2) {
        if (!check("libspf2", cases[i].what, ask_libspf2(i), cases[i].number))
            return 1;
        printf("\t%.4f", timed(ask_libspf2, i));
    }
    putchar('\n');
    fflush(stdout);
    return 0;
}

int main(int argc, char **argv)
{
    if (argc == 3 || argc == 4) {
        int i = atoi(argv[1]) - 1;
        if (0 <= i && i < CASES)
            return repeat(i, atol(argv[2]), argc == 4);
    }
    if (argc != 1) {
        fprintf(stderr, "usage: bench [CASE TIMES [libspf2]], CASE from 1 to %d\n", CASES);
        return 2;
    }
    int beside = libspf2_open(reference);
    set_up(0);
    run(evaluate, 0, 10 * SECONDS); /* until the processor is awake */
    for (int i = 0; i < CASES; i++)
        if (measure(i, beside) != 0)
            return 1;
    return 0;
}
