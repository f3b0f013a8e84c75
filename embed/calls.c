/* Makes the calls of talavorn.h, its wrapper's too, and those of cache.h, on arguments whose
 * answers are known, and prints how many were as they should be. */
#include <stdio.h>

#include "cache.h"
#include "talavorn.h"

#define TEXT(s) (s), sizeof(s) - 1

static int right, wrong;

static void expect(int holds, const char *what)
{
    if (holds) {
        right++;
    } else {
        wrong++;
        printf("not as it should be: %s\n", what);
    }
}

static const uint8_t client[4] = { 192, 0, 2, 129 }, network[4] = { 192, 0, 2, 0 };
static const uint8_t client6[16] = { 0x20, 0x01, 0x1d, 0xb8, [15] = 1 }; /* 2001:1db8::1 */
static const uint8_t network6[16] = { 0x20, 0x01, 0x0d, 0xb8, [15] = 1 }; /* 2001:db8::1 */
static const uint8_t mapped[16] = { 0, 0, 0, 0, 0, 0, 0, 0, 0, 0, 255, 255, 192, 0, 2, 129 };

static void records(void)
{
    size_t place;
    expect(talavorn_read_record(TEXT("v=spf1"), &place) == 0 && place == 6, "no terms");
    expect(talavorn_read_record(TEXT("v=spf10 -all"), &place) == TALAVORN_NO_VERSION && place == 0,
           "another version");
    expect(talavorn_read_record(TEXT("v=spf1 ip4:192.0.2.0/33"), &place) == TALAVORN_BAD_TERM
               && place == 22,
           "a length of 33");
    expect(talavorn_read_record(TEXT("v=spf1 ip6:2001:db8::/129 -all"), &place) == TALAVORN_BAD_TERM
               && place == 24,
           "a length of 129");
    expect(talavorn_read_record(TEXT("v=spf1 include: -all"), &place) == TALAVORN_BAD_TERM
               && place == 15,
           "a domain-spec that is missing");
    expect(talavorn_read_record(TEXT("v=spf1 exp=a.b exp=foo"), &place) == TALAVORN_BAD_TERM
               && place == 22,
           "a second exp that is outside the grammar");
    expect(talavorn_read_record(TEXT("v=spf1 redirect=a.example exp=b.example redirect=c.example"),
                                &place) == TALAVORN_REPEATED_TERM
               && place == 40,
           "a second redirect");
}

static void terms(void)
{
    static const char record[] = "v=spf1 mx//64 ip4:192.0.2.0/24 -all exp=why.%{d}";
    static const size_t expected[4][TALAVORN_TERM_VALUES] = {
        { 7, 13, TALAVORN_TERM_MX, '+', 9, 9, 32, 64 },
        { 14, 30, TALAVORN_TERM_IP4, '+', 18, 27, 24, 0 },
        { 31, 35, TALAVORN_TERM_ALL, '-', 35, 35, 0, 0 },
        { 36, 48, TALAVORN_TERM_EXP, 0, 40, 48, 0, 0 },
    };
    size_t values[TALAVORN_TERM_VALUES], at = 6;
    uint8_t octets[16] = { 0 };
    for (int i = 0; i < 4; i++) {
        expect(talavorn_read_term(TEXT(record), at, values, octets) == TALAVORN_TERM
                   && memcmp(values, expected[i], sizeof values) == 0,
               "a term");
        at = values[TALAVORN_TERM_NEXT];
    }
    expect(memcmp(octets, network, 4) == 0 && octets[4] == 0, "the network's octets");
    expect(talavorn_read_term(TEXT(record), at, values, octets) == TALAVORN_END, "the end");
    expect(talavorn_read_term(TEXT(record), 49, values, octets) == TALAVORN_BEYOND_RECORD
               && values[0] == 49,
           "a place beyond the record");
    expect(talavorn_read_term(TEXT("v=spf1 -ip4:192.0.2.0/33"), 8, values, octets)
                   == TALAVORN_BAD_TERM
               && values[0] == 23,
           "a term outside the grammar, read from within");
}

static void expansions(void)
{
    uint8_t out[16];
    size_t size;
#define EXPAND(form, text, room) \
    talavorn_expand(form, TEXT(text), client, 4, TEXT("email.example.com"), \
                    TEXT("strong-bad@email.example.com"), TEXT("h.example"), TEXT(""), TEXT(""), \
                    7, out, room, &size)
#define IS(text) (size == sizeof(text) - 1 && memcmp(out, text, size) == 0)
    expect(EXPAND(0, "%{lr-}", 16) == 0 && IS("bad.strong"), "%{lr-}");
    expect(EXPAND(0, "%{d2r}", 16) == 0 && IS("example.email"), "%{d2r}");
    expect(EXPAND(0, "%{d2r}", 12) == TALAVORN_NO_ROOM && size == 0, "an expansion without room");
    expect(EXPAND(0, "%{t}", 16) == TALAVORN_BAD_MACRO, "t in a domain-spec");
    expect(EXPAND(1, "at %{t}", 16) == 0 && IS("at 7"), "t in an explanation");
    expect(EXPAND(2, "%{d}", 16) == TALAVORN_BAD_FORM, "a form that is none");
    expect(talavorn_expand(0, TEXT("%{i}"), mapped, 16, TEXT("a.b"), TEXT("u@a.b"), TEXT(""),
                           TEXT(""), TEXT(""), 7, out, 16, &size) == 0
               && IS("192.0.2.129"),
           "a mapped client");
}

/* Received-SPF lines: written into the front of a buffer whose other bytes are kept, and read. */
#define FRONT "Received-SPF: pass receiver=mx.example; client-ip="
#define REST "; envelope-from=\"user@example.com\"; helo=mail.example; identity=mailfrom\r\n"
#define ABOUT TEXT("user@example.com"), TEXT("mail.example"), TEXT("mx.example")

static uint8_t written[2000];
static size_t written_size;

static uint8_t write_line(
    uint8_t result, const uint8_t *from, size_t from_len, const void *sender, size_t sender_len,
    const void *helo, size_t helo_len, const void *receiver, size_t receiver_len, uint8_t identity,
    size_t room)
{
    memset(written, 0xee, sizeof written);
    written_size = 99;
    return talavorn_write_line(result, from, from_len, sender, sender_len, helo, helo_len,
                               receiver, receiver_len, identity, written, room, &written_size);
}

/* Whether so many bytes at the front were written, these, and none behind them. */
static int is_written(const void *bytes, size_t len)
{
    for (size_t i = len; i < sizeof written; i++)
        if (written[i] != 0xee)
            return 0;
    return written_size == len && memcmp(written, bytes, len) == 0;
}

static void lines_written(void)
{
    static const char passed[] = FRONT "192.0.2.129" REST;
    static const char six[] = FRONT "\"2001:1db8:0:0:0:0:0:1\"" REST;
    static const char odd[] = "Received-SPF: none receiver=\"\"; client-ip=192.0.2.129; "
                              "envelope-from=\"a\\\"\\\\b\"; helo=a=b; identity=helo\r\n";
    expect(write_line(2, client, 4, ABOUT, 0, 135) == 0 && is_written(TEXT(passed)),
           "a line in a buffer of its length");
    expect(write_line(2, client, 4, ABOUT, 0, 134) == TALAVORN_LONG_LINE && is_written("", 0),
           "a line without room");
    expect(write_line(2, mapped, 16, ABOUT, 0, 1500) == 0 && is_written(TEXT(passed)),
           "a line of a mapped client");
    expect(write_line(2, client6, 16, ABOUT, 0, 1500) == 0 && is_written(TEXT(six)),
           "a line of an IPv6 client");
    expect(write_line(0, client, 4, TEXT("a\"\\b"), TEXT("a=b"), TEXT(""), 1, 1500) == 0
               && is_written(TEXT(odd)),
           "quotes, backslashes, an empty value");
}

/* Each row has the faults of all rows below it, and is refused for its own. */
static const struct {
    uint8_t identity, octets;
    const char *sender, *helo;
    uint8_t result, number;
} faults[] = {
    { 2, 3, "", "a b", 7, TALAVORN_BAD_IDENTITY },
    { 1, 3, "", "a b", 7, TALAVORN_BAD_ADDRESS },
    { 1, 4, "", "a b", 7, TALAVORN_BAD_SENDER },
    { 1, 4, "a", "a b", 7, TALAVORN_BAD_HOST },
    { 1, 4, "a", "a", 7, TALAVORN_NO_RESULT },
    { 1, 4, "a", "a", 6, TALAVORN_LONG_LINE },
};

static void lines_refused(void)
{
    char most[320], host[255], other[255];
    memset(most, '"', sizeof most);
    memset(host, '"', sizeof host);
    for (size_t i = 0; i < sizeof faults / sizeof *faults; i++)
        expect(write_line(faults[i].result, client, faults[i].octets, faults[i].sender,
                          strlen(faults[i].sender), faults[i].helo, strlen(faults[i].helo), "", 0,
                          faults[i].identity, 0) == faults[i].number
                   && is_written("", 0),
               "the order in which a line is refused");
    /* 100 bytes besides these three values, 642 of the sender, 512 of HELO: 246 of the receiver */
    expect(write_line(5, client, 4, most, 320, host, 255, host, 122, 0, 2000) == 0
               && written_size == 1500,
           "a line of 1,500 bytes");
    host[122] = 'a';
    memset(other, '"', sizeof other);
    expect(write_line(5, client, 4, most, 320, other, 255, host, 123, 0, 2000) == TALAVORN_LONG_LINE
               && is_written("", 0),
           "a line of 1,501 bytes");
}

static void lines_read(void)
{
    static const char line[] = "Received-SPF: pass receiver=mx.example; client-ip=192.0.2.1; "
                               "envelope-from=\"user@example.com\"; helo=mail.example; "
                               "identity=mailfrom\r\n";
    static const size_t places[TALAVORN_LINE_VALUES] = { 2, 28, 38, 50, 59, 76, 92, 100, 112, 123,
                                                         131 };
    static const size_t zeros[TALAVORN_LINE_VALUES];
    size_t values[TALAVORN_LINE_VALUES];
    char value[321];
    expect(talavorn_read_line(TEXT(line), values) == 0
               && memcmp(values, places, sizeof values) == 0,
           "a line read");
    expect(talavorn_line_value(line, values, TALAVORN_LINE_SENDER, value) == 16
               && strcmp(value, "user@example.com") == 0,
           "a value of it");
    expect(talavorn_read_line(line, sizeof line - 2, values) == TALAVORN_NO_LINE
               && memcmp(values, zeros, sizeof values) == 0,
           "a line without LF");
    expect(talavorn_read_line(line, sizeof line, values) == TALAVORN_NO_LINE, "a byte behind it");
    expect(talavorn_read_line(TEXT(""), values) == TALAVORN_NO_LINE, "no bytes");
}

static uint8_t unquote(const void *part, size_t part_len, size_t room)
{
    memset(written, 0xee, sizeof written);
    written_size = 99;
    return talavorn_unquote(part, part_len, written, room, &written_size);
}

static void parts_unquoted(void)
{
    char most[321];
    memset(most, 'y', sizeof most);
    expect(unquote(TEXT("a\\\"\\\\b"), 4) == 0 && is_written(TEXT("a\"\\b")), "a part");
    expect(unquote(TEXT("\\\""), 0) == TALAVORN_LONG_LINE && is_written("", 0), "no room for one");
    expect(unquote(TEXT("\\a"), 0) == TALAVORN_NO_LINE && is_written("", 0), "51 before 50");
    expect(unquote(TEXT("\""), 9) == TALAVORN_NO_LINE && is_written("", 0), "a quote");
    expect(unquote(TEXT(""), 0) == 0 && is_written("", 0), "the empty part");
    expect(unquote(most, 320, 320) == 0 && is_written(most, 320), "320 bytes");
    expect(unquote(most, 321, 2000) == TALAVORN_NO_LINE && is_written("", 0), "321 bytes");
}

/* The house rules: breaches are written into the front of a list whose other bytes are kept. */
static uint8_t listed[800];

/* Whether a call that is lent so many bytes of the list returns this number and value, and writes
 * these bytes and no others. */
static int holds_against(
    const void *domain, size_t domain_len, const void *record, size_t record_len, size_t room,
    uint8_t number, size_t value, const void *bytes, size_t len)
{
    size_t got = 99, i = len;
    memset(listed, 0xee, sizeof listed);
    if (talavorn_house_rules(domain, domain_len, record, record_len, listed, room, &got) != number
        || got != value || memcmp(listed, bytes, len) != 0)
        return 0;
    while (i < sizeof listed && listed[i] == 0xee)
        i++;
    return i == sizeof listed;
}

/* Records of example.com and all their breaches, three bytes each. */
static const struct {
    const char *record, *bytes;
    size_t len;
} houses[] = {
    { "v=spf1 -all", TEXT("") },
    /* 2: in any argument, in either case */
    { "v=spf1 x=%{p} -all", TEXT("\2\7\0") },
    { "v=spf1 x=%%{p} -all", TEXT("") },
    { "v=spf1 ptr:%{p}.x -all", TEXT("\1\7\0" "\2\7\0") },
    { "v=spf1 redirect=%{P}.a", TEXT("\2\7\0") },
    { "v=spf1 -all exp=%{p1r}.a", TEXT("\2\14\0") },
    { "v=spf1 ?a:p%{d}p.b exists:%{l}%{p}.b -all", TEXT("\2\23\0") },
    /* a second all breaks 3 and 5, and 7 if it is +all */
    { "v=spf1 -all ~all", TEXT("\3\14\0" "\5\14\0") },
    { "v=spf1 -all all", TEXT("\3\14\0" "\5\14\0" "\7\14\0") },
    { "v=spf1 -all -all -all", TEXT("\3\14\0" "\3\21\0" "\5\14\0" "\5\21\0") },
    /* 3: the end that is missing is at the record's length */
    { "v=spf1", TEXT("\3\6\0") },
    { "v=spf1 exp=a.b  ", TEXT("\3\20\0") },
    { "v=spf1 redirect=a.b", TEXT("") },
    { "v=spf1 all=y", TEXT("\3\14\0") },
    /* 4: the redirect, before or after the all */
    { "v=spf1 -all redirect=a.b", TEXT("\4\14\0") },
    { "v=spf1 redirect=a.b -all", TEXT("\4\7\0" "\6\24\0") },
    /* 5 and 6: each term */
    { "v=spf1 -all a x=y mx", TEXT("\5\14\0" "\5\22\0") },
    { "v=spf1 -all exp=a.b x=y", TEXT("\6\24\0") },
    { "v=spf1 exp=a.b a x=y redirect=a.b mx",
      TEXT("\6\17\0" "\6\21\0" "\6\42\0") },
    { "v=spf1 exp=a.b redirect=a.b", TEXT("") },
    { "v=spf1 redirect=a.b exp=a.b", TEXT("") },
    /* 7 */
    { "v=spf1 ALL", TEXT("\7\7\0") },
    { "v=spf1 +all", TEXT("\7\7\0") },
    { "v=spf1 ?all", TEXT("") },
    /* 8: one breach for both lengths; 32 and 128 where they aren't written */
    { "v=spf1 a/7//18 -all", TEXT("\10\7\0") },
    { "v=spf1 a/8//19 -all", TEXT("") },
    { "v=spf1 mx:b.c/7 a//18 mx//0 -all", TEXT("\10\7\0" "\10\20\0" "\10\26\0") },
    { "v=spf1 a mx ip4:0.0.0.0 ip6::: -all", TEXT("") },
    { "v=spf1 ip4:10.0.0.0/7 ip4:10.0.0.0/8 -all", TEXT("\10\7\0") },
    { "v=spf1 ip6:::/18 ip6:::/19 ip4:0.0.0.0/0 -all", TEXT("\10\7\0" "\10\33\0") },
    /* 9: one family, one length, the same bits within it */
    { "v=spf1 ip4:10.0.0.1/24 -ip4:10.0.0.2/24 -all", TEXT("\11\27\0") },
    { "v=spf1 ip4:10.0.0.1 ip4:10.0.0.1/32 -all", TEXT("\11\24\0") },
    { "v=spf1 ip4:10.0.0.1 ip6:::ffff:10.0.0.1 -all", TEXT("") },
    { "v=spf1 ip4:10.0.0.0/24 ip4:10.0.0.0/25 -all", TEXT("") },
    { "v=spf1 ip6:2001:db8::1/64 ?ip6:2001:DB8:0::2/64 -all", TEXT("\11\32\0") },
    { "v=spf1 ip4:10.0.0.1 ip4:10.0.0.2 ip4:10.0.0.1 ip4:10.0.0.1 -all",
      TEXT("\11\41\0" "\11\56\0") },
    /* by rule and then by place */
    { "v=spf1 a/7 ptr -all", TEXT("\1\13\0" "\10\7\0") },
    { "v=spf1 +all exp=a.b ptr:%{p} redirect=a.b ip4:10.0.0.0/7 ip4:10.1.0.0/7 all",
      TEXT("\1\24\0" "\2\24\0" "\3\110\0" "\4\35\0" "\5\24\0" "\5\52\0" "\5\71\0" "\5\110\0"
           "\6\24\0" "\6\52\0" "\6\71\0" "\6\110\0" "\7\7\0" "\7\110\0" "\10\52\0" "\10\71\0"
           "\11\71\0") },
};

static void breaches_listed(void)
{
    for (size_t i = 0; i < sizeof houses / sizeof *houses; i++) {
        const char *record = houses[i].record;
        size_t size = strlen(record), len = houses[i].len;
        expect(holds_against(TEXT("example.com"), record, size, TALAVORN_HOUSE_LIST, 0, len / 3,
                             houses[i].bytes, len),
               record);
        /* a list without a byte to spare, and one without the last */
        expect(holds_against(TEXT("example.com"), record, size, len, 0, len / 3, houses[i].bytes,
                             len),
               record);
        expect(!len || holds_against(TEXT("example.com"), record, size, len - 1,
                                     TALAVORN_MANY_BREACHES, 0, "", 0),
               record);
    }
}

/* The record `v=spf1 -all` and spaces. */
static const char *spaced(size_t len)
{
    static char record[4098];
    memset(record, ' ', sizeof record);
    memcpy(record, "v=spf1 -all", 11);
    return len <= sizeof record ? record : NULL;
}

static void house_lengths(void)
{
    char name[256];
    memset(name, 'y', sizeof name);
    expect(holds_against(TEXT("example.com."), spaced(437), 437, 768, 0, 0, "", 0), "449 bytes");
    expect(holds_against(TEXT("example.com."), spaced(438), 438, 768, 0, 1, TEXT("\12\266\1")),
           "450 bytes, a trailing dot among them");
    expect(holds_against(TEXT("example.com"), spaced(438), 438, 768, 0, 0, "", 0),
           "449 bytes without it");
    expect(holds_against(NULL, 0, spaced(450), 450, 3, 0, 1, TEXT("\12\302\1")), "no name");
    expect(holds_against(NULL, 0, spaced(449), 449, 0, 0, 0, "", 0), "no name, 449 bytes");
    expect(holds_against(name, 255, spaced(194), 194, 0, 0, 0, "", 0), "the longest name");
    expect(holds_against(name, 255, spaced(195), 195, 3, 0, 1, TEXT("\12\303\0")),
           "the longest name, 450 bytes");
    expect(holds_against(TEXT("a\200 .\0."), spaced(11), 11, 0, 0, 0, "", 0), "a malformed name");
    expect(holds_against(TEXT("a"), spaced(4096), 4096, 3, 0, 1, TEXT("\12\0\20")),
           "the longest record");
}

/* What each row is refused for comes before its other faults. */
static const struct {
    size_t domain_len;
    const char *record;
    size_t record_len;
    uint8_t number;
    size_t place;
} refused_records[] = {
    { 256, NULL, 4097, TALAVORN_LONG_DOMAIN, 0 },
    { 255, NULL, 4097, TALAVORN_LONG_RECORD, 0 },
    { 255, TEXT("spf2.0/pra ptr ip4:1.2.3.4/33 exp=a.b exp=a.b"), TALAVORN_NO_VERSION, 0 },
    { 255, TEXT("v=spf1 ptr ip4:1.2.3.4/33 exp=a.b exp=a.b"), TALAVORN_BAD_TERM, 24 },
    { 255, TEXT("v=spf1 ptr exp=a.b exp=a.b foo"), TALAVORN_REPEATED_TERM, 19 },
    { 255, TEXT("v=spf1 ptr exp=a.b exp=foo"), TALAVORN_BAD_TERM, 26 },
    { 255, TEXT("v=spf1 ptr"), TALAVORN_MANY_BREACHES, 0 },
};

static void house_refusals(void)
{
    char name[256];
    memset(name, 'y', sizeof name);
    for (size_t i = 0; i < sizeof refused_records / sizeof *refused_records; i++) {
        const char *record = refused_records[i].record;
        expect(holds_against(name, refused_records[i].domain_len, record ? record : spaced(4097),
                             refused_records[i].record_len, 0, refused_records[i].number,
                             refused_records[i].place, "", 0),
               "the order in which a record is refused");
    }
    expect(holds_against(TEXT("a"), spaced(4097), 4097, 768, TALAVORN_LONG_RECORD, 0, "", 0),
           "a record of 4,097 bytes");
}

/* A breach at each ptr, at the missing end and for the length: 256, and 257. */
static void most_breaches(void)
{
    char record[6 + 4 * 255 + 1] = "v=spf1";
    uint8_t bytes[768];
    size_t size = 6 + 4 * 254;
    for (size_t i = 0; i < 255; i++)
        memcpy(record + 6 + 4 * i, " ptr", 4);
    for (size_t i = 0; i < 256; i++) {
        size_t at = i < 254 ? 7 + 4 * i : size;
        bytes[3 * i] = i < 254 ? 1 : i == 254 ? 3 : 10;
        bytes[3 * i + 1] = (uint8_t)(at % 256);
        bytes[3 * i + 2] = (uint8_t)(at / 256);
    }
    expect(holds_against(TEXT("a"), record, size, 768, 0, 256, bytes, 768), "256 breaches");
    expect(holds_against(TEXT("a"), record, size, 800, 0, 256, bytes, 768),
           "256 breaches in a larger list");
    for (size_t i = 0; i < 256; i++) {
        struct talavorn_breach b = talavorn_breach_at(listed, i);
        expect(b.rule == bytes[3 * i] && b.place == (i < 254 ? 7 + 4 * i : size), "one of them");
    }
    expect(holds_against(TEXT("a"), record, size, 767, TALAVORN_MANY_BREACHES, 0, "", 0),
           "256 breaches in 767 bytes");
    expect(holds_against(TEXT("a"), record, size + 4, 800, TALAVORN_MANY_BREACHES, 0, "", 0),
           "257 breaches");
}

static void rule_names(void)
{
    static const char *const names[] = {
        "no rule", "no ptr", "no p macro", "an all or a redirect, and no all after the first",
        "no redirect beside an all", "no mechanism after the first all",
        "nothing but redirect and exp after the first of these", "no +all, written or implied",
        "no length below /8 for IPv4 or /19 for IPv6", "no network equal to an earlier one",
        "name and text together under 450 bytes", "no rule"
    };
    for (unsigned i = 0; i < sizeof names / sizeof *names; i++)
        expect(strcmp(talavorn_rule_name(i), names[i]) == 0, "a rule's words");
    expect(strcmp(talavorn_rule_name(~0u), "no rule") == 0, "the words of no rule");
}

static void matches(void)
{
    expect(talavorn_matches(client, 4, network, 4, 24) == 1, "/24");
    expect(talavorn_matches(client, 4, network, 4, 25) == 0, "/25");
    expect(talavorn_matches(client, 4, network, 4, 0) == 1, "/0");
    expect(talavorn_matches(client, 4, client, 4, 33) == 0, "/33");
    expect(talavorn_matches(client6, 16, network6, 16, 19) == 1, "/19");
    expect(talavorn_matches(client6, 16, network6, 16, 20) == 0, "/20");
    expect(talavorn_matches(client6, 16, network6, 16, 128) == 0, "/128");
    expect(talavorn_matches(client6, 16, client6, 16, 128) == 1, "its own /128");
    expect(talavorn_matches(client, 3, network, 4, 0) == TALAVORN_BAD_ADDRESS, "three octets");
    expect(talavorn_matches(mapped, 16, network, 4, 24) == 0, "a mapped address");
    expect(talavorn_matches(mapped + 12, 4, network, 4, 24) == 1, "its last four octets");
}

/* no TXT records for 300 seconds, since there is no such name: 21 bytes */
#define GONE "\x13\0\x10\0\x03" "\x2c\1\0\0" "\x0b" "example.com"

static void tables(void)
{
    static const char table[] = GONE GONE;
    size_t place;
    expect(talavorn_check_table(table, 0, &place) == 0 && place == 0, "no entry");
    expect(talavorn_check_table(table, 21, &place) == 0 && place == 1, "one entry");
    expect(talavorn_check_table(table, 42, &place) == TALAVORN_REPEATED_ENTRY && place == 21,
           "the same twice");
    expect(talavorn_check_table(table, 41, &place) == TALAVORN_BAD_ENTRY && place == 21,
           "half an entry");
    expect(talavorn_check_table(TEXT("\x09\0\1\0\0\xff\xff\xff\xff\1" "a"), &place) == 0
               && place == 1,
           "the largest lifetime");
    expect(talavorn_check_table(TEXT("\5\0\1\0\0\1" "a"), &place) == TALAVORN_BAD_ENTRY
               && place == 0,
           "an entry without a lifetime");
    expect(talavorn_check_table(TEXT("\7\0\1\0\0\0\0\0\0"), &place) == TALAVORN_BAD_ENTRY
               && place == 0,
           "an entry whose length is 7");
}

/* The table under trial, and a copy of its whole buffer. */
static uint8_t table[65536], before[65536];
static size_t size, place;

/* The lifetime of an entry that is appended. */
static uint32_t lifetime = 300;

static void begin_with(const void *bytes, size_t len)
{
    memset(table, 0xee, sizeof table);
    memcpy(table, bytes, len);
    size = len;
}

static uint8_t append(
    uint16_t kind, uint8_t status, const void *name, size_t name_len, const void *items,
    size_t items_len, size_t room)
{
    memcpy(before, table, sizeof table);
    place = 77;
    return talavorn_append_entry(
        kind, status, lifetime, name, name_len, items, items_len, table, room, &size, &place);
}

/* Whether a refusal has this place, and left the table and its length as they were. */
static int kept(size_t len, size_t at)
{
    return size == len && place == at && memcmp(table, before, sizeof table) == 0;
}

/* Whether an entry was written behind the first `len` bytes, and no byte besides. */
static int added(size_t len, const void *entry, size_t entry_len)
{
    return size == len + entry_len && place == 0 && memcmp(table, before, len) == 0
           && memcmp(table + len, entry, entry_len) == 0
           && memcmp(table + size, before + size, sizeof table - size) == 0;
}

static void additions(void)
{
    begin_with("", 0);
    lifetime = 67305985;
    expect(append(TALAVORN_TYPE_TXT, TALAVORN_ANSWERED, TEXT("Example.COM"), TEXT("\x06\0v=SPF1"),
                  29) == 0
               && added(0, TEXT("\x1b\0\x10\0\0" "\1\2\3\4" "\x0b" "example.com"
                                "\x06\0v=SPF1")),
           "an entry in a buffer of its length");
    lifetime = 4294967295;
    expect(append(TALAVORN_TYPE_MX, TALAVORN_NO_SUCH_NAME, TEXT("example.com"), NULL, 0, 65535) == 0
               && added(29, TEXT("\x13\0\x0f\0\x03" "\xff\xff\xff\xff" "\x0b" "example.com")),
           "a second entry");
    lifetime = 0;
    expect(append(TALAVORN_TYPE_A, TALAVORN_ANSWERED, TEXT("example.com"),
                  TEXT("\x04\0\xc0\0\x02\x01" "\x04\0\xc0\0\x02\x02"), 65535) == 0
               && added(50, TEXT("\x1f\0\x01\0\0" "\0\0\0\0" "\x0b" "example.com"
                                 "\x04\0\xc0\0\x02\x01" "\x04\0\xc0\0\x02\x02")),
           "two items");
    expect(talavorn_check_table(table, size, &place) == 0 && place == 3, "three entries");
    begin_with("", 0);
    lifetime = 67305985;
    expect(append(TALAVORN_TYPE_A, TALAVORN_ANSWERED, TEXT("a.b"), TEXT("\4\0\1\2\3\4"), 19) == 0
               && added(0, TEXT("\x11\0\1\0\0" "\1\2\3\4" "\3a.b" "\4\0\1\2\3\4")),
           "a lifetime, the lowest byte first");
    lifetime = 300;
}

static void refusals(void)
{
    uint8_t name[254];
    const uint16_t a = TALAVORN_TYPE_A, txt = TALAVORN_TYPE_TXT;
    begin_with(TEXT(GONE));
    size = 100;
    expect(append(a, 0, TEXT("a.b"), NULL, 0, 99) == TALAVORN_LONG_TABLE && kept(100, 0),
           "a table beyond its buffer");
    size = 65536;
    expect(append(a, 0, TEXT("a.b"), NULL, 0, 65536) == TALAVORN_LONG_TABLE && kept(65536, 0),
           "a table of 65,536 bytes");
    begin_with(TEXT(GONE "\0"));
    expect(append(txt, 0, TEXT("example.com"), NULL, 0, 65535) == TALAVORN_BAD_ENTRY
               && kept(22, 21),
           "a malformed entry in the table");
    begin_with(TEXT(GONE GONE));
    expect(append(txt, 0, TEXT("example.com"), NULL, 0, 65535) == TALAVORN_REPEATED_ENTRY
               && kept(42, 21),
           "a repeated entry in the table");
    begin_with(TEXT(GONE));
    expect(append(txt, 0, TEXT("example.com"), NULL, 0, 65535) == TALAVORN_IN_TABLE && kept(21, 0),
           "a pair that is in the table");
    expect(append(txt, 1, TEXT("EXAMPLE.com"), NULL, 0, 21) == TALAVORN_IN_TABLE && kept(21, 0),
           "the same, malformed and without room");
#define UNFIT(what, ...) \
    expect(append(__VA_ARGS__) == TALAVORN_UNFIT_ENTRY && kept(21, 0), what)
    UNFIT("kind 2", 2, 0, TEXT("a.b"), NULL, 0, 65535);
    UNFIT("status 1", a, 1, TEXT("a.b"), NULL, 0, 65535);
    UNFIT("an address of three octets", a, 0, TEXT("a.b"), TEXT("\x03\0\x01\x02\x03"), 65535);
    UNFIT("an item beyond the end", a, 0, TEXT("a.b"), TEXT("\x04\0\x01\x02\x03"), 65535);
    UNFIT("no such name, with an item", a, 3, TEXT("a.b"), TEXT("\x04\0\x01\x02\x03\x04"), 65535);
    UNFIT("failed, with an item", a, 2, TEXT("a.b"), TEXT("\x04\0\x01\x02\x03\x04"), 65535);
    UNFIT("a host in upper case", TALAVORN_TYPE_PTR, 0, TEXT("a.b"), TEXT("\x01\0C"), 65535);
    UNFIT("a trailing dot", a, 0, TEXT("a.b."), NULL, 0, 65535);
    UNFIT("an empty name", a, 0, TEXT(""), NULL, 0, 65535);
    UNFIT("a space in a name", a, 0, TEXT("a b"), NULL, 0, 65535);
    UNFIT("a buffer that is a byte too small", a, 0, TEXT("a.b"), NULL, 0, 33);
    memset(name, 'x', sizeof name);
    name[63] = name[127] = name[191] = '.';
    UNFIT("a name of 254 bytes", a, 0, name, 254, NULL, 0, 65535);
    expect(append(a, 0, name, 253, NULL, 0, 284) == 0 && size == 284, "a name of 253 bytes");
}

/* As many entries, and as many bytes, as a table holds. */
static void fullness(void)
{
    static uint8_t items[65525];
    char name[16];
    int fine = 1;
    begin_with("", 0);
    for (int i = 0; i < 512; i++) {
        sprintf(name, "n%d", i);
        fine = fine && append(TALAVORN_TYPE_A, 0, name, strlen(name), NULL, 0, 65535) == 0;
    }
    expect(fine, "512 entries");
    expect(append(TALAVORN_TYPE_A, 0, TEXT("n"), NULL, 0, 65535) == TALAVORN_UNFIT_ENTRY
               && kept(size, 0),
           "a 513th");
    /* 15 texts of 4,096 bytes, and one that fills up 65,535 with the 11 bytes before the items */
    for (size_t i = 0; i < 15; i++) {
        items[4098 * i] = 0;
        items[4098 * i + 1] = 16;
    }
    begin_with("", 0);
    items[61470] = 4053 % 256;
    items[61471] = 4053 / 256;
    expect(append(TALAVORN_TYPE_TXT, 0, TEXT("n"), items, 65525, 65536) == TALAVORN_UNFIT_ENTRY
               && kept(0, 0),
           "65,536 bytes");
    items[61470] = 4052 % 256;
    expect(append(TALAVORN_TYPE_TXT, 0, TEXT("n"), items, 65524, 65536) == 0 && size == 65535,
           "65,535 bytes");
    expect(append(TALAVORN_TYPE_A, 0, TEXT("n"), NULL, 0, 65536) == TALAVORN_UNFIT_ENTRY
               && kept(65535, 0),
           "an entry more");
}

/* The items under trial. */
static uint8_t buffer[70000];
static struct talavorn_items items;

static void begin_items(size_t room)
{
    memset(buffer, 0xee, sizeof buffer);
    items = talavorn_items_in(buffer, room);
}

/* Whether these are the items, all of them taken, and no byte was written behind them. */
static int items_are(const void *bytes, size_t len)
{
    return items.len == len && memcmp(buffer, bytes, len) == 0 && !items.unfit
           && buffer[len] == 0xee;
}

static void item_bytes(void)
{
    begin_items(sizeof buffer);
    talavorn_item_a(&items, client);
    expect(items_are(TEXT("\x04\0\xc0\0\x02\x81")), "an A item");
    begin_items(sizeof buffer);
    talavorn_item_aaaa(&items, mapped);
    expect(items_are(TEXT("\x10\0" "\0\0\0\0\0\0\0\0\0\0\xff\xff\xc0\0\x02\x81")), "an AAAA item");
    begin_items(sizeof buffer);
    talavorn_item_mx(&items, 10, talavorn_text("Mail.Example.COM."));
    talavorn_item_mx(&items, 258, talavorn_text("."));
    talavorn_item_mx(&items, 0, talavorn_text(""));
    expect(items_are(TEXT("\x12\0\x0a\0mail.example.com" "\x02\0\x02\x01" "\x02\0\0\0")),
           "MX items");
    begin_items(sizeof buffer);
    talavorn_item_ptr(&items, talavorn_text("A.Z@[`{."));
    expect(items_are(TEXT("\x07\0" "a.z@[`{")), "a PTR item: no byte but A to Z is lowered");
    begin_items(sizeof buffer);
    talavorn_item_txt(&items, talavorn_text("Two."));
    talavorn_item_txt(&items, talavorn_text(""));
    talavorn_item_txt(&items, talavorn_text(NULL));
    expect(items_are(TEXT("\x04\0Two." "\0\0" "\0\0")), "TXT items");
}

static void item_room(void)
{
    static uint8_t bytes[65536];
    begin_items(8);
    talavorn_item_a(&items, client);
    talavorn_item_txt(&items, talavorn_text(""));
    expect(items_are(TEXT("\x04\0\xc0\0\x02\x81" "\0\0")), "items that fill the room");
    begin_items(5);
    talavorn_item_a(&items, client);
    expect(items.len == 0 && items.unfit && buffer[0] == 0xee, "an item without room");
    talavorn_item_txt(&items, talavorn_text(""));
    talavorn_item_ptr(&items, talavorn_text("a.b"));
    expect(items.len == 0 && items.unfit && buffer[0] == 0xee, "items after it");
    begin_items(10);
    talavorn_item_txt(&items, talavorn_text("TEXT"));
    talavorn_item_ptr(&items, talavorn_text("a.b"));
    expect(items.len == 6 && items.unfit && memcmp(buffer, "\x04\0TEXT\xee", 7) == 0,
           "a host without room");
    items = talavorn_items_in(NULL, 0);
    talavorn_item_txt(&items, talavorn_text(""));
    expect(items.len == 0 && items.unfit, "no room at all");
    begin_items(sizeof buffer);
    talavorn_item(&items, bytes, 2, bytes, 65533);
    expect(items.len == 65537 && !items.unfit && buffer[0] == 255 && buffer[1] == 255,
           "65,535 bytes");
    begin_items(sizeof buffer);
    talavorn_item(&items, bytes, 2, bytes, 65534);
    expect(items.len == 0 && items.unfit, "65,536 bytes, which no 2-byte length says");
    begin_items(sizeof buffer);
    talavorn_item(&items, bytes, 65536, NULL, 0);
    expect(items.len == 0 && items.unfit, "the same in one part");
}

/* Whether a host name, here in lower case, goes in with PTR and MX without its trailing dot. If not
 * it is left out of the one and leaves the other's preference alone. */
static int host_goes_in(const char *host)
{
    size_t len = strlen(host);
    uint8_t ptr[300] = { 0 }, mx[300] = { 0, 0, 7, 0 };
    int in, out;
    if (len && host[len - 1] == '.')
        len--;
    ptr[0] = (uint8_t)len;
    memcpy(ptr + 2, host, len);
    mx[0] = (uint8_t)(2 + len);
    memcpy(mx + 4, host, len);
    begin_items(sizeof buffer);
    talavorn_item_ptr(&items, talavorn_text(host));
    in = items_are(ptr, 2 + len);
    out = items_are("", 0);
    begin_items(sizeof buffer);
    talavorn_item_mx(&items, 7, talavorn_text(host));
    in = in && items_are(mx, 4 + len);
    out = out && items_are(TEXT("\2\0\7\0"));
    expect(in || out, host);
    return in;
}

static void item_hosts(void)
{
    char name[256], label[66];
    memset(name, 'x', sizeof name);
    name[63] = name[127] = name[191] = '.';
    name[253] = 0;
    expect(host_goes_in(name), "a host of 253 bytes");
    memcpy(name + 253, ".", 2);
    expect(host_goes_in(name), "the same with a dot");
    memcpy(name + 253, "x", 2);
    expect(!host_goes_in(name), "a host of 254 bytes");
    memcpy(name + 254, ".", 2);
    expect(!host_goes_in(name), "the same with a dot");
    memset(label, 'x', sizeof label);
    label[63] = 0;
    expect(host_goes_in(label), "a label of 63 bytes");
    memcpy(label + 63, "x", 2);
    expect(!host_goes_in(label), "a label of 64 bytes");
    memcpy(label + 63, ".a", 3);
    expect(host_goes_in(label), "a label of 63 bytes before another");
    expect(host_goes_in("a"), "a label of 1 byte");
    expect(host_goes_in("!.~"), "bytes 33 and 126");
    expect(!host_goes_in("a b"), "byte 32");
    expect(!host_goes_in("a\x7f"), "byte 127");
    expect(!host_goes_in("\xc3\xa4.b"), "bytes over 127");
    expect(!host_goes_in(".a"), "an empty label at the front");
    expect(!host_goes_in("a..b"), "an empty label within");
    expect(!host_goes_in("a.."), "two trailing dots");
}

/* As PTR names a to k, of which some may be put in with a space. */
static void put_names(int count, int odd)
{
    begin_items(sizeof buffer);
    for (int i = 0; i < count; i++) {
        const char name[3] = { (char)('a' + i), i < odd ? ' ' : '.', 0 };
        talavorn_item_ptr(&items, talavorn_text(name));
    }
}

static void item_ten_names(void)
{
#define UP_TO_J "\1\0b\1\0c\1\0d\1\0e\1\0f\1\0g\1\0h\1\0i\1\0j"
    put_names(10, 0);
    expect(items_are(TEXT("\1\0a" UP_TO_J)), "ten names");
    put_names(11, 0);
    expect(items_are(TEXT("\1\0a" UP_TO_J)), "an eleventh");
    put_names(11, 1);
    expect(items_are(TEXT(UP_TO_J)), "an eleventh where the first was left out");
}

static void item_texts(void)
{
    static char text[4097], expected[4098] = "\0\x10";
#define LONG(front, len) \
    (memset(text, 'x', sizeof text), memcpy(text, front, sizeof(front) - 1), \
     memcpy(expected + 2, text, 4096), begin_items(sizeof buffer), \
     talavorn_item_txt(&items, talavorn_bytes(text, len)))
    LONG("", 4096);
    expect(items_are(expected, 4098), "a text of 4,096 bytes");
    LONG("v=spf1 ", 4096);
    expect(items_are(expected, 4098), "a record of 4,096 bytes");
    LONG("", 4097);
    expect(items_are(TEXT("\0\0")), "a text of 4,097 bytes");
    LONG("v=spf1x", 4097);
    expect(items_are(TEXT("\0\0")), "one of another version");
    LONG("v=spf1\0", 4097);
    expect(items_are(TEXT("\0\0")), "one that has 0 for the space");
    LONG(" v=spf1 ", 4097);
    expect(items_are(TEXT("\0\0")), "one with a space before");
    LONG("v=spf1 ", 4097);
    expect(items.unfit && items.len == 0, "a record of 4,097 bytes");
    LONG("V=SpF1 ", 4097);
    expect(items.unfit && items.len == 0, "the same in upper and lower case");
}

static void result_names(void)
{
    static const char *const names[9] = { "none",      "neutral",   "pass",    "fail", "softfail",
                                          "temperror", "permerror", "wanting", "refused" };
    int fine = 1;
    for (unsigned i = 0; i < 9; i++)
        fine = fine && strcmp(talavorn_result_name(i), names[i]) == 0;
    expect(fine && strcmp(talavorn_result_name(TALAVORN_BAD_SENDER), "refused") == 0
               && strcmp(talavorn_result_name(255), "refused") == 0,
           "the words of results");
}

static struct talavorn_mail usual_mail(void)
{
    struct talavorn_mail mail = {
        .client = talavorn_bytes(client, 4),
        .domain = talavorn_text("Example.com."),
        .sender = talavorn_text("user@example.com"),
        .helo = talavorn_text("h.example"),
        .seconds = 7,
    };
    return mail;
}

/* Adds the items to the table as the answer to what a check wants, and checks again. */
static struct talavorn_answer answered(void)
{
    struct talavorn_mail mail = usual_mail();
    struct talavorn_answer a = talavorn_check(&mail, table, size);
    if (talavorn_add(&a, 0, lifetime, &items, table, sizeof table, &size) != 0)
        expect(0, "an addition");
    return talavorn_check(&mail, table, size);
}

/* Adds the items to the table as the answer to what the text of a fail wants, and makes it. */
static struct talavorn_answer explained(void)
{
    struct talavorn_mail mail = usual_mail();
    struct talavorn_answer failed = talavorn_check(&mail, table, size), a;
    char text[501];
    a = talavorn_fail_text(&mail, &failed, table, size, text);
    if (a.number != TALAVORN_WANTING
        || talavorn_add(&a, 0, lifetime, &items, table, sizeof table, &size) != 0)
        expect(0, "an addition");
    return talavorn_fail_text(&mail, &failed, table, size, text);
}

/* What a check answers once the TXT question of example.com has this text. */
static struct talavorn_answer checked(const char *record)
{
    size = 0;
    begin_items(512);
    talavorn_item_txt(&items, talavorn_text(record));
    return answered();
}

static void checks(void)
{
    struct talavorn_mail mail = usual_mail();
    struct talavorn_answer a = talavorn_check(&mail, NULL, 0);
    expect(a.number == TALAVORN_WANTING && a.kind == TALAVORN_TYPE_TXT && a.name_len == 11
               && strcmp(a.name, "example.com") == 0 && a.text_len == 0 && a.exp_place == 0
               && a.exp_len == 0 && a.place == 0 && a.lookups == 0 && a.voids == 0
               && a.lifetime == 0,
           "the first question");
    a = checked("v=spf1 ip4:192.0.2.129 -all");
    expect(a.number == TALAVORN_PASS && a.kind == 0 && a.place == 0 && a.name_len == 0
               && a.name[0] == 0 && a.text_len == 0 && a.exp_place == 0 && a.exp_len == 0
               && a.lookups == 0 && a.lifetime == 300,
           "a pass");
    a = checked("v=spf1 a -all");
    expect(a.number == TALAVORN_WANTING && a.kind == TALAVORN_TYPE_A && a.lookups == 1
               && strcmp(a.name, "example.com") == 0 && a.lifetime == 300,
           "a's question");
    lifetime = 60;
    talavorn_add(&a, 0, lifetime, NULL, table, sizeof table, &size);
    a = talavorn_check(&mail, table, size);
    expect(a.number == TALAVORN_FAIL && a.text_len == 0 && a.exp_place == 0 && a.exp_len == 0
               && a.name_len == 11 && strcmp(a.name, "example.com") == 0 && a.lookups == 1
               && a.voids == 1 && a.lifetime == 60,
           "a void answer");
    lifetime = 300;
    a = talavorn_check(&mail, TEXT(GONE GONE));
    expect(a.number == TALAVORN_REPEATED_ENTRY && a.place == 21 && a.kind == 0 && a.name_len == 0
               && a.lifetime == 0,
           "a repeated entry");
    mail.sender = talavorn_text("");
    expect(talavorn_check(&mail, NULL, 0).number == TALAVORN_BAD_SENDER, "an empty sender");
}

/* The text of a fail, through the wrapper. */
static void fail_texts(void)
{
    struct talavorn_mail mail = usual_mail();
    struct talavorn_answer a = checked("v=spf1 a -all exp=why.%{d}"), t;
    char text[502];
    memset(text, 'x', sizeof text);
    talavorn_add(&a, 0, lifetime, NULL, table, sizeof table, &size);
    a = talavorn_check(&mail, table, size);
    expect(a.number == TALAVORN_FAIL && a.exp_place == 41 && a.exp_len == 8 && a.text_len == 0
               && a.lookups == 1 && a.voids == 1,
           "a fail that has an explanation");
    t = talavorn_fail_text(&mail, &a, table, size, text);
    expect(t.number == TALAVORN_WANTING && t.kind == TALAVORN_TYPE_TXT && t.name_len == 15
               && strcmp(t.name, "why.example.com") == 0 && t.text_len == 0 && text[0] == 0
               && t.place == 0 && t.exp_place == 0 && t.exp_len == 0 && t.lookups == 1
               && t.voids == 1 && t.lifetime == 300,
           "the explanation's question");
    begin_items(512);
    talavorn_item_txt(&items, talavorn_text("%{c} is not ours"));
    expect(talavorn_add(&t, 0, 7, &items, table, sizeof table, &size) == 0, "its answer");
    t = talavorn_fail_text(&mail, &a, table, size, text);
    expect(t.number == TALAVORN_FAIL && t.text_len == 23
               && strcmp(text, "192.0.2.129 is not ours") == 0 && text[501] == 'x' && t.kind == 0
               && t.name_len == 0 && t.name[0] == 0 && t.place == 0 && t.lookups == 1
               && t.voids == 1 && t.lifetime == 300,
           "the text");
    a.exp_place++;
    t = talavorn_fail_text(&mail, &a, table, size, text);
    expect(t.number == TALAVORN_BAD_EXP && t.text_len == 0 && text[0] == 0 && t.lookups == 0
               && t.voids == 0 && t.lifetime == 0,
           "another place");
    a.exp_place = a.exp_len = 0;
    memset(text, 'x', sizeof text);
    t = talavorn_fail_text(&mail, &a, table, size, text);
    expect(t.number == TALAVORN_FAIL && t.text_len == 0 && text[0] == 0 && text[1] == 'x',
           "no place");
    t = talavorn_fail_text(&mail, &a, TEXT(GONE GONE), text);
    expect(t.number == TALAVORN_REPEATED_ENTRY && t.place == 21, "the same, and a repeated entry");
}

/* An entry of type SPF may be added, and is ignored. */
static void spf_entries(void)
{
    struct talavorn_mail mail = usual_mail();
    struct talavorn_answer a;
    begin_with("", 0);
#define ADD_SPF \
    append(TALAVORN_TYPE_SPF, TALAVORN_ANSWERED, TEXT("example.com"), TEXT("\x0b\0v=spf1 +all"), \
           65535)
    expect(ADD_SPF == 0 && size == 34, "an SPF entry");
    a = talavorn_check(&mail, table, size);
    expect(a.number == TALAVORN_WANTING && a.kind == TALAVORN_TYPE_TXT && a.lookups == 0
               && strcmp(a.name, "example.com") == 0,
           "a check with the SPF entry alone");
    begin_items(512);
    talavorn_item_txt(&items, talavorn_text("v=spf1 -all"));
    expect(answered().number == TALAVORN_FAIL, "with a TXT record beside it");
    expect(ADD_SPF == TALAVORN_IN_TABLE && size == 68, "the SPF entry twice");
}

/* Names and texts that can't stand in the table do no harm. */
static void odd_answers(void)
{
    static char text[4097];
    struct talavorn_answer a = checked("v=spf1 ptr ptr ptr -all");
    expect(a.number == TALAVORN_WANTING && a.kind == TALAVORN_TYPE_PTR, "ptr's question");
    put_names(2, 2);
    a = answered();
    expect(a.number == TALAVORN_FAIL && a.lookups == 3 && a.voids == 0, "no name but odd ones");
    checked("v=spf1 ptr ptr ptr -all");
    put_names(0, 0);
    a = answered();
    expect(a.number == TALAVORN_PERMERROR && a.lookups == 3 && a.voids == 3, "no name");
    checked("v=spf1 ptr -all");
    put_names(2, 1);
    a = answered();
    expect(a.number == TALAVORN_WANTING && a.kind == TALAVORN_TYPE_A && strcmp(a.name, "b") == 0,
           "the name beside an odd one");
    checked("v=spf1 mx -all");
    begin_items(sizeof buffer);
    talavorn_item_mx(&items, 10, talavorn_text("a b"));
    talavorn_item_mx(&items, 20, talavorn_text("M.example"));
    a = answered();
    expect(a.number == TALAVORN_WANTING && a.kind == TALAVORN_TYPE_A
               && strcmp(a.name, "m.example") == 0,
           "the host behind an odd one");
    checked("v=spf1 mx -all");
    begin_items(sizeof buffer);
    for (int i = 0; i < 11; i++)
        talavorn_item_mx(&items, 10, talavorn_text("a b"));
    a = answered();
    expect(a.number == TALAVORN_PERMERROR && a.lookups == 1, "eleven odd hosts");
    memset(text, 'x', sizeof text);
    begin_items(sizeof buffer);
    talavorn_item_txt(&items, talavorn_bytes(text, sizeof text));
    talavorn_item_txt(&items, talavorn_text("v=spf1 ~all"));
    size = 0;
    expect(answered().number == TALAVORN_SOFTFAIL, "a record beside a long text");
    checked("v=spf1 -all exp=why.example");
    begin_items(sizeof buffer);
    talavorn_item_txt(&items, talavorn_bytes(text, sizeof text));
    a = explained();
    expect(a.number == TALAVORN_FAIL && a.text_len == 0, "a long explanation");
    memcpy(text, "v=spf1 ", 7);
    begin_items(sizeof buffer);
    talavorn_item_txt(&items, talavorn_bytes(text, sizeof text));
    size = 0;
    expect(answered().number == TALAVORN_TEMPERROR, "a long record");
}

/* What the two calls of a check are given under trial, besides the table, and what they are lent:
 * more bytes than they are told of. */
static struct talavorn_mail given;
static uint8_t lent_name[300], lent_text[600];
static size_t name_room, text_room, values[TALAVORN_VALUES + 1];

/* The usual mail, an empty table and buffers that are just large enough. */
static void begin_check(void)
{
    given = usual_mail();
    name_room = 253;
    text_room = 500;
    begin_with("", 0);
}

static void fill_lent(void)
{
    memset(lent_name, 0xee, sizeof lent_name);
    memset(lent_text, 0xee, sizeof lent_text);
    for (size_t i = 0; i <= TALAVORN_VALUES; i++)
        values[i] = 77;
}

/* The first call. */
static uint8_t first(void)
{
    fill_lent();
    return talavorn_evaluate(
        given.client.at, given.client.len, given.domain.at, given.domain.len, given.sender.at,
        given.sender.len, given.helo.at, given.helo.len, given.receiver.at, given.receiver.len,
        given.seconds, table, size, lent_name, name_room, values);
}

/* The second call, for a domain and the place and length of an exp argument. */
static uint8_t second(const char *domain, size_t at, size_t len)
{
    fill_lent();
    return talavorn_explain(
        given.client.at, given.client.len, domain, strlen(domain), given.sender.at,
        given.sender.len, given.helo.at, given.helo.len, given.receiver.at, given.receiver.len,
        given.seconds, table, size, at, len, lent_name, name_room, lent_text, text_room, values);
}

/* Whether a text stands at the front of a lent buffer, and no byte behind it was written. */
static int holds(const uint8_t *lent, size_t len, const char *s)
{
    size_t i = strlen(s);
    int front = memcmp(lent, s, i) == 0;
    while (i < len && lent[i] == 0xee)
        i++;
    return front && i == len;
}

/* Whether the name and text buffers hold these and nothing else. */
static int lent(const char *name, const char *text)
{
    return holds(lent_name, sizeof lent_name, name) && holds(lent_text, sizeof lent_text, text);
}

/* What the first call left: values and name. */
static int left(
    size_t kind, size_t lookups, size_t voids, size_t life, const char *name, size_t exp_place,
    size_t exp_len)
{
    const size_t expected[TALAVORN_VALUES + 1] = {
        kind, lookups, voids, life, strlen(name), exp_place, exp_len, 77
    };
    return memcmp(values, expected, sizeof values) == 0 && lent(name, "");
}

/* What the second call left: kind or place, length, name and text. */
static int made(size_t kind, const char *name, const char *text)
{
    return values[0] == kind && values[1] == strlen(name) + strlen(text) && values[2] == 77
           && lent(name, text);
}

/* Appends a TXT entry with one text. */
static void put_text(const char *name, const char *s)
{
    begin_items(sizeof buffer);
    talavorn_item_txt(&items, talavorn_text(s));
    if (append(TALAVORN_TYPE_TXT, 0, name, strlen(name), items.bytes, items.len, 65535) != 0)
        expect(0, name);
}

/* Appends an entry without items. */
static void put_status(uint16_t kind, uint8_t status, const char *name)
{
    if (append(kind, status, name, strlen(name), NULL, 0, 65535) != 0)
        expect(0, name);
}

/* A table of one TXT entry for example.com. Its text begins at 23. */
static void begin_record(const char *record)
{
    begin_check();
    put_text("example.com", record);
}

/* Everything is wrong, and what was refused is put right: each number and their order. */
static void evaluation_refusals(void)
{
    static char domain[256];
    memset(domain, 'x', sizeof domain);
    begin_check();
    given.client = talavorn_bytes(client, 3);
    given.domain = talavorn_bytes(domain, 256);
    given.sender = talavorn_text("");
    given.helo = given.receiver = talavorn_text("a b");
    name_room = 252;
    size = 65536;
#define REFUSED(number, at, what) expect(first() == (number) && left(at, 0, 0, 0, "", 0, 0), what)
    REFUSED(TALAVORN_BAD_ADDRESS, 0, "a client of 3 octets");
    given.client = talavorn_bytes(client6, 15);
    REFUSED(TALAVORN_BAD_ADDRESS, 0, "a client of 15 octets");
    given.client = talavorn_bytes(client, 4);
    REFUSED(TALAVORN_BAD_SENDER, 0, "no sender");
    given.sender = talavorn_text("user@example.com");
    REFUSED(TALAVORN_BAD_HOST, 0, "a space in HELO");
    given.helo = talavorn_text("");
    REFUSED(TALAVORN_BAD_HOST, 0, "a space in the receiver");
    given.receiver = talavorn_text("");
    REFUSED(TALAVORN_LONG_DOMAIN, 0, "a domain of 256 bytes");
    given.domain.len = 255;
    REFUSED(TALAVORN_SMALL_BUFFER, 0, "a name buffer of 252 bytes");
    name_room = 253;
    REFUSED(TALAVORN_LONG_TABLE, 0, "a table of 65,536 bytes");
    size = 65535;
    REFUSED(TALAVORN_BAD_ENTRY, 0, "a table of other bytes");
    begin_with(TEXT(GONE "\1\0"));
    REFUSED(TALAVORN_BAD_ENTRY, 21, "a malformed entry");
    begin_with(TEXT(GONE GONE "\1\0"));
    REFUSED(TALAVORN_REPEATED_ENTRY, 21, "an entry twice, before a malformed one");
    begin_with(TEXT(GONE));
    expect(first() == TALAVORN_NONE && left(0, 0, 0, 0, "", 0, 0), "a malformed domain");
#undef REFUSED
}

static void explanation_refusals(void)
{
    static char domain[257];
    memset(domain, 'x', 256);
    begin_check();
    given.client = talavorn_bytes(client, 3);
    given.sender = talavorn_text("");
    given.helo = given.receiver = talavorn_text("a b");
    name_room = 252;
    text_room = 499;
    size = 65536;
#define REFUSED(number, at, what) \
    expect(second(domain, 39, 9) == (number) && made(at, "", ""), what " of the second call"); \
    expect(second(domain, 0, 0) == (number) && made(at, "", ""), what " without exp")
    REFUSED(TALAVORN_BAD_ADDRESS, 0, "a client of 3 octets");
    given.client = talavorn_bytes(client6, 15);
    REFUSED(TALAVORN_BAD_ADDRESS, 0, "a client of 15 octets");
    given.client = talavorn_bytes(client, 4);
    REFUSED(TALAVORN_BAD_SENDER, 0, "no sender");
    given.sender = talavorn_text("user@example.com");
    REFUSED(TALAVORN_BAD_HOST, 0, "a space in HELO");
    given.helo = talavorn_text("");
    REFUSED(TALAVORN_BAD_HOST, 0, "a space in the receiver");
    given.receiver = talavorn_text("");
    REFUSED(TALAVORN_LONG_DOMAIN, 0, "a domain of 256 bytes");
    domain[255] = 0;
    REFUSED(TALAVORN_SMALL_BUFFER, 0, "name and text buffers that are too small");
    text_room = 500;
    REFUSED(TALAVORN_SMALL_BUFFER, 0, "a name buffer of 252 bytes");
    name_room = 253;
    text_room = 499;
    REFUSED(TALAVORN_SMALL_BUFFER, 0, "a text buffer of 499 bytes");
    text_room = 500;
    REFUSED(TALAVORN_LONG_TABLE, 0, "a table of 65,536 bytes");
    size = 65535;
    REFUSED(TALAVORN_BAD_ENTRY, 0, "a table of other bytes");
    begin_with(TEXT(GONE "\1\0"));
    REFUSED(TALAVORN_BAD_ENTRY, 21, "a malformed entry");
    begin_with(TEXT(GONE GONE "\1\0"));
    REFUSED(TALAVORN_REPEATED_ENTRY, 21, "an entry twice, before a malformed one");
    begin_with(TEXT(GONE));
    expect(second(domain, 39, 9) == TALAVORN_BAD_EXP && made(0, "", ""),
           "a malformed domain of the second call");
    expect(second(domain, 0, 0) == TALAVORN_FAIL && made(0, "", ""), "the same without exp");
#undef REFUSED
}

/* Results with the failing record's domain, and where its exp argument stands. */
static void failing_records(void)
{
    begin_record("v=spf1 -all exp=e.example");
    expect(first() == TALAVORN_FAIL && left(0, 0, 0, 300, "example.com", 39, 9), "exp's argument");
    name_room = sizeof lent_name;
    expect(first() == TALAVORN_FAIL && left(0, 0, 0, 300, "example.com", 39, 9),
           "a longer name buffer");
    begin_record("v=spf1 eXp=E.Example -all");
    expect(first() == TALAVORN_FAIL && left(0, 0, 0, 300, "example.com", 34, 9), "exp before -all");
    begin_record("v=spf1 -all");
    expect(first() == TALAVORN_FAIL && left(0, 0, 0, 300, "example.com", 0, 0), "no exp");
    begin_record("v=spf1 -all exp=a..b");
    expect(first() == TALAVORN_FAIL && left(0, 0, 0, 300, "example.com", 39, 4),
           "a malformed target");
    begin_record("v=spf1 -all exp=%{p}.x");
    expect(first() == TALAVORN_FAIL && left(0, 0, 0, 300, "example.com", 39, 6), "a target with p");
    begin_check();
    put_status(TALAVORN_TYPE_A, TALAVORN_NO_SUCH_NAME, "a");
    put_text("example.com", "v=spf1 -all exp=e.example");
    expect(first() == TALAVORN_FAIL && left(0, 0, 0, 300, "example.com", 50, 9),
           "a record behind an entry of 11 bytes");
    begin_record("v=spf1 exists:g.x -all exp=e.example");
    put_status(TALAVORN_TYPE_A, TALAVORN_ANSWERED, "g.x");
    expect(first() == TALAVORN_FAIL && left(0, 1, 1, 300, "example.com", 50, 9),
           "a fail with counts");
    begin_record("v=spf1 redirect=B.x exp=a.a");
    put_text("b.x", "v=spf1 -all exp=c.c");
    expect(first() == TALAVORN_FAIL && left(0, 1, 0, 300, "b.x", 81, 3), "a redirect");
    begin_record("v=spf1 redirect=b.x");
    put_text("b.x", "v=spf1 redirect=C.Y. exp=a.a");
    put_text("c.y", "v=spf1 -all");
    expect(first() == TALAVORN_FAIL && left(0, 2, 0, 300, "c.y", 0, 0), "two redirects");
    begin_record("v=spf1 -include:b.x exp=a.a");
    put_text("b.x", "v=spf1 +all exp=c.c");
    expect(first() == TALAVORN_FAIL && left(0, 1, 0, 300, "example.com", 47, 3),
           "an include that matches");
    begin_record("v=spf1 include:b.x -all exp=a.a");
    put_text("b.x", "v=spf1 -all exp=c.c");
    expect(first() == TALAVORN_FAIL && left(0, 1, 0, 300, "example.com", 51, 3),
           "an include that doesn't match");
    begin_record("v=spf1 -include:b.x");
    put_text("b.x", "v=spf1 redirect=c.y exp=a.a");
    put_text("c.y", "v=spf1 +all exp=c.c");
    expect(first() == TALAVORN_FAIL && left(0, 2, 0, 300, "example.com", 0, 0),
           "a redirect in an include");
}

/* Other answers of the first call: without a domain, and never for the explanation. */
static void other_results(void)
{
    static const struct {
        const char *record;
        uint8_t number;
    } results[] = {
        { "some text", TALAVORN_NONE },
        { "v=spf1 ?all exp=e.example", TALAVORN_NEUTRAL },
        { "v=spf1 +all exp=e.example", TALAVORN_PASS },
        { "v=spf1 ~all exp=e.example", TALAVORN_SOFTFAIL },
        { "v=spf1 -all exp=e.example exp=e.example", TALAVORN_PERMERROR },
    };
    for (size_t i = 0; i < sizeof results / sizeof *results; i++) {
        begin_record(results[i].record);
        expect(first() == results[i].number && left(0, 0, 0, 300, "", 0, 0), results[i].record);
    }
    begin_check();
    put_status(TALAVORN_TYPE_TXT, TALAVORN_FAILED, "example.com");
    expect(first() == TALAVORN_TEMPERROR && left(0, 0, 0, 300, "", 0, 0), "a failed record");
    begin_check();
    expect(first() == TALAVORN_WANTING && left(TALAVORN_TYPE_TXT, 0, 0, 0, "example.com", 0, 0),
           "the record's question");
    begin_record("v=spf1 a:G.x -all exp=e.example");
    expect(first() == TALAVORN_WANTING && left(TALAVORN_TYPE_A, 1, 0, 300, "g.x", 0, 0),
           "a question");
}

#define REVERSE "129.2.0.192.in-addr.arpa"

/* Texts and questions of the second call. */
static void explanations(void)
{
    begin_record("v=spf1 -all exp=e.example");
#define ASKS(domain, what) \
    expect(second(domain, 39, 9) == TALAVORN_WANTING \
               && made(TALAVORN_TYPE_TXT, "e.example", ""), \
           what)
    ASKS("example.com", "the explanation's question");
    ASKS("Example.COM.", "the domain in upper case and with a dot");
    name_room = sizeof lent_name;
    text_room = sizeof lent_text;
    ASKS("example.com", "longer buffers");
    begin_record("v=spf1 -all exp=e.example");
    put_text("e.example", "%{d} is not %{o}: %{c} %{h} %{r} %{t}");
#define MAKES(domain, text, what) \
    expect(second(domain, 39, 9) == TALAVORN_FAIL && made(0, "", text), what)
    MAKES("Example.COM.", "example.com is not example.com: 192.0.2.129 h.example unknown 7",
          "a text");
    given.client = talavorn_bytes(mapped, 16);
    MAKES("example.com", "example.com is not example.com: 192.0.2.129 h.example unknown 7",
          "a text for a mapped client");
    given.client = talavorn_bytes(client6, 16);
    given.sender = talavorn_text("u@b.x");
    MAKES("example.com", "example.com is not b.x: 2001:1db8:0:0:0:0:0:1 h.example unknown 7",
          "a text for another client");
    expect(second("example.com", 0, 0) == TALAVORN_FAIL && made(0, "", ""), "no exp: no text");
    begin_record("v=spf1 -all exp=a..b");
    expect(second("example.com", 39, 4) == TALAVORN_FAIL && made(0, "", ""),
           "the text of a malformed target");
    begin_record("v=spf1 redirect=B.x exp=a.a");
    put_text("b.x", "v=spf1 -all exp=why.%{d}");
    expect(second("b.x", 81, 8) == TALAVORN_WANTING && made(TALAVORN_TYPE_TXT, "why.b.x", ""),
           "d of the failing record");
    expect(second("example.com", 47, 3) == TALAVORN_WANTING && made(TALAVORN_TYPE_TXT, "a.a", ""),
           "exp of the record before the redirect");
}

/* Explanations of which no text is made, and those that are just in. */
static void odd_explanations(void)
{
    char text[502];
    static const char *const bad[] = { "%", "100%", "%{x}", "%{d", "a\tb", "a\x7f", "\xc3\xa4" };
    for (size_t i = 0; i < sizeof bad / sizeof *bad; i++) {
        begin_record("v=spf1 -all exp=e.example");
        put_text("e.example", bad[i]);
        MAKES("example.com", "", "a text outside the grammar");
    }
    for (uint8_t status = 0; status < 4; status++) {
        if (status == 1)
            continue;
        begin_record("v=spf1 -all exp=e.example");
        put_status(TALAVORN_TYPE_TXT, status, "e.example");
        MAKES("example.com", "", "a void or failed answer");
    }
    begin_record("v=spf1 -all exp=e.example");
    append(TALAVORN_TYPE_TXT, 0, TEXT("e.example"), TEXT("\1\0a\1\0b"), 65535);
    MAKES("example.com", "", "two texts");
    begin_record("v=spf1 -all exp=e.example");
    put_text("e.example", "");
    MAKES("example.com", "", "an empty text");
    memset(text, 'x', 500);
    strcpy(text + 500, "");
    begin_record("v=spf1 -all exp=e.example");
    put_text("e.example", text);
    MAKES("example.com", text, "a text of 500 bytes");
    text_room = sizeof lent_text;
    MAKES("example.com", text, "the same in a longer buffer");
    strcpy(text + 500, "x");
    begin_record("v=spf1 -all exp=e.example");
    put_text("e.example", text);
    text_room = sizeof lent_text;
    MAKES("example.com", "", "a text of 501 bytes");
}

/* p's questions of the target and of the text are the second call's. */
static void explanations_with_p(void)
{
    begin_record("v=spf1 -all exp=%{p}.x");
#define ASKS_P(kind, name, what) \
    expect(second("example.com", 39, 6) == TALAVORN_WANTING && made(kind, name, ""), what)
    ASKS_P(TALAVORN_TYPE_PTR, REVERSE, "p's question for the target");
    append(TALAVORN_TYPE_PTR, 0, TEXT(REVERSE), TEXT("\x0f\0m.b.example.com"), 65535);
    ASKS_P(TALAVORN_TYPE_A, "m.b.example.com", "the address of p's name");
    append(TALAVORN_TYPE_A, 0, TEXT("m.b.example.com"), TEXT("\x04\0\xc0\0\x02\x81"), 65535);
    ASKS_P(TALAVORN_TYPE_TXT, "m.b.example.com.x", "the text of a target with p");
    put_text("m.b.example.com.x", "%{p}");
    expect(second("example.com", 39, 6) == TALAVORN_FAIL && made(0, "", "m.b.example.com"),
           "a text with p");
    begin_record("v=spf1 -all exp=e.example");
    put_text("e.example", "for %{p}");
    expect(second("example.com", 39, 9) == TALAVORN_WANTING
               && made(TALAVORN_TYPE_PTR, REVERSE, ""),
           "p's question for the text");
    put_status(TALAVORN_TYPE_PTR, TALAVORN_FAILED, REVERSE);
    MAKES("example.com", "for unknown", "no value of p");
    expect(first() == TALAVORN_FAIL && left(0, 0, 0, 300, "example.com", 39, 9),
           "the first call over the table that has grown");
}

#define NO_EXP(domain, at, len, what) \
    expect(second(domain, at, len) == TALAVORN_BAD_EXP && made(0, "", ""), what)

/* Places that are an exp argument's, and those that are not. */
static void exp_places(void)
{
    const size_t most = SIZE_MAX;
    begin_record("v=spf1 -all exp=e.example");
    NO_EXP("example.com", 0, 9, "place 0");
    NO_EXP("example.com", 39, 0, "length 0");
    NO_EXP("example.com", 38, 9, "a place too early");
    NO_EXP("example.com", 40, 9, "a place too late");
    NO_EXP("example.com", 39, 8, "a length too short");
    NO_EXP("example.com", 39, 10, "a length too long");
    NO_EXP("example.com", 40, 8, "the end of the argument");
    NO_EXP("example.com", 35, 13, "the whole term");
    NO_EXP("example.com", 16, 9, "the place in the record");
    NO_EXP("example.com", 0, 48, "the whole entry");
    NO_EXP("example.com", 48, 9, "a place behind the table");
    NO_EXP("example.com", most, 9, "the largest place");
    NO_EXP("example.com", 39, most, "the largest length");
    NO_EXP("example.com", most, most, "both");
    NO_EXP("example.com", most - 38, 87, "a sum beyond the largest number, which leaves 48");
    NO_EXP("example.com", 39, most - 38, "another, which leaves 0");
    NO_EXP("example.com..", 39, 9, "two dots");
    NO_EXP("other.x", 39, 9, "a domain that has no entry");
    NO_EXP("", 39, 9, "an empty domain");
    NO_EXP("a..b", 39, 9, "a malformed domain");
    NO_EXP("sub.example.com", 39, 9, "a domain below");
    begin_record("v=spf1 +all exp=e.example");
    expect(first() == TALAVORN_PASS, "a pass");
    ASKS("example.com", "a record that passes");
    begin_check();
    put_text("com", "v=spf1 -all exp=e.example");
    NO_EXP("com", 31, 9, "a single label");
    expect(second("com", 0, 0) == TALAVORN_FAIL && made(0, "", ""), "no exp of a single label");
    expect(second("a..b", 0, 0) == TALAVORN_FAIL && made(0, "", ""), "of a malformed domain");
    expect(second("", 0, 0) == TALAVORN_FAIL && made(0, "", ""), "of an empty domain");
    expect(second("other.x", 0, 0) == TALAVORN_FAIL && made(0, "", ""), "of one without entry");
    size = 0;
    expect(second("other.x", 0, 0) == TALAVORN_FAIL && made(0, "", ""), "in an empty table");
}

/* The table decides: other entries before and behind the record, and equal bytes elsewhere. */
static void exp_tables(void)
{
    begin_record("v=spf1 -all exp=e.example");
    put_text("b.x", "v=spf1 -all exp=e.example");
    ASKS("example.com", "a table that has grown at its end");
    NO_EXP("example.com", 79, 9, "the same bytes in another entry");
    NO_EXP("b.x", 39, 9, "the same bytes in the first entry");
    expect(second("b.x", 79, 9) == TALAVORN_WANTING && made(TALAVORN_TYPE_TXT, "e.example", ""),
           "those of its own entry");
    begin_check();
    put_status(TALAVORN_TYPE_A, TALAVORN_NO_SUCH_NAME, "a");
    put_text("example.com", "v=spf1 -all exp=e.example");
    NO_EXP("example.com", 39, 9, "the place of another table");
    expect(second("example.com", 50, 9) == TALAVORN_WANTING
               && made(TALAVORN_TYPE_TXT, "e.example", ""),
           "that of this table");
}

/* Records that aren't selected or aren't accepted have no exp argument. */
static void exp_selection(void)
{
#define RECORD "\x19\0v=spf1 -all exp=e.example"
    begin_check();
    append(TALAVORN_TYPE_TXT, 0, TEXT("example.com"), TEXT(RECORD "\x0b\0v=spf1 -all"), 65535);
    NO_EXP("example.com", 39, 9, "two records");
    begin_check();
    append(TALAVORN_TYPE_TXT, 0, TEXT("example.com"), TEXT("\4\0text" RECORD), 65535);
    NO_EXP("example.com", 39, 9, "the place without the text before");
    expect(second("example.com", 45, 9) == TALAVORN_WANTING
               && made(TALAVORN_TYPE_TXT, "e.example", ""),
           "a record behind another text");
    begin_check();
    append(TALAVORN_TYPE_SPF, 0, TEXT("example.com"), TEXT(RECORD), 65535);
    NO_EXP("example.com", 39, 9, "an SPF entry");
    put_status(TALAVORN_TYPE_TXT, TALAVORN_FAILED, "example.com");
    NO_EXP("example.com", 39, 9, "a failed answer beside it");
    begin_check();
    append(TALAVORN_TYPE_SPF, 0, TEXT("example.com"), TEXT(RECORD), 65535);
    put_status(TALAVORN_TYPE_TXT, TALAVORN_NO_SUCH_NAME, "example.com");
    NO_EXP("example.com", 39, 9, "no such name beside it");
    begin_record("v=spf10 -all exp=e.example");
    NO_EXP("example.com", 40, 9, "another version");
    begin_record("v=spf1 -al exp=e.example");
    NO_EXP("example.com", 38, 9, "a term outside the grammar");
    begin_record("v=spf1 -all exp=e.example exp=e.example");
    NO_EXP("example.com", 39, 9, "the first of two exp");
    NO_EXP("example.com", 53, 9, "the second of two");
    begin_record("v=spf1 -all x=e.example");
    NO_EXP("example.com", 37, 9, "another modifier");
    begin_record("v=spf1 redirect=e.example");
    NO_EXP("example.com", 39, 9, "redirect's argument");
}

/* Appends an entry without items, of a lifetime. */
static void put_void(uint16_t kind, uint8_t status, uint32_t life, const char *name)
{
    lifetime = life;
    put_status(kind, status, name);
    lifetime = 300;
}

/* Appends an entry with these items, of a lifetime. */
static void put_items(
    uint16_t kind, uint32_t life, const char *name, const void *bytes, size_t len)
{
    lifetime = life;
    if (append(kind, 0, name, strlen(name), bytes, len, 65535) != 0)
        expect(0, name);
    lifetime = 300;
}

/* A table of one TXT entry for example.com, of a lifetime. */
static void begin_lifetime(uint32_t life, const char *record)
{
    begin_check();
    lifetime = life;
    put_text("example.com", record);
    lifetime = 300;
}

#define CLIENT "\4\0\xc0\0\2\x81"

/* The smallest lifetime of the entries that were consulted, and of no other. */
static void lifetimes(void)
{
    begin_lifetime(4294967295, "v=spf1 ?all");
    expect(first() == 1 && left(0, 0, 0, 4294967295, "", 0, 0), "the largest lifetime of all");
    begin_lifetime(0, "v=spf1 ?all");
    expect(first() == 1 && left(0, 0, 0, 0, "", 0, 0), "a lifetime of 0");
    begin_lifetime(50, "v=spf1 a:g.x ?all");
    expect(first() == 7 && left(TALAVORN_TYPE_A, 1, 0, 50, "g.x", 0, 0), "7 has that so far");
    put_void(TALAVORN_TYPE_A, TALAVORN_ANSWERED, 7, "g.x");
    expect(first() == 1 && left(0, 1, 1, 7, "", 0, 0), "a void answer's");
    begin_lifetime(50, "v=spf1 a:g.x ?all");
    put_void(TALAVORN_TYPE_A, TALAVORN_FAILED, 7, "g.x");
    expect(first() == 5 && left(0, 1, 0, 7, "", 0, 0), "a failed answer's");
    begin_lifetime(50, "v=spf1 a:g.x ?all");
    put_items(TALAVORN_TYPE_A, 70, "g.x", TEXT(CLIENT));
    expect(first() == 2 && left(0, 1, 0, 50, "", 0, 0), "a longer one's");
    begin_check();
    expect(first() == 7 && left(TALAVORN_TYPE_TXT, 0, 0, 0, "example.com", 0, 0), "no entry's");
    begin_check();
    put_void(TALAVORN_TYPE_TXT, TALAVORN_FAILED, 50, "example.com");
    expect(first() == 5 && left(0, 0, 0, 50, "", 0, 0), "a failed record's");
    begin_check();
    put_void(TALAVORN_TYPE_TXT, TALAVORN_NO_SUCH_NAME, 50, "com");
    given.domain = talavorn_text("com");
    expect(first() == 0 && left(0, 0, 0, 0, "", 0, 0), "a single label asks nothing");
    begin_lifetime(50, "v=spf1 include:b.x ?all");
    put_items(TALAVORN_TYPE_TXT, 40, "b.x", TEXT("\x12\0v=spf1 -exists:c.x"));
    put_void(TALAVORN_TYPE_A, TALAVORN_NO_SUCH_NAME, 30, "c.x");
    expect(first() == 1 && left(0, 2, 1, 30, "", 0, 0), "those within an include");
    begin_lifetime(50, "v=spf1 redirect=b.x");
    put_items(TALAVORN_TYPE_TXT, 40, "b.x", TEXT("\x0b\0v=spf1 -all"));
    expect(first() == 3 && left(0, 1, 0, 40, "b.x", 0, 0), "a redirect's");
    begin_lifetime(50, "v=spf1 exists:a.x exists:b.x ?all");
    put_void(TALAVORN_TYPE_A, TALAVORN_ANSWERED, 3, "a.x");
    put_items(TALAVORN_TYPE_A, 9, "b.x", TEXT(CLIENT));
    expect(first() == 2 && left(0, 2, 1, 3, "", 0, 0), "a term's that didn't match");
}

/* What decisions are kept for: neither the time nor the receiver changes a result. */
static void time_and_receiver(void)
{
    for (uint64_t seconds = 0; seconds < 2; seconds++) {
        begin_record("v=spf1 exists:%{t}.x -all");
        given.seconds = seconds;
        expect(first() == TALAVORN_PERMERROR && left(0, 0, 0, 300, "", 0, 0), "t in a name");
        begin_record("v=spf1 exists:%{r}.x -all");
        given.receiver = talavorn_text(seconds ? "r.example" : "");
        expect(first() == TALAVORN_PERMERROR && left(0, 0, 0, 300, "", 0, 0), "r in a name");
    }
}

/* Entries that no question was for. */
static void lifetimes_passed_over(void)
{
    begin_lifetime(50, "v=spf1 mx -all");
    put_items(TALAVORN_TYPE_SPF, 1, "example.com", TEXT("\x0b\0v=spf1 +all"));
    put_items(TALAVORN_TYPE_MX, 60, "example.com", TEXT("\6\0\0\0ok.x" "\5\0\0\0h.x"));
    put_items(TALAVORN_TYPE_A, 70, "ok.x", TEXT(CLIENT));
    put_void(TALAVORN_TYPE_AAAA, TALAVORN_ANSWERED, 1, "ok.x");
    put_void(TALAVORN_TYPE_A, TALAVORN_ANSWERED, 1, "h.x");
    expect(first() == 2 && left(0, 1, 0, 50, "", 0, 0),
           "kind SPF, the other family, a host behind the match");
    begin_lifetime(50, "v=spf1 mx -all");
    begin_items(sizeof buffer);
    for (int i = 0; i < 11; i++)
        talavorn_item_mx(&items, 0, talavorn_text("h.x"));
    put_items(TALAVORN_TYPE_MX, 60, "example.com", items.bytes, items.len);
    put_items(TALAVORN_TYPE_A, 1, "h.x", TEXT(CLIENT));
    expect(first() == 6 && left(0, 1, 0, 50, "", 0, 0), "hosts of eleven");
    begin_lifetime(50, "v=spf1 exists:%{p}.y -all");
    put_items(TALAVORN_TYPE_PTR, 60, REVERSE, TEXT("\x0b\0example.com" "\3\0h.x"));
    put_items(TALAVORN_TYPE_A, 70, "example.com", TEXT(CLIENT));
    put_items(TALAVORN_TYPE_A, 7, "h.x", TEXT("\4\0\1\2\3\4"));
    put_items(TALAVORN_TYPE_A, 80, "example.com.y", TEXT(CLIENT));
    expect(first() == 2 && left(0, 1, 0, 7, "", 0, 0), "p asks behind the domain's own name, too");
    begin_lifetime(50, "v=spf1 -all exp=e.x");
    put_items(TALAVORN_TYPE_TXT, 7, "e.x", TEXT("\1\0t"));
    expect(first() == 3 && left(0, 0, 0, 50, "example.com", 39, 3), "the explanation's");
    expect(second("example.com", 39, 3) == 3 && made(0, "", "t"), "the second call has none");
}

/* Rewrites an old table into the front of the buffer, whose bytes are others before. */
static uint8_t rewrite(const void *old, size_t old_len, size_t room)
{
    memset(table, 0xee, sizeof table);
    memcpy(before, table, sizeof table);
    size = 77;
    return talavorn_add_lifetimes(old, old_len, table, room, &size);
}

/* Whether this new table was written, and no byte besides. */
static int rewritten(const void *bytes, size_t len)
{
    return size == len && memcmp(table, bytes, len) == 0
           && memcmp(table + len, before + len, sizeof table - len) == 0;
}

/* Whether a refusal has this place and left the buffer as it was. */
static int not_rewritten(size_t at)
{
    return size == at && memcmp(table, before, sizeof table) == 0;
}

#define OLD "\5\0\1\0\0\1" "a"

static void old_tables(void)
{
    expect(rewrite(TEXT(OLD), 11) == 0
               && rewritten(TEXT("\x09\0\1\0\0\0\0\0\0\1" "a")),
           "an old entry in a buffer of the new one's length");
    expect(rewrite(TEXT(OLD), 65535) == 0 && size == 11, "the same in a larger buffer");
    expect(rewrite(TEXT(OLD), 10) == TALAVORN_LONG_TABLE && not_rewritten(0),
           "in a buffer that is a byte too small");
    expect(rewrite(NULL, 0, 0) == 0 && rewritten("", 0), "an empty table");
    expect(rewrite(TEXT("\x0d\0\1\0\0\3" "a.b" "\4\0\1\2\3\4" "\5\0\x10\0\3\1" "a"), 65535) == 0
               && rewritten(TEXT("\x11\0\1\0\0\0\0\0\0\3" "a.b" "\4\0\1\2\3\4"
                                 "\x09\0\x10\0\3\0\0\0\0\1" "a")),
           "two entries");
    expect(talavorn_check_table(table, size, &place) == 0 && place == 2, "the new table's entries");
    expect(rewrite(TEXT(OLD OLD), 0) == TALAVORN_REPEATED_ENTRY && not_rewritten(7),
           "an entry twice");
    expect(rewrite(TEXT(OLD OLD "\n"), 0) == TALAVORN_REPEATED_ENTRY && not_rewritten(7),
           "an entry twice, before a malformed one");
    expect(rewrite(TEXT(OLD "\n"), 65535) == TALAVORN_BAD_ENTRY && not_rewritten(7), "a newline");
    expect(rewrite(TEXT("\x09\0\1\0\0\0\0\0\0\1" "a"), 65535) == TALAVORN_BAD_ENTRY
               && not_rewritten(0),
           "a new table");
    expect(rewrite(TEXT("\x1c\0\x10\0\0\x0b" "example.com" "\x0b\0v=spf1 -all"), 65535) == 0,
           "an old record");
    given = usual_mail();
    expect(first() == TALAVORN_FAIL && left(0, 0, 0, 0, "example.com", 0, 0), "a check over it");
}

/* An old table that is read as a new one: part of the name stands for the lifetime and a length. */
static void old_table_as_new(void)
{
#define NAME "abc!" "abcdefghijklmnopqrstuvwxyz0123456"
    begin_with(TEXT("\x29\0\1\0\0\x25" NAME));
    expect(talavorn_check_table(table, size, &place) == 0 && place == 1, "an old table as it is");
    expect(rewrite(TEXT("\x29\0\1\0\0\x25" NAME), 65535) == 0
               && rewritten(TEXT("\x2d\0\1\0\0" "\0\0\0\0" "\x25" NAME)),
           "the same rewritten");
}

/* Old tables of 65,531 bytes and above, of one TXT entry, and many entries. */
static void large_old_tables(void)
{
    static uint8_t old[65536];
    size_t at = 0;
    for (size_t n = 65531; n <= 65536; n++) {
        /* 16 texts behind the 7 bytes before the items: 15 of 4,096 bytes, the last fills up */
        memcpy(old, "\0\0\x10\0\0\1a", 7);
        old[0] = (uint8_t)((n - 2) % 256);
        old[1] = (uint8_t)((n - 2) / 256);
        for (size_t i = 0; i < 15; i++)
            memcpy(old + 7 + 4098 * i, "\0\x10", 2);
        old[61477] = (uint8_t)((n - 61479) % 256);
        old[61478] = (uint8_t)((n - 61479) / 256);
        if (n == 65531)
            expect(rewrite(old, n, 65535) == 0 && size == 65535
                       && memcmp(table, "\xfd\xff\x10\0\0\0\0\0\0\1a", 11) == 0
                       && memcmp(table + 11, old + 7, n - 7) == 0 && table[65535] == 0xee,
                   "65,531 bytes");
        else
            expect(rewrite(old, n, 65536) == TALAVORN_LONG_TABLE && not_rewritten(0),
                   "over 65,531 bytes");
    }
    expect(rewrite(old, 65535, 65535) == TALAVORN_BAD_ENTRY && not_rewritten(0),
           "65,535 bytes of a longer entry");
    for (int i = 0; i < 513; i++) {
        char name[8];
        int n = sprintf(name, "n%d", i);
        const uint8_t header[6] = { (uint8_t)(4 + n), 0, 1, 0, 3, (uint8_t)n };
        if (i == 512)
            expect(rewrite(old, at, 65535) == 0 && size == at + 4 * 512, "512 old entries");
        memcpy(old + at, header, 6);
        memcpy(old + at + 6, name, (size_t)n);
        at += 6 + (size_t)n;
    }
    expect(rewrite(old, at, 65535) == TALAVORN_BAD_ENTRY && not_rewritten(at - 10),
           "a 513th old entry");
}

/* Decisions in the cache. */
static struct cache cache;

/* Keeps a pass of one lookup and two void answers for a mail. */
static void keep(const struct talavorn_mail *mail, uint32_t life, uint64_t since, uint64_t now)
{
    struct talavorn_answer a = { .number = TALAVORN_PASS, .lookups = 1, .voids = 2 };
    a.lifetime = life;
    cache_keep(&cache, mail, &a, since, now);
}

static void kept_decisions(void)
{
    struct talavorn_mail mail = usual_mail(), other;
    struct talavorn_answer a = { .number = TALAVORN_PASS, .lifetime = 50 };
    const struct cache_decision *d;
    memset(&cache, 0, sizeof cache);
    expect(!cache_find(&cache, &mail, 0) && !cache_find(&cache, &mail, 1000), "an empty cache");
    keep(&mail, 50, 1000, 1000);
    d = cache_find(&cache, &mail, 1000);
    expect(d && d->number == TALAVORN_PASS && d->lookups == 1 && d->voids == 2, "a decision");
    expect(cache_find(&cache, &mail, 1049) == d, "in the last second of its lifetime");
    expect(!cache_find(&cache, &mail, 1050), "at the end of its lifetime");
    expect(!cache_find(&cache, &mail, 999), "before it was made");
    mail.seconds = 1049;
    expect(cache_find(&cache, &mail, 1049) == d, "another value of macro t");
#define OTHER(part, view, what) \
    (other = mail, other.part = (view), expect(!cache_find(&cache, &other, 1000), what))
    OTHER(client, talavorn_bytes(network, 4), "another client");
    OTHER(client, talavorn_bytes(mapped, 16), "the client mapped");
    OTHER(domain, talavorn_text("example.com"), "another domain");
    OTHER(sender, talavorn_text("user@example.co"), "another sender");
    OTHER(helo, talavorn_text(""), "another HELO");
    OTHER(receiver, talavorn_text("r"), "another receiver");
    other = mail;
    other.domain = talavorn_text("Example.com.u");
    other.sender = talavorn_text("ser@example.com");
    expect(!cache_find(&cache, &other, 1000), "a byte moved from one part to the next");
    keep(&mail, 20, 1045, 1045);
    expect(cache_find(&cache, &mail, 1064) && !cache_find(&cache, &mail, 1065), "decided anew");
    memset(&cache, 0, sizeof cache);
    keep(&mail, 0, 1000, 1000);
    expect(!cache_find(&cache, &mail, 1000), "a lifetime of 0");
    keep(&mail, 50, 1000, 1049);
    expect(cache_find(&cache, &mail, 1049) && !cache_find(&cache, &mail, 1050), "a letter parked");
    memset(&cache, 0, sizeof cache);
    keep(&mail, 50, 1000, 1050);
    expect(!cache_find(&cache, &mail, 1050), "one parked for too long");
    for (unsigned number = 0; number < 256; number++) {
        memset(&cache, 0, sizeof cache);
        a.number = (uint8_t)number;
        cache_keep(&cache, &mail, &a, 1000, 1000);
        expect(!cache_find(&cache, &mail, 1000) == (7 <= number), "results are kept, 0 to 6");
    }
}

/* More decisions than there are places, and arguments of the most bytes. */
static void full_cache(void)
{
    static char domain[257], sender[321], helo[256], receiver[256];
    static uint8_t octets[CACHE_PLACES + 1][4];
    struct talavorn_mail mail = usual_mail();
    memset(&cache, 0, sizeof cache);
    for (uint8_t i = 0; i <= CACHE_PLACES; i++) {
        octets[i][3] = i;
        mail.client = talavorn_bytes(octets[i], 4);
        /* that of number 7 has least left, though not the smallest lifetime */
        keep(&mail, i == 7 ? 120 : 100 + i, i == 7 ? 930 : 1000, 1000);
    }
    for (uint8_t i = 0; i <= CACHE_PLACES; i++) {
        mail.client = talavorn_bytes(octets[i], 4);
        expect(!cache_find(&cache, &mail, 1000) == (i == 7), "the least left is replaced");
    }
    memset(domain, 'd', 256);
    memset(sender, 's', 320);
    memset(helo, 'h', 255);
    memset(receiver, 'r', 255);
    mail.client = talavorn_bytes(client6, 16);
    mail.domain = talavorn_bytes(domain, 255);
    mail.sender = talavorn_text(sender);
    mail.helo = talavorn_text(helo);
    mail.receiver = talavorn_text(receiver);
    keep(&mail, 50, 1000, 1000);
    expect(cache_find(&cache, &mail, 1000) != NULL, "the longest arguments");
    mail.domain.len = 256;
    keep(&mail, 50, 1000, 1000);
    expect(!cache_find(&cache, &mail, 1000), "longer ones, which a check refuses");
}

/* Adds to an empty table of so much room, as the answer to the question for `A a.b`. */
static uint8_t add(unsigned rcode, const struct talavorn_items *given, size_t room)
{
    static const struct talavorn_answer asked = {
        .number = TALAVORN_WANTING, .kind = TALAVORN_TYPE_A, .name_len = 3, .name = "a.b"
    };
    begin_with("", 0);
    memcpy(before, table, sizeof table);
    place = 0;
    return talavorn_add(&asked, rcode, lifetime, given, table, room, &size);
}

static void wrapped_additions(void)
{
    #define UNTIL(life) life "\x03" "a.b"
    static const char failed[] = "\x0b\0\x01\0\x02" UNTIL("\x2c\1\0\0");
    static const char unfit[] = "\x0b\0\x01\0\x02" UNTIL("\0\0\0\0");
    begin_items(16);
    talavorn_item_a(&items, client);
    expect(add(0, &items, 19) == 0
               && added(0, TEXT("\x11\0\x01\0\0" UNTIL("\x2c\1\0\0") "\x04\0\xc0\0\x02\x81")),
           "an answer");
    expect(add(0, &items, 18) == 0 && added(0, TEXT(unfit)), "one that the table has no room for");
    expect(add(0, &items, 13) == 0 && added(0, TEXT(unfit)), "room for a failed one alone");
    expect(add(0, &items, 12) == TALAVORN_UNFIT_ENTRY && kept(0, 0), "a full table");
    expect(add(0, NULL, 13) == 0 && added(0, TEXT("\x0b\0\x01\0\0" UNTIL("\x2c\1\0\0"))),
           "no records");
    expect(add(3, &items, 13) == 0 && added(0, TEXT("\x0b\0\x01\0\x03" UNTIL("\x2c\1\0\0"))),
           "NXDOMAIN");
    expect(add(2, &items, 13) == 0 && added(0, TEXT(failed)), "SERVFAIL");
    expect(add(5, NULL, 13) == 0 && added(0, TEXT(failed)), "REFUSED");
    expect(add(256, NULL, 13) == 0 && added(0, TEXT(failed)), "an RCODE over 255");
    talavorn_item_txt(&items, talavorn_text("xyz"));
    expect(!items.unfit && add(0, &items, 65535) == 0 && added(0, TEXT(unfit)),
           "an item of another kind");
    begin_items(7);
    talavorn_item_a(&items, client);
    talavorn_item_a(&items, client);
    expect(items.unfit && add(0, &items, 65535) == 0 && added(0, TEXT(unfit)),
           "an item that had no room");
}

static void put_ten(const struct talavorn_answer *a)
{
    char host[300];
    for (int i = 0; i < 10; i++) {
        sprintf(host, "h%d.%s", i, a->name);
        if (a->kind == TALAVORN_TYPE_MX)
            talavorn_item_mx(&items, 10, talavorn_text(host));
        else
            talavorn_item_ptr(&items, talavorn_text(host));
    }
}

/* Plays a check of this record, with ten hosts in each MX and PTR answer: h0 to h9 before the name
 * that was asked. Those below h`gone` have no address, the others the client's. Answers how many
 * questions there were. */
static int played(const char *record, char gone, struct talavorn_answer *a)
{
    struct talavorn_mail mail = usual_mail();
    int questions = 0;
    size = 0;
    while ((*a = talavorn_check(&mail, table, size)).number == TALAVORN_WANTING) {
        unsigned rcode = 0;
        begin_items(sizeof buffer);
        if (a->kind == TALAVORN_TYPE_TXT)
            talavorn_item_txt(&items, talavorn_text(record));
        else if (a->kind != TALAVORN_TYPE_A)
            put_ten(a);
        else if (a->name[0] == 'h' && gone <= a->name[1])
            talavorn_item_a(&items, client);
        else
            rcode = TALAVORN_NO_SUCH_NAME;
        if (talavorn_add(a, rcode, lifetime, &items, table, sizeof table, &size) != 0)
            break;
        questions++;
    }
    return questions;
}

/* Hosts of mx and names of ptr that are gone: the third ends the check, p's don't count. */
static void void_answers(void)
{
    struct talavorn_answer a;
    expect(played("v=spf1 mx -all", '9', &a) == 5 && a.number == TALAVORN_PERMERROR
               && a.lookups == 1 && a.voids == 3,
           "ten hosts, nine gone");
    expect(played("v=spf1 mx -all", '2', &a) == 5 && a.number == TALAVORN_PASS && a.lookups == 1
               && a.voids == 2,
           "ten hosts, two gone");
    expect(played("v=spf1 ptr -all", '9', &a) == 5 && a.number == TALAVORN_PERMERROR
               && a.lookups == 1 && a.voids == 3,
           "ten names, nine gone");
    expect(played("v=spf1 exists:%{p}.example -all", 'z', &a) == 13 && a.number == TALAVORN_FAIL
               && a.lookups == 1 && a.voids == 1,
           "p's ten names, all gone");
}

/* Answers a question of the play below: ten hosts for each MX and PTR, whose addresses are others,
 * and two records. Answers whether it could. */
static int ask_for(const struct talavorn_answer *a, const char *record)
{
    static const uint8_t other[4] = { 198, 51, 100, 1 };
    begin_items(sizeof buffer);
    if (a->kind == TALAVORN_TYPE_A)
        talavorn_item_a(&items, other);
    else if (a->kind != TALAVORN_TYPE_TXT)
        put_ten(a);
    else if (strcmp(a->name, "example.com") == 0)
        talavorn_item_txt(&items, talavorn_text(record));
    else
        talavorn_item_txt(&items, talavorn_text("not from %{p}"));
    return !items.unfit && talavorn_add(a, 0, lifetime, &items, table, sizeof table, &size) == 0;
}

/* Plays a check of this record, both calls, from an empty table. Leaves how many questions the
 * first asked, and answers how many the second. */
static int play(const char *record, struct talavorn_answer *a, int *first, char text[501])
{
    struct talavorn_mail mail = usual_mail();
    struct talavorn_answer t;
    int second = 0;
    *first = 0;
    for (size = 0; (*a = talavorn_check(&mail, table, size)).number == TALAVORN_WANTING; ++*first)
        if (!ask_for(a, record))
            return -1;
    while ((t = talavorn_fail_text(&mail, a, table, size, text)).number == TALAVORN_WANTING) {
        if (!ask_for(&t, record))
            return -1;
        second++;
    }
    return second;
}

/* Ten mx of ten hosts each, one of them with macro p, and an explanation. */
static void most_questions(void)
{
    struct talavorn_answer a;
    char text[501];
    int first, second;
    second = play("v=spf1 mx:%{p}.m0.example mx:m1.example mx:m2.example mx:m3.example "
                  "mx:m4.example mx:m5.example mx:m6.example mx:m7.example mx:m8.example "
                  "mx:m9.example -all exp=why.example",
                  &a, &first, text);
    expect(a.number == TALAVORN_FAIL && a.lookups == 10 && a.voids == 0
               && strcmp(text, "not from unknown") == 0,
           "the result after the most questions");
    expect(first == 122 && second == 1, "123 questions");
    second = play("v=spf1 -all exp=%{p}.example", &a, &first, text);
    expect(a.number == TALAVORN_FAIL && first == 1 && second == 12
               && strcmp(text, "not from unknown") == 0,
           "the most questions of the second call");
}

int main(void)
{
    records();
    terms();
    expansions();
    lines_written();
    lines_refused();
    lines_read();
    parts_unquoted();
    breaches_listed();
    house_lengths();
    house_refusals();
    most_breaches();
    rule_names();
    matches();
    tables();
    additions();
    refusals();
    fullness();
    item_bytes();
    item_room();
    item_hosts();
    item_ten_names();
    item_texts();
    result_names();
    checks();
    fail_texts();
    spf_entries();
    odd_answers();
    evaluation_refusals();
    explanation_refusals();
    failing_records();
    other_results();
    explanations();
    odd_explanations();
    explanations_with_p();
    exp_places();
    exp_tables();
    exp_selection();
    lifetimes();
    lifetimes_passed_over();
    time_and_receiver();
    old_tables();
    old_table_as_new();
    large_old_tables();
    kept_decisions();
    full_cache();
    wrapped_additions();
    void_answers();
    most_questions();
    printf("%d as they should be, %d not\n", right, wrong);
    return wrong != 0;
}
