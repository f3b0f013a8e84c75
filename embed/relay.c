/* What a relay does that sends the domain's explanation, and what one does that never sends it:
 * each checks four clients from an empty table each. Each question that is wanting is printed and
 * asked, here of a little zone in place of the DNS. Then the result is printed, with the header
 * line that goes into an accepted message, and how many questions were asked. Then both take up a
 * letter that lacks the explanation's answer alone. At the end a relay keeps its decisions for
 * their lifetimes, over some minutes. */
#include <stdio.h>

#include <talavorn.h>

#include "cache.h"

/* The zone: a line for each record. */
static const struct record {
    const char *name;
    uint16_t type;
    uint16_t preference;    /* of an MX record */
    uint32_t ttl;
    const char *data;
} zone[] = {
    { "example.com", TALAVORN_TYPE_TXT, 0, 3600, "some other text" },
    { "example.com", TALAVORN_TYPE_TXT, 0, 3600,
      "v=spf1 include:_spf.example.net mx -all exp=why.%{d}" },
    { "_spf.example.net", TALAVORN_TYPE_TXT, 0, 300, "v=spf1 ip4:192.0.2.0/25 -all" },
    { "example.com", TALAVORN_TYPE_MX, 20, 3600, "gone.example.com." },
    { "example.com", TALAVORN_TYPE_MX, 10, 3600, "Mail.Example.COM." },
    { "mail.example.com", TALAVORN_TYPE_A, 0, 120, "198.51.100.7" },
    { "why.example.com", TALAVORN_TYPE_TXT, 0, 30, "%{c} may not send mail for %{d}" },
};

/* How long it holds that a name or a record isn't there: in the DNS the SOA record says so. */
static const uint32_t negative_ttl = 60;

static void put_item(struct talavorn_items *items, const struct record *r)
{
    uint8_t octets[16];
    switch (r->type) {
    case TALAVORN_TYPE_A:
        if (talavorn_read_address(r->data, strlen(r->data), octets) == 4)
            talavorn_item_a(items, octets);
        break;
    case TALAVORN_TYPE_MX:
        talavorn_item_mx(items, r->preference, talavorn_text(r->data));
        break;
    case TALAVORN_TYPE_TXT:
        talavorn_item_txt(items, talavorn_text(r->data));
        break;
    }
}

/* Asks the zone: an item for each record of the type, and the smallest TTL; returns the RCODE. */
static unsigned ask(
    const char *name, uint16_t type, struct talavorn_items *items, uint32_t *lifetime)
{
    unsigned rcode = TALAVORN_NO_SUCH_NAME, records = 0;
    *lifetime = negative_ttl;
    for (size_t i = 0; i < sizeof zone / sizeof *zone; i++) {
        if (strcmp(zone[i].name, name) != 0)
            continue;
        rcode = TALAVORN_ANSWERED;
        if (zone[i].type != type)
            continue;
        put_item(items, &zone[i]);
        if (records++ == 0 || zone[i].ttl < *lifetime)
            *lifetime = zone[i].ttl;
    }
    return rcode;
}

static const char *type_name(uint16_t type)
{
    switch (type) {
    case TALAVORN_TYPE_A: return "A";
    case TALAVORN_TYPE_PTR: return "PTR";
    case TALAVORN_TYPE_MX: return "MX";
    case TALAVORN_TYPE_TXT: return "TXT";
    default: return "AAAA";
    }
}

/* A letter: what is checked, and its table, which is all that is kept while it is parked. */
struct letter {
    struct talavorn_mail mail;
    uint8_t client[16], table[65535];
    size_t size;
    unsigned asked;
    uint64_t begun;         /* when its table was begun: the lifetimes in it run from then on */
};

/* Asks for what is wanting and adds the answer to the letter's table; returns whether it could. */
static int ask_for(struct letter *l, const struct talavorn_answer *wanting)
{
    static uint8_t buffer[65535]; /* one for each thread */
    struct talavorn_items items = talavorn_items_in(buffer, sizeof buffer);
    uint32_t lifetime;
    unsigned rcode = ask(wanting->name, wanting->kind, &items, &lifetime);
    printf("  %s %s\n", type_name(wanting->kind), wanting->name);
    l->asked++;
    return talavorn_add(wanting, rcode, lifetime, &items, l->table, sizeof l->table, &l->size) == 0;
}

/* The result. Nothing is asked for the explanation. */
static struct talavorn_answer decide(struct letter *l)
{
    struct talavorn_answer a;
    while ((a = talavorn_check(&l->mail, l->table, l->size)).number == TALAVORN_WANTING)
        if (!ask_for(l, &a)) {
            a.number = TALAVORN_TEMPERROR; /* nothing was added: the table is full */
            a.lifetime = 0;
            break;
        }
    return a;
}

/* The text of a fail, empty where there is none. */
static void explain(struct letter *l, const struct talavorn_answer *failed, char text[501])
{
    struct talavorn_answer a;
    do
        a = talavorn_fail_text(&l->mail, failed, l->table, l->size, text);
    while (a.number == TALAVORN_WANTING && ask_for(l, &a));
}

/* Decides a letter, and makes the text if this relay sends it. */
static void handle(struct letter *l, int sends_text)
{
    char text[501] = "", line[1501];
    struct talavorn_answer a;
    size_t n;
    l->asked = 0;
    a = decide(l);
    if (20 <= a.number) {
        printf("  no result: refused, number %u\n", a.number);
        return;
    }
    printf("  %s, lookups %u, voids %u, lifetime %u\n", talavorn_result_name(a.number), a.lookups,
           a.voids, (unsigned)a.lifetime);
    n = talavorn_received(&l->mail, a.number, TALAVORN_IDENTITY_MAILFROM, line);
    if (n) /* without its CR LF */
        printf("  %.*s\n", (int)n - 2, line);
    if (a.number == TALAVORN_FAIL && sends_text)
        explain(l, &a, text);
    if (*text)
        printf("  the domain %s explains: %s\n", a.name, text);
    printf("  questions: %u\n", l->asked);
}

static void begin(struct letter *l, const char *client, uint64_t now)
{
    size_t family = talavorn_read_address(client, strlen(client), l->client);
    struct talavorn_mail mail = {
        .client = talavorn_bytes(l->client, family),
        .domain = talavorn_text("example.com"),
        .sender = talavorn_text("user@example.com"),
        .helo = talavorn_text("mail.example.com"),
        .receiver = talavorn_text("mx.relay.example"),
        .seconds = now,
    };
    l->mail = mail;
    l->size = 0;
    l->begun = now;
}

/* A letter of a relay that keeps decisions. A kept fail has no text, and its table is gone: if the
 * text is sent the letter is decided from its own table, as the first of its kind was. */
static void handle_kept(struct cache *cache, struct letter *l, int sends_text, uint64_t now)
{
    const struct cache_decision *kept = cache_find(cache, &l->mail, now);
    char text[501] = "";
    struct talavorn_answer a;
    if (kept && !(sends_text && kept->number == TALAVORN_FAIL)) {
        printf("  %s, kept, seconds left: %u\n", talavorn_result_name(kept->number),
               (unsigned)cache_left(kept, now));
        return;
    }
    l->asked = 0;
    a = decide(l);
    cache_keep(cache, &l->mail, &a, l->begun, now);
    if (a.number == TALAVORN_FAIL && sends_text)
        explain(l, &a, text);
    printf("  %s, lifetime %u, questions: %u\n", talavorn_result_name(a.number),
           (unsigned)a.lifetime, l->asked);
    if (*text)
        printf("  the domain %s explains: %s\n", a.name, text);
}

/* A mailing list's run: the same two clients again and again. */
static void play_run(void)
{
    static const struct {
        unsigned at;
        const char *client;
        int sends_text;
    } run[] = {
        { 0, "192.0.2.1", 0 },
        { 1, "192.0.2.1", 0 },
        { 1, "203.0.113.9", 0 },
        { 60, "203.0.113.9", 0 },
        { 61, "203.0.113.9", 0 },
        { 62, "203.0.113.9", 1 },
        { 299, "192.0.2.1", 0 },
        { 300, "192.0.2.1", 0 },
    };
    static struct cache cache;
    static struct letter l;
    puts("a relay that keeps decisions");
    for (size_t i = 0; i < sizeof run / sizeof *run; i++) {
        uint64_t now = 1700000000 + run[i].at;
        printf("client %s, second %u%s\n", run[i].client, run[i].at,
               run[i].sends_text ? ": the text is sent" : "");
        begin(&l, run[i].client, now);
        handle_kept(&cache, &l, run[i].sends_text, now);
    }
}

int main(void)
{
    static const char *const clients[] = {
        "192.0.2.1", "198.51.100.7", "203.0.113.9", "2001:db8::1"
    };
    static struct letter letters[sizeof clients / sizeof *clients];
    for (int sends_text = 1; 0 <= sends_text; sends_text--) {
        puts(sends_text ? "a relay that sends the text" : "a relay that sends no text");
        for (size_t i = 0; i < sizeof clients / sizeof *clients; i++) {
            printf("client %s\n", clients[i]);
            begin(&letters[i], clients[i], 1700000000);
            handle(&letters[i], sends_text);
        }
    }
    /* the second relay left no answer for the explanation in the tables */
    printf("client %s, parked for the explanation alone: no text is sent\n", clients[2]);
    handle(&letters[2], 0);
    printf("client %s, parked for the explanation alone: the text is sent\n", clients[2]);
    handle(&letters[2], 1);
    play_run();
    return 0;
}
