/* A little cache of decisions over talavorn.h: a relay that makes the same check for a mailing
 * list's whole run makes it once in each lifetime. Copy it beside the relay, and give it as many
 * places as the relay has use for. It isn't part of the library; tested and not proved.
 *
 * What it keeps: results, 0 to 6, with their counts, each for the lifetime that talavorn_check gave
 * with it. A lifetime of 0 isn't kept, nor is 7, nor a refusal.
 *
 * What a decision is for: client, domain, sender, HELO and receiver, byte by byte. No other
 * argument changes a result. The time doesn't: macro t, like c and r, may stand in an explanation's
 * text alone, and a record that has it in a name, of exists for instance, is a permerror at any
 * time.
 *
 * What it doesn't keep: the text of a fail, nor what that is made from. The text may have the time
 * in it, its answers aren't among those that the lifetime is of, and exp's place belongs to a table
 * that is gone with its letter. A relay that sends the text makes it anew, beginning with
 * talavorn_check over the letter's own table; talavorn_fail_text never sees a kept decision.
 *
 * The time is given, in seconds, by whoever calls: a test needs no clock. Where the clock is set
 * back beyond a decision's beginning, the decision doesn't hold. A cache is for one thread, or
 * stands behind a lock. */
#ifndef CACHE_H
#define CACHE_H

#include <talavorn.h>

/* How many decisions are kept. */
enum { CACHE_PLACES = 64 };

/* The bytes of the longest key: five parts that a check accepts, each led by its 2-byte length. */
enum { CACHE_KEY = 2 + 16 + 2 + 255 + 2 + 320 + 2 + 255 + 2 + 255 };

struct cache_decision {
    uint64_t since;                 /* in seconds; kept for `lifetime` of them */
    uint32_t lifetime;              /* 0 for an empty place */
    uint8_t number;                 /* the result, 0 to 6 */
    unsigned lookups, voids;
    size_t key_len;
    uint8_t key[CACHE_KEY];
};

/* All bytes 0 is an empty cache. */
struct cache {
    struct cache_decision places[CACHE_PLACES];
};

/* The seconds that are left of a decision, 0 if it is over. */
static inline uint64_t cache_left(const struct cache_decision *d, uint64_t now)
{
    uint64_t passed = now - d->since;
    return passed < d->lifetime ? d->lifetime - passed : 0;
}

/* The key of a mail; returns its length, 0 for a mail that no check accepts. */
static inline size_t cache_key(const struct talavorn_mail *mail, uint8_t key[CACHE_KEY])
{
    const struct talavorn_view parts[5] = { mail->client, mail->domain, mail->sender, mail->helo,
                                            mail->receiver };
    size_t at = 0;
    for (int i = 0; i < 5; i++) {
        size_t n = parts[i].len;
        if (CACHE_KEY - at < 2 || CACHE_KEY - at - 2 < n)
            return 0;
        key[at] = (uint8_t)(n % 256);
        key[at + 1] = (uint8_t)(n / 256);
        if (n)
            memcpy(key + at + 2, parts[i].at, n);
        at += 2 + n;
    }
    return at;
}

/* The decision for a mail that still holds; NULL if there is none. */
static inline const struct cache_decision *cache_find(
    const struct cache *cache, const struct talavorn_mail *mail, uint64_t now)
{
    uint8_t key[CACHE_KEY];
    size_t n = cache_key(mail, key);
    for (int i = 0; i < CACHE_PLACES; i++) {
        const struct cache_decision *d = &cache->places[i];
        if (cache_left(d, now) && n && d->key_len == n && memcmp(d->key, key, n) == 0)
            return d;
    }
    return NULL;
}

/* Keeps the decision for a mail, in the place of the same mail's or else of the one that has least
 * left.
 *
 * answer    what talavorn_check gave. A result that the relay made itself, as where its table was
 *           full, has lifetime 0
 * since     when the first answer of the table was asked for: lifetimes run from then on, also
 *           while a letter is parked */
static inline void cache_keep(
    struct cache *cache, const struct talavorn_mail *mail, const struct talavorn_answer *answer,
    uint64_t since, uint64_t now)
{
    struct cache_decision d, *least = &cache->places[0];
    memset(&d, 0, sizeof d);
    d.since = since;
    d.lifetime = answer->lifetime;
    d.number = answer->number;
    d.lookups = answer->lookups;
    d.voids = answer->voids;
    d.key_len = cache_key(mail, d.key);
    if (TALAVORN_PERMERROR < d.number || d.key_len == 0 || cache_left(&d, now) == 0)
        return;
    for (int i = 0; i < CACHE_PLACES; i++) {
        struct cache_decision *p = &cache->places[i];
        if (p->key_len == d.key_len && memcmp(p->key, d.key, d.key_len) == 0) {
            least = p;
            break;
        }
        if (cache_left(p, now) < cache_left(least, now))
            least = p;
    }
    *least = d;
}

#endif
