/* Talavorn: RFC 7208's check_host() (SPF) for mail relays, without I/O.
 *
 * No call sends a DNS query. A check goes over the DNS answers that the caller lends, and names the
 * one question whose answer is missing. talavorn(3) shows how the calls are put together.
 *
 *     1  Version
 *     2  What holds for every call
 *     3  The answer table
 *     4  Numbers
 *     5  The calls: proved, in libtalavorn.a
 *     6  The wrapper: inline functions over the calls, tested and not proved
 *
 * C99 and C++11. Link with `pkg-config --cflags --libs talavorn`. The library is for x86-64 Linux
 * and needs nothing but the C library's memset. */
#ifndef TALAVORN_H
#define TALAVORN_H

#include <stddef.h>
#include <stdint.h>
#include <string.h>

#ifdef __cplusplus
extern "C" {
#endif

/* ---- 1  Version ------------------------------------------------------------------------------
 *
 * Before 1.0.0 a new minor version may change calls and the table's layout; a patch version changes
 * neither. A number never changes its meaning. */
#define TALAVORN_VERSION "0.1.0"

/* ---- 2  What holds for every call ------------------------------------------------------------
 *
 * Proved, for every input, under the rules on memory below:
 * - The call does what its comment says; its contract, in crates/talavorn_c/src/lib.rt, says the
 *   same in the prover's language.
 * - It touches no byte outside what it was lent, and it returns.
 * - It keeps nothing between calls and allocates nothing, so threads may call at the same time,
 *   each with its own lent memory.
 *
 * Memory:
 * - `const void *x, size_t x_len` is x_len bytes that are only read. They need no final 0 and may
 *   be any bytes. Where x_len is 0 the pointer isn't followed. Such bytes may overlap each other.
 * - `void *x, size_t x_len`, an array `T x[n]` and a `size_t *x` are lent for the call. They
 *   overlap nothing else that is given to it, and an array has room for n elements. No more is
 *   written than the comment says; every other byte keeps its value.
 * - `void *` stands for bytes, so that char, unsigned char and uint8_t go in without a cast. In the
 *   ABI such a pair is a pointer and a length.
 *
 * Stack: a call was seen to use up to 90,000 bytes, on hostile input. Give each calling thread a
 * stack of 256 KiB, besides buffers of its own there. This is measured, not proved.
 *
 * Addresses are octets in network order: 4 for IPv4, 16 for IPv6.
 * A place is a number of bytes from the front, from 0. */

/* ---- 3  The answer table ---------------------------------------------------------------------
 *
 * At most 65,535 bytes and 512 entries, end to end; an empty table is allowed. An entry has
 *     2 bytes  the length of all that follows in it
 *     2 bytes  kind, the DNS type that was asked
 *     1 byte   status
 *     4 bytes  lifetime: the seconds for which the answer holds, any number
 *     1 byte   the length of the name
 *     the name that was asked
 *     items up to the entry's end, one for each record: a 2-byte length and as many bytes
 * All numbers are little-endian, the preference of an MX item too, UNLIKE on the wire.
 *
 * Items by kind:
 *     A         4 octets
 *     AAAA      16 octets
 *     PTR       a name
 *     MX        a 2-byte preference, then a name, or nothing where the host is the root
 *     TXT, SPF  a text of 0 to 4,096 bytes, the strings of one record joined with nothing between
 *
 * Rules:
 * - Status 2 and 3 have no items.
 * - No pair of kind and name stands twice.
 * - A name is 1 to 253 bytes: labels of 1 to 63 bytes joined by dots, each byte 33 to 126 and none
 *   of A to Z, without a trailing dot.
 *
 * What goes in:
 * - A reply's records of the asked type, in their order. CNAMEs are followed by whoever asks; what
 *   is found at their end goes in under the name that was asked.
 * - A name that exists without such records is answered, without items.
 * - All texts of a TXT reply. One without a version section, `v=spf1` and then a space or the end,
 *   is no record and may be left out as long as two texts remain: at an explanation's name one text
 *   is the explanation and several are none, and a question doesn't say which name it is for.
 * - A reply that the layout can't hold goes in as failed. But one odd name or text needn't fail all
 *   of the reply: see talavorn_item_ptr, talavorn_item_mx and talavorn_item_txt.
 *
 * Lifetimes: the smallest TTL among the reply's records, followed CNAMEs' included. For a reply
 * without records RFC 2308 has the smaller of the TTL and the MINIMUM of its SOA record. What isn't
 * known to hold for a while, as a failed question, has 0: no result that rests on it is kept.
 *
 * A lifetime changes no result, and no entry is dropped when it is over: a table is for the checks
 * of one message, HELO and MAIL FROM, and begins empty, or with answers from the caller's cache,
 * with what is left of their lifetimes. talavorn_evaluate says for how long its result may be kept.
 *
 * Before W-209 entries had no lifetime: talavorn_add_lifetimes rewrites such a table. Don't lend
 * one as it is: mostly it is refused with 25, but not always. */

/* Kinds: DNS types. No check asks for kind SPF, and an entry of that kind changes no answer: it is
 * checked like any other, counts among the 512 and is then ignored, as records are TXT's alone
 * (RFC 7208 section 3.1). */
enum {
    TALAVORN_TYPE_A = 1,
    TALAVORN_TYPE_PTR = 12,
    TALAVORN_TYPE_MX = 15,
    TALAVORN_TYPE_TXT = 16,
    TALAVORN_TYPE_AAAA = 28,
    TALAVORN_TYPE_SPF = 99
};

/* Statuses: DNS's RCODEs NOERROR, SERVFAIL and NXDOMAIN. Any other RCODE, and no reply, is 2. */
enum {
    TALAVORN_ANSWERED = 0,
    TALAVORN_FAILED = 2,
    TALAVORN_NO_SUCH_NAME = 3
};

/* ---- 4  Numbers ------------------------------------------------------------------------------ */

/* What talavorn_evaluate returns, and 3 and 7 of these talavorn_explain. */
enum {
    TALAVORN_NONE = 0,
    TALAVORN_NEUTRAL = 1,
    TALAVORN_PASS = 2,
    TALAVORN_FAIL = 3,
    TALAVORN_SOFTFAIL = 4,
    TALAVORN_TEMPERROR = 5,
    TALAVORN_PERMERROR = 6,
    TALAVORN_WANTING = 7            /* a question that is needed has no entry in the table */
};

/* Refusals. Each call says which it has, and in which order it tests for them. They are no SPF
 * results. Of a check, 20 to 22 are up to what the client sent:
 *     20  check again with `postmaster@` and the domain as the sender; if it is still 20, none
 *     21  check MAIL FROM again with an empty HELO; for HELO and for an empty MAIL FROM, none
 *     22  none
 * The others are up to the caller: temperror, and fix the caller; but for 21 of the receiver check
 * again with an empty one.
 * A refusal of talavorn_explain doesn't change the result, which is fail: send no text, and fix the
 * caller. What talavorn_evaluate gave with its 3 isn't refused if the other arguments are the same
 * and the table is as it was, or grown at its end by talavorn_append_entry. */
enum {
    TALAVORN_BAD_SENDER = 20,       /* sender not 1 to 320 bytes of 32 to 126 */
    TALAVORN_BAD_HOST = 21,         /* HELO or receiver over 255 bytes, or a byte not 33 to 126 */
    TALAVORN_LONG_DOMAIN = 22,      /* domain or p over 255 bytes */
    TALAVORN_SMALL_BUFFER = 23,     /* name buffer under 253 bytes or text buffer under 500 */
    TALAVORN_LONG_TABLE = 24,       /* table over 65,535 bytes, or over its buffer */
    TALAVORN_BAD_ENTRY = 25,        /* entry of the table malformed, or a 513th */
    TALAVORN_REPEATED_ENTRY = 26,   /* kind and name of an entry stand in the table before it */
    TALAVORN_BAD_EXP = 28,          /* place and size that aren't an exp argument's; see the call */
    TALAVORN_LONG_RECORD = 30,      /* record over 4,096 bytes */
    TALAVORN_NO_VERSION = 31,       /* record without `v=spf1` and then a space or the end */
    TALAVORN_BAD_TERM = 32,         /* term outside the grammar */
    TALAVORN_REPEATED_TERM = 33,    /* second redirect or second exp */
    TALAVORN_BEYOND_RECORD = 34,    /* place beyond the record's length */
    TALAVORN_BAD_MACRO = 40,        /* macro string outside the grammar */
    TALAVORN_NO_ROOM = 41,          /* expansion doesn't fit the buffer */
    TALAVORN_LONG_LINE = 50,        /* line over 1,500 bytes; line or value that has no room */
    TALAVORN_NO_LINE = 51,          /* no line, or part of one, that talavorn_write_line gives */
    TALAVORN_NO_RESULT = 52,        /* result of 7 or above for a line */
    TALAVORN_IN_TABLE = 64,         /* kind and name of a new entry stand in the table */
    TALAVORN_UNFIT_ENTRY = 65,      /* new entry malformed, or too much for table or buffer */
    TALAVORN_MANY_BREACHES = 70,    /* over 256 breaches, or more than the list has room for */
    TALAVORN_BAD_ADDRESS = 90,      /* client or network that isn't 4 or 16 octets */
    TALAVORN_BAD_FORM = 91,         /* form that is neither 0 nor 1 */
    TALAVORN_BAD_IDENTITY = 92      /* identity that is neither 0 nor 1 */
};

/* ---- 5  The calls ---------------------------------------------------------------------------- */

/* A check is two calls: talavorn_evaluate gives the result, and for fail talavorn_explain makes the
 * text. A relay that never sends the text makes the first call alone, and none of its letters waits
 * for an explanation. */

/* Where what talavorn_evaluate writes stands in `values`. */
enum {
    TALAVORN_KIND = 0,              /* 7: the DNS type to ask. 25, 26: the place. Otherwise 0 */
    TALAVORN_PLACE = 0,
    TALAVORN_LOOKUPS = 1,           /* lookups begun, 0 to 10 */
    TALAVORN_VOIDS = 2,             /* void answers met, 0 to 3; the third gives 6 */
    TALAVORN_LIFETIME = 3,          /* the consulted entries' smallest lifetime; 0 for none */
    TALAVORN_LENGTH = 4,            /* 7: the name's length. 3: the domain's length. Otherwise 0 */
    TALAVORN_EXP_PLACE = 5,         /* 3: the place of exp's argument in the table. Otherwise 0 */
    TALAVORN_EXP_LENGTH = 6,        /* 3: its length. Otherwise 0. Both are 0 without exp */
    TALAVORN_VALUES = 7
};

/* Evaluates a domain for a client: check_host() but for the explanation.
 *
 * client    4 or 16 octets. An IPv4-mapped IPv6 address counts as IPv4
 * domain    the domain of MAIL FROM, as given: one trailing dot is dropped and A to Z are lowered.
 *           A malformed or single-label one gives 0
 * sender    MAIL FROM's mailbox, without angle brackets, split at its last `@`
 * helo      the HELO or EHLO name, may be empty
 * receiver  the name of the host that checks, may be empty; only macro r uses it
 * seconds   the time, in seconds since 1970; only macro t uses it
 * table     the answers so far
 * name      at least 253 bytes
 *
 * For an empty MAIL FROM, and to check HELO, domain is the HELO name, and sender is `postmaster@`
 * and the HELO name. RFC 7208 recommends the HELO check (2.3); MAIL FROM is checked, too, unless
 * HELO's result already decided (2.4).
 *
 * Tests in this order, and returns the first that holds, with counts and lifetime 0 and nothing
 * written to name:
 *     90  client isn't 4 or 16 octets
 *     20  sender, 21 helo or receiver, 22 domain, 23 name buffer, 24 table
 *     25 or 26, whichever has the earlier place in the table, 25 if equal; the place in values[0]
 * Otherwise returns
 *     0 to 6  the result, with both counts and the lifetime
 *     3       has, besides, what talavorn_explain makes the text from. The failing record's domain
 *             is written at the front of name, values[4] bytes, 3 to 253: lowered and without a
 *             trailing dot, as macro d shows it. The failing record is the one whose mechanism
 *             matched: behind redirects the last one, and never an included one. The argument of
 *             its exp, all that follows `exp=`, is the values[6] bytes of the table from the place
 *             values[5] on; both are 0 where it has no exp, and only there
 *     7       a question is needed that has no entry: its kind, the DNS type to ask (A, PTR, MX,
 *             TXT or AAAA), is in values[0], and its name is written at the front of name,
 *             values[4] bytes, 1 to 253. Counts and lifetime are those so far. Ask the DNS, add an
 *             entry for this kind and name, and call again
 * Only 3 and 7 write to name. All of values is written by every call.
 *
 * No question is for the explanation: neither its TXT question nor macro p's for it.
 *
 * The lifetime, in values[3], is for how many seconds the result may be kept, 0 to 4,294,967,295:
 * the smallest among the entries that were consulted. Consulted is each entry that a question of
 * this call found: of records, of a, mx, ptr and exists, of hosts and names, of macro p; void and
 * failed ones too, whether or not the result hangs on them. Not consulted are entries that no
 * question was for: of hosts behind a match, of names after the tenth, of kind SPF, of the
 * explanation. The lifetime is 0 where none was consulted: for the result of a malformed or
 * single-label domain, and for 7 at the first question.
 *
 * A void answer is an entry of status 3, or of status 0 without items, for a question of a, mx, ptr
 * or exists; the addresses of mx hosts and ptr names are such questions. It counts each time it is
 * met, and the third in a check gives 6 at once: no later host or name is asked. Not counted are
 * TXT, and the questions of macro p.
 *
 * A caller who begins with an empty table and adds what is wanted gets 7 at most 123 times, from
 * talavorn_evaluate and then talavorn_explain together:
 *       1  the TXT question of the domain
 *     110  ten lookups, 11 each: MX or PTR and 10 addresses; any other lookup asks once
 *      11  macro p: PTR and 10 addresses, the same questions for each use
 *       1  the TXT question of the explanation, which talavorn_explain alone asks
 * This is counted from the rules, not proved. */
uint8_t talavorn_evaluate(
    const void *client, size_t client_len,
    const void *domain, size_t domain_len,
    const void *sender, size_t sender_len,
    const void *helo, size_t helo_len,
    const void *receiver, size_t receiver_len,
    uint64_t seconds,
    const void *table, size_t table_len,
    void *name, size_t name_len,
    size_t values[7]);

/* Where what talavorn_explain writes stands in `values`. */
enum {
    TALAVORN_EXPLAIN_KIND = 0,      /* 7: the DNS type to ask. 25, 26: the place. Otherwise 0 */
    TALAVORN_EXPLAIN_PLACE = 0,
    TALAVORN_EXPLAIN_LENGTH = 1,    /* 3: the text's length. 7: the name's length. Otherwise 0 */
    TALAVORN_EXPLAIN_VALUES = 2
};

/* Makes the text of a fail, the domain's explanation, from what talavorn_evaluate gave with its 3.
 *
 * domain    the failing record's, as talavorn_evaluate wrote it to its name buffer; one trailing
 *           dot would be dropped and A to Z lowered
 * place, size  values[5] and values[6] of talavorn_evaluate: exp's argument in the table
 * name      at least 253 bytes. NOT the buffer in which the domain stands, which is read while name
 *           is written: lend another one, or copy the domain
 * text      at least 500 bytes
 * client, sender, helo, receiver, seconds, table  as for talavorn_evaluate
 *
 * Tests in this order, and returns the first that holds, with nothing written to name and text:
 *     90  client isn't 4 or 16 octets
 *     20  sender, 21 helo or receiver, 22 domain, 23 name or text buffer, 24 table
 *     25 or 26, whichever has the earlier place in the table, 25 if equal; the place in values[0]
 *     28  place and size aren't both 0, and aren't the place and length of the exp argument of a
 *         record that is selected for the domain in this table and is within the grammar. The
 *         record needn't have failed. A malformed or single-label domain has none
 * Otherwise returns
 *     3  the text is written at the front of text, values[1] bytes, 0 to 500. It is empty where
 *        place and size are both 0, whatever domain and table are, and where exp's target is
 *        malformed, its TXT question has failed or hasn't exactly one text, or that text is outside
 *        the grammar, or expands to over 500 bytes or to a byte that isn't 32 to 126. The domain's
 *        owner wrote it: say so in the reply (6.2)
 *     7  a question is needed that has no entry, as for talavorn_evaluate: TXT, or for macro p PTR,
 *        A or AAAA. Its kind is in values[0], and its name is written at the front of name,
 *        values[1] bytes, 1 to 253. Add the answer, and call again
 * 3 writes to text only, and 7 to name only. All of values is written by every call. There are no
 * counts and no lifetime: an explanation counts nothing, and its entries are no part of the result.
 *
 * The place belongs to the table that it was given with. A table that has grown at its end keeps
 * every place, so that 7 is answered by adding an entry. In one that has changed before it the
 * argument stands elsewhere: that gives 28, and talavorn_evaluate gives the new place. */
uint8_t talavorn_explain(
    const void *client, size_t client_len,
    const void *domain, size_t domain_len,
    const void *sender, size_t sender_len,
    const void *helo, size_t helo_len,
    const void *receiver, size_t receiver_len,
    uint64_t seconds,
    const void *table, size_t table_len,
    size_t place, size_t size,
    void *name, size_t name_len,
    void *text, size_t text_len,
    size_t values[2]);

/* Appends an entry to a table.
 *
 * kind      TALAVORN_TYPE_A and so on
 * status    TALAVORN_ANSWERED, TALAVORN_FAILED or TALAVORN_NO_SUCH_NAME
 * lifetime  in seconds, any number for any status
 * name      the name that was asked; A to Z are lowered
 * items     the items end to end, each led by its 2-byte length; taken as given
 * table     a buffer of `room` bytes, of which the first *size are the table
 *
 * Tests in this order, and returns the first that holds, with nothing written to table and *size as
 * it was:
 *     24  *size is over `room`, or the table over 65,535 bytes
 *     25 or 26, whichever has the earlier place in the table, 25 if equal; the place in *place
 *     64  the table has an entry of this kind and name
 *     65  the new entry breaks a rule of the layout, or is a 513th, or the new table would be over
 *         65,535 bytes or over `room`
 * Otherwise returns 0: the entry is written behind the table and *size is the new table's length.
 * *place is written by every call: 0 but for 25 and 26. */
uint8_t talavorn_append_entry(
    uint16_t kind, uint8_t status, uint32_t lifetime,
    const void *name, size_t name_len,
    const void *items, size_t items_len,
    void *table, size_t room, size_t *size,
    size_t *place);

/* Rewrites a table of the layout before W-209, whose entries have no lifetime, with a lifetime of 0
 * in each entry: the name's length stood just after the status, and all else is as in section 3.
 *
 * old       the old table, up to 65,535 bytes
 * new_table a buffer of `room` bytes; the new table has four more than the old for each entry
 *
 * Tests in this order, and returns the first that holds, with nothing written to new_table:
 *     24  the old table is over 65,535 bytes; *value is 0
 *     25 or 26, whichever has the earlier place in the old table, 25 if equal; the place in *value
 *     24  the new table would be over 65,535 bytes or over `room`; *value is 0
 * Otherwise returns 0: the new table is written at the front of new_table, *value bytes. *value is
 * written by every call.
 *
 * What is checked over the new table has lifetime 0, so that no relay keeps it. */
uint8_t talavorn_add_lifetimes(
    const void *old, size_t old_len, void *new_table, size_t room, size_t *value);

/* Checks a table, as talavorn_evaluate does.
 *
 * Returns 0 for a table that is accepted, with the number of its entries in *place. Otherwise
 *     24  over 65,535 bytes; *place is 0
 *     25  an entry that is malformed or the 513th; *place is its place
 *     26  a pair of kind and name that stands before; *place is its place
 * Of 25 and 26 the one with the earlier place, 25 if equal. *place is written by every call. */
uint8_t talavorn_check_table(const void *table, size_t table_len, size_t *place);

/* Reads a whole record.
 *
 * Returns 0 for a record that RFC 7208's grammar makes, with *place just after `v=spf1`, where its
 * terms are read from. Otherwise, in this order:
 *     30  over 4,096 bytes; *place is 0
 *     31  no version section; *place is 0
 *     32  a term outside the grammar; *place is just after the longest beginning of the term with
 *         which some term of the grammar begins: 22 in `v=spf1 ip4:192.0.2.0/33`, where the second
 *         3 stands. It is the term's end where only something is missing, as in `include:`. To find
 *         it takes microseconds; in a term of 4,000 bytes that is made for it, 5 milliseconds
 *     33  a second redirect or exp; *place is its first byte
 * Of 32 and 33 the one whose term begins earlier, 32 if equal. *place is written by every call. */
uint8_t talavorn_read_record(const void *record, size_t record_len, size_t *place);

/* What talavorn_read_term returns besides 30, 34 and 32. */
enum { TALAVORN_END = 0, TALAVORN_TERM = 1 };

/* Where what it writes stands in `values`. */
enum {
    TALAVORN_TERM_PLACE = 0,        /* the term's first byte */
    TALAVORN_TERM_NEXT = 1,         /* the next place, just after its last byte */
    TALAVORN_TERM_WHICH = 2,        /* which term it is, below */
    TALAVORN_TERM_SIGN = 3,         /* `+` if unwritten, `-`, `?` or `~`; 0 for a modifier */
    TALAVORN_TERM_FROM = 4,         /* its argument is the part of the record from here */
    TALAVORN_TERM_TO = 5,           /* up to here; both are the same where there is none */
    TALAVORN_TERM_FOUR = 6,         /* IPv4 prefix length of a, mx, ip4, 32 if unwritten; else 0 */
    TALAVORN_TERM_SIX = 7,          /* IPv6 prefix length of a, mx, ip6, 128 if unwritten; else 0 */
    TALAVORN_TERM_VALUES = 8
};

/* Which term it is. */
enum {
    TALAVORN_TERM_ALL = 1,
    TALAVORN_TERM_INCLUDE = 2,
    TALAVORN_TERM_A = 3,
    TALAVORN_TERM_MX = 4,
    TALAVORN_TERM_PTR = 5,
    TALAVORN_TERM_IP4 = 6,
    TALAVORN_TERM_IP6 = 7,
    TALAVORN_TERM_EXISTS = 8,
    TALAVORN_TERM_REDIRECT = 9,
    TALAVORN_TERM_EXP = 10,
    TALAVORN_TERM_UNKNOWN = 11      /* any other modifier; its name is the part of the record from
                                       values[0] up to the `=` at values[4] - 1 */
};

/* Reads one term of a record from a place on: first the place that talavorn_read_record gave, then
 * each term's next place.
 *
 * Tests in this order:
 *     30  the record is over 4,096 bytes; values[0] is 0
 *     34  `place` is beyond the record's length; values[0] is that place
 * Then skips spaces and returns
 *     0   at the end; all of values is 0
 *     32  for a term outside the grammar; values[0] is the place, as for talavorn_read_record
 *     1   for a term, with all of values
 * After 30, 34 and 32 the other values are 0. The argument is a domain-spec, a network without its
 * length, or a modifier's value. For ip4 and ip6 the network's address is written at the front of
 * network, 4 or 16 octets; otherwise network isn't written. All of values is written by every call.
 */
uint8_t talavorn_read_term(
    const void *record, size_t record_len, size_t place, size_t values[8], uint8_t network[16]);

/* The house rules: what customers may publish. */
enum {
    TALAVORN_RULE_PTR = 1,            /* no ptr */
    TALAVORN_RULE_P = 2,              /* no term with a p macro */
    TALAVORN_RULE_END = 3,            /* an all or a redirect, and no all after the first */
    TALAVORN_RULE_REDIRECT = 4,       /* no redirect beside an all */
    TALAVORN_RULE_AFTER_ALL = 5,      /* no mechanism after the first all */
    TALAVORN_RULE_AFTER_MODIFIER = 6, /* nothing but redirect and exp after the first of these */
    TALAVORN_RULE_PLUS_ALL = 7,       /* no +all, written or implied */
    TALAVORN_RULE_SHORT = 8,          /* no length below /8 for IPv4 or /19 for IPv6 */
    TALAVORN_RULE_EQUAL = 9,          /* no network equal to an earlier one */
    TALAVORN_RULE_LONG = 10           /* name and text together under 450 bytes */
};

/* The bytes of a breach in a list, and those of 256: a list of so many is never too small. */
enum { TALAVORN_BREACH = 3, TALAVORN_HOUSE_LIST = 768 };

/* Holds a record with its domain name against the house rules, before it is published.
 *
 * domain    the name at which the record is to stand. Only its length is looked at, a trailing dot
 *           included; an empty or malformed one is taken, too
 * record    the record's whole text, `v=spf1` included
 * list      room for the breaches; TALAVORN_HOUSE_LIST bytes always suffice, 0 if there are none
 *
 * Tests in this order, and returns the first that holds, with nothing written to list:
 *     22  domain over 255 bytes; *value is 0
 *     30 to 33  what talavorn_read_record returns for the record; *value is its place
 *     70  over 256 breaches, or fewer than three bytes in list for each; *value is 0
 * Otherwise returns 0 with the number of breaches in *value. At the front of list each breach is
 * written once, by rule and then by place, in three bytes: the rule, and the place, little-endian.
 * The other bytes of list keep their values. *value is written by every call.
 *
 * A term is a breach of each rule that it breaks. The place is the term's first byte, its sign
 * included; it is the record's length for rule 10, and for rule 3 where there is neither an all nor
 * a redirect. Of the rules
 *     2   is for every argument: a domain-spec, and the value of redirect, exp and any other
 *         modifier. P is a p macro, too; %%{p} has none
 *     3   has a breach for each all after the first
 *     4   blames the redirect, also where it stands before the all
 *     5   has a breach for each mechanism, further alls included, and none for modifiers
 *     6   has a breach for each mechanism and each other modifier that stands after redirect or exp
 *     8   is for a, mx, ip4 and ip6. A length that isn't written is 32 or 128; a and mx with both
 *         lengths too short are one breach
 *     9   compares networks of one family and one length, in as many bits; neither signs nor
 *         spelling count, and an IPv4-mapped network is no IPv4 one. Each later one is a breach
 *     10  adds the lengths of domain and record as they are given */
uint8_t talavorn_house_rules(
    const void *domain, size_t domain_len,
    const void *record, size_t record_len,
    void *list, size_t list_len,
    size_t *value);

/* Expands a macro string.
 *
 * form      0: text is a domain-spec. 1: text is an explanation: macros, literals and spaces, with
 *           the letters c, r and t allowed
 * domain    the value of macro d, as given
 * p         the value of macro p, as given
 * client, sender, helo, receiver, seconds  as for talavorn_evaluate
 *
 * Tests in this order, and returns the first that holds, with *size 0 and nothing written to out:
 *     91  form is neither 0 nor 1
 *     90  client isn't 4 or 16 octets
 *     20  sender, 21 helo or receiver, 22 domain or p over 255 bytes
 *     40  text is outside the grammar of its form
 *     41  the expansion doesn't fit out
 * Otherwise returns 0: the expansion is written at the front of out, *size bytes. *size is written
 * by every call. */
uint8_t talavorn_expand(
    uint8_t form,
    const void *text, size_t text_len,
    const void *client, size_t client_len,
    const void *domain, size_t domain_len,
    const void *sender, size_t sender_len,
    const void *helo, size_t helo_len,
    const void *receiver, size_t receiver_len,
    const void *p, size_t p_len,
    uint64_t seconds,
    void *out, size_t out_len,
    size_t *size);

/* Which identity a Received-SPF line is about. */
enum { TALAVORN_IDENTITY_MAILFROM = 0, TALAVORN_IDENTITY_HELO = 1 };

/* Writes the header field Received-SPF of RFC 7208 section 9.1, one line such as
 *
 *     Received-SPF: pass receiver=mx.example; client-ip=192.0.2.1;
 *      envelope-from="user@example.com"; helo=mail.example; identity=mailfrom
 *
 * but unfolded, and with CR LF at its end.
 *
 * result    0 to 6, what talavorn_evaluate returned
 * identity  TALAVORN_IDENTITY_MAILFROM or TALAVORN_IDENTITY_HELO
 * client, sender, helo, receiver  as they were given to talavorn_evaluate. client-ip is written as
 *           macro c writes it: an IPv6 address as eight groups in lower case, and an IPv4-mapped
 *           one as IPv4. The others are written as they are given, an empty one as ""
 * out       a line that is written has at most 1,500 bytes
 *
 * A value that isn't dot-atom-text (RFC 5322 section 3.2.3) stands in quotes, with a backslash
 * before quotes and backslashes and before nothing else.
 *
 * Tests in this order, and returns the first that holds, with *size 0 and nothing written to out:
 *     92  identity is neither 0 nor 1
 *     90  client isn't 4 or 16 octets
 *     20  sender, 21 helo or receiver
 *     52  result is 7 or above
 *     50  the line, its CR LF included, is over 1,500 bytes or doesn't fit out
 * Otherwise returns 0: the line is written at the front of out, *size bytes. *size is written by
 * every call.
 *
 * RFC 5322 section 2.1.1 allows 998 bytes before CR LF. Longer lines are written, too, but only if
 * values have quotes or backslashes: without any a line has at most 964 bytes before CR LF. Leave
 * such a line out of the message, or fold it; talavorn_read_line doesn't read a folded one. */
uint8_t talavorn_write_line(
    uint8_t result,
    const void *client, size_t client_len,
    const void *sender, size_t sender_len,
    const void *helo, size_t helo_len,
    const void *receiver, size_t receiver_len,
    uint8_t identity,
    void *out, size_t out_len,
    size_t *size);

/* Where what talavorn_read_line writes stands in `values`. A value's part is the bytes of the line
 * from the place values[n] up to the place values[n + 1]. */
enum {
    TALAVORN_LINE_RESULT = 0,       /* the result, 0 to 6 */
    TALAVORN_LINE_RECEIVER = 1,
    TALAVORN_LINE_CLIENT = 3,       /* client-ip */
    TALAVORN_LINE_SENDER = 5,       /* envelope-from */
    TALAVORN_LINE_HELO = 7,
    TALAVORN_LINE_IDENTITY = 9,     /* `mailfrom` or `helo` */
    TALAVORN_LINE_VALUES = 11
};

/* Reads a Received-SPF line back.
 *
 * line      the whole line, CR LF included, and nothing else
 *
 * Returns 0 for just the lines that talavorn_write_line gives for some arguments, with the result
 * and where the part of each value stands: without the quotes, with its backslashes, which
 * talavorn_unquote takes out. Otherwise returns 51, and all of values is 0: another order, case or
 * space, quotes round dot-atom-text, a client-ip in another form, a value that talavorn_write_line
 * refuses, a folded line, CR LF missing or twice, over 1,500 bytes. All of values is written by
 * every call. */
uint8_t talavorn_read_line(const void *line, size_t line_len, size_t values[11]);

/* Takes the backslashes out of a value's part of a Received-SPF line.
 *
 * Tests in this order, and returns the first that holds, with *size 0 and nothing written to out:
 *     51  no line has this part: a byte that isn't 32 to 126, a quote without a backslash, a
 *         backslash before another byte or at the end, or a value over 320 bytes
 *     50  the value doesn't fit out
 * Otherwise returns 0: the value is written at the front of out, *size bytes, 0 to 320. *size is
 * written by every call. */
uint8_t talavorn_unquote(
    const void *part, size_t part_len, void *out, size_t out_len, size_t *size);

/* Whether a client matches a network: 1 if both are of one family, bits is at most its width, 32 or
 * 128, and the first `bits` bits of both are the same; otherwise 0; 90 if one of them isn't 4 or 16
 * octets. In bytes: the first bits / 8 are equal, and if bits % 8 are left over, so are these
 * high-order bits of the next byte.
 *
 * Addresses are compared as they are given: an IPv4-mapped IPv6 address ::ffff:a.b.c.d is IPv6
 * here, whereas talavorn_evaluate takes such a client as IPv4. A dual-stack caller who wants the
 * same gives the last 4 of its 16 octets. */
uint8_t talavorn_matches(
    const void *client, size_t client_len, const void *network, size_t network_len, size_t bits);

/* Reads an address as it is written in ip4 and ip6 terms: four decimal numbers of 0 to 255 without
 * leading zeros, joined by dots, or the forms of RFC 4291 section 2.2.
 *
 * Returns 4 or 16, with as many octets at the front of octets; or 0 for any other text, with
 * nothing written. */
uint8_t talavorn_read_address(const void *text, size_t text_len, uint8_t octets[16]);

/* ---- 6  The wrapper --------------------------------------------------------------------------
 *
 * One check, from an empty table. A relay that never sends the text needs this much:
 *
 *     struct talavorn_answer a;
 *     while ((a = talavorn_check(&mail, table, size)).number == TALAVORN_WANTING)
 *         if (!ask_for(&a)) {
 *             a.number = TALAVORN_TEMPERROR;
 *             a.lifetime = 0;
 *             break;
 *         }
 *     if (20 <= a.number)
 *         refused(a.number);
 *
 * One that sends the text goes on from a fail, with the same table:
 *
 *     struct talavorn_answer t;
 *     char text[501] = "";
 *     if (a.number == TALAVORN_FAIL)
 *         do
 *             t = talavorn_fail_text(&mail, &a, table, size, text);
 *         while (t.number == TALAVORN_WANTING && ask_for(&t));
 *
 * where `ask_for(w)` answers what is wanting, and says whether it could:
 *
 *     struct talavorn_items items = talavorn_items_in(buffer, sizeof buffer);
 *     uint32_t lifetime;
 *     unsigned rcode = ask(w->name, w->kind, &items, &lifetime);
 *     return talavorn_add(w, rcode, lifetime, &items, table, sizeof table, &size) == 0;
 *
 * `ask` asks the DNS, calls talavorn_item_a and so on for each record, leaves the lifetime that
 * section 3 speaks of, and returns the RCODE; and `refused` does what section 4 says. */

/* Bytes to be read. */
struct talavorn_view {
    const void *at;
    size_t len;
};

/* A string with a final 0, or NULL for no bytes. */
static inline struct talavorn_view talavorn_text(const char *s)
{
    struct talavorn_view v;
    v.at = s;
    v.len = s ? strlen(s) : 0;
    return v;
}

/* So many bytes, as `talavorn_bytes(&peer.sin_addr, 4)`. */
static inline struct talavorn_view talavorn_bytes(const void *at, size_t len)
{
    struct talavorn_view v;
    v.at = at;
    v.len = len;
    return v;
}

/* What is checked: talavorn_evaluate's arguments. */
struct talavorn_mail {
    struct talavorn_view client, domain, sender, helo, receiver;
    uint64_t seconds;
};

/* What is answered. */
struct talavorn_answer {
    uint8_t number;                 /* what the call returned */
    uint16_t kind;                  /* 7: the DNS type to ask; otherwise 0 */
    size_t place;                   /* 25, 26: the place in the table; otherwise 0 */
    unsigned lookups, voids;
    uint32_t lifetime;              /* for how many seconds the result may be kept */
    size_t exp_place, exp_len;      /* talavorn_check's 3: exp's argument in the table, 0 and 0 for
                                       none; otherwise 0 */
    size_t text_len;                /* talavorn_fail_text's 3: the text's length; otherwise 0 */
    size_t name_len;                /* the length of the name; 0 where there is none */
    char name[254];                 /* 7: the name to ask. talavorn_check's 3: the failing record's
                                       domain. With a final 0, too */
};

/* talavorn_evaluate over these two: the result. */
static inline struct talavorn_answer talavorn_check(
    const struct talavorn_mail *mail, const void *table, size_t table_len)
{
    struct talavorn_answer a;
    size_t values[TALAVORN_VALUES];
    memset(&a, 0, sizeof a);
    a.number = talavorn_evaluate(
        mail->client.at, mail->client.len, mail->domain.at, mail->domain.len,
        mail->sender.at, mail->sender.len, mail->helo.at, mail->helo.len,
        mail->receiver.at, mail->receiver.len, mail->seconds, table, table_len,
        a.name, sizeof a.name - 1, values);
    if (a.number == TALAVORN_WANTING)
        a.kind = (uint16_t)values[TALAVORN_KIND];
    else
        a.place = values[TALAVORN_PLACE];
    a.lookups = (unsigned)values[TALAVORN_LOOKUPS];
    a.voids = (unsigned)values[TALAVORN_VOIDS];
    a.lifetime = (uint32_t)values[TALAVORN_LIFETIME];
    a.name_len = values[TALAVORN_LENGTH];
    a.exp_place = values[TALAVORN_EXP_PLACE];
    a.exp_len = values[TALAVORN_EXP_LENGTH];
    return a;
}

/* talavorn_explain over these: the text of a fail, with a final 0 in `text`, which is "" for any
 * number but 3.
 *
 * mail      the one that was checked
 * failed    talavorn_check's answer, with the number 3
 * table     the table of that check, or one that has grown at its end since
 *
 * The counts and the lifetime of 3 and 7 are those of `failed`: both answers together are a whole
 * check_host(). */
static inline struct talavorn_answer talavorn_fail_text(
    const struct talavorn_mail *mail, const struct talavorn_answer *failed, const void *table,
    size_t table_len, char text[501])
{
    struct talavorn_answer a;
    size_t values[TALAVORN_EXPLAIN_VALUES];
    memset(&a, 0, sizeof a);
    a.number = talavorn_explain(
        mail->client.at, mail->client.len, failed->name, failed->name_len,
        mail->sender.at, mail->sender.len, mail->helo.at, mail->helo.len,
        mail->receiver.at, mail->receiver.len, mail->seconds, table, table_len,
        failed->exp_place, failed->exp_len, a.name, sizeof a.name - 1, text, 500, values);
    if (a.number == TALAVORN_WANTING) {
        a.kind = (uint16_t)values[TALAVORN_EXPLAIN_KIND];
        a.name_len = values[TALAVORN_EXPLAIN_LENGTH];
    } else {
        a.place = values[TALAVORN_EXPLAIN_PLACE];
        a.text_len = values[TALAVORN_EXPLAIN_LENGTH];
    }
    if (a.number == TALAVORN_WANTING || a.number == TALAVORN_FAIL) {
        a.lookups = failed->lookups;
        a.voids = failed->voids;
        a.lifetime = failed->lifetime;
    }
    text[a.text_len] = 0;
    return a;
}

/* A result's word: RFC 7208's for 0 to 6, "wanting" for 7, "refused" for any other number. */
static inline const char *talavorn_result_name(unsigned number)
{
    static const char *const names[] = { "none",     "neutral",   "pass",      "fail",
                                         "softfail", "temperror", "permerror", "wanting" };
    return number < sizeof names / sizeof *names ? names[number] : "refused";
}

/* talavorn_write_line for a mail: its header line with a final 0 in `line`; returns its length.
 *
 * number    talavorn_check's, 0 to 6; any other is no result, and has no line
 * identity  what was checked: TALAVORN_IDENTITY_MAILFROM, for an empty MAIL FROM too, or
 *           TALAVORN_IDENTITY_HELO
 *
 * Returns 0, with "", where the call refuses. */
static inline size_t talavorn_received(
    const struct talavorn_mail *mail, uint8_t number, uint8_t identity, char line[1501])
{
    size_t size;
    talavorn_write_line(
        number, mail->client.at, mail->client.len, mail->sender.at, mail->sender.len,
        mail->helo.at, mail->helo.len, mail->receiver.at, mail->receiver.len, identity,
        line, 1500, &size);
    line[size] = 0;
    return size;
}

/* talavorn_unquote for a line that talavorn_read_line read: a value with a final 0 in `value`;
 * returns its length.
 *
 * values    what talavorn_read_line wrote for this line
 * which     TALAVORN_LINE_RECEIVER, .._CLIENT, .._SENDER, .._HELO or .._IDENTITY */
static inline size_t talavorn_line_value(
    const void *line, const size_t values[11], unsigned which, char value[321])
{
    size_t size;
    talavorn_unquote(
        (const uint8_t *)line + values[which], values[which + 1] - values[which], value, 320,
        &size);
    value[size] = 0;
    return size;
}

/* A breach of the house rules. */
struct talavorn_breach {
    unsigned rule;                  /* TALAVORN_RULE_PTR and so on */
    size_t place;
};

/* The breach with this number, from 0, in a list that talavorn_house_rules wrote. */
static inline struct talavorn_breach talavorn_breach_at(const void *list, size_t number)
{
    const uint8_t *at = (const uint8_t *)list + TALAVORN_BREACH * number;
    struct talavorn_breach b;
    b.rule = at[0];
    b.place = at[1] + (size_t)256 * at[2];
    return b;
}

/* A house rule in words; "no rule" for a number that isn't 1 to 10. */
static inline const char *talavorn_rule_name(unsigned rule)
{
    static const char *const names[] = {
        "no rule",
        "no ptr",
        "no p macro",
        "an all or a redirect, and no all after the first",
        "no redirect beside an all",
        "no mechanism after the first all",
        "nothing but redirect and exp after the first of these",
        "no +all, written or implied",
        "no length below /8 for IPv4 or /19 for IPv6",
        "no network equal to an earlier one",
        "name and text together under 450 bytes"
    };
    return names[rule < sizeof names / sizeof *names ? rule : 0];
}

/* The items of one answer, made one after the other in lent memory. */
struct talavorn_items {
    uint8_t *bytes;
    size_t room, len;
    unsigned names;                 /* host names of PTR records met, up to ten */
    int unfit;                      /* an item couldn't go in: none is taken any more */
};

/* No items yet, in a buffer. A table has room for 65,535 bytes in all. */
static inline struct talavorn_items talavorn_items_in(void *buffer, size_t room)
{
    struct talavorn_items items;
    items.bytes = (uint8_t *)buffer;
    items.room = room;
    items.len = 0;
    items.names = 0;
    items.unfit = 0;
    return items;
}

/* An item of two parts, as they are. One that has no room or is over 65,535 bytes makes the items
 * unfit: neither it nor any later one is written, and talavorn_add enters the answer as failed. So
 * nothing needs to be tested after this function and those below. */
static inline void talavorn_item(
    struct talavorn_items *items, const void *front, size_t front_len, const void *rest,
    size_t rest_len)
{
    uint8_t *at;
    size_t left = items->room - items->len, n = front_len + rest_len;
    if (65535 < front_len || 65535 < rest_len || 65535 < n || left < 2 || left - 2 < n)
        items->unfit = 1;
    if (items->unfit)
        return;
    at = items->bytes + items->len;
    at[0] = (uint8_t)(n % 256);
    at[1] = (uint8_t)(n / 256);
    if (front_len)
        memcpy(at + 2, front, front_len);
    if (rest_len)
        memcpy(at + 2 + front_len, rest, rest_len);
    items->len += 2 + n;
}

/* The 4 octets of an A record. */
static inline void talavorn_item_a(struct talavorn_items *items, const void *octets)
{
    talavorn_item(items, octets, 4, NULL, 0);
}

/* The 16 octets of an AAAA record. */
static inline void talavorn_item_aaaa(struct talavorn_items *items, const void *octets)
{
    talavorn_item(items, octets, 16, NULL, 0);
}

/* A byte, lowered if it is one of A to Z. */
static inline uint8_t talavorn_lower(uint8_t b)
{
    return 'A' <= b && b <= 'Z' ? (uint8_t)(b + 32) : b;
}

/* A host name without its trailing dot if, once lowered, it can stand in the table; otherwise no
 * bytes. */
static inline struct talavorn_view talavorn_host(struct talavorn_view host)
{
    const uint8_t *at = (const uint8_t *)host.at;
    size_t i, label = 0, len = host.len;
    if (len && at[len - 1] == '.')
        len--;
    for (i = 0; i < len; i++) {
        if (at[i] == '.' ? label == 0 : at[i] < 33 || 126 < at[i] || label == 63)
            break;
        label = at[i] == '.' ? 0 : label + 1;
    }
    return talavorn_bytes(host.at, i == len && label && len <= 253 ? len : 0);
}

/* An item of some bytes and a host name that talavorn_host gave, lowered. */
static inline void talavorn_item_host(
    struct talavorn_items *items, const void *front, size_t front_len, struct talavorn_view host)
{
    size_t i;
    talavorn_item(items, front, front_len, host.at, host.len);
    if (items->unfit)
        return;
    for (i = items->len - host.len; i < items->len; i++)
        items->bytes[i] = talavorn_lower(items->bytes[i]);
}

/* The host name of a PTR record: one trailing dot is dropped and A to Z are lowered.
 *
 * A name that can't stand in the table is left out: it can't be validated. So is any after the
 * first ten, which no check looks at. If every name was left out, talavorn_add enters the answer as
 * failed, which is no names and no void answer either. */
static inline void talavorn_item_ptr(struct talavorn_items *items, struct talavorn_view host)
{
    host = talavorn_host(host);
    if (items->names < 10) {
        items->names++;
        if (host.len)
            talavorn_item_host(items, NULL, 0, host);
    }
}

/* The preference and the host name of an MX record: one trailing dot is dropped and A to Z are
 * lowered.
 *
 * The root, "." or "", and a name that can't stand in the table give an item without a name: it
 * counts as one of the ten that mx allows, and no address is asked for it. */
static inline void talavorn_item_mx(
    struct talavorn_items *items, uint16_t preference, struct talavorn_view host)
{
    uint8_t front[2];
    front[0] = (uint8_t)(preference % 256);
    front[1] = (uint8_t)(preference / 256);
    talavorn_item_host(items, front, 2, talavorn_host(host));
}

/* The strings of one TXT record, joined with nothing between.
 *
 * A text over 4,096 bytes that doesn't begin with `v=spf1 `, in any letter case, goes in as an
 * empty one: it is no record, and as an explanation it is dropped as too long. One that does begin
 * so makes the items unfit. */
static inline void talavorn_item_txt(struct talavorn_items *items, struct talavorn_view text)
{
    static const char version[] = "v=spf1 ";
    const uint8_t *at = (const uint8_t *)text.at;
    size_t i = 0;
    if (4096 < text.len) {
        while (i < 7 && talavorn_lower(at[i]) == version[i])
            i++;
        items->unfit |= i == 7;
        text.len = 0;
    }
    talavorn_item(items, text.at, text.len, NULL, 0);
}

/* Adds the answer to the question that a check wanted to the table in the first *size bytes of a
 * buffer.
 *
 * asked     an answer of talavorn_check or talavorn_fail_text with the number 7
 * rcode     the reply's RCODE; TALAVORN_FAILED where there was no reply
 * lifetime  in seconds; section 3 says which
 * items     the reply's records, used for RCODE 0 only; NULL for none
 *
 * RCODE 0 goes in as answered with the items, 3 as no such name, any other one as failed. An answer
 * goes in as failed, too, if its items are unfit or don't have the kind's layout, if every PTR name
 * was left out, or if the table has no room for it. It then has lifetime 0: nobody answered so.
 * Returns 0, or talavorn_append_entry's number if nothing was added: 65 where the table is full, 64
 * where the question has its entry already, 24 to 26 where the table isn't accepted. 64 can't
 * happen to a question that a check over this table wanted, nor 24 to 26 to a table that was begun
 * empty and only added to. */
static inline uint8_t talavorn_add(
    const struct talavorn_answer *asked, unsigned rcode, uint32_t lifetime,
    const struct talavorn_items *items, void *table, size_t room, size_t *size)
{
    size_t place;
    uint8_t number = TALAVORN_UNFIT_ENTRY;
    if (rcode == TALAVORN_NO_SUCH_NAME || (rcode == TALAVORN_ANSWERED && !items))
        number = talavorn_append_entry(
            asked->kind, (uint8_t)rcode, lifetime, asked->name, asked->name_len, NULL, 0,
            table, room, size, &place);
    else if (rcode == TALAVORN_ANSWERED && !items->unfit && (items->len || !items->names))
        number = talavorn_append_entry(
            asked->kind, TALAVORN_ANSWERED, lifetime, asked->name, asked->name_len,
            items->bytes, items->len, table, room, size, &place);
    if (rcode == TALAVORN_ANSWERED || rcode == TALAVORN_NO_SUCH_NAME)
        lifetime = 0;
    if (number == TALAVORN_UNFIT_ENTRY)
        number = talavorn_append_entry(
            asked->kind, TALAVORN_FAILED, lifetime, asked->name, asked->name_len, NULL, 0,
            table, room, size, &place);
    return number;
}

#ifdef __cplusplus
}
#endif

#endif
