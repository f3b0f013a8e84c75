/* Makes an answer table, entry by entry: what a relay does with what its resolver tells it. talavorn.h has the layout. */
#include <stdint.h>
#include <stdlib.h>
#include <string.h>

struct table {
    uint8_t bytes[65535];
    size_t size;
    size_t entry; /* where the last entry begins */
};

static inline void put_byte(struct table *t, size_t b)
{
    if (t->size == sizeof t->bytes)
        abort();
    t->bytes[t->size++] = (uint8_t)b;
}

static inline void put_number(struct table *t, size_t n)
{
    put_byte(t, n % 256);
    put_byte(t, n / 256);
}

static inline void put_bytes(struct table *t, const void *s, size_t n)
{
    for (size_t i = 0; i < n; i++)
        put_byte(t, ((const uint8_t *)s)[i]);
}

/* The last entry's length, once something was added to it. */
static inline void close_entry(struct table *t)
{
    size_t n = t->size - t->entry - 2;
    t->bytes[t->entry] = (uint8_t)(n % 256);
    t->bytes[t->entry + 1] = (uint8_t)(n / 256);
}

/* An answered entry without items, with a lifetime of an hour. */
static inline void add_entry(struct table *t, size_t kind, const char *name)
{
    t->entry = t->size;
    put_number(t, 0);
    put_number(t, kind);
    put_byte(t, 0);
    put_number(t, 3600);
    put_number(t, 0);
    put_byte(t, strlen(name));
    put_bytes(t, name, strlen(name));
    close_entry(t);
}

/* An item of the last entry. */
static inline void add_item(struct table *t, const void *s, size_t n)
{
    put_number(t, n);
    put_bytes(t, s, n);
    close_entry(t);
}

/* A TXT entry with one text. */
static inline void add_text(struct table *t, const char *name, const char *text)
{
    add_entry(t, 16, name);
    add_item(t, text, strlen(text));
}

/* Copies the entry of a kind and a name from another table; answers whether it has one. */
static inline int copy_entry(struct table *t, const struct table *from, size_t kind, const uint8_t *name, size_t n)
{
    for (size_t at = 0; at < from->size;) {
        const uint8_t *e = from->bytes + at;
        size_t size = 2 + e[0] + 256 * (size_t)e[1];
        if (e[2] + 256 * (size_t)e[3] == kind && e[9] == n && memcmp(e + 10, name, n) == 0) {
            if (sizeof t->bytes - t->size < size)
                abort();
            memcpy(t->bytes + t->size, e, size);
            t->size += size;
            return 1;
        }
        at += size;
    }
    return 0;
}
