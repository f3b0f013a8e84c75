/* Measures the stack that an evaluation uses, the making of a fail's text, and the rules for publishing, on the inputs that need most: a thread's stack is
 * filled with a pattern, and what a call has left of it is counted. */
#define _GNU_SOURCE
#include <pthread.h>
#include <stdio.h>
#include <string.h>
#include <sys/mman.h>

#include "../embed/talavorn.h"
#include "table.h"

enum { ROOM = 8 << 20, PATTERN = 0xa5 };

static struct table table;
static const char *helo = "h.example";

static void *nothing(void *unused)
{
    return unused;
}

static uint8_t name[253], client[4] = { 10, 0, 0, 1 };
static size_t values[TALAVORN_VALUES];

static void *evaluate(void *unused)
{
#define TEXT(s) (const uint8_t *)(s), strlen(s)
    talavorn_evaluate(client, 4, TEXT("d0.example"), TEXT("user@example.com"), TEXT(helo), TEXT("r.example"), 7, table.bytes, table.size, name, sizeof name,
                      values);
    return unused;
}

/* The text of the fail that was evaluated last. */
static void *explain(void *unused)
{
    static uint8_t wanted[253], text[500];
    static size_t made[TALAVORN_EXPLAIN_VALUES];
    talavorn_explain(client, 4, name, values[TALAVORN_LENGTH], TEXT("user@example.com"), TEXT(helo), TEXT("r.example"), 7, table.bytes, table.size,
                     values[TALAVORN_EXP_PLACE], values[TALAVORN_EXP_LENGTH], wanted, sizeof wanted, text, sizeof text, made);
    return unused;
}

/* The breaches of the record in the table's first entry. */
static void *house_rules(void *unused)
{
    static uint8_t list[TALAVORN_HOUSE_LIST];
    const uint8_t *text = table.bytes + 10 + table.bytes[9];
    size_t breaches;
    talavorn_house_rules(TEXT("d0.example"), text + 2, text[0] + 256u * text[1], list, sizeof list, &breaches);
    return unused;
}

/* The bytes of the stack that a thread touches. */
static size_t touched(void *(*start)(void *))
{
    size_t i = 0;
    pthread_attr_t attributes;
    pthread_t thread;
    uint8_t *stack = mmap(NULL, ROOM, PROT_READ | PROT_WRITE, MAP_PRIVATE | MAP_ANONYMOUS, -1, 0);
    if (stack == MAP_FAILED)
        return 0;
    memset(stack, PATTERN, ROOM);
    pthread_attr_init(&attributes);
    pthread_attr_setstack(&attributes, stack, ROOM);
    if (pthread_create(&thread, &attributes, start, NULL) == 0)
        pthread_join(thread, NULL);
    while (i < ROOM && stack[i] == PATTERN)
        i++;
    munmap(stack, ROOM);
    return ROOM - i;
}

/* A chain of records, each going on to the next, and then one of 4,096 bytes or fewer: begun with some text, and filled up with another. */
static void make(int depth, const char *next, const char *begin, const char *fill)
{
    static char record[4200];
    char name[32];
    table.size = 0;
    for (int i = 0; i < depth; i++) {
        sprintf(name, "d%d.example", i);
        sprintf(record, "v=spf1 %sd%d.example", next, i + 1);
        add_text(&table, name, record);
    }
    sprintf(name, "d%d.example", depth);
    strcpy(record, begin);
    while (strlen(record) + strlen(fill) <= 4096)
        strcat(record, fill);
    add_text(&table, name, record);
}

static void show(void *(*start)(void *), const char *what)
{
    printf("%-60s %8zu\n", what, touched(start) - touched(nothing));
}

int main(void)
{
    static char labels[256], begin[128] = "v=spf1 exists:", exp[128] = "v=spf1 -all exp=";
    printf("%-60s %8s\n", "stack, the deepest inputs", "bytes");
    make(0, "", "v=spf1 -all", " ");
    show(evaluate, "no terms but -all");
    make(0, "", "v=spf1", " a");
    show(evaluate, "a record of 2,045 terms");
    make(10, "include:", "v=spf1", " a");
    show(evaluate, "the same behind ten includes");
    make(10, "redirect=", "v=spf1", " a");
    show(evaluate, "the same behind ten redirects");
    for (int i = 0; i < 127; i++)
        strcat(labels, "x.");
    strcat(labels, "y");
    helo = labels;
    for (int i = 0; i < 16; i++) {
        strcat(begin, "%{h}");
        strcat(exp, "%{h}");
    }
    make(9, "redirect=", begin, " ");
    show(evaluate, "a name of 4,080 bytes and 2,033 labels, behind nine redirects");
    make(0, "", exp, " ");
    show(evaluate, "the same in exp, the result");
    show(explain, "the same in exp, the text");
    make(0, "", "v=spf1 -all", " ip6:::");
    show(house_rules, "rules for publishing, a record of 583 networks");
    return 0;
}
