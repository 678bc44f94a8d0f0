/* Calls the library on the cases that it reads from standard input, and prints each answer on a line.
   A case is eight 32-bit numbers (what to call, the lengths of four runs of words, two numbers, and how often), and the four runs.
   With 16 added to what to call, a line has one number more: how many bytes of stack the calls used.
   A query (3) is lent the fourth run as its area. Its line goes on with the words written, how many words behind them are not zero, and
   the words themselves.
   A text (4) is of the fourth run, into a room of as many bytes as the first of the two numbers says, full of rubbish. Its line goes on with
   how many bytes behind the text are not zero, and the text's bytes.
   No header of the C library is wanted, so that the toolchain's own compiler is enough. */
#include "../include/erbighenti.h"

int printf(const char *format, ...);
void *malloc(size_t size);
void free(void *place);
void exit(int status) __attribute__((noreturn));
long read(int file, void *place, size_t length);
long clock(void);

/* reads as many bytes as asked for; 0 at the end of the input */
static int full(void *place, size_t length)
{
    size_t done = 0;
    while (done < length) {
        long got = read(0, (char *)place + done, length - done);
        if (got <= 0)
            return 0;
        done += (size_t)got;
    }
    return 1;
}

/* Each run stands between guards, so that a word written outside of it is seen; and so an empty run has a place too, and no pointer is null. */
enum { GUARDS = 16, GUARD = 0x5a5a };

static uint16_t *run(uint32_t length)
{
    uint16_t *all = malloc(((size_t)length + 2 * GUARDS) * sizeof(uint16_t));
    if (all == 0)
        exit(2);
    for (size_t k = 0; k < GUARDS; k++)
        all[k] = all[GUARDS + length + k] = GUARD;
    if (!full(all + GUARDS, length * sizeof(uint16_t)))
        exit(2);
    return all + GUARDS;
}

static void done(uint16_t *words, uint32_t length)
{
    uint16_t *all = words - GUARDS;
    for (size_t k = 0; k < GUARDS; k++)
        if (all[k] != GUARD || all[GUARDS + length + k] != GUARD)
            exit(4);
    free(all);
}

/* A room of bytes, with its guards full of what stands in no text. */
enum { RUBBISH = 'Z' };

static uint8_t *room_of(uint32_t length)
{
    uint8_t *all = malloc((size_t)length + 2 * GUARDS);
    if (all == 0)
        exit(2);
    for (size_t k = 0; k < (size_t)length + 2 * GUARDS; k++)
        all[k] = RUBBISH;
    return all + GUARDS;
}

static void left(uint8_t *room, uint32_t length)
{
    uint8_t *all = room - GUARDS;
    for (size_t k = 0; k < GUARDS; k++)
        if (all[k] != RUBBISH || all[GUARDS + length + k] != RUBBISH)
            exit(4);
    free(all);
}

/* The stack below this function's caller, filled with a pattern by `paint`, and after a call looked at again: what was overwritten was used. */
enum { DEPTH = 1 << 21, PATTERN = 0xa5 };

static __attribute__((noinline)) void paint(void)
{
    volatile unsigned char below[DEPTH];
    for (size_t k = 0; k < DEPTH; k++)
        below[k] = PATTERN;
}

static __attribute__((noinline)) size_t used(void)
{
    volatile unsigned char below[DEPTH];
    size_t k = 0;
    while (k < DEPTH && below[k] == PATTERN)
        k++;
    return DEPTH - k;
}

/* what the words come to, so that a changed one is seen */
static uint64_t sum_of(const uint16_t *words, uint32_t length)
{
    uint64_t sum = 14695981039346656037u;
    for (uint32_t k = 0; k < length; k++)
        sum = (sum ^ words[k]) * 1099511628211u;
    return sum;
}

static void show_area(const uint16_t *area, uint32_t length, uint64_t written)
{
    uint32_t behind = 0;
    for (uint64_t k = written; k < length; k++)
        behind += area[k] != 0;
    printf(" %llu %u", (unsigned long long)written, behind);
    for (uint64_t k = 0; k < written && k < length; k++)
        printf(" %u", area[k]);
}

static void show_room(const uint8_t *room, uint32_t length, uint64_t written)
{
    uint32_t behind = 0;
    for (uint64_t k = written; k < length; k++)
        behind += room[k] != 0;
    printf(" %u", behind);
    for (uint64_t k = 0; k < written && k < length; k++)
        printf(" %u", room[k]);
}

int main(void)
{
    uint32_t head[8];
    while (full(head, sizeof head)) {
        uint16_t *nodes = run(head[1]), *rules = run(head[2]), *connections = run(head[3]), *words = run(head[4]);
        uint64_t value = 0, written = 0;
        uint16_t number = 0;
        uint32_t what = head[0] & 15, measured = head[0] & 16;
        /* the words are read too, but where they are a query's area */
        uint32_t only_read = what == 3 ? 0 : head[4];
        uint64_t before = sum_of(nodes, head[1]) ^ sum_of(rules, head[2]) * 3 ^ sum_of(connections, head[3]) * 5 ^ sum_of(words, only_read) * 7;
        uint32_t bytes = what == 4 ? head[5] : 0;
        uint8_t *room = room_of(bytes);
        if (measured)
            paint();
        long began = clock();
        for (uint32_t k = 0; k < head[7]; k++) {
            value = written = 77;
            if (what == 1)
                number = erbighenti_check(nodes, head[1], rules, head[2], connections, head[3], words, head[4], &value);
            else if (what == 2)
                number = erbighenti_distance(nodes, head[1], rules, head[2], connections, head[3], (uint16_t)head[5], (uint16_t)head[6], &value);
            else if (what == 3)
                number = erbighenti_query(nodes, head[1], rules, head[2], connections, head[3], (uint16_t)head[5], (uint16_t)head[6], words, head[4],
                                          &value, &written);
            else if (what == 4)
                number = erbighenti_term_text(words, head[4], room, bytes, &value);
        }
        size_t stack = measured ? used() : 0;
        printf("%u %llu %ld", number, (unsigned long long)value, clock() - began);
        if (measured)
            printf(" %lu", (unsigned long)stack);
        if (what == 3)
            show_area(words, head[4], written);
        else if (what == 4)
            show_room(room, bytes, value);
        printf("\n");
        /* no call changes what is lent to be read */
        if (before != (sum_of(nodes, head[1]) ^ sum_of(rules, head[2]) * 3 ^ sum_of(connections, head[3]) * 5 ^ sum_of(words, only_read) * 7))
            exit(3);
        done(nodes, head[1]), done(rules, head[2]), done(connections, head[3]), done(words, head[4]), left(room, bytes);
    }
    return 0;
}
