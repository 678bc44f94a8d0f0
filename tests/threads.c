/* Eight threads call the library at once, each with its own area and room, over tables that they share. Every answer and every word of
   what was lent must be what one thread alone got. Prints how many answers were the same and how many were not, and exits with 1 then.
   With an argument one word of what one thread got is changed first, so that differences must be found. */
#include <erbighenti.h>
#include <pthread.h>
#include <stdio.h>

enum { THREADS = 8, ROUNDS = 40, LEVELS = 6, NODES = 2 * LEVELS + 2, AREA = 33020 + 7, ROOM = 2048, KINDS = 4 };

/* a tower: two leaves that rule 7 joins, and g(x, x) over each, level by level, joined by congruences */
static uint16_t nodes[NODES][10], connections[LEVELS + 1][5], rules[387];

struct answers {
    uint16_t area[AREA], numbers[KINDS][NODES];
    uint64_t values[KINDS][NODES], written[NODES];
    uint64_t areas[NODES], texts[NODES];
    uint8_t room[ROOM];
};

static struct answers alone, together[THREADS];
static unsigned same[THREADS], other[THREADS];

static void build(void)
{
    for (uint16_t k = 0; k < NODES; k++) {
        nodes[k][0] = k < 2 ? (uint16_t)(k + 1) : 3;
        nodes[k][1] = k < 2 ? 0 : 2;
        nodes[k][2] = nodes[k][3] = k < 2 ? 0 : (uint16_t)(k - 2);
    }
    for (uint16_t k = 0; k <= LEVELS; k++) {
        connections[k][0] = (uint16_t)(2 * k);
        connections[k][1] = (uint16_t)(2 * k + 1);
        connections[k][2] = connections[k][4] = k == 0;
        connections[k][3] = k == 0 ? 7 : 0;
    }
    rules[0] = 7;
    rules[1] = rules[2] = rules[3] = rules[4] = rules[195] = 1;
    rules[196] = 2;
}

static uint64_t sum_of(const void *bytes, size_t length)
{
    uint64_t sum = 14695981039346656037u;
    for (size_t k = 0; k < length; k++)
        sum = (sum ^ ((const uint8_t *)bytes)[k]) * 1099511628211u;
    return sum;
}

#define TABLES nodes[0], NODES * 10, rules, 387, connections[0], (LEVELS + 1) * 5

/* every node and its neighbours: a distance (of a pair that may not be joined), a query, the first term's text, the verdict on the proof */
static void call_all(struct answers *a)
{
    for (uint16_t k = 0; k < NODES; k++) {
        uint16_t right = (uint16_t)(k ^ 1);
        a->numbers[0][k] = erbighenti_distance(TABLES, k, (uint16_t)((k + 1) % NODES), &a->values[0][k]);
        a->numbers[1][k] = erbighenti_query(TABLES, k, right, a->area, AREA, &a->values[1][k], &a->written[k]);
        a->areas[k] = sum_of(a->area, sizeof a->area);
        size_t end = 0;
        for (size_t pending = 1; pending > 0; end += 4)
            pending += a->area[end + 1] - (size_t)1;
        a->numbers[2][k] = erbighenti_term_text(a->area, end, a->room, ROOM, &a->values[2][k]);
        a->texts[k] = sum_of(a->room, ROOM);
        a->numbers[3][k] = erbighenti_check(TABLES, a->area, a->written[k], &a->values[3][k]);
    }
}

static unsigned equal(const struct answers *a, const struct answers *b)
{
    unsigned count = 0;
    for (size_t k = 0; k < NODES; k++) {
        for (size_t kind = 0; kind < KINDS; kind++)
            count += a->numbers[kind][k] == b->numbers[kind][k] && a->values[kind][k] == b->values[kind][k];
        count += a->written[k] == b->written[k] && a->areas[k] == b->areas[k];
        count += a->texts[k] == b->texts[k];
    }
    return count;
}

static void *work(void *number)
{
    size_t me = *(size_t *)number;
    for (unsigned round = 0; round < ROUNDS; round++) {
        call_all(&together[me]);
        unsigned good = equal(&together[me], &alone);
        same[me] += good;
        other[me] += NODES * (KINDS + 2) - good;
    }
    return 0;
}

int main(int count, char **words)
{
    pthread_t threads[THREADS];
    size_t numbers[THREADS];
    unsigned good = 0, bad = 0;
    (void)words;
    build();
    call_all(&alone);
    if (count > 1)
        alone.areas[NODES - 1] ^= 1;
    for (size_t k = 0; k < THREADS; k++) {
        numbers[k] = k;
        if (pthread_create(&threads[k], 0, work, &numbers[k]) != 0)
            return 2;
    }
    for (size_t k = 0; k < THREADS; k++) {
        if (pthread_join(threads[k], 0) != 0)
            return 2;
        good += same[k];
        bad += other[k];
    }
    printf("%u the same, %u others; the last query: %u %llu %llu\n", good, bad, alone.numbers[1][NODES - 1],
           (unsigned long long)alone.values[1][NODES - 1], (unsigned long long)alone.written[NODES - 1]);
    return bad != 0;
}
