/* The case of examples/nan from C. A site's alert was (x - x) > limit, and the agent made limit < 0 of it. Where x is NaN, x - x is NaN and
   not 0. The program asks how the old alert became the new one, prints each term, and offers the answer to the strict checker with the
   release list's rules: it names the step by rule 7, which that list lacks.

   Built with the library (`tools/archive` writes it):

       cc -Iinclude bindings/c/nan.c target/staticlib/libexplanation.a -o nan */
#include <erbighenti.h>
#include <stdio.h>

/* operators, and the numbers of the nodes below */
enum { X = 1, LIMIT = 2, ZERO = 3, ABOVE = 10, BELOW = 11, MINUS = 12, PLUS = 13 };
enum { NODE_X, NODE_LIMIT, NODE_ZERO, NODE_DIFFERENCE, NODE_OLD, NODE_MADE, NODE_NEW };
enum { ADD_ZERO = 4, TURN = 5, CANCEL = 7 };

/* How entries lie in memory, in words: a table is a run of them. What a count leaves unused plays no part. */
struct node {
    uint16_t operator_number, count, children[8];
};
struct item {
    uint16_t kind, number, count; /* kind 0: a variable's number; kind 1: an operator and its count of children */
};
struct rule {
    uint16_t number, left_items, right_items;
    struct item left[64], right[64];
};
struct connection {
    uint16_t current, next, kind, rule, forward; /* kind 0: congruence, with rule and forward 0; kind 1: by a rule */
};

/* a child has a lower number than its node */
static const struct node nodes[] = {
    [NODE_X] = {X, 0, {0}},
    [NODE_LIMIT] = {LIMIT, 0, {0}},
    [NODE_ZERO] = {ZERO, 0, {0}},
    [NODE_DIFFERENCE] = {MINUS, 2, {NODE_X, NODE_X}},
    [NODE_OLD] = {ABOVE, 2, {NODE_DIFFERENCE, NODE_LIMIT}},
    [NODE_MADE] = {ABOVE, 2, {NODE_ZERO, NODE_LIMIT}},
    [NODE_NEW] = {BELOW, 2, {NODE_LIMIT, NODE_ZERO}},
};

/* the release list: items stand parents first */
static const struct rule rules[] = {
    {ADD_ZERO, 3, 1, {{1, PLUS, 2}, {0, 0, 0}, {1, ZERO, 0}}, {{0, 0, 0}}},            /* (+ ?0 zero) becomes ?0 */
    {TURN, 3, 3, {{1, ABOVE, 2}, {0, 0, 0}, {0, 1, 0}}, {{1, BELOW, 2}, {0, 1, 0}, {0, 0, 0}}}, /* (> ?0 ?1) becomes (< ?1 ?0) */
};

/* what the agent did, the oldest first: a connection may name a rule that is not listed */
static const struct connection connections[] = {
    {NODE_DIFFERENCE, NODE_ZERO, 1, CANCEL, 1},
    {NODE_OLD, NODE_MADE, 0, 0, 0},
    {NODE_MADE, NODE_NEW, 1, TURN, 1},
};

/* a table as the library takes it: where its words begin, and how many there are */
#define WORDS(table) (const uint16_t *)(table), sizeof(table) / (sizeof(uint16_t))
#define TABLES WORDS(nodes), WORDS(rules), WORDS(connections)

/* where the term ends that begins at a place of a written proof: four words a node, the second counts its children */
static size_t term_end(const uint16_t *words, size_t at)
{
    for (size_t pending = 1; pending > 0; at += 4)
        pending += words[at + 1] - (size_t)1;
    return at;
}

int main(void)
{
    uint16_t area[256];
    uint8_t room[256];
    uint64_t distance, written, bytes, value;

    uint16_t number = erbighenti_query(TABLES, NODE_OLD, NODE_NEW, area, 256, &distance, &written);
    if (number != 0) {
        printf("refused %u\n", (unsigned)number);
        return 1;
    }
    printf("distance %llu\n", (unsigned long long)distance);
    for (size_t at = 0; at < written; at = term_end(area, at)) {
        number = erbighenti_term_text(area + at, term_end(area, at) - at, room, sizeof room, &bytes);
        if (number != 0) {
            printf("refused %u\n", (unsigned)number);
            return 1;
        }
        printf("%.*s\n", (int)bytes, (const char *)room);
    }

    /* what was written is a proof like any other: offered, it is held to the listed rules alone */
    number = erbighenti_check(TABLES, area, (size_t)written, &value);
    if (number == 0)
        printf("accepted %llu\n", (unsigned long long)value);
    else
        printf("rejected %u term %llu\n", (unsigned)number, (unsigned long long)value);
    return 0;
}
