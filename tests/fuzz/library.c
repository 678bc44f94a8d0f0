/* One input of the fuzzer: tables, words of a proof, a pair of nodes, an area and a room, on which every entry point of the library is
   called. What is lent has exactly its size, and what is lent to be read cannot be written.

   An input is nine bytes and four runs of words. The nine bytes are four numbers of 16 bits, low byte first (left, right, words of the
   area, bytes of the room), and one whose lowest bit says whether runs end with their memory or begin with it. The runs are nodes,
   rules, connections and the words of a proof, in the library's own layout, with these bytes:
     00 to f8  a word of that value
     f9 L H    a word, low byte first
     fa        zeros up to the end of the slot: a node, a connection, a node of a term, or a side of a rule
     fb K N    the last K entries N times more, each copy moved on by K: a node's children, a rule's number, a connection's ends
     fc        the next run
     fd to ff  a word of 65,533 to 65,535
   so that a byte more or less does not shift all that is behind it, and large tables have short inputs. */
#include "../../include/erbighenti.h"
#include "lent.h"

enum { NODES, RULES, CONNECTIONS, WORDS, RUNS };
enum { HEAD = 9, NODE = 10, SIDE = 192, RULE = 3 + 2 * SIDE, CONNECTION = 5, FLAT = 4, WIDEST = 65535, INSTANCES = 12 };

/* words of an entry, and how many words a run may have: somewhat more than document 01's limits, where a table has one */
static const size_t entry[RUNS] = {NODE, RULE, CONNECTION, FLAT}, most[RUNS] = {2060 * NODE, 258 * RULE, 2060 * CONNECTION, 4100 * FLAT};

struct run {
    size_t length;
    uint16_t words[258 * RULE];
};

static struct run runs[RUNS];
static struct lent tables[RUNS], proofs, areas, rooms;

/* the tables of a call */
struct asked {
    const uint16_t *at[RUNS];
    size_t length[RUNS];
};

struct answer {
    uint16_t number;
    uint64_t value, written;
    uint16_t *words;
};

static void put(int k, uint16_t word)
{
    if (runs[k].length < most[k])
        runs[k].words[runs[k].length++] = word;
}

static void fill(int k)
{
    size_t at = runs[k].length % entry[k];
    size_t end = k != RULES ? entry[k] : at <= 3 ? 3 : at <= 3 + SIDE ? 3 + SIDE : RULE;
    for (; at > 0 && at < end; at++)
        put(k, 0);
}

/* which words of an entry name other entries, or itself */
static int moves(int k, const uint16_t *words, size_t at)
{
    return k == NODES ? at >= 2 && at - 2 < words[1] : k == RULES ? at == 0 : k == CONNECTIONS && at < 2;
}

static void again(int k, size_t entries, size_t times)
{
    size_t back = entries * entry[k];
    if (entries == 0 || back > runs[k].length || runs[k].length % entry[k])
        return;
    for (; times > 0 && runs[k].length + back <= most[k]; times--)
        for (size_t n = 0; n < entries; n++) {
            const uint16_t *from = runs[k].words + runs[k].length - back;
            for (size_t at = 0; at < entry[k]; at++)
                put(k, (uint16_t)(from[at] + (moves(k, from, at) ? entries : 0)));
        }
}

static void unpack(const uint8_t *data, size_t size)
{
    int k = NODES;
    for (size_t r = 0; r < RUNS; r++)
        runs[r].length = 0;
    for (size_t at = 0; at < size && k < RUNS; at++) {
        uint8_t byte = data[at];
        if (byte == 0xf9 && at + 2 < size) {
            put(k, (uint16_t)(data[at + 1] | data[at + 2] << 8));
            at += 2;
        } else if (byte == 0xfa) {
            fill(k);
        } else if (byte == 0xfb && at + 2 < size) {
            again(k, data[at + 1], data[at + 2]);
            at += 2;
        } else if (byte == 0xfc) {
            k++;
        } else {
            put(k, byte > 0xfc ? (uint16_t)(0xff00 | byte) : byte);
        }
    }
}

/* Words to be read, in memory of their own. */
static const uint16_t *shown(struct lent *lent, const uint16_t *words, size_t length, int at_end)
{
    size_t at = begins(lent, length * 2, at_end);
    memcpy(lent->written + at, words, length * 2);
    return (const uint16_t *)(lent->read + at);
}

static int zero(const uint8_t *bytes, size_t length)
{
    return length == 0 || (bytes[0] == 0 && memcmp(bytes, bytes + 1, length - 1) == 0);
}

#define TABLES(t) (t)->at[NODES], (t)->length[NODES], (t)->at[RULES], (t)->length[RULES], (t)->at[CONNECTIONS], (t)->length[CONNECTIONS]

static struct answer check(const struct asked *t, const uint16_t *words, size_t length)
{
    struct answer a = {.value = 77};
    a.number = erbighenti_check(TABLES(t), words, length, &a.value);
    /* 18 is nobody's number */
    hold(a.number == 0 || (a.number >= 2 && a.number <= 7) || (a.number >= 12 && a.number <= 17) || a.number == 19, "a number of the checker");
    hold(a.number ? a.value < ERBIGHENTI_TERMS : a.value >= 1 && a.value <= ERBIGHENTI_TERMS, "a place or a count of terms");
    hold(a.number == 0 || (a.number >= 15 && a.number <= 17) == (a.value > 0), "a place of a later term just where one is refused");
    uint64_t marks = 0;
    for (size_t k = 2; k < length && a.number == 0; k += FLAT)
        marks += words[k] != 0;
    hold(a.number || marks == a.value - 1, "an accepted proof has a mark for each term behind the first");
    return a;
}

static struct answer distance(const struct asked *t, uint16_t left, uint16_t right)
{
    struct answer a = {.value = 77};
    a.number = erbighenti_distance(TABLES(t), left, right, &a.value);
    hold(a.number == 0 || (a.number >= 2 && a.number <= 10), "a number of the distance");
    hold(a.value <= ERBIGHENTI_DISTANCE && (a.number == 0 || a.value == 0), "a distance that may be, and none where it is refused");
    return a;
}

/* A query over an area of so many words, full of rubbish. */
static struct answer query(const struct asked *t, uint16_t left, uint16_t right, size_t length, int at_end, int rubbish)
{
    struct answer a = {.value = 77, .written = 77};
    uint8_t *area = areas.written + begins(&areas, length * 2, at_end);
    memset(area, rubbish, length * 2);
    a.words = (uint16_t *)area;
    a.number = erbighenti_query(TABLES(t), left, right, a.words, length, &a.value, &a.written);
    hold(a.number == 0 || (a.number >= 2 && a.number <= 11), "a number of the query");
    hold(a.number == 0 || (a.value == 0 && a.written == 0), "a refused query has no distance and no words");
    hold(a.written <= length, "the written words are in the area");
    hold(zero(area + a.written * 2, (length - a.written) * 2), "behind the written words all is zero");
    hold(a.number || (a.written % FLAT == 0 && a.written >= (a.value + 1) * FLAT), "whole nodes, and at least one a term");
    return a;
}

static void text(const uint16_t *words, size_t length, size_t bytes, int at_end, int again)
{
    uint64_t written = 77;
    uint8_t *room = rooms.written + begins(&rooms, bytes, at_end);
    memset(room, 0xdd, bytes);
    uint16_t number = erbighenti_term_text(words, length, room, bytes, &written);
    hold(number == 0 || (number >= 11 && number <= 13), "a number of the text");
    hold((number == 12) == (length == 0), "12 just where there are no words");
    hold(written <= bytes && zero(room + written, bytes - written), "behind the text all is zero");
    hold(number == 0 || written == 0, "a refused text has no bytes");
    if (number)
        return;
    size_t nodes = 0, opened = 0, closed = 0;
    for (size_t k = 0; k < written; k++)
        nodes += room[k] == 'o', opened += room[k] == '(', closed += room[k] == ')';
    hold(nodes > 0 && nodes == length / FLAT && opened == closed, "the text has each node once, and closes what it opens");
    if (again)
        text(words, length, (size_t)written, at_end, 0), text(words, length, (size_t)written - 1, at_end, 0);
}

/* Whether each rule connection's own proof, of its current and its next node, is accepted: it is an instance of its rule. */
static int instances(const struct asked *t, int at_end)
{
    for (size_t k = 0; k + CONNECTION <= t->length[CONNECTIONS]; k += CONNECTION) {
        const uint16_t *c = t->at[CONNECTIONS] + k;
        if (c[2] == 0)
            continue;
        struct answer own = query(t, c[0], c[1], WIDEST, at_end, 0x11);
        if (own.number || k >= INSTANCES * CONNECTION)
            return 0;
        hold(own.value == 1, "a connection is its own path");
        if (check(t, shown(&proofs, own.words, own.written, at_end), own.written).number)
            return 0;
    }
    return 1;
}

/* What was written: the same in an area of just as many words, refused in one less; a proof of an unmarked term and one mark in each later
   one, which the checker takes back where each rule connection is an instance. */
static void written(const struct asked *t, uint16_t left, uint16_t right, const struct answer *a, int at_end)
{
    static uint16_t kept[WIDEST];
    static const struct asked none = {.at = {kept, kept, kept, kept}};
    size_t length = a->written;
    uint64_t far = a->value;
    memcpy(kept, a->words, length * 2);
    struct answer just = query(t, left, right, length, at_end, 0x5a);
    hold(just.number == 0 && just.value == far && just.written == length, "an area of just the words is enough");
    hold(memcmp(just.words, kept, length * 2) == 0, "and holds the same proof");
    hold(query(t, left, right, length - 1, at_end, 0xff).number == 11, "an area of a word less is refused by 11");
    const uint16_t *proof = shown(&proofs, kept, length, at_end);
    struct answer bare = check(&none, proof, length);
    hold(far ? bare.number == 16 && bare.value == 1 : bare.number == 0 && bare.value == 1, "without rules the first mark is refused");
    text(proof, length, far ? 0 : WIDEST, at_end, 1);
    struct answer back = check(t, proof, length);
    hold(back.number ? (back.number == 16 || back.number == 17) && back.value <= far : back.value == far + 1, "only a rule can be wrong");
    hold(back.number == 0 || !instances(t, at_end), "a proof is accepted where each rule connection is an instance");
}

int LLVMFuzzerTestOneInput(const uint8_t *data, size_t size)
{
    if (size < HEAD)
        return 0;
    if (areas.size == 0) {
        for (int k = 0; k < RUNS; k++)
            tables[k] = lend(most[k] * 2);
        proofs = lend(WIDEST * 2), areas = lend(WIDEST * 2), rooms = lend(WIDEST);
    }
    uint16_t head[4];
    for (int k = 0; k < 4; k++)
        head[k] = (uint16_t)(data[2 * k] | data[2 * k + 1] << 8);
    int at_end = data[HEAD - 1] & 1;
    struct asked t;
    unpack(data + HEAD, size - HEAD);
    for (int k = 0; k < RUNS; k++) {
        t.length[k] = runs[k].length;
        t.at[k] = shown(&tables[k], runs[k].words, runs[k].length, at_end);
    }
    struct answer far = distance(&t, head[0], head[1]), back = distance(&t, head[1], head[0]);
    hold(far.number == back.number && far.value == back.value, "there and back are equally far");
    struct answer a = query(&t, head[0], head[1], head[2], at_end, 0xad);
    hold(a.number == far.number || (far.number == 0 && a.number == 11), "a query is refused as its distance is, or by 11");
    if (a.number == 0) {
        hold(a.value == far.value, "a query has its distance");
        written(&t, head[0], head[1], &a, at_end);
    }
    struct answer verdict = check(&t, t.at[WORDS], t.length[WORDS]);
    hold((far.number >= 2 && far.number <= 7) == (verdict.number >= 2 && verdict.number <= 7), "tables are judged alike");
    struct asked rules = t;
    rules.length[NODES] = rules.length[CONNECTIONS] = 0;
    struct answer alone = check(&rules, t.at[WORDS], t.length[WORDS]);
    hold((verdict.number >= 2 && verdict.number <= 7) || (alone.number == verdict.number && alone.value == verdict.value),
         "good nodes and connections play no part in a verdict");
    text(t.at[WORDS], t.length[WORDS], head[3], at_end, 1);
    return 0;
}
