/* The library with one fault, by its number: each is to be found by the harness, so that its checks are known to find. tests/test_faults
   compiles the harness once more with these functions in place of the library's. */
#include "../../include/erbighenti.h"

extern int spoil;

uint16_t spoiled_check(const uint16_t *nodes, size_t nodes_len, const uint16_t *rules, size_t rules_len, const uint16_t *connections,
                       size_t connections_len, const uint16_t *words, size_t words_len, uint64_t *value);
uint16_t spoiled_distance(const uint16_t *nodes, size_t nodes_len, const uint16_t *rules, size_t rules_len, const uint16_t *connections,
                          size_t connections_len, uint16_t left, uint16_t right, uint64_t *value);
uint16_t spoiled_query(const uint16_t *nodes, size_t nodes_len, const uint16_t *rules, size_t rules_len, const uint16_t *connections,
                       size_t connections_len, uint16_t left, uint16_t right, uint16_t *area, size_t area_len, uint64_t *distance,
                       uint64_t *written);
uint16_t spoiled_text(const uint16_t *words, size_t words_len, uint8_t *room, size_t room_len, uint64_t *written);

uint16_t spoiled_check(const uint16_t *nodes, size_t nodes_len, const uint16_t *rules, size_t rules_len, const uint16_t *connections,
                       size_t connections_len, const uint16_t *words, size_t words_len, uint64_t *value)
{
    uint16_t number = erbighenti_check(nodes, nodes_len, rules, rules_len, connections, connections_len, words, words_len, value);
    if (spoil == 1 && number == 16) /* an unlisted rule is let pass */
        number = 0, *value = 2;
    if (spoil == 2 && number == 0 && *value > 2) /* the third term is refused */
        number = 17, *value = 2;
    if (spoil == 3 && words_len > 0) /* a word behind the proof is read */
        number += (uint16_t)(((const volatile uint16_t *)words)[words_len] & 0);
    if (spoil == 4 && number == 13) /* a malformed proof has a place */
        *value = 1;
    if (spoil == 5 && number == 12 && nodes_len > 0) /* nodes play a part */
        number = 13;
    if (spoil == 25 && number == 15) /* no mark is let pass, or several */
        number = 0, *value = 2;
    if (spoil == 26 && number == 15) /* a number that is nobody's */
        number = 18;
    return number;
}

uint16_t spoiled_distance(const uint16_t *nodes, size_t nodes_len, const uint16_t *rules, size_t rules_len, const uint16_t *connections,
                          size_t connections_len, uint16_t left, uint16_t right, uint64_t *value)
{
    uint16_t number = erbighenti_distance(nodes, nodes_len, rules, rules_len, connections, connections_len, left, right, value);
    if (spoil == 6 && number == 0 && left < right) /* farther there than back */
        ++*value;
    if (spoil == 7 && number == 9) /* nodes that are not joined have a distance */
        number = 0;
    if (spoil == 8 && number == 10) /* a refused distance is told */
        *value = ERBIGHENTI_DISTANCE + 1;
    if (spoil == 9 && nodes_len > 0) /* what is lent to be read is written */
        ((volatile uint16_t *)nodes)[0] = nodes[0];
    return number;
}

uint16_t spoiled_query(const uint16_t *nodes, size_t nodes_len, const uint16_t *rules, size_t rules_len, const uint16_t *connections,
                       size_t connections_len, uint16_t left, uint16_t right, uint16_t *area, size_t area_len, uint64_t *distance,
                       uint64_t *written)
{
    uint16_t number = erbighenti_query(nodes, nodes_len, rules, rules_len, connections, connections_len, left, right, area, area_len,
                                       distance, written);
    if (spoil == 10 && number == 0 && *written < area_len) /* a word behind the proof */
        area[area_len - 1] = 1;
    if (spoil == 11 && number && area_len > 0) /* a word in a refused area */
        area[0] = 1;
    if (spoil == 12 && number == 0) /* one step more */
        ++*distance;
    if (spoil == 13 && number == 0 && *written < area_len) /* one word more */
        ++*written;
    if (spoil == 14) /* a word before the area is written */
        ((volatile uint16_t *)area)[-1] = 0;
    if (spoil == 15) /* and one behind it */
        ((volatile uint16_t *)area)[area_len] = 0;
    if (spoil == 16 && number == 0 && *distance > 1) /* another first term */
        area[0] ^= 1;
    if (spoil == 17 && number == 0 && *written == area_len) { /* the last word of the area is not used */
        for (size_t k = 0; k < area_len; k++)
            area[k] = 0;
        number = 11, *distance = *written = 0;
    }
    if (spoil == 18 && number == 0 && *distance > 0) /* a mark is lost */
        for (size_t k = 2; k < *written; k += 4)
            area[k] = area[k + 1] = 0;
    if (spoil == 19 && number == 9) /* another number */
        number = 8;
    return number;
}

uint16_t spoiled_text(const uint16_t *words, size_t words_len, uint8_t *room, size_t room_len, uint64_t *written)
{
    uint16_t number = erbighenti_term_text(words, words_len, room, room_len, written);
    if (spoil == 20 && number == 0 && *written < room_len) /* a byte behind the text */
        room[room_len - 1] = 32;
    if (spoil == 21 && number == 11 && room_len > 0) /* a byte in a refused room */
        room[0] = 'o';
    if (spoil == 22 && number == 0) /* a node is lost */
        room[*written - 1] = 'o', room[0] = 'r';
    if (spoil == 23) /* a byte behind the room is written */
        ((volatile uint8_t *)room)[room_len] = 0;
    if (spoil == 24 && number == 13) /* malformed words have a text */
        number = 0;
    return number;
}
