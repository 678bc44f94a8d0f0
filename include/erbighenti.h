/* Erbighenti for C: proved explanations of rewritten alert expressions.
   Tables and proofs are runs of 16-bit words, each a pointer and a length in words; their layouts are in crates/model/specs/Tables.antt
   and Term.antt.
   No pointer may be null, also where the length is 0. What is lent to be written (`value`, `area`, `room`, `distance`, `written`) must not
   overlap what is lent to be read, nor each other, and nobody may change the words while a call runs.
   The library has no state: it keeps nothing from one call to the next, asks for no memory and writes to nothing but what it is lent. So
   any number of threads may call it at once, each with its own area, room and results; what is only read they may share.
   bindings/c has a program that uses it. */
#ifndef ERBIGHENTI_H
#define ERBIGHENTI_H
#include <stddef.h>
#include <stdint.h>

#ifdef __cplusplus
extern "C" {
#endif

/* Document 01's limits: nodes, rules, the distance of a query, the terms of a checked proof, the words of any proof. In an
   area of ERBIGHENTI_WORDS number 11 says that the proof is past this limit: no larger area would help. */
#define ERBIGHENTI_NODES 2048
#define ERBIGHENTI_RULES 256
#define ERBIGHENTI_DISTANCE 16383
#define ERBIGHENTI_TERMS 16384
#define ERBIGHENTI_WORDS 1048576

/* The strict checker over tables handed in whole. Returns document 01's number (2 to 7, 12 to 17 or 19), 0 for an accepted proof.
   Behind `value` stands the count of terms, or where it is refused the term's place from 0. Each term behind the first has exactly one
   mark, so that an accepted proof has one step less than terms. */
uint16_t erbighenti_check(const uint16_t *nodes, size_t nodes_len, const uint16_t *rules, size_t rules_len,
                          const uint16_t *connections, size_t connections_len, const uint16_t *words, size_t words_len,
                          uint64_t *value);

/* The distance of two nodes over tables handed in whole. Returns document 01's number (2 to 10), 0 where there is a distance.
   Behind `value` stands the distance, or 0 where it is refused. */
uint16_t erbighenti_distance(const uint16_t *nodes, size_t nodes_len, const uint16_t *rules, size_t rules_len,
                             const uint16_t *connections, size_t connections_len, uint16_t left, uint16_t right,
                             uint64_t *value);

/* A query over tables handed in whole: how does the left node become the right one? Returns document 01's number (2 to 11), 0 for success.
   Behind `distance` and `written` stand the distance and the words written, both 0 where it is refused.
   The area holds the proof's words and zeros behind them; after a refusal it is all zero, whatever it held. */
uint16_t erbighenti_query(const uint16_t *nodes, size_t nodes_len, const uint16_t *rules, size_t rules_len,
                          const uint16_t *connections, size_t connections_len, uint16_t left, uint16_t right,
                          uint16_t *area, size_t area_len, uint64_t *distance, uint64_t *written);

/* The text of one flat term. Returns document 01's number (11, 12 or 13), 0 for success.
   Behind `written` stand the bytes written, 0 where it is refused. The text does not end with a zero byte of its own.
   The room holds the text and zeros behind it; after a refusal it is all zero, whatever it held. */
uint16_t erbighenti_term_text(const uint16_t *words, size_t words_len, uint8_t *room, size_t room_len, uint64_t *written);

#ifdef __cplusplus
}
#endif

#endif
