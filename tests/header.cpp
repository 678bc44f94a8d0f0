// The header as C++: every function is called, by its C name, on row P1 of document 01. Prints what the calls gave.
#include <erbighenti.h>
#include <stdio.h>

static const uint16_t nodes[] = {1, 0, 0, 0, 0, 0, 0, 0, 0, 0, 2, 0, 0, 0, 0, 0, 0, 0, 0, 0,
                                 3, 1, 0, 0, 0, 0, 0, 0, 0, 0, 3, 1, 1, 0, 0, 0, 0, 0, 0, 0};
static const uint16_t connections[] = {0, 1, 1, 7, 1, 2, 3, 0, 0, 0};

int main()
{
    // r7 makes o1 to o2: number, items of each side, then 64 slots of three words for each side
    static uint16_t rules[387] = {7, 1, 1, 1, 1, 0};
    rules[195] = 1;
    rules[196] = 2;
    uint16_t area[20];
    uint8_t room[40];
    uint64_t far, distance, written, bytes, terms;
    unsigned measured = erbighenti_distance(nodes, 40, rules, 387, connections, 10, 2, 3, &far);
    unsigned answered = erbighenti_query(nodes, 40, rules, 387, connections, 10, 2, 3, area, 20, &distance, &written);
    unsigned spelled = erbighenti_term_text(area + 8, 8, room, sizeof room, &bytes);
    unsigned checked = erbighenti_check(nodes, 40, rules, 387, connections, 10, area, written, &terms);
    printf("%u %u, %u %u %u, %u %.*s, %u %u\n", measured, unsigned(far), answered, unsigned(distance), unsigned(written), spelled,
           int(bytes), reinterpret_cast<const char *>(room), checked, unsigned(terms));
    return 0;
}
