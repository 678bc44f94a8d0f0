/* Changes that suit the program's input. A byte changed in a line of hexadecimal mostly makes it no such line, so half of the changes are
   made to the bytes that a line spells, or to whole lines; the others are the fuzzer's own. */
#include "lent.h"

size_t LLVMFuzzerMutate(uint8_t *data, size_t size, size_t most);
size_t LLVMFuzzerCustomMutator(uint8_t *data, size_t size, size_t most, unsigned seed);
void *memmove(void *to, const void *from, size_t length);

enum { LINE = 8192 };

static uint32_t state;

static size_t below(size_t most)
{
    state = state * 1664525u + 1013904223u;
    return most ? (state >> 8) % most : 0;
}

static int digit(uint8_t byte)
{
    return byte >= '0' && byte <= '9' ? byte - '0' : byte >= 'a' && byte <= 'f' ? byte - 'a' + 10 : -1;
}

/* the bytes that a line spells, or none where it is no line of hexadecimal */
static size_t decoded(const uint8_t *line, size_t length, uint8_t *bytes)
{
    if (length % 2 || length > LINE)
        return 0;
    for (size_t k = 0; k < length; k += 2) {
        if (digit(line[k]) < 0 || digit(line[k + 1]) < 0)
            return 0;
        bytes[k / 2] = (uint8_t)(digit(line[k]) * 16 + digit(line[k + 1]));
    }
    return length / 2;
}

/* puts a text of so many bytes where a part of the input was, if there is room */
static size_t put(uint8_t *data, size_t size, size_t most, size_t from, size_t to, const uint8_t *text, size_t length)
{
    if (size - (to - from) + length > most)
        return size;
    memmove(data + from + length, data + to, size - to);
    memcpy(data + from, text, length);
    return size - (to - from) + length;
}

/* One line, as it stands or changed. */
static size_t change(uint8_t *data, size_t size, size_t most, size_t from, size_t to)
{
    static uint8_t bytes[LINE], text[2 * LINE + 1];
    size_t count = decoded(data + from, to - from, bytes);
    if (count == 0)
        return LLVMFuzzerMutate(data, size, most);
    /* a 16-bit number one more or less, or what the fuzzer does with bytes */
    if (count > 2 && below(3) == 0) {
        size_t at = 1 + below(count - 1);
        bytes[at] = (uint8_t)(bytes[at] + (below(2) ? 1 : 255));
    } else {
        count = LLVMFuzzerMutate(bytes, count, LINE / 2 + 2);
    }
    for (size_t k = 0; k < count; k++)
        text[2 * k] = "0123456789abcdef"[bytes[k] >> 4], text[2 * k + 1] = "0123456789abcdef"[bytes[k] & 15];
    return put(data, size, most, from, to, text, 2 * count);
}

size_t LLVMFuzzerCustomMutator(uint8_t *data, size_t size, size_t most, unsigned seed)
{
    static uint8_t line[LINE + 1];
    state = seed;
    if (size == 0 || below(2))
        return LLVMFuzzerMutate(data, size, most);
    size_t from = below(size), to = from;
    while (from > 0 && data[from - 1] != '\n')
        from--;
    while (to < size && data[to] != '\n')
        to++;
    size_t length = to - from + 1, at = below(size);
    size_t what = below(4);
    if (what == 0 && to < size && length <= sizeof line) { /* the line once more, before another */
        while (at > 0 && data[at - 1] != '\n')
            at--;
        memcpy(line, data + from, length);
        return put(data, size, most, at, at, line, length);
    }
    if (what == 1 && to < size && size > length) /* the line taken out */
        return put(data, size, most, from, to + 1, line, 0);
    return change(data, size, most, from, to);
}
