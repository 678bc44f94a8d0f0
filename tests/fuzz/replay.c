/* Hands stored inputs to a harness without the fuzzer: four bytes of length, low byte first, and the input, one behind the other from
   standard input. A sign is printed for each input that came back; a finding aborts. With an argument, a number, the answers of the
   library are spoiled in that way, where the harness is linked with tests/fuzz/spoiled.c. */
#include "lent.h"

int LLVMFuzzerTestOneInput(const uint8_t *data, size_t size);
long read(int file, void *place, size_t length);
void *malloc(size_t size);
void free(void *place);
int atoi(const char *text);

int spoil;

static int full(uint8_t *place, size_t length)
{
    while (length > 0) {
        long got = read(0, place, length);
        if (got <= 0)
            return 0;
        place += got, length -= (size_t)got;
    }
    return 1;
}

int main(int count, char **words)
{
    uint8_t head[4];
    spoil = count > 1 ? atoi(words[1]) : 0;
    while (full(head, sizeof head)) {
        size_t length = head[0] | (size_t)head[1] << 8 | (size_t)head[2] << 16 | (size_t)head[3] << 24;
        uint8_t *data = malloc(length + 1);
        hold(data != 0 && full(data, length), "an input of the stored length");
        LLVMFuzzerTestOneInput(data, length);
        free(data);
        hold(write(1, "+", 1) == 1, "a sign for each input");
    }
    return 0;
}
