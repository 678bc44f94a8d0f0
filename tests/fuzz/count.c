/* Tells, behind a replay, which places of a module compiled with coverage were passed: standard error has the address of `main`, and then
   on a line each the address of every place and whether it was passed. */
#include "lent.h"

int dprintf(int file, const char *format, ...);
int main(int count, char **words);
void __sanitizer_cov_bool_flag_init(const uint8_t *from, const uint8_t *to);
void __sanitizer_cov_pcs_init(const size_t *from, const size_t *to);

static const uint8_t *passed, *behind;
static const size_t *places;

void __sanitizer_cov_bool_flag_init(const uint8_t *from, const uint8_t *to)
{
    passed = from, behind = to;
}

void __sanitizer_cov_pcs_init(const size_t *from, const size_t *to)
{
    /* an address and what kind of place it is */
    hold((size_t)(to - from) == 2 * (size_t)(behind - passed), "two words for each place");
    places = from;
}

__attribute__((destructor)) static void tell(void)
{
    dprintf(2, "%zx main\n", (size_t)main);
    for (size_t k = 0; k < (size_t)(behind - passed); k++)
        dprintf(2, "%zx %d\n", places[2 * k], passed[k]);
}
