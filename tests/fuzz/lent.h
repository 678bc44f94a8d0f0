/* What both harnesses stand on: findings, and memory that is lent with pages behind and before it that nobody may touch.
   No header of the C library is wanted, so that the toolchain's own compiler is enough. */
#ifndef LENT_H
#define LENT_H
#include <stddef.h>
#include <stdint.h>

void *mmap(void *place, size_t length, int may, int flags, int file, long offset);
int memfd_create(const char *name, unsigned flags);
int ftruncate(int file, long length);
long write(int file, const void *place, size_t length);
void abort(void) __attribute__((noreturn));
void *memcpy(void *to, const void *from, size_t length);
void *memset(void *to, int byte, size_t length);
int memcmp(const void *one, const void *other, size_t length);
size_t strlen(const char *text);

/* A finding: what must hold and does not. The fuzzer and the replay see the program abort. */
static inline void hold(int holds, const char *what)
{
    if (holds)
        return;
    if (write(2, "finding: ", 9) + write(2, what, strlen(what)) + write(2, "\n", 1) < 0)
        abort();
    abort();
}

/* Memory of so many bytes, seen twice: here it can be written, there only be read. Before and behind both views stand pages that cannot
   even be read; they are as large as a page is on any machine. */
enum { PAGES = 1 << 16, NONE = 0, READS = 1, WRITES = 3, SHARED = 1, PRIVATE = 2, FIXED = 16, NO_FILE = 32 };

struct lent {
    uint8_t *written, *read;
    size_t size;
};

static inline uint8_t *view(int file, size_t size, int may)
{
    uint8_t *all = mmap(0, size + 2 * (size_t)PAGES, NONE, PRIVATE | NO_FILE, -1, 0);
    hold(all != (void *)-1, "room for a view");
    hold(mmap(all + PAGES, size, may, SHARED | FIXED, file, 0) == all + PAGES, "a view of the memory");
    return all + PAGES;
}

static inline struct lent lend(size_t bytes)
{
    struct lent made = {.size = (bytes + PAGES - 1) / PAGES * PAGES};
    int file = memfd_create("lent", 0);
    hold(file >= 0 && ftruncate(file, (long)made.size) == 0, "memory to lend");
    made.written = view(file, made.size, WRITES);
    made.read = view(file, made.size, READS);
    return made;
}

/* Where a run of so many bytes begins: it ends with the memory, or it begins with it. */
static inline size_t begins(const struct lent *lent, size_t bytes, int at_end)
{
    return at_end ? lent->size - bytes : 0;
}
#endif
