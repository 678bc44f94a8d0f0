/* One input of the fuzzer is one run of the program, in memory: its `main` is called here as `explain_main`, and what it reads, writes and
   opens goes through `lent_read`, `lent_write` and their like (tests/fuzz/build renames them in its object). Each input is run in one piece; then with
   reads and writes in pieces, which must print the same; and some with a read or a write that fails, which must end the run and be told.
   Of what is printed each line must have one of the program's forms, and be where it may be. */
#include "lent.h"

int explain_main(int count, char **words);
long lent_read(int file, uint8_t *place, size_t length);
long lent_write(int file, const uint8_t *bytes, size_t length);
long lent_write_too(int file, const uint8_t *bytes, size_t length);
int lent_open(const char *path, int flags, ...);
int lent_close(int file);
long lent_lseek(int file, long offset, int from);
long rattle_arg(size_t which, uint8_t *place, size_t length);
int rattle_errno(void);
void rattle_set_errno(int number);

/* As many terms as the area has nodes; an answer has at most 28 bytes for each node, a line feed for each term, and its first line. */
enum { TERMS = 32768 / 4, ANSWER = TERMS * 28 + TERMS + 15, WHOLE = 1 << 30 };

/* the input, how much of it is read and printed at a time, and which call fails */
static struct {
    const uint8_t *bytes;
    size_t size, at, read_most, write_most, reads, writes, failing_read, failing_write, lines;
} given;

/* what was printed: a sum over all bytes, the open line, the terms still to come, and what the run came to */
static struct {
    uint64_t sum, bytes, terms, answers;
    size_t held;
    int refused, stopped, status;
    uint8_t line[ANSWER];
} printed;

/* one argument behind the program's name, longer than the room that it is asked into; then none */
long rattle_arg(size_t which, uint8_t *place, size_t length)
{
    (void)place;
    hold(length < 6, "the program asks whether there is an argument, and not for its text");
    return which < 2 ? -2 : -1;
}

static int error;

int rattle_errno(void)
{
    return error;
}

void rattle_set_errno(int number)
{
    error = number;
}

/* descriptor 3, under its name, is all that is opened, and before it what the system tells of it: that it is open to be written */
static const char *told = "pos:\t0\nflags:\t0100001\nmnt_id:\t11\n";

int lent_open(const char *path, int flags, ...)
{
    int is_told = strlen(path) == 19 && !memcmp(path, "/proc/self/fdinfo/3", 19) && (flags & 3) == 0;
    hold(is_told || (strlen(path) == 9 && !memcmp(path, "/dev/fd/3", 9) && (flags & 3) == 1), "nothing but descriptor 3 is opened");
    return is_told ? 4 : 3;
}

int lent_close(int file)
{
    hold(file == 3 || file == 4, "nothing but descriptor 3 is closed");
    return 0;
}

/* an input that has no places to go back to, as a pipe */
long lent_lseek(int file, long offset, int from)
{
    (void)offset, (void)from;
    hold(file == 0, "only the input is asked for its place");
    error = 29;
    return -1;
}

long lent_read(int file, uint8_t *place, size_t length)
{
    if (file == 4) {
        hold(length >= strlen(told), "a room for what is told of a descriptor");
        memcpy(place, told, strlen(told));
        return (long)strlen(told);
    }
    hold(file == 0 && length > 0, "only standard input is read, into a room");
    if (++given.reads == given.failing_read) {
        error = 5;
        return -1;
    }
    size_t left = given.size - given.at, n = length < given.read_most ? length : given.read_most;
    if (n > left)
        n = left;
    memcpy(place, given.bytes + given.at, n);
    given.at += n;
    return (long)n;
}

/* a number as it is printed: no sign, no zero in front */
static int number(const uint8_t **at, const uint8_t *end, uint64_t *value)
{
    const uint8_t *from = *at;
    for (*value = 0; *at < end && **at >= '0' && **at <= '9' && *at - from < 19; ++*at)
        *value = *value * 10 + (uint64_t)(**at - '0');
    return *at > from && (*from != '0' || *at == from + 1);
}

static int said(const uint8_t **at, const uint8_t *end, const char *what)
{
    size_t length = strlen(what);
    if ((size_t)(end - *at) < length || memcmp(*at, what, length))
        return 0;
    *at += length;
    return 1;
}

/* A term's text: an operator, or in brackets an operator and its children, or a mark and what it marks. */
static int is_term(const uint8_t *at, const uint8_t *end)
{
    uint64_t open = 0, value;
    for (;;) {
        if (said(&at, end, "(Rewrite=> r") || said(&at, end, "(Rewrite<= r")) {
            open++;
            if (!number(&at, end, &value) || value > 65535 || !said(&at, end, " "))
                return 0;
            continue;
        }
        int inner = said(&at, end, "(o");
        if (!(inner || said(&at, end, "o")) || !number(&at, end, &value) || value > 65535)
            return 0;
        open += (uint64_t)inner;
        while (!inner && open > 0 && said(&at, end, ")"))
            open--;
        if (open == 0)
            return at == end;
        if (!said(&at, end, " "))
            return 0;
    }
}

static void take_line(const uint8_t *at, const uint8_t *end)
{
    uint64_t n = 0, place = 0;
    hold(!printed.stopped, "nothing is printed behind a refusal that stops the run");
    if (printed.terms > 0) {
        printed.terms--;
        hold(is_term(at, end), "a term");
        return;
    }
    hold(++printed.answers <= given.lines + 1, "one answer a line, and one for the end");
    if (said(&at, end, "distance ")) {
        hold(number(&at, end, &n) && n < TERMS && at == end, "a distance");
        printed.terms = n + 1;
    } else if (said(&at, end, "accepted ")) {
        hold(number(&at, end, &n) && n >= 1 && n <= TERMS && at == end, "a count of terms");
    } else if (said(&at, end, "rejected ")) {
        /* 18 is nobody's number, and 19 the library's alone: the program's area holds fewer terms and words */
        hold(number(&at, end, &n) && n >= 12 && n <= 17 && said(&at, end, " term ") && number(&at, end, &place) && at == end, "a verdict");
        hold((n >= 15) == (place > 0) && place < TERMS, "its place");
        printed.refused = 1;
    } else {
        hold(said(&at, end, "refused ") && number(&at, end, &n) && n >= 1 && n <= 11 && said(&at, end, " line "), "a refusal");
        hold(number(&at, end, &place) && place >= printed.answers && place <= given.lines + 1 && at == end, "its line");
        /* 11 also refuses an offered proof, and then the run stops; which of the two it was is seen by its status */
        printed.refused = 1;
        printed.stopped = n < 8;
    }
}

long lent_write(int file, const uint8_t *bytes, size_t length)
{
    if (file == 3) {
        hold(length == 1 && printed.status < 0 && *bytes >= '0' && *bytes <= '3', "what the run came to, once");
        printed.status = *bytes - '0';
        return 1;
    }
    if (file == 2)
        return (long)length;
    hold(file == 1 && printed.status < 0, "only the output is written, before the run is over");
    if (++given.writes == given.failing_write) {
        error = 5;
        return -1;
    }
    size_t n = length < given.write_most ? length : given.write_most;
    for (size_t k = 0; k < n; k++) {
        printed.sum = (printed.sum ^ bytes[k]) * 1099511628211u;
        if (bytes[k] == '\n') {
            take_line(printed.line, printed.line + printed.held);
            printed.held = 0;
        } else {
            hold(printed.held < sizeof printed.line, "a line is no longer than an answer may be");
            printed.line[printed.held++] = bytes[k];
        }
    }
    printed.bytes += n;
    hold(printed.bytes <= (given.lines + 1) * (uint64_t)ANSWER, "no more than an answer may have, for each line");
    return (long)n;
}

/* the same under the C library's other name for it */
long lent_write_too(int file, const uint8_t *bytes, size_t length)
{
    return lent_write(file, bytes, length);
}

/* One run: its status, and the sum over what was printed. */
static uint64_t run(size_t read_most, size_t write_most, size_t failing_read, size_t failing_write)
{
    given.at = given.reads = given.writes = 0;
    given.read_most = read_most, given.write_most = write_most;
    given.failing_read = failing_read, given.failing_write = failing_write;
    printed.sum = 14695981039346656037u;
    printed.bytes = printed.terms = printed.answers = printed.held = 0;
    printed.refused = printed.stopped = 0;
    printed.status = -1;
    char *words[] = {(char *)"explain", (char *)"status", 0};
    hold(explain_main(2, words) == 0, "the program ends well");
    hold(printed.status >= 0, "the program tells what the run came to");
    return printed.sum;
}

int LLVMFuzzerTestOneInput(const uint8_t *data, size_t size)
{
    uint64_t mixed = size * 31 + 7;
    given.bytes = data, given.size = size, given.lines = 0;
    for (size_t k = 0; k < size; k++) {
        given.lines += data[k] == '\n';
        mixed = (mixed ^ data[k]) * 1099511628211u;
    }
    uint64_t whole = run(WHOLE, WHOLE, 0, 0);
    hold(printed.held == 0 && printed.terms == 0, "what is printed ends with a line, and has all its terms");
    hold(printed.status == 2 || (printed.status == 1) == printed.refused, "some refusal or rejection just where the status says so");
    hold(printed.status != 3 && printed.stopped <= (printed.status == 2), "a refusal that stops is told, and there is no trouble");
    hold(printed.status != 2 || printed.refused, "a stop has its refusal");
    hold(printed.status == 2 || given.at == size, "a run that is not stopped has read all");
    int status = printed.status;
    size_t reads = given.reads;
    uint64_t bytes = printed.bytes;
    /* pieces and faults are chosen by the input itself, so that a finding comes again */
    mixed ^= mixed >> 29;
    size_t piece = 1 + mixed % 97, print = 1 + mixed / 97 % 4096;
    hold(run(piece, print, 0, 0) == whole && printed.status == status && printed.bytes == bytes, "in pieces it is the same run");
    size_t writes = given.writes;
    if (mixed / 65536 % 4 == 0 && writes > 0) {
        run(piece, print, 0, 1 + mixed / 262144 % writes);
        hold(printed.status == 3 && printed.bytes < bytes, "a write that fails ends the run, and is told");
    } else if (mixed / 65536 % 4 == 1) {
        run(WHOLE, WHOLE, 1 + mixed / 262144 % reads, 0);
        hold(printed.status == 3 && printed.bytes <= bytes && printed.held == 0, "a read that fails ends the run, and is told");
    }
    return 0;
}
