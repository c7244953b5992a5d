/*
 * Calls at the boundaries of docs/FORMAT.md, made as C programs make them. Each line of standard
 * input is a case; boundaries.in and orders.in say how one is written. The name of each, and what
 * its call answers and leaves, are written to standard output, to be held to boundaries.out or
 * orders.out. A case that cannot be read ends the program with status 1.
 * Every buffer is allocated at its exact size, so that a memory checker finds any access outside.
 */
#include "trace_library.h"

#include <inttypes.h>
#include <stdio.h>
#include <stdlib.h>
#include <string.h>

#define LONGEST 65536
#define MOST (TRACE_MAX_FRAMES + 1)
#define LETTERS "wslo@nx"

struct bytes {
    uint8_t *at;
    size_t count;
};

struct words {
    uint32_t *at;
    size_t count;
};

struct sets {
    uint64_t *at;
    size_t count;
};

/* What a case gives its call. An option that it does not give is -1. */
struct given {
    long options[sizeof LETTERS - 1];
    struct bytes text;
    struct words words[2];
};

static unsigned long line_number;

static void fail(const char *what)
{
    fprintf(stderr, "bad case at line %lu: %s\n", line_number, what);
    exit(1);
}

static void *allocate(size_t size)
{
    void *memory = malloc(size);
    if (memory == NULL)
        fail("no memory");
    return memory;
}

static struct words nines(size_t count)
{
    struct words words = {allocate(count * sizeof *words.at), count};
    for (size_t place = 0; place < count; place++)
        words.at[place] = 9;
    return words;
}

static struct sets nine_sets(size_t count)
{
    struct sets sets = {allocate(count * sizeof *sets.at), count};
    for (size_t place = 0; place < count; place++)
        sets.at[place] = 9;
    return sets;
}

static struct bytes dashes(size_t count)
{
    struct bytes bytes = {allocate(count), count};
    memset(bytes.at, '-', count);
    return bytes;
}

static size_t option(const struct given *given, char letter, size_t usual)
{
    long number = given->options[strchr(LETTERS, letter) - LETTERS];
    return number < 0 ? usual : (size_t)number;
}

/* The byte that a character stands for, at a time of what is repeated. */
static uint8_t byte_of(char c, size_t time)
{
    static const char digits[] = "0123456789ABCDEF";
    switch (c) {
    case ',': return '\n';
    case ';': return '\r';
    case 'X': return digits[time / 256 % 16];
    case 'Y': return digits[time / 16 % 16];
    case 'Z': return digits[time % 16];
    default: return c;
    }
}

/* A text of its exact size: what stands in brackets is repeated. */
static struct bytes expand(const struct given *given, const char *from, const char *end)
{
    static uint8_t room[LONGEST];
    const char *open = NULL;
    size_t times = option(given, 'x', 1), time = 0, n = 0;
    for (const char *c = from; c < end; c++) {
        if (*c == '[') {
            if (open != NULL)
                fail("a bracket in brackets");
            open = c;
            time = 0;
        } else if (*c == ']') {
            if (open == NULL)
                fail("a bracket that is not open");
            if (++time < times)
                c = open;
            else
                open = NULL;
        } else {
            if (n == LONGEST)
                fail("too long");
            room[n++] = byte_of(*c, time);
        }
    }
    if (open != NULL)
        fail("an open bracket");
    struct bytes text = {allocate(n), n};
    memcpy(text.at, room, n);
    return text;
}

/* The words of a text, as many as the case lends: those behind the text's are 9. */
static struct words load(const struct given *given, const char *from, const char *end)
{
    struct bytes text = expand(given, from, end);
    struct words read = nines(TRACE_MAX_FRAMES);
    uint64_t lines = trace_read(text.at, text.count, read.at, read.count);
    free(text.at);
    if (TRACE_REPLY_IS_REFUSAL(lines))
        fail("a text that is not read");
    struct words words = nines(option(given, 'w', lines));
    for (size_t place = 0; place < words.count && place < lines; place++)
        words.at[place] = read.at[place];
    free(read.at);
    return words;
}

static const char *bar(const char *from, const char *end)
{
    const char *at = memchr(from, '|', end - from);
    if (at == NULL)
        fail("no bar");
    return at;
}

/* What a call answers and leaves; a buffer that is shown is given back. */
static void show_number(uint64_t number)
{
    printf("%016" PRIx64 "\n", number);
}

/* The place that is shown first of so many, and the one behind the last. */
static void shown(const struct given *given, size_t count, size_t *from, size_t *end)
{
    *from = option(given, '@', 0);
    *end = *from + option(given, 'n', 0);
    if (*end > count)
        fail("no such place");
}

static void show_words(const struct given *given, struct words words)
{
    size_t place, end;
    for (shown(given, words.count, &place, &end); place < end; place++)
        show_number(words.at[place]);
    free(words.at);
}

static void show_sets(const struct given *given, struct sets sets)
{
    size_t place, end;
    for (shown(given, sets.count, &place, &end); place < end; place++)
        show_number(sets.at[place]);
    free(sets.at);
}

/* Each number, and how many of it follow one another. */
static void show_moves(const struct given *given, struct words out)
{
    const int32_t *moves = (const int32_t *)out.at;
    size_t place, end, first;
    shown(given, out.count, &place, &end);
    for (first = place; place < end; place++)
        if (place + 1 == end || moves[place + 1] != moves[place]) {
            printf("%" PRId32 " x%zu\n", moves[place], place + 1 - first);
            first = place + 1;
        }
    free(out.at);
}

static void show_verdict(uint8_t kind, struct bytes line)
{
    show_number(kind);
    fwrite(line.at, 1, line.count, stdout);
    putchar('\n');
    free(line.at);
}

static struct bytes line_of(const struct given *given)
{
    return dashes(option(given, 'l', TRACE_LINE_LENGTH));
}

static struct words out_of(const struct given *given)
{
    return nines(option(given, 'o', MOST));
}

static void check(const struct given *given)
{
    struct bytes text = given->text, line = line_of(given);
    show_verdict(trace_check(text.at, text.count, line.at, line.count), line);
}

static void read_text(const struct given *given)
{
    struct words words = nines(option(given, 'w', TRACE_MAX_FRAMES));
    show_number(trace_read(given->text.at, given->text.count, words.at, words.count));
    show_words(given, words);
}

static void read_guards(const struct given *given)
{
    show_number(trace_guards(given->text.at, given->text.count));
}

static void declared(const struct given *given)
{
    struct bytes list = given->text, line = line_of(given);
    struct words words = given->words[0];
    show_verdict(
        trace_declared(list.at, list.count, words.at, words.count, line.at, line.count), line);
}

static void inferred(const struct given *given)
{
    struct bytes line = line_of(given);
    struct words words = given->words[0];
    struct sets sets = nine_sets(option(given, 's', TRACE_VARIABLES));
    show_verdict(
        trace_inferred(words.at, words.count, sets.at, sets.count, line.at, line.count), line);
    show_sets(given, sets);
}

static void serial_declared(const struct given *given)
{
    struct bytes list = given->text;
    struct words words = given->words[0], out = out_of(given);
    show_number(
        trace_serial_declared(list.at, list.count, words.at, words.count, out.at, out.count));
    show_words(given, out);
}

static void serial_inferred(const struct given *given)
{
    struct words words = given->words[0], out = out_of(given);
    show_number(trace_serial_inferred(words.at, words.count, out.at, out.count));
    show_words(given, out);
}

static void moves_declared(const struct given *given)
{
    struct bytes list = given->text;
    struct words words = given->words[0], out = out_of(given);
    int32_t *moves = (int32_t *)out.at;
    show_number(
        trace_moves_declared(list.at, list.count, words.at, words.count, moves, out.count));
    show_moves(given, out);
}

static void moves_inferred(const struct given *given)
{
    struct words words = given->words[0], out = out_of(given);
    show_number(trace_moves_inferred(words.at, words.count, (int32_t *)out.at, out.count));
    show_moves(given, out);
}

static void equal(const struct given *given)
{
    struct words left = given->words[0], right = given->words[1];
    show_number(trace_equal(left.at, left.count, right.at, right.count));
}

/*
 * The calls by their letters: what bars part in a case, a text or list (t) or words (w), and the
 * options that it may give.
 */
static const struct call {
    char letter;
    const char *parts, *options;
    void (*run)(const struct given *given);
} calls[] = {
    {'c', "t", "lx", check},
    {'r', "t", "w@nx", read_text},
    {'g', "t", "x", read_guards},
    {'d', "tw", "wlx", declared},
    {'i', "w", "wsl@nx", inferred},
    {'s', "w", "wo@nx", serial_inferred},
    {'t', "tw", "wo@nx", serial_declared},
    {'m', "w", "wo@nx", moves_inferred},
    {'n', "tw", "wo@nx", moves_declared},
    {'e', "ww", "wx", equal},
};

static const struct call *call_of(char letter)
{
    for (size_t place = 0; place < sizeof calls / sizeof *calls; place++)
        if (calls[place].letter == letter)
            return &calls[place];
    fail("no such call");
    return NULL;
}

static void read_options(struct given *given, const struct call *call, const char *from,
                         const char *end)
{
    for (size_t place = 0; place < sizeof LETTERS - 1; place++)
        given->options[place] = -1;
    while (from < end) {
        char letter = *from++;
        if (letter == ' ')
            continue;
        if (strchr(call->options, letter) == NULL)
            fail("no option of this call");
        long *number = &given->options[strchr(LETTERS, letter) - LETTERS];
        if (*number >= 0)
            fail("an option twice");
        if (*from < '0' || *from > '9')
            fail("an option without a number");
        char *behind;
        *number = strtol(from, &behind, 10);
        if (*number > MOST)
            fail("a number that is too large");
        from = behind;
    }
}

static void run(const struct call *call, struct given *given, const char *from, const char *end)
{
    size_t loaded = 0;
    given->text.at = NULL;
    given->words[0].at = given->words[1].at = NULL;
    for (const char *part = call->parts; *part != 0; part++) {
        const char *behind = part[1] == 0 ? end : bar(from, end);
        if (*part == 't')
            given->text = expand(given, from, behind);
        else
            given->words[loaded++] = load(given, from, behind);
        from = behind + 1;
    }
    call->run(given);
    free(given->text.at);
    free(given->words[0].at);
    free(given->words[1].at);
}

int main(void)
{
    static char line[4096];
    while (fgets(line, sizeof line, stdin) != NULL) {
        line_number++;
        const char *end = strchr(line, '\n');
        if (end == NULL)
            fail("a line without an end");
        if (line[0] == '#' || line[0] == '\n')
            continue;
        const char *head = bar(line, end);
        const char *blank = memchr(line, ' ', head - line);
        if (blank == NULL || blank == line)
            fail("no name");
        const struct call *call = call_of(blank[1]);
        struct given given;
        read_options(&given, call, blank + 2, head);
        printf("%.*s\n", (int)(blank - line), line);
        run(call, &given, head + 1, end);
    }
    return 0;
}
