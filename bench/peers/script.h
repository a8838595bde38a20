/* Reads a script from standard input and keeps the window of its records. A peer includes this, defines the four
   functions that are declared first, and calls follow_script. It knows the commands that bench/step.py writes, and looks
   for little of what the program refuses. */
#include <stdint.h>
#include <stdio.h>
#include <stdlib.h>
#include <string.h>

/* What a peer does where records come into the window, where records go, where the text at a place is another one than
   before, and at a run. The bytes stand until the call returns. */
static void comes(const char *bytes, size_t length);
static void goes(const char *bytes, size_t length);
static void changes(size_t place);
static void answers(void);

/* Records end to end, each with its LF. */
struct text {
    char *bytes;
    size_t length;
    size_t records;
};

/* How many buckets or blocks may stand, and how many records of a document a block has when it is loaded. */
enum { MOST_PLACES = 4096, BLOCK = 128 };

/* The window. Of buckets, the one with number n stands at place n modulo the number of places. A document stands in
   blocks from place 0 on; an edit makes them longer and shorter, and never more or fewer. */
static struct text window[MOST_PLACES];
static size_t places = MOST_PLACES;
static size_t oldest;
static size_t standing;
static int is_circle;

static void fail(const char *why)
{
    fprintf(stderr, "peer: %s\n", why);
    exit(1);
}

/* Memory of this size, in place of the old. */
static void *resize(void *old, size_t size)
{
    void *memory = realloc(old, size);
    if (memory == NULL && size > 0)
        fail("no memory");
    return memory;
}

/* The next line, with its LF. */
static char *line;

static ssize_t read_line(void)
{
    static size_t room;
    return getline(&line, &room, stdin);
}

static struct text read_records(size_t count)
{
    struct text text = {NULL, 0, count};
    size_t room = 0;
    for (size_t i = 0; i < count; i++) {
        ssize_t length = read_line();
        if (length < 0)
            fail("a record is missing");
        if (text.length + length > room) {
            room = 2 * (text.length + length);
            text.bytes = resize(text.bytes, room);
        }
        memcpy(text.bytes + text.length, line, length);
        text.length += length;
    }
    if (text.length > 0)
        text.bytes = resize(text.bytes, text.length);
    return text;
}

static void put(size_t place, struct text text)
{
    window[place] = text;
    comes(text.bytes, text.length);
    changes(place);
}

static void drop(size_t count)
{
    if (count > standing)
        fail("fewer buckets stand");
    for (; count > 0; count--) {
        size_t place = oldest++ % places;
        goes(window[place].bytes, window[place].length);
        free(window[place].bytes);
        window[place] = (struct text){NULL, 0, 0};
        standing--;
        changes(place);
    }
}

static void bucket(size_t count)
{
    struct text text = read_records(count);
    if (standing == places) {
        if (!is_circle)
            fail("too many buckets");
        drop(1);
    }
    put((oldest + standing++) % places, text);
}

static void load(size_t count)
{
    drop(standing);
    oldest = 0;
    while (count > 0) {
        size_t next = count < BLOCK ? count : BLOCK;
        if (standing == places)
            fail("too large a document");
        put(standing++, read_records(next));
        count -= next;
    }
}

/* Where a record of a text begins; behind the last one, its end. */
static size_t start_of(const struct text *text, size_t record)
{
    size_t at = 0;
    for (; record > 0; record--)
        at = (char *)memchr(text->bytes + at, '\n', text->length - at) - text->bytes + 1;
    return at;
}

/* In place of so many records of a block stand fresh ones. */
static void splice(size_t place, size_t record, size_t gone, const struct text *fresh)
{
    struct text *block = &window[place];
    size_t from = start_of(block, record), to = start_of(block, record + gone);
    struct text after;
    after.length = block->length - (to - from) + fresh->length;
    after.records = block->records - gone + fresh->records;
    after.bytes = resize(NULL, after.length + 1);
    if (from > 0)
        memcpy(after.bytes, block->bytes, from);
    if (fresh->length > 0)
        memcpy(after.bytes + from, fresh->bytes, fresh->length);
    if (block->length > to)
        memcpy(after.bytes + from + fresh->length, block->bytes + to, block->length - to);
    goes(block->bytes + from, to - from);
    comes(fresh->bytes, fresh->length);
    free(block->bytes);
    *block = after;
    changes(place);
}

static void edit(size_t record, size_t gone, size_t count)
{
    struct text fresh = read_records(count), none = {NULL, 0, 0};
    const struct text *piece = &fresh;
    size_t place = 0;
    if (standing == 0)
        standing = 1;
    while (place + 1 < standing && record >= window[place].records)
        record -= window[place++].records;
    do {
        size_t most = window[place].records - record;
        size_t here = gone < most ? gone : most;
        splice(place++, record, here, piece);
        gone -= here;
        record = 0;
        piece = &none;
    } while (gone > 0 && place < standing);
    free(fresh.bytes);
}

/* The words of an answer, which stand in their order. */
static void write_head(size_t keys)
{
    static size_t runs;
    printf("# run %zu keys %zu\n", ++runs, keys);
}

static void write_count(const char *word, uint64_t count)
{
    char behind[24];
    size_t at = sizeof behind;
    behind[--at] = '\n';
    do {
        behind[--at] = '0' + count % 10;
        count /= 10;
    } while (count > 0);
    behind[--at] = '\t';
    fputs(word, stdout);
    fwrite(behind + at, 1, sizeof behind - at, stdout);
}

/* The word behind an option of the command line, or none. */
static const char *value_of(int argc, char **argv, const char *option)
{
    for (int i = 1; i + 1 < argc; i++)
        if (strcmp(argv[i], option) == 0)
            return argv[i + 1];
    return NULL;
}

/* Follows the script to its end. Of the program's options it reads the tree and its buckets. */
static int follow_script(int argc, char **argv)
{
    const char *tree = value_of(argc, argv, "--tree"), *buckets = value_of(argc, argv, "--buckets");
    size_t a, b, c;
    is_circle = tree != NULL && strcmp(tree, "rotating") == 0;
    if (is_circle)
        places = buckets != NULL ? strtoul(buckets, NULL, 10) : 24;
    if (places < 1 || places > MOST_PLACES)
        fail("no such circle");
    while (read_line() >= 0) {
        if (strcmp(line, "run\n") == 0) {
            answers();
            fflush(stdout);
        } else if (sscanf(line, "bucket %zu", &a) == 1)
            bucket(a);
        else if (sscanf(line, "drop %zu", &a) == 1)
            drop(a);
        else if (sscanf(line, "load %zu", &a) == 1)
            load(a);
        else if (sscanf(line, "edit %zu %zu %zu", &a, &b, &c) == 3)
            edit(a, b, c);
        else
            fail("a command that peers lack");
    }
    return 0;
}
