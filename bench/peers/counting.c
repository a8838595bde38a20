/* Keeps one count for each word: it adds the words of the records that come, and subtracts those of the records that go.
   This is what one writes by hand for counts alone, which can be subtracted. Words are sorted anew where there is a new
   one. */
#include "script.h"
#include "table.h"

static struct table counts;

/* How many words have a count. */
static size_t live;

/* The entries in the order of their words. */
static size_t *order;
static size_t ordered;

static void comes(const char *bytes, size_t length)
{
    const char *at = bytes, *end = bytes + length;
    struct entry *entry;
    while ((entry = next_entry(&counts, &at, end)) != NULL)
        live += entry->count++ == 0;
}

static void goes(const char *bytes, size_t length)
{
    const char *at = bytes, *end = bytes + length;
    struct entry *entry;
    while ((entry = next_entry(&counts, &at, end)) != NULL)
        live -= --entry->count == 0;
}

static void changes(size_t place)
{
    (void)place;
}

static int by_word(const void *a, const void *b)
{
    return strcmp(counts.entries[*(const size_t *)a].word, counts.entries[*(const size_t *)b].word);
}

static void answers(void)
{
    if (ordered < counts.used) {
        order = resize(order, counts.used * sizeof *order);
        for (; ordered < counts.used; ordered++)
            order[ordered] = ordered;
        qsort(order, ordered, sizeof *order, by_word);
    }
    write_head(live);
    for (size_t i = 0; i < ordered; i++)
        if (counts.entries[order[i]].count > 0)
            write_count(counts.entries[order[i]].word, counts.entries[order[i]].count);
}

int main(int argc, char **argv)
{
    return follow_script(argc, argv);
}
