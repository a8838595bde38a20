/* Counts the words of the whole window anew at each run, in a map that is made from nothing. */
#include "script.h"
#include "table.h"

static void comes(const char *bytes, size_t length)
{
    (void)bytes;
    (void)length;
}

static void goes(const char *bytes, size_t length)
{
    (void)bytes;
    (void)length;
}

static void changes(size_t place)
{
    (void)place;
}

static int by_word(const void *a, const void *b)
{
    return strcmp(((const struct entry *)a)->word, ((const struct entry *)b)->word);
}

static void answers(void)
{
    struct table table = {0};
    for (size_t i = 0; i < standing; i++) {
        const struct text *text = &window[(oldest + i) % places];
        const char *at = text->bytes, *end = at + text->length;
        struct entry *entry;
        while ((entry = next_entry(&table, &at, end)) != NULL)
            entry->count++;
    }
    if (table.used > 0)
        qsort(table.entries, table.used, sizeof *table.entries, by_word);
    write_head(table.used);
    for (size_t i = 0; i < table.used; i++) {
        write_count(table.entries[i].word, table.entries[i].count);
        free(table.entries[i].word);
    }
    free(table.entries);
    free(table.slots);
}

int main(int argc, char **argv)
{
    return follow_script(argc, argv);
}
