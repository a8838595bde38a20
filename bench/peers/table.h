/* A map from words to counts. */
#include <ctype.h>

struct entry {
    char *word;
    uint64_t count;
    uint32_t hash;
    uint32_t length;
};

/* Entries stand in the order in which their words came. A slot has the number of an entry, counted from 1, or 0; slots are
   a power of two, and at most half of them are taken. */
struct table {
    struct entry *entries;
    size_t used;
    size_t room;
    uint32_t *slots;
    size_t size;
};

/* The slot of a word: the one that it has, or a free one. */
static uint32_t *slot_of(const struct table *table, const char *word, size_t length, uint32_t hash)
{
    size_t at = hash & (table->size - 1);
    for (; table->slots[at] != 0; at = (at + 1) & (table->size - 1)) {
        const struct entry *entry = &table->entries[table->slots[at] - 1];
        if (entry->hash == hash && entry->length == length && memcmp(entry->word, word, length) == 0)
            break;
    }
    return &table->slots[at];
}

static void widen(struct table *table)
{
    table->size = table->size > 0 ? 2 * table->size : 1024;
    free(table->slots);
    table->slots = calloc(table->size, sizeof *table->slots);
    if (table->slots == NULL)
        fail("no memory");
    for (size_t i = 0; i < table->used; i++) {
        const struct entry *entry = &table->entries[i];
        *slot_of(table, entry->word, entry->length, entry->hash) = i + 1;
    }
}

/* The entry of a word, a new one with no count where the word is new. It stands there until the next call. */
static struct entry *entry_of(struct table *table, const char *word, size_t length, uint32_t hash)
{
    if (2 * (table->used + 1) > table->size)
        widen(table);
    uint32_t *slot = slot_of(table, word, length, hash);
    if (*slot == 0) {
        if (table->used == table->room) {
            table->room = table->room > 0 ? 2 * table->room : 512;
            table->entries = resize(table->entries, table->room * sizeof *table->entries);
        }
        char *copy = resize(NULL, length + 1);
        memcpy(copy, word, length);
        copy[length] = 0;
        table->entries[table->used] = (struct entry){copy, 0, hash, length};
        *slot = ++table->used;
    }
    return &table->entries[*slot - 1];
}

/* The entry of the next word of a text, or none at its end. */
static struct entry *next_entry(struct table *table, const char **at, const char *end)
{
    const char *next = *at;
    uint32_t hash = 2166136261u;
    while (next < end && !isalnum((unsigned char)*next))
        next++;
    const char *word = next;
    for (; next < end && isalnum((unsigned char)*next); next++)
        hash = (hash ^ (unsigned char)*next) * 16777619u;
    *at = next;
    return next > word ? entry_of(table, word, next - word, hash) : NULL;
}
