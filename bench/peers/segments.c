/* Keeps a segment tree over the places of the window. Each node has the counts of its places in a vector that is sorted
   by word; the nodes above the places that changed are merged anew at a run, each once. With --sha each new vector is also
   hashed, as the program hashes its tables. */
#include "script.h"
#include "sha256.h"
#include "table.h"

struct pair {
    const char *word;
    uint64_t count;
};

/* A node with one empty child has that child's vector, which is not its own. */
struct node {
    struct pair *pairs;
    size_t used;
    int is_own;
    unsigned char digest[32];
};

/* Level 0 has the places, padded to a power of two, and the last level the root. */
static struct node *levels[14];
static size_t height;
static char is_stale[MOST_PLACES];
static int hashes;

/* Each word once for all nodes. Its counts are used while a place is counted, and are 0 else. */
static struct table words;

static void comes(const char *bytes, size_t length)
{
    (void)bytes;
    (void)length;
}

static void goes(const char *bytes, size_t length)
{
    (void)bytes;
    (void)length;
}

static void changes(size_t place)
{
    is_stale[place] = 1;
}

static void make_levels(void)
{
    size_t size = 1;
    while (size < places)
        size *= 2;
    for (height = 0; size > 0; size /= 2, height++) {
        levels[height] = calloc(size, sizeof **levels);
        if (levels[height] == NULL)
            fail("no memory");
    }
}

static void empty(struct node *node)
{
    if (node->is_own)
        free(node->pairs);
    *node = (struct node){0};
}

/* The digest of the table: for each word its length, the word, the length of its count, and the count. */
static void hash(struct node *node)
{
    struct sha256 sha;
    sha256_begin(&sha);
    for (size_t i = 0; i < node->used; i++) {
        size_t length = strlen(node->pairs[i].word);
        sha256_add_number(&sha, length);
        sha256_add(&sha, node->pairs[i].word, length);
        sha256_add_number(&sha, 8);
        sha256_add_number(&sha, node->pairs[i].count);
    }
    sha256_end(&sha, node->digest);
}

/* The node owns this vector, which is cut to its size. */
static void own(struct node *node, struct pair *pairs, size_t used)
{
    node->pairs = resize(pairs, (used + 1) * sizeof *pairs);
    node->used = used;
    node->is_own = 1;
    if (hashes)
        hash(node);
}

static int by_word(const void *a, const void *b)
{
    return strcmp(((const struct pair *)a)->word, ((const struct pair *)b)->word);
}

/* Counts the words of a place. */
static void count_place(size_t place)
{
    const struct text *text = &window[place];
    const char *at = text->bytes, *end = at + text->length;
    struct pair *pairs = NULL;
    size_t used = 0, room = 0;
    struct entry *entry;
    empty(&levels[0][place]);
    while ((entry = next_entry(&words, &at, end)) != NULL) {
        if (entry->count++ > 0)
            continue;
        if (used == room) {
            room = room > 0 ? 2 * room : 512;
            pairs = resize(pairs, room * sizeof *pairs);
        }
        pairs[used++] = (struct pair){entry->word, entry - words.entries};
    }
    for (size_t i = 0; i < used; i++) {
        entry = &words.entries[pairs[i].count];
        pairs[i].count = entry->count;
        entry->count = 0;
    }
    if (used > 0)
        qsort(pairs, used, sizeof *pairs, by_word);
    if (text->records > 0)
        own(&levels[0][place], pairs, used);
}

/* Merges the children of a node. */
static void merge(struct node *node, const struct node *left, const struct node *right)
{
    empty(node);
    if (left->pairs == NULL || right->pairs == NULL) {
        *node = left->pairs != NULL ? *left : *right;
        node->is_own = 0;
        return;
    }
    struct pair *pairs = resize(NULL, (left->used + right->used + 1) * sizeof *pairs);
    size_t i = 0, j = 0, used = 0;
    while (i < left->used && j < right->used) {
        const struct pair *a = &left->pairs[i], *b = &right->pairs[j];
        int order = a->word == b->word ? 0 : strcmp(a->word, b->word);
        pairs[used] = order <= 0 ? *a : *b;
        if (order == 0)
            pairs[used].count += b->count;
        i += order <= 0;
        j += order >= 0;
        used++;
    }
    while (i < left->used)
        pairs[used++] = left->pairs[i++];
    while (j < right->used)
        pairs[used++] = right->pairs[j++];
    own(node, pairs, used);
}

static void answers(void)
{
    static size_t changed[MOST_PLACES];
    size_t count = 0;
    if (height == 0)
        make_levels();
    for (size_t place = 0; place < places; place++) {
        if (is_stale[place]) {
            is_stale[place] = 0;
            count_place(place);
            changed[count++] = place;
        }
    }
    for (size_t level = 1; level < height; level++) {
        size_t above = 0;
        for (size_t i = 0; i < count; i++) {
            size_t at = changed[i] / 2;
            if (above > 0 && changed[above - 1] == at)
                continue;
            merge(&levels[level][at], &levels[level - 1][2 * at], &levels[level - 1][2 * at + 1]);
            changed[above++] = at;
        }
        count = above;
    }
    const struct node *root = &levels[height - 1][0];
    write_head(root->used);
    for (size_t i = 0; i < root->used; i++)
        write_count(root->pairs[i].word, root->pairs[i].count);
}

int main(int argc, char **argv)
{
    for (int i = 1; i < argc; i++)
        hashes |= strcmp(argv[i], "--sha") == 0;
    return follow_script(argc, argv);
}
