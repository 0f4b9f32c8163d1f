/* Times the library's calls and the same calls in plain C, by turns in one run. Five of them are timed on each training file named;
 * writing makes the file anew, from the parameters and the items that reading gave. Importing is timed on two texts, pooling on four pairs
 * of files. Prints how many times the plain one's time the library takes, for each file, for all files of a kernel, for all, for each text
 * and for each pair. Ends with status 1 where an answer differs. Refused files are passed over. */

#include "lookahead.h"
#include <stdio.h>
#include <string.h>
#include <time.h>

enum { PLACES = LOOKAHEAD_MOST_FILE + 1, ROUNDS = 9, KERNELS = 3 };

/* The calls on a file, importing, which takes none, and pooling, which takes two. */
enum { READ, TRAIN, CERTIFY, CLASSIFY, WRITE, CALLS, IMPORT = CALLS, POOL };

static const double LEAST_SECONDS = 0.01;
static const char *const NAMES[CALLS] = {"read", "train", "certify", "classify", "write"};
static const char *const KERNEL_NAMES[KERNELS] = {
    [LOOKAHEAD_LINEAR] = "linear", [LOOKAHEAD_SQUARE] = "square", [LOOKAHEAD_OVERLAP] = "overlap"};

typedef struct {
    __typeof__(lookahead_read) *read;
    __typeof__(lookahead_train) *train;
    __typeof__(lookahead_certify) *certify;
    __typeof__(lookahead_classify) *classify;
    __typeof__(lookahead_write) *write;
    __typeof__(lookahead_import) *import;
    __typeof__(lookahead_pool) *pool;
} Calls;

/* Plain C: tests/compare/stub/stub.c under other names. */
extern __typeof__(lookahead_read) plain_read;
extern __typeof__(lookahead_train) plain_train;
extern __typeof__(lookahead_certify) plain_certify;
extern __typeof__(lookahead_classify) plain_classify;
extern __typeof__(lookahead_write) plain_write;
extern __typeof__(lookahead_import) plain_import;
extern __typeof__(lookahead_pool) plain_pool;

static const Calls LIBRARY = {lookahead_read,  lookahead_train,  lookahead_certify, lookahead_classify,
                              lookahead_write, lookahead_import, lookahead_pool};
static const Calls PLAIN = {plain_read, plain_train, plain_certify, plain_classify, plain_write, plain_import, plain_pool};

static uint8_t file[PLACES];
static size_t length;

/* The file's items in memory, as they are handed over to be written. */
static lookahead_item items[LOOKAHEAD_MOST_ITEMS];

/* A text to import, of up to 10 MB, and the parameters that it is imported with. */
static uint8_t text[10000000];
static size_t text_length;
static const lookahead_parameters IMPORTED = {LOOKAHEAD_FEATURES, LOOKAHEAD_LINEAR, 1000, 500, 0, 10, 100};

/* Two files to pool, and the parameters of both. */
static const lookahead_parameters POOLED = {LOOKAHEAD_FEATURES, LOOKAHEAD_LINEAR, 1000, 500, 0, 10, 100};
typedef struct {
    uint8_t bytes[LOOKAHEAD_MOST_FILE];
    size_t length;
} File;

static File older, newer;

/* Number and record apart, and the parameters one by one: what a struct holds between its fields may be anything, and answers are
 * compared byte by byte. */
typedef struct {
    size_t items, used, written;
    uint64_t tolerance;
    uint32_t grid, ceiling, second_ceiling, budget;
    uint8_t output[LOOKAHEAD_MOST_FILE];
    uint16_t order[LOOKAHEAD_MOST_ITEMS];
    uint32_t multipliers[LOOKAHEAD_MOST_ITEMS];
    int64_t gradient[LOOKAHEAD_MOST_ITEMS];
    uint8_t refusal, kernel, ending, class;
    uint16_t record;
    uint32_t steps;
    int64_t lower, upper;
} Answer;

static const int8_t *word(void) { return (const int8_t *)file + 36; }

static void keep(Answer *x, lookahead_answer answer) {
    x->refusal = answer.number;
    x->record = answer.record;
}

static void keep_reading(Answer *x, lookahead_reading read) {
    keep(x, read.answer);
    x->items = read.items;
    x->used = read.parameters.used;
    x->kernel = read.parameters.kernel;
    x->grid = read.parameters.grid;
    x->ceiling = read.parameters.ceiling;
    x->second_ceiling = read.parameters.second_ceiling;
    x->tolerance = read.parameters.tolerance;
    x->budget = read.parameters.budget;
}

static lookahead_parameters parameters(const Answer *x) {
    return (lookahead_parameters){x->used, x->kernel, x->grid, x->ceiling, x->second_ceiling, x->tolerance, x->budget};
}

static void make(const Calls *by, int call, Answer *x) {
    if (call == READ)
        keep_reading(x, by->read(file, length, x->order, LOOKAHEAD_MOST_ITEMS));
    else if (call == TRAIN)
        keep(x, by->train(file, length, x->multipliers, LOOKAHEAD_MOST_ITEMS, x->gradient, LOOKAHEAD_MOST_ITEMS, &x->ending,
                          &x->steps, &x->lower, &x->upper));
    else if (call == CERTIFY)
        keep(x, by->certify(file, length, x->multipliers, x->items, &x->lower, &x->upper));
    else if (call == CLASSIFY)
        keep(x, by->classify(file, length, x->multipliers, x->items, word(), x->used, &x->class));
    else if (call == WRITE)
        keep(x, by->write(parameters(x), items, x->items, x->output, sizeof x->output, &x->written));
    else if (call == IMPORT)
        keep(x, by->import(IMPORTED, text, text_length, x->output, sizeof x->output, &x->written));
    else
        keep(x, by->pool(older.bytes, older.length, newer.bytes, newer.length, x->output, sizeof x->output, &x->written));
}

static double seconds(const Calls *by, int call, Answer *x, long times) {
    struct timespec start, end;
    clock_gettime(CLOCK_MONOTONIC, &start);
    for (long k = 0; k < times; k++) make(by, call, x);
    clock_gettime(CLOCK_MONOTONIC, &end);
    return (double)(end.tv_sec - start.tv_sec) + 1e-9 * (double)(end.tv_nsec - start.tv_nsec);
}

/* The least time of a call over the rounds, of the library and of plain C. */
static void measure(int call, Answer *x, double *library, double *plain) {
    long times = 1;
    while (seconds(&PLAIN, call, x, times) < LEAST_SECONDS) times *= 2;
    *library = *plain = 1e9;
    for (int round = 0; round < ROUNDS; round++) {
        double l = seconds(&LIBRARY, call, x, times) / (double)times;
        double p = seconds(&PLAIN, call, x, times) / (double)times;
        if (l < *library) *library = l;
        if (p < *plain) *plain = p;
    }
}

static int load(const char *name) {
    FILE *stream = fopen(name, "rb");
    if (stream == NULL) return 0;
    length = fread(file, 1, PLACES, stream);
    fclose(stream);
    return 1;
}

/* Takes the items out of the file, in the order that reading gave. */
static void take_items(const Answer *x) {
    for (size_t i = 0; i < x->items; i++) {
        const uint8_t *record = file + 32 + 20 * (x->order[i] - 1);
        memcpy(items[i].features, record + 4, LOOKAHEAD_FEATURES);
        items[i].label = (int8_t)record[2];
    }
}

static int same_answers(Answer *x, Answer *z) {
    memset(x, 0, sizeof *x);
    memset(z, 0, sizeof *z);
    for (int call = 0; call < CALLS; call++) {
        make(&LIBRARY, call, x);
        make(&PLAIN, call, z);
        if (x->refusal != 0 || z->refusal != 0) return x->refusal == z->refusal && x->record == z->record;
        if (call == READ) take_items(x);
    }
    return memcmp(x, z, sizeof *x) == 0;
}

/* The time of each call, of the library and of plain C, over the files added. */
typedef struct {
    double library[CALLS], plain[CALLS];
} Times;

static void add(Times *sum, const Times *times) {
    for (int call = 0; call < CALLS; call++) {
        sum->library[call] += times->library[call];
        sum->plain[call] += times->plain[call];
    }
}

static void print_ratios(const Times *times) {
    for (int call = 0; call < CALLS; call++) printf(" %s %.2f", NAMES[call], times->library[call] / times->plain[call]);
    printf("\n");
}

/* A value, drawn so that no processor learns which comes next. */
static int drawn(void) {
    static uint64_t state;
    state = 6364136223846793005 * state + 1442695040888963407;
    return (int)((state >> 33) % 255) - 127;
}

/* Adds a line with a value for every feature. */
static void add_line(size_t number) {
    text_length += (size_t)sprintf((char *)text + text_length, number % 2 ? "-1" : "+1");
    for (size_t k = 0; k < LOOKAHEAD_FEATURES; k++) text_length += (size_t)sprintf((char *)text + text_length, " %zu:%d", k + 1, drawn());
    text[text_length++] = '\n';
}

/* Times importing the text, which both have to answer with this number. */
static int time_import(const char *name, uint8_t number) {
    static Answer x, z;
    double library, plain;
    make(&LIBRARY, IMPORT, &x);
    make(&PLAIN, IMPORT, &z);
    if (x.refusal != number || memcmp(&x, &z, sizeof x) != 0) {
        fprintf(stderr, "%s: the answers differ\n", name);
        return 0;
    }
    measure(IMPORT, &x, &library, &plain);
    printf("%s, %zu bytes: import %.2f, plain %.1f MB/s\n", name, text_length, library / plain, 1e-6 * (double)text_length / plain);
    return 1;
}

/* A text as long as can be imported, and one of 10 MB of which the last byte is the first that is wrong: a newline for a value. */
static int time_imports(void) {
    static const char WRONG_END[] = "+1 1:\n";
    for (size_t i = 0; i < LOOKAHEAD_MOST_ITEMS; i++) add_line(i);
    if (!time_import("256 lines of 16 values", 0)) return 0;
    for (size_t i = LOOKAHEAD_MOST_ITEMS; text_length + 200 < sizeof text; i++) add_line(i);
    memcpy(text + text_length, WRONG_END, sizeof WRONG_END - 1);
    text_length += sizeof WRONG_END - 1;
    return time_import("a text refused for its last byte", LOOKAHEAD_REFUSED_TEXT);
}

/* An item of a word by its number, apart from all others in its last two features alone, as late as a comparison can find it. */
static lookahead_item late(size_t word) {
    lookahead_item item = {.label = LOOKAHEAD_LOOKED_UP};
    memset(item.features, 1, LOOKAHEAD_FEATURES);
    item.features[LOOKAHEAD_FEATURES - 2] = (int8_t)(word / 255);
    item.features[LOOKAHEAD_FEATURES - 1] = (int8_t)((int)(word % 255) - 127);
    return item;
}

/* An item of a word that is drawn, whatever its number. */
static lookahead_item any(size_t word) {
    lookahead_item item = {.label = LOOKAHEAD_LOOKED_UP};
    for (size_t k = 0; k < LOOKAHEAD_FEATURES; k++) item.features[k] = (int8_t)drawn();
    return (void)word, item;
}

/* A file of n items, by turns of both labels. Its words are so many, from the first of them on, as often as they have to be. */
static void fill(File *made, lookahead_item of(size_t), size_t n, size_t first, size_t words) {
    for (size_t i = 0; i < n; i++) {
        items[i] = of(first + i % words);
        if (i % 2 == 1) items[i].label = LOOKAHEAD_PASSED_OVER;
    }
    plain_write(POOLED, items, n, made->bytes, sizeof made->bytes, &made->length);
}

/* Times pooling both files, which both have to answer with this number. */
static int time_pool(const char *name, uint8_t number) {
    static Answer x, z;
    double library, plain;
    make(&LIBRARY, POOL, &x);
    make(&PLAIN, POOL, &z);
    if (x.refusal != number || memcmp(&x, &z, sizeof x) != 0) {
        fprintf(stderr, "%s: the answers differ\n", name);
        return 0;
    }
    measure(POOL, &x, &library, &plain);
    printf("%s: pool %.2f, plain %.1f us\n", name, library / plain, 1e6 * plain);
    return 1;
}

/* Where all items stay, each two are compared: the longest search that there is. Where 256 stay, they are 128 of the older file and 128 of
 * the newer, which has each of these twice; the older file's other 128 are the newer's, too. */
static int time_pools(void) {
    const size_t most = LOOKAHEAD_MOST_ITEMS;
    fill(&older, late, most, 0, most), fill(&newer, late, most, most, most);
    if (!time_pool("256 and 256 items, apart in the last two features alone, all left", LOOKAHEAD_REFUSED_POOL)) return 0;
    fill(&older, late, most, 0, most), fill(&newer, late, most, most / 2, most / 2);
    if (!time_pool("256 and 256 items, apart in the last two features alone, 256 left", 0)) return 0;
    fill(&older, any, most, 0, most), fill(&newer, any, most, 0, most);
    if (!time_pool("256 and 256 items of random features, all left", LOOKAHEAD_REFUSED_POOL)) return 0;
    fill(&older, any, most / 2, 0, most), fill(&newer, any, most / 2, 0, most);
    return time_pool("128 and 128 items of random features, all left", 0);
}

int main(int count, char **names) {
    static Answer x, z;
    Times of_kernel[KERNELS] = {0}, all = {0};
    for (int k = 1; k < count; k++) {
        if (!load(names[k]) || !same_answers(&x, &z)) {
            fprintf(stderr, "%s: cannot be read, or the answers differ\n", names[k]);
            return 1;
        }
        if (x.refusal != 0) continue;
        Times times;
        printf("%s, %s, %zu items of %zu features, %u steps:", names[k], KERNEL_NAMES[x.kernel], x.items, x.used, (unsigned)x.steps);
        for (int call = 0; call < CALLS; call++) measure(call, &x, &times.library[call], &times.plain[call]);
        print_ratios(&times);
        add(&of_kernel[x.kernel], &times);
        add(&all, &times);
    }
    for (int kernel = 0; kernel < KERNELS; kernel++) {
        if (of_kernel[kernel].plain[0] == 0) continue;
        printf("%s:", KERNEL_NAMES[kernel]);
        print_ratios(&of_kernel[kernel]);
    }
    printf("all:");
    print_ratios(&all);
    return time_imports() && time_pools() ? 0 : 1;
}
