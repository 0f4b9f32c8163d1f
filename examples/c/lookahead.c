/* Reads a small file, trains on it, certifies the result and multipliers of 0,
 * with how far each can be from the best, and classifies words: a plain one, one
 * exactly on the line, those with the highest and the lowest feature, and one
 * with a feature that none may have. Then it reads the file with a damaged
 * chain, and says which record to open. Then it writes files: the same items out
 * of memory, the small file with another budget, and one for which there is no
 * room. At the end it imports a text in LIBSVM's line form, and one that is
 * refused. */
#include <inttypes.h>
#include <stdbool.h>
#include <stdio.h>
#include <string.h>

#include "../../include/lookahead.h"

enum { RECORDS = 3, HEADER = 32, RECORD = 20, FILE_LENGTH = HEADER + RECORDS * RECORD };

/* Where a record has its label and its features. */
enum { LABEL = 2, FEATURES = 4 };

/* A file, what reading answers of it, its items' records and their multipliers. */
typedef struct {
    const uint8_t *file;
    size_t length;
    lookahead_reading reading;
    uint16_t order[LOOKAHEAD_MOST_ITEMS];
    uint32_t multipliers[LOOKAHEAD_MOST_ITEMS];
} Model;

/* Where a record begins; records are numbered from 1. */
static size_t start(uint16_t record) {
    return HEADER + (record - 1u) * RECORD;
}

/* A field of so many bytes, low byte first. */
static void put(uint8_t *at, uint64_t value, int bytes) {
    for (int i = 0; i < bytes; i++) {
        at[i] = (uint8_t)(value >> (8 * i));
    }
}

/* A record with one feature. */
static void put_record(uint8_t *at, uint16_t next, uint8_t label, int8_t feature) {
    put(at, next, 2);
    at[LABEL] = label;
    at[FEATURES] = (uint8_t)feature;
}

/* Two items of one feature: 1 was looked up, -1 was passed over. They stand in
 * records 3 and 1; record 2 is spare. Bytes that are not set here are 0: the
 * linear kernel, a tolerance of 0, the second ceiling, that of items passed
 * over, which says the same as the first, and spare bytes. */
static void put_file(uint8_t file[FILE_LENGTH]) {
    put(file + 0, RECORDS, 2);
    put(file + 2, 3, 2);    /* the first record of the chain */
    put(file + 4, 1, 1);    /* features in use */
    put(file + 8, 10, 4);   /* grid units per 1 */
    put(file + 12, 100, 4); /* ceiling of items looked up */
    put(file + 24, 50, 4);  /* step budget */
    put_record(file + start(1), 0, LOOKAHEAD_PASSED_OVER, -1);
    put_record(file + start(3), 1, LOOKAHEAD_LOOKED_UP, 1);
}

static const char *kernel_name(uint8_t kernel) {
    switch (kernel) {
    case LOOKAHEAD_LINEAR:
        return "linear";
    case LOOKAHEAD_SQUARE:
        return "square";
    default:
        return "overlap";
    }
}

static const char *ending_name(uint8_t ending) {
    switch (ending) {
    case LOOKAHEAD_CONVERGED:
        return "converged";
    case LOOKAHEAD_STUCK:
        return "stuck";
    default:
        return "spent";
    }
}

static const char *class_name(uint8_t class_answer) {
    switch (class_answer) {
    case LOOKAHEAD_LOOKED_UP:
        return "looked up";
    case LOOKAHEAD_PASSED_OVER:
        return "passed over";
    default:
        return "undecided";
    }
}

/* Whether a call refused. If so, ends the line with the refusal, and with the
 * record to open where it has one. */
static bool refused(lookahead_answer answer) {
    if (answer.number == 0) {
        return false;
    }
    printf("refused with %d", answer.number);
    if (answer.record != 0) {
        printf(", open record %d", answer.record);
    }
    printf("\n");
    return true;
}

/* Ends the line with what was read. Whether reading refused nothing, so that
 * there are items to train on. */
static bool read_file(Model *model, const uint8_t *file, size_t length) {
    model->file = file;
    model->length = length;
    model->reading = lookahead_read(file, length, model->order, LOOKAHEAD_MOST_ITEMS);
    if (refused(model->reading.answer)) {
        return false;
    }
    lookahead_parameters parameters = model->reading.parameters;
    printf("items %zu, features %zu, kernel %s\n", model->reading.items, parameters.used,
           kernel_name(parameters.kernel));
    return true;
}

/* The item at a place of the order: bytes 4 to 19 and byte 2 of its record. */
static lookahead_item item_of(const Model *model, size_t place) {
    const uint8_t *record = model->file + start(model->order[place]);
    lookahead_item item;
    memcpy(item.features, record + FEATURES, LOOKAHEAD_FEATURES);
    item.label = (int8_t)record[LABEL];
    return item;
}

static bool was_looked_up(const Model *model, size_t place) {
    return item_of(model, place).label == LOOKAHEAD_LOOKED_UP;
}

/* The last line of the training program's listing: how many multipliers are
 * above 0, and their sums over the items looked up and over those passed over,
 * which are equal. */
static void print_total(const Model *model) {
    size_t above_zero = 0;
    uint64_t looked_up = 0, passed_over = 0;
    for (size_t i = 0; i < model->reading.items; i++) {
        uint32_t multiplier = model->multipliers[i];
        if (was_looked_up(model, i)) {
            looked_up += multiplier;
        } else {
            passed_over += multiplier;
        }
        above_zero += multiplier > 0;
    }
    printf("total %zu %" PRIu64 " %" PRIu64 "\n", above_zero, looked_up, passed_over);
}

/* Whether training refused nothing, so that there are multipliers to go on with. */
static bool train(Model *model) {
    int64_t gradient[LOOKAHEAD_MOST_ITEMS], lower, upper;
    size_t items = model->reading.items;
    uint32_t steps;
    uint8_t ending;
    lookahead_answer answer =
        lookahead_train(model->file, model->length, model->multipliers, items, gradient, items,
                        &ending, &steps, &lower, &upper);
    printf("train: ");
    if (refused(answer)) {
        return false;
    }
    printf("%s after %" PRIu32 " %s\n", ending_name(ending), steps, steps == 1 ? "step" : "steps");
    for (size_t i = 0; i < items; i++) {
        printf("record %d: multiplier %" PRIu32 "\n", model->order[i], model->multipliers[i]);
    }
    print_total(model);
    printf("thresholds: lower %" PRId64 ", upper %" PRId64 "\n", lower, upper);
    return true;
}

/* The sum of the items' ceilings: that of an item passed over is the second
 * ceiling, or the first where the second is 0. */
static uint64_t sum_of_ceilings(const Model *model) {
    lookahead_parameters parameters = model->reading.parameters;
    uint32_t looked_up = parameters.ceiling, second = parameters.second_ceiling;
    uint32_t passed_over = second == 0 ? looked_up : second;
    uint64_t sum = 0;
    for (size_t i = 0; i < model->reading.items; i++) {
        sum += was_looked_up(model, i) ? looked_up : passed_over;
    }
    return sum;
}

/* By how much the best objective can be lower: at most the gap between the
 * thresholds times the sum of the items' ceilings. That can pass 64 bits, and
 * is worked out in two parts, high times 2^32 and low, which do not. */
static void print_distance(uint64_t ceilings, int64_t lower, int64_t upper) {
    uint64_t gap = lower > upper ? (uint64_t)(lower - upper) : 0;
    uint64_t low = ceilings * (gap & UINT32_MAX);
    uint64_t high = ceilings * (gap >> 32) + (low >> 32);
    printf("distance from the best: at most ");
    if (high <= UINT32_MAX) {
        printf("%" PRIu64 "\n", high << 32 | (low & UINT32_MAX));
    } else {
        printf("%" PRIu64 " * 2^32 + %" PRIu64 "\n", high, low & UINT32_MAX);
    }
}

/* Hands over as many multipliers as there are items. */
static void certify(const Model *model, const char *call, const uint32_t *multipliers) {
    int64_t lower, upper;
    lookahead_answer answer = lookahead_certify(model->file, model->length, multipliers,
                                                model->reading.items, &lower, &upper);
    printf("%s: ", call);
    if (!refused(answer)) {
        printf("lower %" PRId64 ", upper %" PRId64 "\n", lower, upper);
        print_distance(sum_of_ceilings(model), lower, upper);
    }
}

static void classify(const Model *model, int8_t feature) {
    uint8_t class_answer;
    lookahead_answer answer =
        lookahead_classify(model->file, model->length, model->multipliers, model->reading.items,
                           &feature, 1, &class_answer);
    printf("classify %d: ", feature);
    if (!refused(answer)) {
        printf("%s\n", class_name(class_answer));
    }
}

/* Reads the file with another next number in one of its records. */
static void read_damaged(const uint8_t *file, uint16_t record, uint16_t next) {
    uint8_t damaged[FILE_LENGTH];
    Model model;
    memcpy(damaged, file, FILE_LENGTH);
    put(damaged + start(record), next, 2);
    printf("record %d leads to %d: ", record, next);
    read_file(&model, damaged, FILE_LENGTH);
}

/* Ends the line with the length of a file that was written, reads the file and
 * trains on it. */
static void train_written(const uint8_t *file, size_t length) {
    Model written;
    printf("length %zu\n", length);
    printf("read: ");
    if (read_file(&written, file, length)) {
        train(&written);
    }
}

/* Writes into so many bytes of the output, and where that is not refused, trains
 * on what was written. */
static void write_file(const char *call, lookahead_parameters parameters,
                       const lookahead_item *items, size_t items_len, size_t output_len) {
    uint8_t output[LOOKAHEAD_MOST_FILE];
    size_t length;
    lookahead_answer answer =
        lookahead_write(parameters, items, items_len, output, output_len, &length);
    printf("%s: ", call);
    if (!refused(answer)) {
        train_written(output, length);
    }
}

/* The same two items in memory, with the parameters of a file. */
static void write_items(lookahead_parameters parameters) {
    const lookahead_item items[] = {
        {.features = {1}, .label = LOOKAHEAD_LOOKED_UP},
        {.features = {-1}, .label = LOOKAHEAD_PASSED_OVER},
    };
    write_file("write", parameters, items, 2, LOOKAHEAD_MOST_FILE);
    write_file("write into 71 bytes", parameters, items, 2, 71);
}

/* The items of a file that was read, with another budget. */
static void write_with_no_budget(const Model *model) {
    lookahead_item items[LOOKAHEAD_MOST_ITEMS];
    lookahead_parameters parameters = model->reading.parameters;
    for (size_t i = 0; i < model->reading.items; i++) {
        items[i] = item_of(model, i);
    }
    parameters.budget = 0;
    write_file("write with budget 0", parameters, items, model->reading.items, LOOKAHEAD_MOST_FILE);
}

/* Imports a text, and where that is not refused, trains on what was written. */
static void import_text(const char *call, lookahead_parameters parameters, const char *text) {
    uint8_t output[LOOKAHEAD_MOST_FILE];
    size_t length;
    lookahead_answer answer = lookahead_import(parameters, (const uint8_t *)text, strlen(text),
                                               output, LOOKAHEAD_MOST_FILE, &length);
    printf("%s: ", call);
    if (!refused(answer)) {
        train_written(output, length);
    }
}

/* Three items of three features: two were looked up, one was passed over. A
 * feature that a line leaves out is 0. The second text has a fraction, which
 * LIBSVM takes and importing does not. */
static void import_texts(void) {
    const lookahead_parameters parameters = {
        .used = 3,
        .kernel = LOOKAHEAD_LINEAR,
        .grid = 100,
        .ceiling = 1000,
        .second_ceiling = 0,
        .tolerance = 0,
        .budget = 50,
    };
    import_text("import", parameters, "+1 1:3 3:-4\n+1 2:5\n-1\n");
    import_text("import with a fraction", parameters, "+1 1:0.5\n-1\n");
}

int main(void) {
    uint8_t file[FILE_LENGTH] = {0};
    const uint32_t zeros[] = {0, 0}, unbalanced[] = {5, 4};
    Model model;
    put_file(file);
    printf("read: ");
    if (!read_file(&model, file, FILE_LENGTH) || !train(&model)) {
        return 1;
    }
    certify(&model, "certify", model.multipliers);
    certify(&model, "certify 0 0", zeros);
    classify(&model, 3);
    classify(&model, 0);
    classify(&model, 127);
    classify(&model, -127);
    classify(&model, -128);
    certify(&model, "certify 5 4", unbalanced);
    read_damaged(file, 1, 3);
    read_damaged(file, 3, 4);
    write_items(model.reading.parameters);
    write_with_no_budget(&model);
    import_texts();
    return 0;
}
