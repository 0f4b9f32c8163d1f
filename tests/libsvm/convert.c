/* Training files and texts in libsvm's form, one made of the other:
 *
 *   convert print FILE [zeros]  prints the items of a training file as lines; features of 0 are left out, or written
 *   convert import FILE TEXT    imports a text with the parameters of a training file, and writes the new file to standard output
 *
 * The exit status is the number of the refusal, 0 for none. */

#include "lookahead.h"
#include <stdio.h>
#include <string.h>

static uint8_t file[LOOKAHEAD_MOST_FILE], text[1 << 20], output[LOOKAHEAD_MOST_FILE];

static size_t load(const char *name, uint8_t *bytes, size_t places) {
    FILE *stream = fopen(name, "rb");
    if (stream == NULL) return 0;
    size_t length = fread(bytes, 1, places, stream);
    fclose(stream);
    return length;
}

static void print_item(const uint8_t *record, size_t used, int zeros) {
    const int8_t *features = (const int8_t *)record + 4;
    printf("%s", record[2] == LOOKAHEAD_LOOKED_UP ? "+1" : "-1");
    for (size_t k = 0; k < used; k++)
        if (features[k] != 0 || zeros) printf(" %zu:%d", k + 1, features[k]);
    printf("\n");
}

int main(int count, char **words) {
    uint16_t order[LOOKAHEAD_MOST_ITEMS];
    size_t length;
    if (count < 3) return 100;
    lookahead_reading read = lookahead_read(file, load(words[2], file, sizeof file), order, LOOKAHEAD_MOST_ITEMS);
    if (read.answer.number != 0) return read.answer.number;
    if (strcmp(words[1], "print") == 0) {
        for (size_t i = 0; i < read.items; i++) print_item(file + 32 + 20 * (order[i] - 1), read.parameters.used, count > 3);
        return 0;
    }
    if (count < 4) return 100;
    size_t text_length = load(words[3], text, sizeof text);
    lookahead_answer answer = lookahead_import(read.parameters, text, text_length, output, sizeof output, &length);
    if (answer.number == 0) fwrite(output, 1, length, stdout);
    return answer.number;
}
