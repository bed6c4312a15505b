/* Compares lane_run_with with lane_run_range and, at LANE_SETTING, with lane_run_image on the input files given: over several ranges, with
   enough lent and too little, the answers and every byte afterwards. Prints how many runs had which answer.
   Status: 0 all the same, 1 not, 2 an error.
     cc -std=c99 -Wall -IPREFIX/include -o same examples/c/same.c PREFIX/lib/liblane.a && ./same examples/firmware/alike.input
*/
#include <lane.h>
#include <stdio.h>
#include <string.h>

enum { ROWS = 300, ENTRIES = 1100, PAINT = 0xA5, ANSWERS = LANE_REFUSAL_INPUT_RANGE + 1 };
enum function { WITH, RANGE, IMAGE };

struct memory {
    uint8_t rows[ROWS * LANE_ROW_BYTES];
    uint8_t trace[ENTRIES * LANE_ENTRY_BYTES];
    uint8_t output[LANE_RECORD_BYTES(ENTRIES)];
    uint64_t written;
};

static uint8_t input[LANE_MAX_INPUT_BYTES + 1];
static struct memory memory, kept;
static unsigned long answers[ANSWERS];

static const struct lane_setting settings[] = {LANE_SETTING, {12, 255}, {0, 255}, {9, 9}, {5, 4}};

/* Enough, then too few rows, entries and bytes of output, each with a part of one left over. */
static const struct lane_lent lendings[] = {
    {memory.rows, sizeof memory.rows, memory.trace, sizeof memory.trace, memory.output, sizeof memory.output},
    {memory.rows, 5 * LANE_ROW_BYTES + 1, memory.trace, sizeof memory.trace, memory.output, sizeof memory.output},
    {memory.rows, sizeof memory.rows, memory.trace, 2 * LANE_ENTRY_BYTES - 1, memory.output, sizeof memory.output},
    {memory.rows, sizeof memory.rows, memory.trace, sizeof memory.trace, memory.output, LANE_REFUSED_RECORD_BYTES - 1},
    {memory.rows, 0, memory.trace, 0, memory.output, 0},
};

/* The answer of a function that is lent painted memory. */
static uint32_t answer_of(enum function function, const struct lane_firmware *f, const struct lane_setting *s, const struct lane_lent *l)
{
    memset(&memory, PAINT, sizeof memory);
    switch (function) {
    case RANGE:
        return lane_run_range(f->image, f->image_len, f->entry, f->event_count, f->events, s->first_input, s->last_input, l->rows, l->rows_len,
                              l->trace, l->trace_len, l->output, l->output_len, &memory.written);
    case IMAGE:
        return lane_run_image(f->image, f->image_len, f->entry, f->event_count, f->events, l->rows, l->rows_len, l->trace, l->trace_len,
                              l->output, l->output_len, &memory.written);
    default: return lane_run_with(f, s, l, &memory.written);
    }
}

/* Whether a run is the same by all functions that have its setting. */
static int is_same(const struct lane_firmware *firmware, const struct lane_setting *setting, const struct lane_lent *lent)
{
    uint32_t answer = answer_of(WITH, firmware, setting, lent);
    if (answer >= ANSWERS)
        return 0;
    answers[answer]++;
    memcpy(&kept, &memory, sizeof kept);
    if (answer_of(RANGE, firmware, setting, lent) != answer || memcmp(&kept, &memory, sizeof kept) != 0)
        return 0;
    if (setting->first_input != LANE_FIRST_INPUT || setting->last_input != LANE_LAST_INPUT)
        return 1;
    return answer_of(IMAGE, firmware, setting, lent) == answer && memcmp(&kept, &memory, sizeof kept) == 0;
}

/* Whether all runs of a file's image are the same. */
static int all_same(const char *name, const struct lane_firmware *firmware)
{
    for (size_t s = 0; s < sizeof settings / sizeof settings[0]; s++)
        for (size_t l = 0; l < sizeof lendings / sizeof lendings[0]; l++)
            if (!is_same(firmware, &settings[s], &lendings[l])) {
                fprintf(stderr, "same: %s: not the same by all functions: inputs %d to %d, lending %d\n", name, settings[s].first_input,
                        settings[s].last_input, (int)l + 1);
                return 0;
            }
    return 1;
}

int main(int argc, char **argv)
{
    for (int k = 1; k < argc; k++) {
        size_t length = 0;
        FILE *file = fopen(argv[k], "rb");
        if (file == NULL || (length = fread(input, 1, sizeof input, file)) <= LANE_SYMBOL_BYTES || fclose(file) != 0) {
            fprintf(stderr, "same: %s: no input\n", argv[k]);
            return 2;
        }
        struct lane_firmware firmware = {input + LANE_SYMBOL_BYTES, length - LANE_SYMBOL_BYTES, lane_word_at(input), lane_word_at(input + 4),
                                         lane_word_at(input + 8)};
        struct lane_firmware empty = firmware, outside = firmware; /* refused with 1 and with 2 */
        empty.image_len = 0;
        outside.events = LANE_MEMORY_END;
        if (!all_same(argv[k], &firmware) || !all_same(argv[k], &empty) || !all_same(argv[k], &outside))
            return 1;
    }
    for (uint32_t answer = 0; answer < ANSWERS; answer++)
        if (answers[answer] != 0)
            printf("%u: %lu\n", (unsigned)answer, answers[answer]);
    return 0;
}
