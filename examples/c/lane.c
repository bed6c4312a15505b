/* Runs an input file, with the inputs from FIRST to LAST or else 6 to 255, reads its record, and writes it again.
   Status: 0 accepted, 1 refused, 2 an error.
     tools/install PREFIX
     cc -std=c99 -Wall -IPREFIX/include -o lane examples/c/lane.c PREFIX/lib/liblane.a && ./lane examples/document-01.input
*/
#include <stdio.h>
#include <stdlib.h>
#include <string.h>

#include <lane.h>

enum { ACCEPTED, REFUSED, ERROR };
enum { ROWS = 200, ENTRIES = 2048 };

static uint8_t input[LANE_SYMBOL_BYTES + LANE_MAX_IMAGE_BYTES + 1]; /* one byte more, so that a longer file is refused and not cut */
static uint8_t rows[ROWS * LANE_ROW_BYTES];
static uint8_t trace[ENTRIES * LANE_ENTRY_BYTES];
static uint8_t record[LANE_RECORD_BYTES(ENTRIES)];
static uint8_t again[LANE_RECORD_BYTES(ENTRIES)];

static int failed(const char *what, const char *why)
{
    fprintf(stderr, "lane: %s: %s\n", what, why);
    return ERROR;
}

/* Fills input from the file; 0 where it can be read. */
static int read_input(const char *name, size_t *length)
{
    FILE *file = fopen(name, "rb");
    if (file == NULL)
        return 1;
    *length = fread(input, 1, sizeof input, file);
    int bad = ferror(file);
    return fclose(file) != 0 || bad;
}

/* Reads a number from 0 to 255; 0 where the word is one. */
static int read_byte(const char *word, uint8_t *byte)
{
    char *end;
    unsigned long number = strtoul(word, &end, 10);
    *byte = (uint8_t)number;
    return *word < '0' || *word > '9' || *end != '\0' || number > 255;
}

/* Runs the input's image with the setting. */
static uint32_t run_with(size_t length, const struct lane_setting *setting, uint64_t *written)
{
    const struct lane_firmware firmware = {
        .image = input + LANE_SYMBOL_BYTES,
        .image_len = length > LANE_SYMBOL_BYTES ? length - LANE_SYMBOL_BYTES : 0,
        .entry = lane_word_at(input),
        .event_count = lane_word_at(input + 4),
        .events = lane_word_at(input + 8),
    };
    const struct lane_lent lent = {
        .rows = rows, .rows_len = sizeof rows, .trace = trace, .trace_len = sizeof trace, .output = record, .output_len = sizeof record,
    };
    return lane_run_with(&firmware, setting, &lent, written);
}

static void print_outcome(const struct lane_outcome *o)
{
    if (o->kind != LANE_KIND_ACCEPTED) {
        printf("refused: %u %s", (unsigned)o->number, lane_refusal_text(o->number));
        if (o->role != LANE_ROLE_NONE)
            printf(", role %u %s", (unsigned)o->role, lane_role_text(o->role));
        printf(", after %u steps\n", (unsigned)o->completed_steps);
        return;
    }
    printf("accepted for inputs %u to %u: return value %u, %u events, %u steps", (unsigned)o->first_input, (unsigned)(o->first_input + o->lanes - 1),
           (unsigned)o->return_value, (unsigned)o->event_count, (unsigned)o->steps);
    if (o->steps > 0) /* one lane that enters at stop has none */
        printf(", the last at %08x", (unsigned)lane_step_at(trace, o->steps - 1).program_counter);
    printf("\n");
    for (uint32_t k = 0; k < o->event_count; k++) {
        const struct lane_event *e = &o->events[k];
        printf("event: operation %u, offset %08x, value %08x, location %08x\n", (unsigned)e->operation, (unsigned)e->offset,
               (unsigned)e->value, (unsigned)e->location);
    }
}

/* Reads the record of so many bytes, writes it again, and shows it. */
static int show_record(uint64_t written)
{
    struct lane_outcome outcome;
    memset(trace, 0, sizeof trace); /* the reader fills it from the record alone */
    uint32_t code = lane_read_record(record, (size_t)written, trace, sizeof trace, &outcome);
    if (code != 0)
        return failed("lane_read_record", lane_refusal_text(code));

    uint64_t rewritten = 0;
    code = lane_write_record(&outcome, trace, sizeof trace, again, sizeof again, &rewritten);
    if (code != 0)
        return failed("lane_write_record", lane_refusal_text(code));
    if (written != rewritten || memcmp(record, again, (size_t)written) != 0)
        return failed("lane_write_record", "the record is not the same when it is written again");

    print_outcome(&outcome);
    printf("record of %lu bytes, written again: the same\n", (unsigned long)written);
    if (fflush(stdout) != 0)
        return failed("standard output", "cannot be written");
    return outcome.kind == LANE_KIND_ACCEPTED ? ACCEPTED : REFUSED;
}

int main(int argc, char **argv)
{
    size_t length = 0;
    struct lane_setting setting = LANE_SETTING;
    if ((argc != 2 && argc != 4) || (argc == 4 && (read_byte(argv[2], &setting.first_input) != 0 || read_byte(argv[3], &setting.last_input) != 0)))
        return failed("usage", "lane FILE [FIRST LAST], two inputs from 0 to 255");
    if (read_input(argv[1], &length) != 0)
        return failed(argv[1], "cannot be read");

    uint64_t written = 0;
    uint32_t code = argc == 4 ? run_with(length, &setting, &written)
                              : lane_run(input, length, rows, sizeof rows, trace, sizeof trace, record, sizeof record, &written);
    if (code != 0)
        return failed(argc == 4 ? "lane_run_with" : "lane_run", lane_refusal_text(code));
    return show_record(written);
}
