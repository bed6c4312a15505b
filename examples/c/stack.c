/* Prints the most stack that a call takes on the input files given: it runs each on a stack of its own that is painted first.
     cc -std=gnu99 -Wall -IPREFIX/include -o stack examples/c/stack.c PREFIX/lib/liblane.a && ./stack examples/firmware/alike.input
*/
#include <lane.h>
#include <stdio.h>
#include <string.h>
#include <ucontext.h>

enum { ROWS = 1000, ENTRIES = 5000, PAINT = 0xA5, CALLS = 6 };

static uint8_t input[LANE_MAX_INPUT_BYTES + 1];
static uint8_t rows[ROWS * LANE_ROW_BYTES];
static uint8_t trace[ENTRIES * LANE_ENTRY_BYTES];
static uint8_t record[LANE_RECORD_BYTES(ENTRIES)];
static uint8_t stack[1 << 20];
static size_t length;
static uint64_t written;
static struct lane_outcome outcome;
static ucontext_t here, there;

static void run(void) { lane_run(input, length, rows, sizeof rows, trace, sizeof trace, record, sizeof record, &written); }

static void run_with(void)
{
    struct lane_setting setting = LANE_SETTING;
    struct lane_firmware firmware = {input + LANE_SYMBOL_BYTES, length - LANE_SYMBOL_BYTES, lane_word_at(input), lane_word_at(input + 4),
                                     lane_word_at(input + 8)};
    struct lane_lent lent = {rows, sizeof rows, trace, sizeof trace, record, sizeof record};
    lane_run_with(&firmware, &setting, &lent, &written);
}

static void run_image(void)
{
    lane_run_image(input + LANE_SYMBOL_BYTES, length - LANE_SYMBOL_BYTES, lane_word_at(input), lane_word_at(input + 4), lane_word_at(input + 8),
                   rows, sizeof rows, trace, sizeof trace, record, sizeof record, &written);
}

static void run_range(void)
{
    lane_run_range(input + LANE_SYMBOL_BYTES, length - LANE_SYMBOL_BYTES, lane_word_at(input), lane_word_at(input + 4), lane_word_at(input + 8),
                   LANE_FIRST_INPUT, LANE_LAST_INPUT, rows, sizeof rows, trace, sizeof trace, record, sizeof record, &written);
}

static void read_record(void) { lane_read_record(record, (size_t)written, trace, sizeof trace, &outcome); }

static void write_record(void) { lane_write_record(&outcome, trace, sizeof trace, record, sizeof record, &written); }

/* How many bytes of its stack a call has changed. */
static size_t taken(void (*call)(void))
{
    size_t untouched = 0;
    memset(stack, PAINT, sizeof stack);
    getcontext(&there);
    there.uc_stack.ss_sp = stack;
    there.uc_stack.ss_size = sizeof stack;
    there.uc_link = &here;
    makecontext(&there, call, 0);
    swapcontext(&here, &there);
    while (untouched < sizeof stack && stack[untouched] == PAINT)
        untouched++;
    return sizeof stack - untouched;
}

int main(int argc, char **argv)
{
    void (*calls[CALLS])(void) = {run, run_with, run_image, run_range, read_record, write_record};
    const char *names[CALLS] = {"lane_run", "lane_run_with", "lane_run_image", "lane_run_range", "lane_read_record", "lane_write_record"};
    size_t most[CALLS] = {0};
    for (int k = 1; k < argc; k++) {
        FILE *file = fopen(argv[k], "rb");
        if (file == NULL || (length = fread(input, 1, sizeof input, file)) <= LANE_SYMBOL_BYTES || fclose(file) != 0) {
            fprintf(stderr, "stack: %s: no input\n", argv[k]);
            return 2;
        }
        for (int c = 0; c < CALLS; c++) {
            size_t now = taken(calls[c]);
            most[c] = now > most[c] ? now : most[c];
        }
    }
    for (int c = 0; c < CALLS; c++)
        printf("%s %lu\n", names[c], (unsigned long)most[c]);
    return 0;
}
