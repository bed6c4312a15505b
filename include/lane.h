/* The lane run and its record, for C. `tools/install PREFIX` puts this header and the library where `pkg-config lane` finds them.

   What is lent must not overlap, and each pointer must be valid for its length, even where that is 0 (then any non-null pointer serves).
   None may be NULL, those that stand in a struct included. The library keeps nothing between calls, allocates nothing and locks nothing:
   calls from several threads are independent, as long as they are lent different memory. A call takes less than LANE_STACK_BYTES of stack:
   lane_run_with, lane_run_image, lane_run_range and lane_run 60 to 64 KB, the other two under 4 KB (x86-64, examples/c/stack.c).

   docs/RECORD.md has the record's format and rules, docs/GUARANTEE.md what an accepted record promises. */
#ifndef LANE_H
#define LANE_H

#include <stddef.h>
#include <stdint.h>

#ifdef __cplusplus
extern "C" {
#endif

/* Refusals: 1 to 14 are a run's, as its record has them; 14 to 17 are answers of the functions below, and no record has one above 14. */
enum lane_refusal {
    LANE_REFUSAL_IMAGE_SIZE = 1,    /* image empty or too large */
    LANE_REFUSAL_SYMBOL = 2,        /* entry, event count or events outside memory */
    LANE_REFUSAL_STEP_LIMIT = 3,    /* not at stop after LANE_MAX_STEPS */
    LANE_REFUSAL_BELOW_MEMORY = 4,
    LANE_REFUSAL_PAST_MEMORY = 5,
    LANE_REFUSAL_UNKNOWN = 6,       /* a value that no one has set; the role says which */
    LANE_REFUSAL_NOT_UNIFORM = 7,   /* a value that is not the same in all lanes; the role says which */
    LANE_REFUSAL_HALFWORD = 8,
    LANE_REFUSAL_WORD = 9,
    LANE_REFUSAL_JUMP_TO_ZERO = 10,
    LANE_REFUSAL_IMAGE_STORE = 11,  /* a store below the image's end */
    LANE_REFUSAL_EVENT_COUNT = 12,  /* above LANE_MAX_EVENTS or unlike the number of recorded SWs */
    LANE_REFUSAL_ROWS = 13,         /* too few rows lent */
    LANE_REFUSAL_TRACE = 14,        /* too few trace entries lent */
    LANE_REFUSAL_RULES = 15,        /* the record's rules are broken */
    LANE_REFUSAL_OUTPUT = 16,       /* output too short for the record */
    LANE_REFUSAL_INPUT_RANGE = 17   /* first input above last */
};

/* Which value refusals 6 and 7 speak of. */
enum lane_role {
    LANE_ROLE_NONE = 0,
    LANE_ROLE_FETCH = 1,
    LANE_ROLE_JUMP_TARGET = 2,
    LANE_ROLE_LOAD_ADDRESS = 3,
    LANE_ROLE_STORE_ADDRESS = 4,
    LANE_ROLE_BRANCH = 5,
    LANE_ROLE_RETURN_VALUE = 6,
    LANE_ROLE_EVENT_COUNT = 7,
    LANE_ROLE_OPERATION = 8,
    LANE_ROLE_OFFSET = 9,
    LANE_ROLE_VALUE = 10
};

/* Limits. */
#define LANE_FIRST_INPUT 6                     /* of LANE_SETTING, lane_run_image, lane_run and the program lane-run */
#define LANE_LAST_INPUT 255                    /* of the same */
#define LANE_MAX_LANES 256                     /* of lane_run_with and lane_run_range, from input 0 to 255 */
#define LANE_MAX_STEPS 1000000
#define LANE_MAX_EVENTS 32
#define LANE_MEMORY_START UINT32_C(0x80000000)
#define LANE_MEMORY_END UINT32_C(0x80200000)   /* the first address past it */
#define LANE_STOP UINT32_C(0x801FFFFC)
#define LANE_MAX_IMAGE_BYTES 1048576           /* of lane_run_with, lane_run_image and lane_run_range */
#define LANE_MAX_INPUT_IMAGE_BYTES 32768       /* of lane_run and the program lane-run */
#define LANE_SYMBOL_BYTES 12                   /* before the image in an input */
#define LANE_MAX_INPUT_BYTES (LANE_SYMBOL_BYTES + LANE_MAX_INPUT_IMAGE_BYTES)
#define LANE_STACK_BYTES 81920

/* What is lent: a row for each distinct byte that is written, stop's LANE_MIN_ROWS included, and a trace entry for each step. Lengths are
   bytes; what is left over of a row or an entry stays untouched. */
#define LANE_ROW_BYTES 264
#define LANE_MIN_ROWS 4
#define LANE_ENTRY_BYTES 13

/* The longest record with so many entries lent, and the record of a refused run. */
#define LANE_RECORD_BYTES(entries) (21 + 17 * LANE_MAX_EVENTS + 14 * (size_t)(entries))
#define LANE_REFUSED_RECORD_BYTES 7

/* An event: location is the program counter of the SW that counted it. */
struct lane_event {
    uint32_t operation, offset, value, location;
};

/* Kinds of outcome, as a record's first byte. */
enum lane_kind { LANE_KIND_ACCEPTED = 0x01, LANE_KIND_REFUSED = 0x7F };

/* What a record says beside its steps. An accepted run's inputs are first_input to first_input + lanes - 1; steps may be 0 where lanes is 1. */
struct lane_outcome {
    uint32_t kind;
    uint32_t number, role, completed_steps;                          /* of a refused run; otherwise 0 */
    uint32_t first_input, lanes, return_value, steps;                /* of an accepted run; otherwise 0, to the end */
    uint32_t lane_operations, written_bytes, event_count;
    struct lane_event events[LANE_MAX_EVENTS];                       /* the first event_count; the others are 0 */
};

typedef char lane_outcome_has_139_words[sizeof(struct lane_outcome) == 139 * sizeof(uint32_t) ? 1 : -1];

/* What is run: an image of 1 to LANE_MAX_IMAGE_BYTES, and the addresses of its entry, its event count and its events. */
struct lane_firmware {
    const uint8_t *image;
    size_t image_len;
    uint32_t entry, event_count, events;
};

/* How it is run: with first_input to last_input in the lanes, from 1 to LANE_MAX_LANES of them. Begin with LANE_SETTING and change what is to
   be another, so that what a later version adds has its default: struct lane_setting setting = LANE_SETTING; */
struct lane_setting {
    uint8_t first_input, last_input;
};

#define LANE_SETTING {LANE_FIRST_INPUT, LANE_LAST_INPUT}

/* What a run is lent: rows, trace entries, and the output for its record. */
struct lane_lent {
    uint8_t *rows;
    size_t rows_len;
    uint8_t *trace;
    size_t trace_len;
    uint8_t *output;
    size_t output_len;
};

/* lane_run_with, without structs: for callers in other languages. */
uint32_t lane_run_with_plain(const uint8_t *image, size_t image_len, uint32_t entry, uint32_t event_count, uint32_t events,
                             uint8_t first_input, uint8_t last_input, uint8_t *rows, size_t rows_len, uint8_t *trace, size_t trace_len,
                             uint8_t *output, size_t output_len, uint64_t *written);

/* Runs firmware, and writes the record of the run; that of an accepted one carries first_input and the number of lanes.
   0: *written bytes of the record are in output, and what lies past them is untouched. LANE_REFUSAL_OUTPUT: output is too short.
   LANE_REFUSAL_INPUT_RANGE: first_input is above last_input, and the run has neither refusal 1 nor 2. After these two nothing is written to
   output, and *written is 0. In all cases the rows are zero afterwards, whatever they held before, and the entries of completed steps stand
   in the trace, whose others are untouched; LANE_REFUSAL_INPUT_RANGE leaves all of them. */
static inline uint32_t lane_run_with(const struct lane_firmware *firmware, const struct lane_setting *setting, const struct lane_lent *lent,
                                     uint64_t *written)
{
    return lane_run_with_plain(firmware->image, firmware->image_len, firmware->entry, firmware->event_count, firmware->events,
                               setting->first_input, setting->last_input, lent->rows, lent->rows_len, lent->trace, lent->trace_len,
                               lent->output, lent->output_len, written);
}

/* lane_run_with at LANE_SETTING. */
uint32_t lane_run_image(const uint8_t *image, size_t image_len, uint32_t entry, uint32_t event_count, uint32_t events, uint8_t *rows,
                        size_t rows_len, uint8_t *trace, size_t trace_len, uint8_t *output, size_t output_len, uint64_t *written);

/* lane_run_with at LANE_SETTING but for its range of inputs. */
uint32_t lane_run_range(const uint8_t *image, size_t image_len, uint32_t entry, uint32_t event_count, uint32_t events, uint8_t first_input,
                        uint8_t last_input, uint8_t *rows, size_t rows_len, uint8_t *trace, size_t trace_len, uint8_t *output,
                        size_t output_len, uint64_t *written);

/* lane_run_with at LANE_SETTING, of what the program lane-run reads: entry, event count address, events address (4 bytes each,
   little-endian), then the image, 1 to LANE_MAX_INPUT_IMAGE_BYTES. Anything else has the record of refusal 1. */
uint32_t lane_run(const uint8_t *input, size_t input_len, uint8_t *rows, size_t rows_len, uint8_t *trace, size_t trace_len,
                  uint8_t *output, size_t output_len, uint64_t *written);

/* Reads a record, of any range of inputs: a loader compares first_input and lanes with its own. 0: *outcome is what it says, and the trace's
   first entries are its steps. LANE_REFUSAL_RULES: bytes are no record. LANE_REFUSAL_TRACE: the trace has fewer entries than the record has
   steps. After these two nothing is written. */
uint32_t lane_read_record(const uint8_t *bytes, size_t bytes_len, uint8_t *trace, size_t trace_len, struct lane_outcome *outcome);

/* Writes the record of an outcome and of the trace's first entries. 0: *written bytes of the record are in output, and what lies past them
   is untouched. LANE_REFUSAL_RULES: outcome or trace break the record's rules, as does a number too large for its place in a record, in
   a field of the other kind too: begin with a struct of zeros. LANE_REFUSAL_OUTPUT: output is too short. After these two nothing is written, and
   *written is 0. */
uint32_t lane_write_record(const struct lane_outcome *outcome, const uint8_t *trace, size_t trace_len, uint8_t *output, size_t output_len,
                           uint64_t *written);

/* A trace entry: a completed step. */
struct lane_step {
    uint32_t program_counter, word, length, next_program_counter;    /* word after expansion; length 2 or 4 */
};

static inline uint32_t lane_word_at(const uint8_t *bytes)
{
    return bytes[0] | (uint32_t)bytes[1] << 8 | (uint32_t)bytes[2] << 16 | (uint32_t)bytes[3] << 24;
}

/* The entry of this index. */
static inline struct lane_step lane_step_at(const uint8_t *trace, size_t index)
{
    const uint8_t *entry = trace + LANE_ENTRY_BYTES * index;
    struct lane_step step;
    step.program_counter = lane_word_at(entry);
    step.word = lane_word_at(entry + 4);
    step.length = entry[8];
    step.next_program_counter = lane_word_at(entry + 9);
    return step;
}

/* A refusal in words. */
static inline const char *lane_refusal_text(uint32_t number)
{
    switch (number) {
    case LANE_REFUSAL_IMAGE_SIZE: return "the image is empty or too large";
    case LANE_REFUSAL_SYMBOL: return "a symbol lies outside memory";
    case LANE_REFUSAL_STEP_LIMIT: return "not at stop after 1,000,000 steps";
    case LANE_REFUSAL_BELOW_MEMORY: return "address below memory";
    case LANE_REFUSAL_PAST_MEMORY: return "access past memory's end";
    case LANE_REFUSAL_UNKNOWN: return "unknown";
    case LANE_REFUSAL_NOT_UNIFORM: return "not the same in all lanes";
    case LANE_REFUSAL_HALFWORD: return "halfword not accepted";
    case LANE_REFUSAL_WORD: return "word not accepted";
    case LANE_REFUSAL_JUMP_TO_ZERO: return "jump target 0";
    case LANE_REFUSAL_IMAGE_STORE: return "store below the image's end";
    case LANE_REFUSAL_EVENT_COUNT: return "event count above 32 or unlike the number of recorded SWs";
    case LANE_REFUSAL_ROWS: return "more distinct written bytes than rows lent";
    case LANE_REFUSAL_TRACE: return "more steps than trace entries lent";
    case LANE_REFUSAL_RULES: return "the record's rules are broken";
    case LANE_REFUSAL_OUTPUT: return "output too short for the record";
    case LANE_REFUSAL_INPUT_RANGE: return "first input above last";
    default: return "no refusal";
    }
}

/* A role in words; empty for LANE_ROLE_NONE. */
static inline const char *lane_role_text(uint32_t role)
{
    switch (role) {
    case LANE_ROLE_FETCH: return "fetch";
    case LANE_ROLE_JUMP_TARGET: return "jump target";
    case LANE_ROLE_LOAD_ADDRESS: return "load address";
    case LANE_ROLE_STORE_ADDRESS: return "store address";
    case LANE_ROLE_BRANCH: return "branch";
    case LANE_ROLE_RETURN_VALUE: return "return value";
    case LANE_ROLE_EVENT_COUNT: return "event count";
    case LANE_ROLE_OPERATION: return "operation";
    case LANE_ROLE_OFFSET: return "offset";
    case LANE_ROLE_VALUE: return "value";
    default: return "";
    }
}

#ifdef __cplusplus
}
#endif

#endif
