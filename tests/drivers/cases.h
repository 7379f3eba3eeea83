/* The vectors by other hands for drivers in C: reads NAME.bin, and makes each call in buffers of their own. A field is a 32-bit length,
 * the low byte first, and that many bytes; a case is its inputs, the lengths of its outputs, the number, the location, the value where the
 * call has one, and the outputs. */
#ifndef CASES_H
#define CASES_H

#include <stdio.h>
#include <stdlib.h>
#include <string.h>

#include "polka.h"

enum { MOST_FIELDS = 5 };

struct buffer {
    uint8_t *bytes;
    size_t length;
};

static void fail(const char *what) {
    fprintf(stderr, "%s\n", what);
    exit(2);
}

static struct buffer new_buffer(size_t length) {
    struct buffer made = {malloc(length), length};
    if (made.bytes == NULL && length > 0) {
        fail("no memory");
    }
    return made;
}

static uint32_t number(const uint8_t *bytes) {
    return bytes[0] | (uint32_t)bytes[1] << 8 | (uint32_t)bytes[2] << 16 | (uint32_t)bytes[3] << 24;
}

/* Answers 0 at the end of the file. */
static int read_field(FILE *file, struct buffer *field) {
    uint8_t length[4];
    size_t got = fread(length, 1, 4, file);
    if (got == 0) {
        return 0;
    }
    if (got < 4) {
        fail("a length that is cut off");
    }
    *field = new_buffer(number(length));
    if (fread(field->bytes, 1, field->length, file) != field->length) {
        fail("a field that is cut off");
    }
    return 1;
}

static struct buffer next_field(FILE *file) {
    struct buffer field;
    if (!read_field(file, &field)) {
        fail("a case that is cut off");
    }
    return field;
}

static uint32_t next_number(FILE *file) {
    struct buffer field = next_field(file);
    if (field.length != 4) {
        fail("a number that has not four bytes");
    }
    uint32_t value = number(field.bytes);
    free(field.bytes);
    return value;
}

#define LENT(buffer) (buffer).bytes, (buffer).length

static uint32_t call_keygen(struct buffer *in, struct buffer *out) {
    return polka_keygen(LENT(in[0]), LENT(in[1]), LENT(in[2]), LENT(out[0]), LENT(out[1]));
}

static uint32_t call_keygen_from_seed(struct buffer *in, struct buffer *out) {
    return polka_keygen_from_seed(LENT(in[0]), LENT(in[1]), LENT(in[2]), LENT(out[0]), LENT(out[1]));
}

static uint32_t call_check_secret_key(struct buffer *in, struct buffer *out) {
    (void)out;
    return polka_check_secret_key(LENT(in[0]));
}

static uint32_t call_expand_secret_key(struct buffer *in, struct buffer *out) {
    return polka_expand_secret_key(LENT(in[0]), LENT(out[0]));
}

static uint32_t call_compact_secret_key(struct buffer *in, struct buffer *out) {
    return polka_compact_secret_key(LENT(in[0]), LENT(out[0]));
}

static uint32_t call_encapsulate(struct buffer *in, struct buffer *out) {
    return polka_encapsulate(LENT(in[0]), LENT(in[1]), LENT(out[0]));
}

static uint32_t call_decapsulate(struct buffer *in, struct buffer *out) {
    return polka_decapsulate(LENT(in[0]), LENT(in[1]), LENT(in[2]), LENT(out[0]));
}

static uint32_t call_seal(struct buffer *in, struct buffer *out) {
    return polka_seal(LENT(in[0]), LENT(in[1]), LENT(in[2]), LENT(out[0]));
}

static uint32_t call_open(struct buffer *in, struct buffer *out) {
    return polka_open(LENT(in[0]), LENT(in[1]), LENT(in[2]), LENT(out[0]));
}

static uint32_t call_open_with_margin(struct buffer *in, struct buffer *out) {
    return polka_open_with_margin(LENT(in[0]), LENT(in[1]), LENT(in[2]), LENT(out[0]), (uint32_t *)(void *)out[1].bytes);
}

static uint32_t call_seal_batch(struct buffer *in, struct buffer *out) {
    return polka_seal_batch(LENT(in[0]), LENT(in[1]), LENT(in[2]), LENT(out[0]));
}

static uint32_t call_open_batch(struct buffer *in, struct buffer *out) {
    return polka_open_batch(LENT(in[0]), LENT(in[1]), LENT(in[2]), LENT(out[0]), (uint32_t *)(void *)out[1].bytes);
}

static uint32_t call_shake128(struct buffer *in, struct buffer *out) {
    polka_shake128(LENT(in[0]), LENT(out[0]));
    return 0;
}

static uint32_t call_shake256(struct buffer *in, struct buffer *out) {
    polka_shake256(LENT(in[0]), LENT(out[0]));
    return 0;
}

typedef uint32_t run_function(struct buffer *in, struct buffer *out);

/* A number that a call writes, which is lent behind the outputs. Beside a count only that many entries of the output are written. */
enum value { NO_VALUE, MARGIN, COUNT };

struct call {
    const char *name;
    int inputs, outputs;
    enum value value;
    size_t stack; /* what the header says */
    run_function *run;
};

static const struct call calls[] = {
    {"keygen", 3, 2, NO_VALUE, POLKA_KEYGEN_STACK, call_keygen},
    {"keygen_from_seed", 3, 2, NO_VALUE, POLKA_KEYGEN_FROM_SEED_STACK, call_keygen_from_seed},
    {"check_secret_key", 1, 0, NO_VALUE, POLKA_CHECK_SECRET_KEY_STACK, call_check_secret_key},
    {"expand_secret_key", 1, 1, NO_VALUE, POLKA_EXPAND_SECRET_KEY_STACK, call_expand_secret_key},
    {"compact_secret_key", 1, 1, NO_VALUE, POLKA_COMPACT_SECRET_KEY_STACK, call_compact_secret_key},
    {"encapsulate", 2, 1, NO_VALUE, POLKA_ENCAPSULATE_STACK, call_encapsulate},
    {"decapsulate", 3, 1, NO_VALUE, POLKA_DECAPSULATE_STACK, call_decapsulate},
    {"seal", 3, 1, NO_VALUE, POLKA_SEAL_STACK, call_seal},
    {"open", 3, 1, NO_VALUE, POLKA_OPEN_STACK, call_open},
    {"open_with_margin", 3, 1, MARGIN, POLKA_OPEN_WITH_MARGIN_STACK, call_open_with_margin},
    {"seal_batch", 3, 1, NO_VALUE, POLKA_SEAL_BATCH_STACK, call_seal_batch},
    {"open_batch", 3, 1, COUNT, POLKA_OPEN_BATCH_STACK, call_open_batch},
    {"shake128", 1, 1, NO_VALUE, POLKA_SHAKE128_STACK, call_shake128},
    {"shake256", 1, 1, NO_VALUE, POLKA_SHAKE256_STACK, call_shake256},
};

static uint8_t pattern(size_t i) {
    return (uint8_t)(i * 37 + 11);
}

/* An output as it is before the call. */
static struct buffer new_output(size_t length) {
    struct buffer made = new_buffer(length);
    for (size_t i = 0; i < length; i++) {
        made.bytes[i] = pattern(i);
    }
    return made;
}

/* Whether an output has the expected bytes first, and behind them those it had before. Under a refusal none are expected. */
static int as_expected(struct buffer out, struct buffer expected) {
    for (size_t i = 0; i < out.length; i++) {
        if (out.bytes[i] != (i < expected.length ? expected.bytes[i] : pattern(i))) {
            return 0;
        }
    }
    return expected.length <= out.length;
}

/* The same of a number. */
static int is_value(struct buffer out, struct buffer expected) {
    uint32_t value;
    memcpy(&value, out.bytes, sizeof value);
    return expected.length == 0 ? as_expected(out, expected) : value == number(expected.bytes);
}

static const char *record_name(uint32_t record) {
    switch (record) {
    case POLKA_RECORD_PUBLIC_KEY:
        return "public_key";
    case POLKA_RECORD_SEEDED_PUBLIC_KEY:
        return "seeded_public_key";
    case POLKA_RECORD_SECRET_KEY:
        return "secret_key";
    case POLKA_RECORD_SEALED_ENTRY:
        return "sealed_entry";
    case POLKA_RECORD_ENCAPSULATION:
        return "encapsulation";
    default:
        return "?";
    }
}

static const char *part_name(uint32_t part) {
    switch (part) {
    case POLKA_PART_A:
        return "a";
    case POLKA_PART_B:
        return "b";
    case POLKA_PART_STORED_INVERSE:
        return "stored_inverse";
    case POLKA_PART_C1:
        return "c1";
    case POLKA_PART_C2:
        return "c2";
    default:
        return "?";
    }
}

/* Whether an answer has this number and this location in words, RECORD PART INDEX or nothing, and no other bit. */
static int is_answer(uint32_t answer, uint32_t expected, struct buffer location) {
    char words[64] = "";
    if (answer != polka_number(answer)) {
        snprintf(words, sizeof words, "%s %s %u", record_name(polka_record(answer)), part_name(polka_part(answer)),
                 (unsigned)polka_index(answer));
    }
    return polka_number(answer) == expected && answer >> 28 == 0 && location.length == strlen(words) &&
           memcmp(location.bytes, words, location.length) == 0;
}

/* How a driver makes a call. */
typedef uint32_t make_function(run_function *run, struct buffer *in, struct buffer *out);

static int run_case(FILE *file, const struct call *call, struct buffer first, make_function *make) {
    struct buffer in[MOST_FIELDS] = {first}, out[MOST_FIELDS];
    for (int i = 1; i < call->inputs; i++) {
        in[i] = next_field(file);
    }
    for (int i = 0; i < call->outputs; i++) {
        out[i] = new_output(next_number(file));
    }
    struct buffer value = new_output(call->value == NO_VALUE ? 0 : sizeof(uint32_t));
    out[call->outputs] = value;
    uint32_t expected = next_number(file);
    struct buffer location = next_field(file);
    uint32_t answer = make(call->run, in, out);
    int right = is_answer(answer, expected, location);
    free(location.bytes);
    if (call->value != NO_VALUE) {
        struct buffer field = next_field(file);
        right = right && is_value(value, field) && (field.length == 4 || expected != POLKA_DONE);
        free(field.bytes);
    }
    free(value.bytes);
    for (int i = 0; i < call->outputs; i++) {
        struct buffer field = next_field(file);
        int whole = field.length == out[i].length || call->value == COUNT || expected != POLKA_DONE;
        right = right && whole && as_expected(out[i], field);
        free(field.bytes);
        free(out[i].bytes);
    }
    for (int i = 0; i < call->inputs; i++) {
        free(in[i].bytes);
    }
    return right;
}

/* Every case of a call's file. Prints their count, and answers how many went wrong. */
static int run_file(const char *folder, const struct call *call, make_function *make) {
    char path[4096];
    snprintf(path, sizeof path, "%s/%s.bin", folder, call->name);
    FILE *file = fopen(path, "rb");
    if (file == NULL) {
        fail(path);
    }
    int cases = 0, mismatches = 0;
    struct buffer first;
    while (read_field(file, &first)) {
        cases++;
        mismatches += !run_case(file, call, first, make);
    }
    fclose(file);
    printf("%s: %d cases, %d mismatches\n", call->name, cases, mismatches);
    return mismatches + (cases == 0);
}

#define EVERY_CALL(call) for (const struct call *call = calls; call < calls + sizeof calls / sizeof *calls; call++)

#endif
