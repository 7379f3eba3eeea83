/* Makes one call with its secrets marked undefined: memcheck then reports each branch and each address that hangs on them.
 * The answer and the outputs are marked defined again when the call is over. encapsulate_seeded, seal_seeded and seal_batch_seeded_255 are
 * encapsulate, seal and seal_batch_255 under a seeded public key; check_secret_key_expanded, decapsulate_expanded, open_expanded,
 * open_with_margin_expanded and open_batch_expanded_255 have an expanded secret key; 1 and 255 are counts of entries.
 * usage: secrets keygen|keygen_from_seed|check_secret_key|check_secret_key_expanded|expand_secret_key|compact_secret_key|encapsulate|
 *                encapsulate_seeded|decapsulate|decapsulate_expanded|seal|seal_seeded|open|open_expanded|open_with_margin|
 *                open_with_margin_expanded|seal_batch_1|seal_batch_255|seal_batch_seeded_255|open_batch_1|open_batch_255|
 *                open_batch_expanded_255|shake128|shake256   under valgrind */
#define _GNU_SOURCE
#include <link.h>
#include <stdio.h>
#include <stdlib.h>
#include <string.h>
#include <valgrind/memcheck.h>

#include "polka.h"

static uint8_t seed[POLKA_SEED_LENGTH], stream[POLKA_UNIFORM_STREAM_LENGTH];
static uint8_t noise_s[POLKA_KEY_NOISE_LENGTH], noise_e[POLKA_KEY_NOISE_LENGTH];
static uint8_t public_key[POLKA_PUBLIC_KEY_LENGTH], seeded_public_key[POLKA_SEEDED_PUBLIC_KEY_LENGTH];
static uint8_t secret_key[POLKA_SECRET_KEY_LENGTH], secret_key_out[POLKA_SECRET_KEY_LENGTH];
static uint8_t expanded_key[POLKA_EXPANDED_SECRET_KEY_LENGTH], expanded_key_out[POLKA_EXPANDED_SECRET_KEY_LENGTH];
static uint8_t noise[POLKA_TRIPLE_NOISE_LENGTH], dummy_noise[POLKA_TRIPLE_NOISE_LENGTH];
static uint8_t triple[POLKA_TRIPLE_LENGTH], dummy[POLKA_TRIPLE_LENGTH], triple_out[POLKA_TRIPLE_LENGTH];
static uint8_t entry[POLKA_ENTRY_LENGTH], entry_out[POLKA_ENTRY_LENGTH];
static uint32_t margin, margin_out;
static uint8_t sealed[POLKA_SEALED_ENTRY_LENGTH], encapsulation[POLKA_ENCAPSULATION_LENGTH];
static uint8_t entries[POLKA_BATCH_ENTRIES_LENGTH], entries_out[POLKA_BATCH_ENTRIES_LENGTH];
static uint8_t batch[POLKA_BATCH_LENGTH(POLKA_BATCH_MOST_ENTRIES)];
static uint32_t count_out;
static uint8_t digest[300];

/* Bytes from a fixed seed, so that each run is the same. */
static void fill(uint8_t *bytes, size_t length) {
    static uint64_t state = 88172645463325252u;
    for (size_t i = 0; i < length; i++) {
        state ^= state << 13;
        state ^= state >> 7;
        state ^= state << 17;
        bytes[i] = (uint8_t)(state >> 24);
    }
}

/* Codes 0, 1 and 2. */
static void fill_codes(uint8_t *bytes, size_t length) {
    fill(bytes, length);
    for (size_t i = 0; i < length; i++) {
        uint8_t three = bytes[i] & bytes[i] >> 1 & 0x55;
        bytes[i] = (uint8_t)(bytes[i] & ~(three | three << 1));
    }
}

static void must(int holds, const char *what) {
    if (!holds) {
        fprintf(stderr, "%s\n", what);
        exit(2);
    }
}

#define LENT(bytes) bytes, sizeof bytes

/* Under either record of the public key. */
static uint32_t seal(const uint8_t *key, size_t key_length) {
    return polka_seal(key, key_length, noise, sizeof noise, entry, sizeof entry, sealed, sizeof sealed);
}

/* With either version of the secret key. */
static uint32_t open_sealed(const uint8_t *key, size_t key_length) {
    return polka_open(key, key_length, sealed, sizeof sealed, dummy_noise, sizeof dummy_noise, entry_out, sizeof entry_out);
}

static uint32_t open_with_margin(const uint8_t *key, size_t key_length) {
    return polka_open_with_margin(key, key_length, sealed, sizeof sealed, dummy_noise, sizeof dummy_noise, entry_out, sizeof entry_out,
                                  &margin_out);
}

/* Of the first entries, so many. */
static uint32_t seal_batch(const uint8_t *key, size_t key_length, size_t count) {
    return polka_seal_batch(key, key_length, noise, sizeof noise, entries, POLKA_ENTRY_LENGTH * count, batch, POLKA_BATCH_LENGTH(count));
}

static uint32_t open_batch(const uint8_t *key, size_t key_length, size_t count) {
    return polka_open_batch(key, key_length, batch, POLKA_BATCH_LENGTH(count), dummy_noise, sizeof dummy_noise, entries_out,
                            sizeof entries_out, &count_out);
}

static uint32_t keygen(void) {
    return polka_keygen(stream, sizeof stream, noise_s, sizeof noise_s, noise_e, sizeof noise_e, public_key, sizeof public_key, secret_key,
                        sizeof secret_key);
}

static uint32_t keygen_from_seed(void) {
    return polka_keygen_from_seed(seed, sizeof seed, noise_s, sizeof noise_s, noise_e, sizeof noise_e, seeded_public_key,
                                  sizeof seeded_public_key, secret_key, sizeof secret_key);
}

static uint32_t expand_secret_key(void) {
    return polka_expand_secret_key(secret_key, sizeof secret_key, expanded_key_out, sizeof expanded_key_out);
}

static uint32_t compact_secret_key(void) {
    return polka_compact_secret_key(expanded_key, sizeof expanded_key, secret_key_out, sizeof secret_key_out);
}

static uint32_t encapsulate(const uint8_t *key, size_t key_length) {
    return polka_encapsulate(key, key_length, triple, sizeof triple, encapsulation, sizeof encapsulation);
}

static uint32_t decapsulate(const uint8_t *key, size_t key_length) {
    return polka_decapsulate(key, key_length, encapsulation, sizeof encapsulation, dummy, sizeof dummy, triple_out, sizeof triple_out);
}

/* Of any secret bytes; more than one block in and out. */
static uint32_t hash(void (*shake)(const uint8_t *, size_t, uint8_t *, size_t)) {
    shake(noise, sizeof noise, digest, sizeof digest);
    return POLKA_DONE;
}

/* Whether what was sealed and encapsulated comes back with this version of the secret key. */
static int opened(const uint8_t *key, size_t key_length) {
    memset(entry_out, 0, sizeof entry_out);
    memset(triple_out, 0, sizeof triple_out);
    return open_sealed(key, key_length) == POLKA_DONE && memcmp(entry, entry_out, sizeof entry) == 0 &&
           decapsulate(key, key_length) == POLKA_DONE && memcmp(triple, triple_out, sizeof triple) == 0;
}

/* The same of both, under this record of the public key. */
static int round_trips(const uint8_t *key, size_t key_length) {
    return seal(key, key_length) == POLKA_DONE && encapsulate(key, key_length) == POLKA_DONE && opened(LENT(secret_key)) &&
           opened(LENT(expanded_key));
}

static void clear_entry_out(void) {
    memset(entry_out, 0, sizeof entry_out);
    margin_out = UINT32_MAX;
}

/* Whether the entry came back, and its margin. */
static int opened_with_margin(void) {
    return memcmp(entry, entry_out, sizeof entry) == 0 && margin_out == margin;
}

/* The same with both versions of the secret key. The margin, which no call before has told, is kept. */
static int margin_round_trips(void) {
    clear_entry_out();
    int opened = open_with_margin(LENT(secret_key)) == POLKA_DONE;
    margin = margin_out;
    opened = opened && opened_with_margin() && margin <= POLKA_LARGEST_MARGIN;
    clear_entry_out();
    return opened && open_with_margin(LENT(expanded_key)) == POLKA_DONE && opened_with_margin();
}

/* Whether each conversion gave the other's key. */
static int converted(void) {
    return memcmp(expanded_key, expanded_key_out, sizeof expanded_key) == 0 && memcmp(secret_key, secret_key_out, sizeof secret_key) == 0;
}

static void clear_batch_out(void) {
    memset(entries_out, 0, sizeof entries_out);
    count_out = 0;
}

/* Whether the first entries came back, so many, and nothing was written behind them. */
static int batch_opened(size_t count) {
    size_t length = POLKA_ENTRY_LENGTH * count;
    for (size_t i = length; i < sizeof entries_out; i++) {
        if (entries_out[i] != 0) {
            return 0;
        }
    }
    return count_out == count && memcmp(entries, entries_out, length) == 0;
}

static int batch_round_trips(const uint8_t *key, size_t key_length, size_t count) {
    clear_batch_out();
    int opened = seal_batch(key, key_length, count) == POLKA_DONE && open_batch(LENT(secret_key), count) == POLKA_DONE && batch_opened(count);
    clear_batch_out();
    return opened && open_batch(LENT(expanded_key), count) == POLKA_DONE && batch_opened(count);
}

/* The count at the end of a call's name. */
static size_t count_of(const char *call) {
    const char *end = strrchr(call, '_');
    return end == NULL ? 0 : (size_t)strtoul(end + 1, NULL, 10);
}

/* The library's table of noise values, which is read at secret places. Memcheck reports such a place, but takes what stands there for known,
 * and would report nothing behind it any more. So the table is marked with the noise. */
#define NOISE_VALUES 16
static const uint8_t *noise_table;

/* Worked out, since a table here would be found with the library's. */
static uint8_t noise_value(unsigned four) {
    int sum = (int)(four & 1) - (int)(four >> 1 & 1) + (int)(four >> 2 & 1) - (int)(four >> 3 & 1);
    return (uint8_t)(sum == 2 ? -1 : sum == -2 ? 1 : sum);
}

static int is_noise_table(const uint8_t *bytes) {
    for (unsigned four = 0; four < NOISE_VALUES; four++) {
        if (bytes[four] != noise_value(four)) {
            return 0;
        }
    }
    return 1;
}

/* Looks through what is loaded of this program, which is the first object, and is not written. */
static int find_noise_table(struct dl_phdr_info *object, size_t size, void *unused) {
    (void)size;
    (void)unused;
    for (size_t i = 0; i < object->dlpi_phnum; i++) {
        const ElfW(Phdr) *part = &object->dlpi_phdr[i];
        if (part->p_type != PT_LOAD || (part->p_flags & PF_W) != 0) {
            continue;
        }
        const uint8_t *bytes = (const uint8_t *)(object->dlpi_addr + part->p_vaddr);
        for (size_t at = 0; at + NOISE_VALUES <= part->p_filesz; at++) {
            if (is_noise_table(bytes + at)) {
                must(noise_table == NULL, "more than one table of noise values");
                noise_table = bytes + at;
            }
        }
    }
    must(noise_table != NULL, "no table of noise values");
    return 1;
}

/* One function a secret: memcheck names it as the place that a value comes from. None is inlined, or its name is lost. */
#define NAMED __attribute__((noinline))

static NAMED void secret_noise(void) {
    VALGRIND_MAKE_MEM_UNDEFINED(noise, sizeof noise);
    VALGRIND_MAKE_MEM_UNDEFINED(noise_table, NOISE_VALUES);
}

static NAMED void secret_entry(void) {
    VALGRIND_MAKE_MEM_UNDEFINED(entry, sizeof entry);
}

static NAMED void secret_entries(void) {
    VALGRIND_MAKE_MEM_UNDEFINED(entries, sizeof entries);
}

/* s alone: a, b and the inverse of b are public. */
static NAMED void secret_key_s(void) {
    VALGRIND_MAKE_MEM_UNDEFINED(secret_key + POLKA_PUBLIC_KEY_LENGTH, POLKA_SECRET_KEY_LENGTH - POLKA_PUBLIC_KEY_LENGTH);
    VALGRIND_MAKE_MEM_UNDEFINED(expanded_key + POLKA_PUBLIC_KEY_LENGTH, POLKA_SECRET_KEY_LENGTH - POLKA_PUBLIC_KEY_LENGTH);
}

static NAMED void secret_dummy(void) {
    VALGRIND_MAKE_MEM_UNDEFINED(dummy_noise, sizeof dummy_noise);
    VALGRIND_MAKE_MEM_UNDEFINED(dummy, sizeof dummy);
    VALGRIND_MAKE_MEM_UNDEFINED(noise_table, NOISE_VALUES);
}

static NAMED void secret_key_noise(void) {
    VALGRIND_MAKE_MEM_UNDEFINED(noise_s, sizeof noise_s);
    VALGRIND_MAKE_MEM_UNDEFINED(noise_e, sizeof noise_e);
    VALGRIND_MAKE_MEM_UNDEFINED(noise_table, NOISE_VALUES);
}

static NAMED void secret_triple(void) {
    VALGRIND_MAKE_MEM_UNDEFINED(triple, sizeof triple);
}

static void all_defined(void) {
    VALGRIND_MAKE_MEM_DEFINED(noise_table, NOISE_VALUES);
    VALGRIND_MAKE_MEM_DEFINED(stream, sizeof stream);
    VALGRIND_MAKE_MEM_DEFINED(noise_s, sizeof noise_s);
    VALGRIND_MAKE_MEM_DEFINED(noise_e, sizeof noise_e);
    VALGRIND_MAKE_MEM_DEFINED(public_key, sizeof public_key);
    VALGRIND_MAKE_MEM_DEFINED(seeded_public_key, sizeof seeded_public_key);
    VALGRIND_MAKE_MEM_DEFINED(secret_key, sizeof secret_key);
    VALGRIND_MAKE_MEM_DEFINED(secret_key_out, sizeof secret_key_out);
    VALGRIND_MAKE_MEM_DEFINED(expanded_key, sizeof expanded_key);
    VALGRIND_MAKE_MEM_DEFINED(expanded_key_out, sizeof expanded_key_out);
    VALGRIND_MAKE_MEM_DEFINED(noise, sizeof noise);
    VALGRIND_MAKE_MEM_DEFINED(dummy_noise, sizeof dummy_noise);
    VALGRIND_MAKE_MEM_DEFINED(triple, sizeof triple);
    VALGRIND_MAKE_MEM_DEFINED(dummy, sizeof dummy);
    VALGRIND_MAKE_MEM_DEFINED(triple_out, sizeof triple_out);
    VALGRIND_MAKE_MEM_DEFINED(entry, sizeof entry);
    VALGRIND_MAKE_MEM_DEFINED(entry_out, sizeof entry_out);
    VALGRIND_MAKE_MEM_DEFINED(&margin_out, sizeof margin_out);
    VALGRIND_MAKE_MEM_DEFINED(sealed, sizeof sealed);
    VALGRIND_MAKE_MEM_DEFINED(encapsulation, sizeof encapsulation);
    VALGRIND_MAKE_MEM_DEFINED(entries, sizeof entries);
    VALGRIND_MAKE_MEM_DEFINED(entries_out, sizeof entries_out);
    VALGRIND_MAKE_MEM_DEFINED(batch, sizeof batch);
    VALGRIND_MAKE_MEM_DEFINED(&count_out, sizeof count_out);
    VALGRIND_MAKE_MEM_DEFINED(digest, sizeof digest);
}

int main(int count, char **words) {
    must(count == 2, "usage: secrets CALL");
    dl_iterate_phdr(find_noise_table, NULL);
    uint32_t answer;
    do {
        fill(seed, sizeof seed);
        fill(noise_s, sizeof noise_s);
        fill(noise_e, sizeof noise_e);
        answer = keygen_from_seed();
    } while (answer == POLKA_NOT_INVERTIBLE);
    must(answer == POLKA_DONE, "keygen_from_seed");
    /* the same key once more, for the other record */
    polka_shake128(seed, sizeof seed, stream, sizeof stream);
    must(keygen() == POLKA_DONE, "keygen");
    must(expand_secret_key() == POLKA_DONE, "expand_secret_key");
    memcpy(expanded_key, expanded_key_out, sizeof expanded_key);
    must(compact_secret_key() == POLKA_DONE && converted(), "compact_secret_key");
    fill(noise, sizeof noise);
    fill(dummy_noise, sizeof dummy_noise);
    fill_codes(triple, sizeof triple);
    fill_codes(dummy, sizeof dummy);
    fill(entry, sizeof entry);
    fill(entries, sizeof entries);
    must(round_trips(LENT(public_key)), "round trips");
    must(round_trips(LENT(seeded_public_key)), "round trips under a seeded public key");
    must(margin_round_trips(), "round trip with margin");
    must(batch_round_trips(LENT(seeded_public_key), 255), "round trip of a batch under a seeded public key");
    size_t batch_count = count_of(words[1]);
    must(batch_count == 0 || batch_round_trips(LENT(public_key), batch_count), "round trip of a batch");
    clear_batch_out();
    clear_entry_out();
    memset(triple_out, 0, sizeof triple_out);
    if (strcmp(words[1], "expand_secret_key") == 0) {
        memset(expanded_key_out, 0, sizeof expanded_key_out);
    } else if (strcmp(words[1], "compact_secret_key") == 0) {
        memset(secret_key_out, 0, sizeof secret_key_out);
    }

    if (strcmp(words[1], "seal") == 0) {
        secret_noise();
        secret_entry();
        answer = seal(LENT(public_key));
    } else if (strcmp(words[1], "seal_seeded") == 0) {
        secret_noise();
        secret_entry();
        answer = seal(LENT(seeded_public_key));
    } else if (strcmp(words[1], "open") == 0) {
        secret_key_s();
        secret_dummy();
        answer = open_sealed(LENT(secret_key));
    } else if (strcmp(words[1], "open_expanded") == 0) {
        secret_key_s();
        secret_dummy();
        answer = open_sealed(LENT(expanded_key));
    } else if (strcmp(words[1], "open_with_margin") == 0) {
        secret_key_s();
        secret_dummy();
        answer = open_with_margin(LENT(secret_key));
    } else if (strcmp(words[1], "open_with_margin_expanded") == 0) {
        secret_key_s();
        secret_dummy();
        answer = open_with_margin(LENT(expanded_key));
    } else if (strcmp(words[1], "seal_batch_1") == 0 || strcmp(words[1], "seal_batch_255") == 0) {
        secret_noise();
        secret_entries();
        answer = seal_batch(LENT(public_key), batch_count);
    } else if (strcmp(words[1], "seal_batch_seeded_255") == 0) {
        secret_noise();
        secret_entries();
        answer = seal_batch(LENT(seeded_public_key), batch_count);
    } else if (strcmp(words[1], "open_batch_1") == 0 || strcmp(words[1], "open_batch_255") == 0) {
        secret_key_s();
        secret_dummy();
        answer = open_batch(LENT(secret_key), batch_count);
    } else if (strcmp(words[1], "open_batch_expanded_255") == 0) {
        secret_key_s();
        secret_dummy();
        answer = open_batch(LENT(expanded_key), batch_count);
    } else if (strcmp(words[1], "keygen") == 0) {
        secret_key_noise();
        answer = keygen();
    } else if (strcmp(words[1], "keygen_from_seed") == 0) {
        secret_key_noise();
        answer = keygen_from_seed();
    } else if (strcmp(words[1], "check_secret_key") == 0) {
        secret_key_s();
        answer = polka_check_secret_key(LENT(secret_key));
    } else if (strcmp(words[1], "check_secret_key_expanded") == 0) {
        secret_key_s();
        answer = polka_check_secret_key(LENT(expanded_key));
    } else if (strcmp(words[1], "expand_secret_key") == 0) {
        secret_key_s();
        answer = expand_secret_key();
    } else if (strcmp(words[1], "compact_secret_key") == 0) {
        secret_key_s();
        answer = compact_secret_key();
    } else if (strcmp(words[1], "shake128") == 0) {
        secret_noise();
        answer = hash(polka_shake128);
    } else if (strcmp(words[1], "shake256") == 0) {
        secret_noise();
        answer = hash(polka_shake256);
    } else if (strcmp(words[1], "encapsulate") == 0) {
        secret_triple();
        answer = encapsulate(LENT(public_key));
    } else if (strcmp(words[1], "encapsulate_seeded") == 0) {
        secret_triple();
        answer = encapsulate(LENT(seeded_public_key));
    } else if (strcmp(words[1], "decapsulate") == 0) {
        secret_key_s();
        secret_dummy();
        answer = decapsulate(LENT(secret_key));
    } else if (strcmp(words[1], "decapsulate_expanded") == 0) {
        secret_key_s();
        secret_dummy();
        answer = decapsulate(LENT(expanded_key));
    } else {
        must(0, "no such call");
    }
    VALGRIND_MAKE_MEM_DEFINED(&answer, sizeof answer);
    all_defined();
    must(answer == POLKA_DONE, "the call under secrets marked undefined");
    must(converted(), "another key");
    if (strcmp(words[1], "open") == 0 || strcmp(words[1], "open_expanded") == 0) {
        must(memcmp(entry, entry_out, sizeof entry) == 0, "another entry");
    } else if (strncmp(words[1], "open_with_margin", strlen("open_with_margin")) == 0) {
        must(opened_with_margin(), "another entry or margin");
    } else if (strncmp(words[1], "open_batch", strlen("open_batch")) == 0) {
        must(batch_opened(batch_count), "other entries");
    }
    printf("%s: answer %u\n", words[1], (unsigned)answer);
    return 0;
}
