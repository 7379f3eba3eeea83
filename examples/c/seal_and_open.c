/* Makes a key pair from the system's random bytes, seals an entry, opens it, once more with its margin, and shows that a changed tag is
 * refused, and a damaged word, which is named. Then it seals a heat as one batch, opens it, also with the expanded key, which it makes
 * compact again, and shows that one entry less is refused. */
#include <stdio.h>
#include <stdlib.h>
#include <string.h>
#include <sys/random.h>

#include "location.h"
#include "polka.h"

/* getrandom may answer a long request in parts. Without random bytes there is nothing to do. */
static void fill(uint8_t *bytes, size_t length) {
    while (length > 0) {
        ssize_t got = getrandom(bytes, length, 0);
        if (got <= 0) {
            perror("getrandom");
            exit(1);
        }
        bytes += got;
        length -= (size_t)got;
    }
}

static uint32_t make_key(uint8_t public_key[POLKA_PUBLIC_KEY_LENGTH], uint8_t secret_key[POLKA_SECRET_KEY_LENGTH]) {
    uint8_t stream[POLKA_UNIFORM_STREAM_LENGTH], noise_s[POLKA_KEY_NOISE_LENGTH], noise_e[POLKA_KEY_NOISE_LENGTH];
    uint32_t answer;
    do {
        fill(stream, sizeof stream);
        fill(noise_s, sizeof noise_s);
        fill(noise_e, sizeof noise_e);
        answer = polka_keygen(stream, sizeof stream, noise_s, sizeof noise_s, noise_e, sizeof noise_e, public_key,
                              POLKA_PUBLIC_KEY_LENGTH, secret_key, POLKA_SECRET_KEY_LENGTH);
        printf("key generation: %u\n", (unsigned)polka_number(answer));
        /* about one b in sixty is no unit, and a stream may run dry: both call for new bytes */
    } while (answer == POLKA_NOT_INVERTIBLE || answer == POLKA_STREAM_EXHAUSTED);
    explicit_bzero(noise_s, sizeof noise_s);
    explicit_bzero(noise_e, sizeof noise_e);
    return answer;
}

static uint32_t seal(const uint8_t public_key[POLKA_PUBLIC_KEY_LENGTH], const uint8_t entry[POLKA_ENTRY_LENGTH],
                     uint8_t sealed[POLKA_SEALED_ENTRY_LENGTH]) {
    uint8_t noise[POLKA_TRIPLE_NOISE_LENGTH];
    fill(noise, sizeof noise);
    uint32_t answer = polka_seal(public_key, POLKA_PUBLIC_KEY_LENGTH, noise, sizeof noise, entry, POLKA_ENTRY_LENGTH, sealed,
                                 POLKA_SEALED_ENTRY_LENGTH);
    explicit_bzero(noise, sizeof noise);
    return answer;
}

static uint32_t open_sealed(const uint8_t secret_key[POLKA_SECRET_KEY_LENGTH], const uint8_t sealed[POLKA_SEALED_ENTRY_LENGTH],
                            uint8_t entry[POLKA_ENTRY_LENGTH]) {
    uint8_t dummy[POLKA_TRIPLE_NOISE_LENGTH];
    fill(dummy, sizeof dummy);
    uint32_t answer = polka_open(secret_key, POLKA_SECRET_KEY_LENGTH, sealed, POLKA_SEALED_ENTRY_LENGTH, dummy, sizeof dummy, entry,
                                 POLKA_ENTRY_LENGTH);
    explicit_bzero(dummy, sizeof dummy);
    return answer;
}

static uint32_t show_opening(const char *what, const uint8_t secret_key[POLKA_SECRET_KEY_LENGTH],
                             const uint8_t sealed[POLKA_SEALED_ENTRY_LENGTH], uint8_t entry[POLKA_ENTRY_LENGTH]) {
    uint32_t answer = open_sealed(secret_key, sealed, entry);
    printf("%s: %u \"%.*s\"", what, (unsigned)polka_number(answer), POLKA_ENTRY_LENGTH, (const char *)entry);
    print_location(stdout, " ", answer);
    puts("");
    return answer;
}

/* What a service screen shows. It stands at the desk: the margin tells about the secret key, and goes nowhere else. */
static uint32_t show_margin(const uint8_t secret_key[POLKA_SECRET_KEY_LENGTH], const uint8_t sealed[POLKA_SEALED_ENTRY_LENGTH],
                            uint8_t entry[POLKA_ENTRY_LENGTH]) {
    uint8_t dummy[POLKA_TRIPLE_NOISE_LENGTH];
    uint32_t margin = 0;
    fill(dummy, sizeof dummy);
    uint32_t answer = polka_open_with_margin(secret_key, POLKA_SECRET_KEY_LENGTH, sealed, POLKA_SEALED_ENTRY_LENGTH, dummy, sizeof dummy,
                                             entry, POLKA_ENTRY_LENGTH, &margin);
    explicit_bzero(dummy, sizeof dummy);
    printf("open with margin: %u \"%.*s\", margin %u of at most %u\n", (unsigned)polka_number(answer), POLKA_ENTRY_LENGTH,
           (const char *)entry, (unsigned)margin, (unsigned)POLKA_LARGEST_MARGIN);
    explicit_bzero(&margin, sizeof margin);
    return answer;
}

/* Whether all went as it should. */
static int one_entry(const uint8_t public_key[POLKA_PUBLIC_KEY_LENGTH], const uint8_t secret_key[POLKA_SECRET_KEY_LENGTH]) {
    static uint8_t sealed[POLKA_SEALED_ENTRY_LENGTH];
    const uint8_t entry[POLKA_ENTRY_LENGTH + 1] = "lane 4, 00:47.52";
    uint8_t opened[POLKA_ENTRY_LENGTH] = {0};

    uint32_t answer = seal(public_key, entry, sealed);
    printf("seal \"%s\": %u\n", (const char *)entry, (unsigned)polka_number(answer));
    if (answer != POLKA_DONE) {
        return 0;
    }

    answer = show_opening("open", secret_key, sealed, opened);
    if (answer != POLKA_DONE || memcmp(entry, opened, POLKA_ENTRY_LENGTH) != 0) {
        return 0;
    }

    memset(opened, '.', sizeof opened);
    answer = show_margin(secret_key, sealed, opened);
    if (answer != POLKA_DONE || memcmp(entry, opened, POLKA_ENTRY_LENGTH) != 0) {
        return 0;
    }

    sealed[POLKA_SEALED_ENTRY_LENGTH - 1] ^= 1;
    memset(opened, '.', sizeof opened);
    answer = show_opening("open with a changed tag", secret_key, sealed, opened);
    if (answer != POLKA_TAG_MISMATCH) {
        return 0;
    }

    /* word 17 of c2, behind mark, version and c1 */
    memset(sealed + 5 + 2 * (1024 + 17), 0xff, 2);
    answer = show_opening("open with a damaged word", secret_key, sealed, opened);
    return polka_number(answer) == POLKA_ENCAPSULATION_OUT_OF_RANGE;
}

static uint32_t seal_batch(const uint8_t public_key[POLKA_PUBLIC_KEY_LENGTH], const uint8_t *entries, size_t count, uint8_t *batch) {
    uint8_t noise[POLKA_TRIPLE_NOISE_LENGTH];
    fill(noise, sizeof noise);
    uint32_t answer = polka_seal_batch(public_key, POLKA_PUBLIC_KEY_LENGTH, noise, sizeof noise, entries, POLKA_ENTRY_LENGTH * count,
                                       batch, POLKA_BATCH_LENGTH(count));
    explicit_bzero(noise, sizeof noise);
    return answer;
}

/* Opens with a key of either version and prints the entries, a line each; there are none where the batch is refused. */
static uint32_t show_batch(const char *what, const uint8_t *secret_key, size_t key_length, const uint8_t *batch, size_t length) {
    static uint8_t entries[POLKA_BATCH_ENTRIES_LENGTH];
    uint8_t dummy[POLKA_TRIPLE_NOISE_LENGTH];
    uint32_t count = 0;
    fill(dummy, sizeof dummy);
    uint32_t answer = polka_open_batch(secret_key, key_length, batch, length, dummy, sizeof dummy, entries, sizeof entries, &count);
    explicit_bzero(dummy, sizeof dummy);
    printf("%s: %u, %u entries\n", what, (unsigned)polka_number(answer), (unsigned)count);
    for (uint32_t i = 0; i < count; i++) {
        printf("   \"%.*s\"\n", POLKA_ENTRY_LENGTH, (const char *)entries + POLKA_ENTRY_LENGTH * i);
    }
    explicit_bzero(entries, sizeof entries);
    return answer;
}

/* What a desk does once with its key, and what it does for an old desk. */
static int with_expanded_key(const uint8_t secret_key[POLKA_SECRET_KEY_LENGTH], const uint8_t *batch, size_t length) {
    static uint8_t expanded_key[POLKA_EXPANDED_SECRET_KEY_LENGTH], compact_key[POLKA_SECRET_KEY_LENGTH];

    uint32_t answer = polka_expand_secret_key(secret_key, POLKA_SECRET_KEY_LENGTH, expanded_key, sizeof expanded_key);
    printf("expand the key: %u, %zu bytes\n", (unsigned)polka_number(answer), sizeof expanded_key);
    int right = answer == POLKA_DONE &&
                show_batch("open the batch with it", expanded_key, sizeof expanded_key, batch, length) == POLKA_DONE;
    if (right) {
        answer = polka_compact_secret_key(expanded_key, sizeof expanded_key, compact_key, sizeof compact_key);
        right = answer == POLKA_DONE && memcmp(secret_key, compact_key, sizeof compact_key) == 0;
        printf("compact it: %u, %s key\n", (unsigned)polka_number(answer), right ? "the same" : "another");
    }
    explicit_bzero(expanded_key, sizeof expanded_key);
    explicit_bzero(compact_key, sizeof compact_key);
    return right;
}

static int heat(const uint8_t public_key[POLKA_PUBLIC_KEY_LENGTH], const uint8_t secret_key[POLKA_SECRET_KEY_LENGTH]) {
    enum { LANES = 3, COUNT_AT = 4101 };
    static uint8_t batch[POLKA_BATCH_LENGTH(LANES)];
    const char entries[] = "lane 3, 00:48.10"
                           "lane 4, 00:47.52"
                           "lane 5, 00:47.90";

    uint32_t answer = seal_batch(public_key, (const uint8_t *)entries, LANES, batch);
    printf("seal a batch of %d: %u, %zu bytes\n", LANES, (unsigned)polka_number(answer), sizeof batch);
    if (answer != POLKA_DONE ||
        show_batch("open the batch", secret_key, POLKA_SECRET_KEY_LENGTH, batch, sizeof batch) != POLKA_DONE ||
        !with_expanded_key(secret_key, batch, sizeof batch)) {
        return 0;
    }

    /* the count fits again, and the tag stands behind the blocks that are left: only the tag tells */
    batch[COUNT_AT] = LANES - 1;
    memmove(batch + sizeof batch - 2 * POLKA_ENTRY_LENGTH, batch + sizeof batch - POLKA_ENTRY_LENGTH, POLKA_ENTRY_LENGTH);
    answer = show_batch("open it without its last entry", secret_key, POLKA_SECRET_KEY_LENGTH, batch, POLKA_BATCH_LENGTH(LANES - 1));
    return answer == POLKA_TAG_MISMATCH;
}

int main(void) {
    static uint8_t public_key[POLKA_PUBLIC_KEY_LENGTH], secret_key[POLKA_SECRET_KEY_LENGTH];

    if (make_key(public_key, secret_key) != POLKA_DONE) {
        return 1;
    }
    uint32_t answer = polka_check_secret_key(secret_key, sizeof secret_key);
    printf("key check: %u\n", (unsigned)polka_number(answer));
    if (answer != POLKA_DONE) {
        return 1;
    }
    return one_entry(public_key, secret_key) && heat(public_key, secret_key) ? 0 : 1;
}
