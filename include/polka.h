/* POLKA at 1,024 coefficients with SHAKE256: the calls of the proved library libpolka.a.
 *
 * A desk makes a key pair (polka_keygen, or polka_keygen_from_seed for a public key half as long); a console seals 16-byte entries under
 * the public key (polka_seal); the desk opens them (polka_open). A batch has up to 255 entries under one encapsulation (polka_seal_batch,
 * polka_open_batch). polka_encapsulate and polka_decapsulate are the scheme without an entry. A secret key of version 2 is expanded: it
 * carries the inverse of b, which then need not be found at each opening (polka_expand_secret_key, polka_compact_secret_key). The openings
 * and polka_check_secret_key take either version. Service staff at the desk see how near an opening came to its edge
 * (polka_open_with_margin).
 *
 * For all calls:
 * - A buffer is a pointer and its length in bytes. The pointer is not null, also where the length is 0.
 * - Every call looks at all lengths first, and refuses another length than named here. How long a secret key is hangs on its version: of
 *   its length a call first asks only whether it has the 5 bytes of mark and version, and asks for that of the version behind these. How
 *   long a batch is hangs on its count of entries, so the calls on batches have an order of their own, which stands with them.
 * - An output, and a number that is lent to be written, may overlap no other buffer of the call, input or output. Inputs may overlap each
 *   other.
 * - The answer is a code: POLKA_DONE, which is 0, exactly when the call is done, and else a refusal. polka_number gives its number, one of
 *   enum polka_answer. Under POLKA_KEY_OUT_OF_RANGE and POLKA_ENCAPSULATION_OUT_OF_RANGE the code also tells where the first word of
 *   59,393 or more stands (polka_record, polka_part, polka_index); every other code is its number. Later versions may add numbers, records
 *   and parts.
 * - The numbers that a call can answer stand with it, in the order of its checks.
 * - Under any answer but POLKA_DONE every output byte, and a lent number, is as it was before the call.
 * - Under POLKA_DONE every byte of every output is written; of the output of polka_open_batch only the entries are, and every byte behind
 *   them is as it was before the call.
 * - The library keeps no state: calls may run at the same time on several threads.
 * - It draws no random bytes: streams, seeds and noise come from the caller. They must be uniform and new for every call, and noise is
 *   secret.
 * - The caller overwrites secrets that are no longer needed; the margin of polka_open_with_margin is one.
 * - It needs memcpy and memset of its surroundings and nothing else: no heap, no system call.
 *
 * What is proved of the calls, what that rests on, and what no proof says (time, caches, secrets left on the stack, and that this header
 * declares what the archive has) is in docs/TRUST.md.
 */
#ifndef POLKA_H
#define POLKA_H

#include <stddef.h>
#include <stdint.h>

/* The version of these declarations. The minor number rises with each change that callers can see, and until there is a major one such a
 * change may be a break.
 * 0.2: four bits of noise, t0 the lowest, give t0 - t1 + t2 - t3, where 2 becomes -1 and -2 becomes 1. It was t0 + t1 - t2 - t3. So the same
 * bytes make another key and another sealed entry; what was made before still opens.
 * 0.3: adds polka_shake128, polka_keygen_from_seed and the seeded public key, which polka_seal and polka_encapsulate take too. A key of its
 * length was POLKA_WRONG_LENGTH before.
 * 0.4: the answer is a code, and tells where a bad word stands. 4, POLKA_COEFFICIENT_OUT_OF_RANGE before, is POLKA_KEY_OUT_OF_RANGE and of
 * keys alone; encapsulations and sealed entries have POLKA_ENCAPSULATION_OUT_OF_RANGE, 11. Who compared the answer with 4, or used it as
 * a number, must use polka_number(answer). Comparisons with other numbers hold as they are.
 * 0.5: adds batches, polka_seal_batch and polka_open_batch, and the number 12, POLKA_WRONG_COUNT, which they alone answer.
 * 0.6: adds expanded secret keys, polka_expand_secret_key and polka_compact_secret_key, the number 13, POLKA_INVERSE_MISMATCH, and the part
 * POLKA_PART_STORED_INVERSE. The calls that are lent a secret key take either version, and tell its mark and version, 2 and 3, before a
 * length that is not its version's; only one under 5 bytes is still 1 before them. Before, every other length was 1 first.
 * 0.7: adds polka_open_with_margin and POLKA_LARGEST_MARGIN. What was there before answers as it did.
 * 0.8: the calls take more stack, all but the two of SHAKE, and their POLKA_.._STACK say so. Who gives a thread that much must compile anew.
 * All calls answer as they did. */
#define POLKA_VERSION_MAJOR 0
#define POLKA_VERSION_MINOR 8
#define POLKA_VERSION_PATCH 0
#define POLKA_VERSION "0.8.0"

/* The compiler warns where an answer is not looked at. */
#if (defined(__cplusplus) && __cplusplus >= 201703L) || (defined(__STDC_VERSION__) && __STDC_VERSION__ >= 202311L)
#define POLKA_ANSWER [[nodiscard]]
#elif defined(__GNUC__)
#define POLKA_ANSWER __attribute__((warn_unused_result))
#else
#define POLKA_ANSWER
#endif

#ifdef __cplusplus
extern "C" {
#endif

/* Lengths in bytes. The word of documents 01 and 02, the buyer's scope and change requests, is in brackets where it is another. */
#define POLKA_PUBLIC_KEY_LENGTH 4101          /* "PDK", version, a, b */
#define POLKA_SEEDED_PUBLIC_KEY_LENGTH 2085   /* "PDS", version, seed, b (short key) */
#define POLKA_SECRET_KEY_LENGTH 4357          /* "SDK", version 1, a, b, s (desk key) */
#define POLKA_EXPANDED_SECRET_KEY_LENGTH 6405 /* "SDK", version 2, a, b, s, inverse of b */
#define POLKA_SEALED_ENTRY_LENGTH 4133        /* "PLG", version, c1, c2, body, tag */
#define POLKA_ENCAPSULATION_LENGTH 4096       /* c1, c2 (bare capsule) */
#define POLKA_TRIPLE_LENGTH 768               /* r, e1, e2, two bits a coefficient */
#define POLKA_ENTRY_LENGTH 16                 /* what is sealed */
#define POLKA_UNIFORM_STREAM_LENGTH 2688      /* random bytes for a (lent stream) */
#define POLKA_SEED_LENGTH 32                  /* random bytes that stand for a: SHAKE128 makes the stream of them */
#define POLKA_KEY_NOISE_LENGTH 512            /* random bytes for s, or for e */
#define POLKA_TRIPLE_NOISE_LENGTH 1536        /* random bytes for a triple: of a sealing, or the dummy of an opening */
#define POLKA_BATCH_ENTRIES_LENGTH 4080       /* the most entries of a batch in a row: what polka_open_batch is lent for them */

/* A batch: "PLG", version 2, c1, c2, count of entries, body, tag (heat). It has 1 to POLKA_BATCH_MOST_ENTRIES entries; its length is
 * 4,119 and 16 for each of them. */
#define POLKA_BATCH_MOST_ENTRIES 255
#define POLKA_BATCH_LENGTH(entries) (4119 + POLKA_ENTRY_LENGTH * (size_t)(entries))

/* The largest margin of a sealed entry that opens. */
#define POLKA_LARGEST_MARGIN 4096

/* The stack that each call takes at most, in bytes, what memcpy and memset take aside. Measured, not proved: tests/stack.sh fails where a
 * call takes more. No call takes more for longer input. */
#define POLKA_KEYGEN_STACK (85 * 1024)
#define POLKA_KEYGEN_FROM_SEED_STACK (91 * 1024)
#define POLKA_CHECK_SECRET_KEY_STACK (85 * 1024)
#define POLKA_EXPAND_SECRET_KEY_STACK (125 * 1024)
#define POLKA_COMPACT_SECRET_KEY_STACK (113 * 1024)
#define POLKA_ENCAPSULATE_STACK (87 * 1024)
#define POLKA_DECAPSULATE_STACK (171 * 1024)
#define POLKA_SEAL_STACK (103 * 1024)
#define POLKA_OPEN_STACK (161 * 1024)
#define POLKA_OPEN_WITH_MARGIN_STACK (163 * 1024)
#define POLKA_SEAL_BATCH_STACK (113 * 1024)
#define POLKA_OPEN_BATCH_STACK (161 * 1024)
#define POLKA_SHAKE128_STACK (2 * 1024)
#define POLKA_SHAKE256_STACK (2 * 1024)

/* The numbers of the answers, with document 01's word. 11 to 13 are of document 02, which has no words of its own for them. */
enum polka_answer {
    POLKA_DONE = 0,
    POLKA_WRONG_LENGTH = 1,                /* misfit: a buffer, input or output, hasn't its exact length */
    POLKA_WRONG_MARK = 2,                  /* stranger: the mark is another */
    POLKA_WRONG_VERSION = 3,               /* other issue: no version of the record: 2 of a batch, 1 or 2 of a secret key, 1 of others */
    POLKA_KEY_OUT_OF_RANGE = 4,            /* off the ring: a word of a key is 59,393 or more */
    POLKA_INVALID_CODE = 5,                /* bad code: a two-bit code is 3 */
    POLKA_NOT_INVERTIBLE = 6,              /* no unit: b has no inverse */
    POLKA_KEY_MISMATCH = 7,                /* parted key: b / 5 - a s is not ternary (short) */
    POLKA_STREAM_EXHAUSTED = 8,            /* dry stream: under 1,024 words of the stream are below 59,393 */
    POLKA_DECAPSULATION_FAILURE = 9,       /* no triple: a step of the opening fails */
    POLKA_TAG_MISMATCH = 10,               /* bad tag: the tag is not that of the body */
    POLKA_ENCAPSULATION_OUT_OF_RANGE = 11, /* off the ring: a word of an encapsulation, sealed entry or batch is 59,393 or more */
    POLKA_WRONG_COUNT = 12,                /* wrong count: a batch is of 1 to 255 entries */
    POLKA_INVERSE_MISMATCH = 13            /* inverse mismatch: b times the stored inverse is not 1 */
};

/* The record that has the word. A key is judged before what is opened with it, so the key is named where both have one. */
enum polka_record_code {
    POLKA_RECORD_PUBLIC_KEY = 1,
    POLKA_RECORD_SEEDED_PUBLIC_KEY = 2,
    POLKA_RECORD_SECRET_KEY = 3,
    POLKA_RECORD_SEALED_ENTRY = 4, /* of one entry, or a batch */
    POLKA_RECORD_ENCAPSULATION = 5
};

/* The part of that record: a is judged before b, b before the inverse that is stored of it, c1 before c2. */
enum polka_part_code {
    POLKA_PART_A = 1,
    POLKA_PART_B = 2,
    POLKA_PART_STORED_INVERSE = 3, /* of an expanded secret key */
    POLKA_PART_C1 = 4,
    POLKA_PART_C2 = 5
};

/* The number of an answer, bits 0 to 7. */
static inline uint32_t polka_number(uint32_t answer) {
    return answer & 0xff;
}

/* Its part, bits 8 to 11: one of enum polka_part_code, or 0 under any number but 4 and 11. */
static inline uint32_t polka_part(uint32_t answer) {
    return (answer >> 8) & 0xf;
}

/* Its record, bits 12 to 15: one of enum polka_record_code, or 0 under any number but 4 and 11. */
static inline uint32_t polka_record(uint32_t answer) {
    return (answer >> 12) & 0xf;
}

/* The index of the word in its part, bits 16 to 27: 0 to 1,023, and 0 under any number but 4 and 11. */
static inline uint32_t polka_index(uint32_t answer) {
    return (answer >> 16) & 0xfff;
}

/* The place of the record among several in one buffer, bits 28 to 31: 0, since no call of this version is lent several. */
static inline uint32_t polka_place(uint32_t answer) {
    return answer >> 28;
}

/* Makes a key pair. It tries once: under 6 (about one try in sixty) and 8 try again with new bytes.
 * Answers 0; 1, 8, 6, in this order. */
POLKA_ANSWER
uint32_t polka_keygen(const uint8_t *stream, size_t stream_length,    /* POLKA_UNIFORM_STREAM_LENGTH */
                      const uint8_t *noise_s, size_t noise_s_length,  /* POLKA_KEY_NOISE_LENGTH */
                      const uint8_t *noise_e, size_t noise_e_length,  /* POLKA_KEY_NOISE_LENGTH */
                      uint8_t *public_key, size_t public_key_length,  /* POLKA_PUBLIC_KEY_LENGTH, written */
                      uint8_t *secret_key, size_t secret_key_length); /* POLKA_SECRET_KEY_LENGTH, written */

/* Makes a key pair whose public key holds a seed in place of a. The secret key is like any other. It tries once, as polka_keygen does.
 * Answers 0; 1, 8, 6, in this order. */
POLKA_ANSWER
uint32_t polka_keygen_from_seed(const uint8_t *seed, size_t seed_length,        /* POLKA_SEED_LENGTH */
                                const uint8_t *noise_s, size_t noise_s_length,  /* POLKA_KEY_NOISE_LENGTH */
                                const uint8_t *noise_e, size_t noise_e_length,  /* POLKA_KEY_NOISE_LENGTH */
                                uint8_t *public_key, size_t public_key_length,  /* POLKA_SEEDED_PUBLIC_KEY_LENGTH, written */
                                uint8_t *secret_key, size_t secret_key_length); /* POLKA_SECRET_KEY_LENGTH, written */

/* Whether a secret key of either version is sound. All calls that are lent one make this check themselves.
 * Answers 0; 1 where it has less than 5 bytes; 2; 3 where its version is not 1 or 2; 1 where its length is not that of its version; 4 (of
 * a, b, stored inverse); 5; 6 (version 1) or 13 (version 2, also where b has no inverse); 7. */
POLKA_ANSWER
uint32_t polka_check_secret_key(const uint8_t *secret_key, size_t secret_key_length); /* POLKA_SECRET_KEY_LENGTH, or expanded */

/* The expanded secret key of a secret key of version 1: the same a, b and s, and the inverse of b. It is as secret as the other. Both give
 * the same answers, and polka_compact_secret_key gives the first bytes back.
 * Answers 0; 1 where the key has less than 5 bytes, or for the output; 2; 3 where its version is not 1; 1 for its length; 4, 5, 6,
 * 7. */
POLKA_ANSWER
uint32_t polka_expand_secret_key(const uint8_t *secret_key, size_t secret_key_length, /* POLKA_SECRET_KEY_LENGTH */
                                 uint8_t *expanded_key, size_t expanded_key_length);  /* POLKA_EXPANDED_SECRET_KEY_LENGTH, written */

/* The secret key of version 1 of an expanded one, for desks that know no other. polka_expand_secret_key gives the first bytes back.
 * Answers 0; 1 where the key has less than 5 bytes, or for the output; 2; 3 where its version is not 2; 1 for its length; 4 (of a, b,
 * stored inverse), 5, 13, 7. */
POLKA_ANSWER
uint32_t polka_compact_secret_key(const uint8_t *expanded_key, size_t expanded_key_length, /* POLKA_EXPANDED_SECRET_KEY_LENGTH */
                                  uint8_t *secret_key, size_t secret_key_length);          /* POLKA_SECRET_KEY_LENGTH, written */

/* The encapsulation of a triple (capsule making). The length of the public key tells its record; the other record's mark is then 2.
 * Answers 0; 1; for the key 2, 3, 4, 8 (of a seed), 6; for the triple 5. */
POLKA_ANSWER
uint32_t polka_encapsulate(const uint8_t *public_key, size_t public_key_length,  /* POLKA_PUBLIC_KEY_LENGTH, or that of a seeded one */
                           const uint8_t *triple, size_t triple_length,          /* POLKA_TRIPLE_LENGTH */
                           uint8_t *encapsulation, size_t encapsulation_length); /* POLKA_ENCAPSULATION_LENGTH, written */

/* The triple of an encapsulation (bare opening). The dummy has no part in the answer, and neither has the version of a sound key.
 * Answers 0; 1 where the key has less than 5 bytes, or for any other buffer; for the key 2, 3, 1 (its version's length), 4, 5, 6 or 13, 7,
 * as polka_check_secret_key; for the encapsulation 11; for the dummy 5; 9. */
POLKA_ANSWER
uint32_t polka_decapsulate(const uint8_t *secret_key, size_t secret_key_length,       /* POLKA_SECRET_KEY_LENGTH, or expanded */
                           const uint8_t *encapsulation, size_t encapsulation_length, /* POLKA_ENCAPSULATION_LENGTH */
                           const uint8_t *dummy, size_t dummy_length,                 /* POLKA_TRIPLE_LENGTH */
                           uint8_t *triple, size_t triple_length);                    /* POLKA_TRIPLE_LENGTH, written */

/* Seals an entry. The noise is the whole secret of this one sealing. The public key is judged as by polka_encapsulate; equal a and b give
 * equal bytes under both records.
 * Answers 0; 1; for the key 2, 3, 4, 8 (of a seed), 6. */
POLKA_ANSWER
uint32_t polka_seal(const uint8_t *public_key, size_t public_key_length, /* POLKA_PUBLIC_KEY_LENGTH, or that of a seeded one */
                    const uint8_t *noise, size_t noise_length,           /* POLKA_TRIPLE_NOISE_LENGTH */
                    const uint8_t *entry, size_t entry_length,           /* POLKA_ENTRY_LENGTH */
                    uint8_t *sealed, size_t sealed_length);              /* POLKA_SEALED_ENTRY_LENGTH, written */

/* Opens a sealed entry. The dummy noise has no part in the answer, and neither has the version of a sound key.
 * Answers 0; 1 where the key has less than 5 bytes, or for any other buffer; for the key 2, 3, 1 (its version's length), 4, 5, 6 or 13, 7,
 * as polka_check_secret_key; for the sealed entry 2, 3, 11; 9; 10. */
POLKA_ANSWER
uint32_t polka_open(const uint8_t *secret_key, size_t secret_key_length,   /* POLKA_SECRET_KEY_LENGTH, or expanded */
                    const uint8_t *sealed, size_t sealed_length,           /* POLKA_SEALED_ENTRY_LENGTH */
                    const uint8_t *dummy_noise, size_t dummy_noise_length, /* POLKA_TRIPLE_NOISE_LENGTH */
                    uint8_t *entry, size_t entry_length);                  /* POLKA_ENTRY_LENGTH, written */

/* Opens a sealed entry as polka_open does, and under 0 also writes to *margin how near the opening came to its edge, for the desk's
 * service screen: the largest size of a coefficient of w, where m = E2 + 5 w in steps 2 and 3 of document 01's opening, m centred and E2
 * from -2 to 2. A larger margin is nearer to the edge. It is at most POLKA_LARGEST_MARGIN, and at most 2 W under a key whose s and e have W
 * nonzero coefficients together; on any input w is at most 5,939 in size. Number and entry are those of polka_open, which no dummy changes.
 * The margin does vary with the dummy; under one dummy both versions of a sound key give the same.
 * The margin belongs to the desk's secret side: it tells about the secret key and the triple. Show it to service staff at the desk only;
 * never send it to a console, nor write it to a log that leaves the desk.
 * Answers 0; 1 where the key has less than 5 bytes, or for any other buffer; for the key 2, 3, 1 (its version's length), 4, 5, 6 or 13, 7,
 * as polka_check_secret_key; for the sealed entry 2, 3, 11; 9; 10. */
POLKA_ANSWER
uint32_t polka_open_with_margin(const uint8_t *secret_key, size_t secret_key_length,   /* POLKA_SECRET_KEY_LENGTH, or expanded */
                                const uint8_t *sealed, size_t sealed_length,           /* POLKA_SEALED_ENTRY_LENGTH */
                                const uint8_t *dummy_noise, size_t dummy_noise_length, /* POLKA_TRIPLE_NOISE_LENGTH */
                                uint8_t *entry, size_t entry_length,                   /* POLKA_ENTRY_LENGTH, written */
                                uint32_t *margin);                                     /* one number, written */

/* Seals 1 to 255 entries as one batch: 16 bytes an entry and one encapsulation for all of them, where polka_seal makes one for each. The
 * noise is the whole secret of this one sealing. The public key is judged as by polka_seal.
 * Answers 0; 1 where the entries are no multiple of 16 bytes; 12 where there are none of them, or more than 255; 1 for any other buffer;
 * for the key 2, 3, 4, 8 (of a seed), 6. */
POLKA_ANSWER
uint32_t polka_seal_batch(const uint8_t *public_key, size_t public_key_length, /* POLKA_PUBLIC_KEY_LENGTH, or that of a seeded one */
                          const uint8_t *noise, size_t noise_length,           /* POLKA_TRIPLE_NOISE_LENGTH */
                          const uint8_t *entries, size_t entries_length,       /* POLKA_ENTRY_LENGTH times their count */
                          uint8_t *batch, size_t batch_length);                /* POLKA_BATCH_LENGTH of their count, written */

/* Opens a batch: all entries in their order, or none. It takes version 2 alone, and polka_open version 1 alone. Under 0 the count of
 * entries, 1 to 255, is written to *count, and the entries to the first 16 * *count bytes of the output; the bytes behind them stay as
 * they were. The dummy noise has no part in the answer, and neither has the version of a sound key.
 * Answers 0; 1 where the key has less than 5 bytes or the batch less than 4,119, or for any other buffer; for the key 2, 3, 1 (its
 * version's length), 4, 5, 6 or 13, 7, as polka_check_secret_key; for the batch 2, 3; 12 where its count is not 1 to 255; 1 where its
 * length does not fit its count; 11; 9; 10. */
POLKA_ANSWER
uint32_t polka_open_batch(const uint8_t *secret_key, size_t secret_key_length,   /* POLKA_SECRET_KEY_LENGTH, or expanded */
                          const uint8_t *batch, size_t batch_length,             /* POLKA_BATCH_LENGTH of its count */
                          const uint8_t *dummy_noise, size_t dummy_noise_length, /* POLKA_TRIPLE_NOISE_LENGTH */
                          uint8_t *entries, size_t entries_length,               /* POLKA_BATCH_ENTRIES_LENGTH, written in part */
                          uint32_t *count);                                      /* one number, written */

/* The first output_length bytes of SHAKE128, or of SHAKE256, of the input. Both lengths are free; they refuse nothing. */
void polka_shake128(const uint8_t *input, size_t input_length,
                    uint8_t *output, size_t output_length);
void polka_shake256(const uint8_t *input, size_t input_length,
                    uint8_t *output, size_t output_length);

#ifdef __cplusplus
}
#endif

#endif
