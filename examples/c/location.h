/* Where a bad word stands, in words: "sealed entry, c2, word 17". */
#ifndef LOCATION_H
#define LOCATION_H

#include <stdio.h>

#include "polka.h"

static const char *record_words(uint32_t answer) {
    switch (polka_record(answer)) {
    case POLKA_RECORD_PUBLIC_KEY:
        return "public key";
    case POLKA_RECORD_SEEDED_PUBLIC_KEY:
        return "seeded public key";
    case POLKA_RECORD_SECRET_KEY:
        return "secret key";
    case POLKA_RECORD_SEALED_ENTRY:
        return "sealed entry";
    case POLKA_RECORD_ENCAPSULATION:
        return "encapsulation";
    default:
        return "unknown record";
    }
}

static const char *part_words(uint32_t answer) {
    switch (polka_part(answer)) {
    case POLKA_PART_A:
        return "a";
    case POLKA_PART_B:
        return "b";
    case POLKA_PART_STORED_INVERSE:
        return "stored inverse";
    case POLKA_PART_C1:
        return "c1";
    case POLKA_PART_C2:
        return "c2";
    default:
        return "unknown part";
    }
}

/* With `before` in front of it; nothing where the answer tells of no bad word. */
static void print_location(FILE *file, const char *before, uint32_t answer) {
    if (polka_record(answer) != 0) {
        fprintf(file, "%s%s, %s, word %u", before, record_words(answer), part_words(answer), (unsigned)polka_index(answer));
    }
}

#endif
