/* Opens a log of sealed entries under one key, as a desk does when the races are over.
 * usage: open_log KEY LOG     KEY is the file of a secret key, expanded or not, LOG a file of sealed entries in a row
 * Each entry has a line: its place from 1, the number, and the entry in hexadecimal digits or `-`, then where a word of it is damaged. A
 * count ends the log, and the places of refused entries by number. Answers 0 if all were opened, 1 if one was refused, 2 if there is no key
 * or no log. */
#include <stdio.h>
#include <stdlib.h>
#include <string.h>
#include <sys/random.h>

#include "location.h"
#include "polka.h"

/* The word for a number, as polka.h has it. A later library may know more of them. */
static const char *word(uint32_t number) {
    static const char *const words[] = {"done",     "misfit",       "stranger",    "other issue",     "off the ring",
                                        "bad code", "no unit",      "parted key",  "dry stream",      "no triple",
                                        "bad tag",  "off the ring", "wrong count", "inverse mismatch"};
    return number < sizeof words / sizeof *words ? words[number] : "unknown";
}

static void stop(const char *what, const char *why) {
    fprintf(stderr, "%s: %s\n", what, why);
    exit(2);
}

static FILE *file_at(const char *path) {
    FILE *file = fopen(path, "rb");
    if (file == NULL) {
        perror(path);
        exit(2);
    }
    return file;
}

/* getrandom may answer a long request in parts. Without random bytes there is nothing to do. */
static void fill(uint8_t *bytes, size_t length) {
    while (length > 0) {
        ssize_t got = getrandom(bytes, length, 0);
        if (got <= 0) {
            stop("getrandom", "no random bytes");
        }
        bytes += got;
        length -= (size_t)got;
    }
}

/* One byte more than a key's tells that a file is too long. */
enum { KEY_ROOM = POLKA_EXPANDED_SECRET_KEY_LENGTH + 1 };

/* Answers the length, which is that of its version. */
static size_t read_key(const char *path, uint8_t key[KEY_ROOM]) {
    FILE *file = file_at(path);
    setvbuf(file, NULL, _IONBF, 0); /* no second copy of the key */
    size_t length = fread(key, 1, KEY_ROOM, file);
    fclose(file);
    uint32_t answer = polka_check_secret_key(key, length);
    if (answer != POLKA_DONE) {
        fprintf(stderr, "%s: refused under %u, %s", path, (unsigned)polka_number(answer), word(polka_number(answer)));
        print_location(stderr, ": ", answer);
        fputs("\n", stderr);
        exit(2);
    }
    return length;
}

/* Answers the number. An entry that is cut off has a wrong length. */
static uint8_t open_entry(const uint8_t *key, size_t key_length, const uint8_t *sealed, size_t length, size_t place) {
    uint8_t dummy[POLKA_TRIPLE_NOISE_LENGTH], entry[POLKA_ENTRY_LENGTH];
    fill(dummy, sizeof dummy);
    uint32_t answer = polka_open(key, key_length, sealed, length, dummy, sizeof dummy, entry, sizeof entry);
    explicit_bzero(dummy, sizeof dummy);
    printf("%zu: %u ", place, (unsigned)polka_number(answer));
    for (size_t i = 0; answer == POLKA_DONE && i < sizeof entry; i++) {
        printf("%02x", entry[i]);
    }
    fputs(answer == POLKA_DONE ? "" : "-", stdout);
    print_location(stdout, " ", answer);
    puts("");
    return (uint8_t)polka_number(answer);
}

static void print_refused(uint32_t number, const uint8_t *numbers, size_t entries) {
    int any = 0;
    for (size_t i = 0; i < entries; i++) {
        if (numbers[i] == number) {
            if (!any) {
                printf("refused under %u, %s:", (unsigned)number, word(number));
            }
            printf("%s %zu", any ? "," : "", i + 1);
            any = 1;
        }
    }
    if (any) {
        puts("");
    }
}

int main(int count, char **paths) {
    static uint8_t key[KEY_ROOM], sealed[POLKA_SEALED_ENTRY_LENGTH];
    if (count != 3) {
        stop("usage", "open_log KEY LOG");
    }
    size_t key_length = read_key(paths[1], key);
    FILE *log = file_at(paths[2]);
    size_t entries = 0, opened = 0, length;
    uint8_t *numbers = NULL;
    while ((length = fread(sealed, 1, sizeof sealed, log)) > 0) {
        numbers = realloc(numbers, entries + 1);
        if (numbers == NULL) {
            stop(paths[2], "no memory");
        }
        numbers[entries] = open_entry(key, key_length, sealed, length, entries + 1);
        opened += numbers[entries] == POLKA_DONE;
        entries++;
    }
    explicit_bzero(key, sizeof key);
    if (ferror(log)) {
        stop(paths[2], "cannot be read");
    }
    printf("%zu entries: %zu opened, %zu refused\n", entries, opened, entries - opened);
    for (uint32_t number = 1; number <= UINT8_MAX; number++) {
        print_refused(number, numbers, entries);
    }
    return opened < entries;
}
