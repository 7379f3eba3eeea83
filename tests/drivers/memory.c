/* Runs the library on vector files, every buffer in an allocation of its own with its exact length, so that memcheck sees a read or
 * a write one byte outside. Prints counts, and fails on a mismatch.
 * usage: memory FOLDER */
#include "cases.h"

static uint32_t make(run_function *run, struct buffer *in, struct buffer *out) {
    return run(in, out);
}

int main(int count, char **words) {
    if (count != 2) {
        fail("usage: memory FOLDER");
    }
    int wrong = 0;
    EVERY_CALL(call) {
        wrong += run_file(words[1], call, make);
    }
    return wrong != 0;
}
