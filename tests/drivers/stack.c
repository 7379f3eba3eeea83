/* Measures the stack that each call takes, over all vectors: the call runs on a thread whose stack is filled with one byte, and the
 * lowest byte that is another afterwards tells. Each case runs under two fillings, since a call may write the filling itself. Fails where
 * a call takes more than polka.h says, or gives a wrong answer.
 * usage: stack FOLDER */
#include <pthread.h>

#include "cases.h"

enum { ROOM = 1 << 20 };

static uint8_t *stack;
static size_t most;

struct job {
    run_function *run;
    struct buffer *in, *out;
    uint32_t answer;
    const uint8_t *start;
};

/* Its own frame counts with the call: some bytes too many, and none too few. */
static void *work(void *lent) {
    struct job *job = lent;
    job->start = __builtin_frame_address(0);
    job->answer = job->run(job->in, job->out);
    return NULL;
}

static uint32_t make(run_function *run, struct buffer *in, struct buffer *out) {
    struct job job = {run, in, out, 0, NULL};
    for (int turn = 0; turn < 2; turn++) {
        int filling = turn == 0 ? 0xa5 : 0x5a;
        memset(stack, filling, ROOM);
        pthread_attr_t attributes;
        pthread_t thread;
        if (pthread_attr_init(&attributes) != 0 || pthread_attr_setstack(&attributes, stack, ROOM) != 0 ||
            pthread_create(&thread, &attributes, work, &job) != 0 || pthread_join(thread, NULL) != 0) {
            fail("no thread");
        }
        pthread_attr_destroy(&attributes);
        const uint8_t *low = stack;
        while (*low == filling) {
            low++;
        }
        size_t taken = (size_t)(job.start - low);
        most = taken > most ? taken : most;
    }
    return job.answer;
}

int main(int count, char **words) {
    if (count != 2) {
        fail("usage: stack FOLDER");
    }
    stack = aligned_alloc(4096, ROOM);
    if (stack == NULL) {
        fail("no memory");
    }
    int wrong = 0;
    EVERY_CALL(call) {
        most = 0;
        wrong += run_file(words[1], call, make);
        int fits = most <= call->stack;
        wrong += !fits;
        printf("%s: %s takes %zu bytes of stack, and polka.h says %zu\n", fits ? "ok" : "WRONG", call->name, most, call->stack);
    }
    free(stack);
    return wrong != 0;
}
