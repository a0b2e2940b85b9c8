/* Four threads use one handle under a mutex, and each builds, searches and frees in turn; and each
 * uses a handle of its own with no mutex. */
#include "want.h"
#include <pthread.h>

#define THREADS 4
#define ROUNDS 200

static pthread_mutex_t mutex = PTHREAD_MUTEX_INITIALIZER;
static regex_lite shared = REGEX_LITE_NOTHING;
static regex_lite_searcher shared_searcher = REGEX_LITE_NOTHING;
static long built, searched;

static regex_lite_answer build(regex_lite *regex) {
    uint8_t message[100];
    size_t len;
    return regex_lite_new(regex, TEXT("(a+)b"), &defaults, message, sizeof message, &len);
}

/* Whether the pattern is found where it stands. */
static bool is_found(regex_lite *regex) {
    regex_lite_span spans[2] = {{false, 9, 9}, {false, 9, 9}};
    size_t count = 0;
    return regex_lite_captures(regex, TEXT("xaab"), 0, spans, 2, &count) == REGEX_LITE_YES &&
           count == 2 && spans[0].start == 1 && spans[0].end == 4 && spans[1].start == 1 &&
           spans[1].end == 3;
}

/* Whether a searcher finds it too. */
static bool is_found_by(regex_lite_searcher *searcher) {
    regex_lite_span spans[2] = {{false, 9, 9}, {false, 9, 9}};
    size_t count = 0;
    return regex_lite_searcher_read(searcher, TEXT("xaab")) == REGEX_LITE_YES &&
           regex_lite_searcher_captures(searcher, 0, spans, 2, &count) == REGEX_LITE_YES &&
           count == 2 && spans[0].start == 1 && spans[0].end == 4 && spans[1].end == 3;
}

/* Builds where nothing is held, and else searches. In each third round it frees, and in each third
 * it makes a searcher of what is held. */
static long use_shared(int round) {
    long wrong = 0;
    if (regex_lite_groups(&shared) == 0) {
        wrong += build(&shared) != REGEX_LITE_YES;
        built++;
    }
    wrong += !is_found(&shared);
    searched++;
    if (round % 3 == 0) regex_lite_free(&shared);
    if (round % 3 == 1)
        wrong += regex_lite_searcher_new(&shared_searcher, &shared) != REGEX_LITE_YES;
    if (round > 0) wrong += !is_found_by(&shared_searcher);
    return wrong;
}

static void *run(void *wrong) {
    regex_lite own = REGEX_LITE_NOTHING, other = REGEX_LITE_NOTHING;
    regex_lite_searcher searcher = REGEX_LITE_NOTHING;
    int round;
    if (build(&own) != REGEX_LITE_YES || build(&other) != REGEX_LITE_YES ||
        regex_lite_searcher_new(&searcher, &other) != REGEX_LITE_YES)
        ++*(long *)wrong;
    for (round = 0; round < ROUNDS; round++) {
        pthread_mutex_lock(&mutex);
        *(long *)wrong += use_shared(round);
        pthread_mutex_unlock(&mutex);
        if (!is_found(&own) || !is_found_by(&searcher)) ++*(long *)wrong;
    }
    regex_lite_free(&own);
    regex_lite_searcher_free(&searcher);
    return NULL;
}

int main(void) {
    pthread_t threads[THREADS];
    long wrong[THREADS] = {0};
    int i;
    for (i = 0; i < THREADS; i++) WANT(pthread_create(&threads[i], NULL, run, &wrong[i]) == 0);
    for (i = 0; i < THREADS; i++) WANT(pthread_join(threads[i], NULL) == 0);
    for (i = 0; i < THREADS; i++) WANT(wrong[i] == 0);
    WANT(searched == THREADS * ROUNDS && built >= ROUNDS / 3);
    /* What one thread has built another frees. */
    regex_lite_free(&shared);
    regex_lite_searcher_free(&shared_searcher);
    WANT(shared.place == NULL && shared_searcher.place == NULL);
    if (failed == 0) puts("threads: all is so");
    return failed != 0;
}
