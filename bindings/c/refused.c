/* Refuses in turn each request for memory while inputs are read: the code is NO_MEMORY, the answer is as it was, and nothing
 * leaks. Where nothing is refused any more, the code is DONE. It is linked with --wrap=malloc, realloc and free. */
#include "rows.h"
#include <stdio.h>

void *__real_malloc(size_t bytes);
void *__real_realloc(void *old, size_t bytes);
void __real_free(void *old);

static long left, held; /* how many requests are granted until one is refused, and how much is held */
static int counting;

static int is_refused(void) { return counting && left-- == 0; }

void *__wrap_malloc(size_t bytes) {
    if (is_refused()) return NULL;
    held += counting;
    return __real_malloc(bytes);
}

void *__wrap_realloc(void *old, size_t bytes) {
    if (is_refused()) return NULL;
    held += counting && old == NULL;
    return __real_realloc(old, bytes);
}

void __wrap_free(void *old) {
    held -= counting && old != NULL;
    __real_free(old);
}

static dephungo_step steps[64];
static dephungo_spec specs[64];
static dephungo_fault faults[64];
static dephungo_range lines[64];
static uint8_t texts[8192];
static dephungo_peek peeks[64];
static void *const buffers[BUFFERS] = {steps, specs, faults, texts, lines, peeks};
static const size_t rooms[BUFFERS] = {64, 64, 64, sizeof texts, 64, 64};

/* How many requests of a row were refused in turn, or -1 where a call did not do what it has to. */
static long refuse_each(const row *r) {
    dephungo_answer before, answer;
    memset(&before, 0x5a, sizeof before);
    for (long n = 0; n < 10000; n++) {
        left = n;
        answer = before;
        counting = 1;
        uint32_t code = read_row(r, buffers, rooms, &answer);
        counting = 0;
        if (held != 0) return printf("%s: %ld is not given back at request %ld\n", r->input, held, n), -1;
        if (left >= 0) {
            if (code == DEPHUNGO_DONE && answer.steps > 0) return n;
            return printf("%s: code %u where nothing was refused\n", r->input, (unsigned)code), -1;
        }
        if (code != DEPHUNGO_NO_MEMORY) return printf("%s: code %u at request %ld\n", r->input, (unsigned)code, n), -1;
        if (memcmp(&answer, &before, sizeof answer) != 0) return printf("%s: another answer at request %ld\n", r->input, n), -1;
    }
    return printf("%s: no end of requests\n", r->input), -1;
}

int main(void) {
    long passed = 0, failed = 0, requests = 0;
    for (size_t i = 0; i < ROWS; i++) {
        long refused = refuse_each(&rows[i]);
        *(refused < 0 ? &failed : &passed) += 1;
        requests += refused < 0 ? 0 : refused;
    }
    /* the last rows cannot do without memory: that requests are seen at all is a part of the test */
    if (requests < 10) printf("only %ld requests were refused\n", requests), failed++;
    printf("%ld requests refused in turn: %ld passed, %ld failed\n", requests, passed, failed);
    return failed != 0;
}
