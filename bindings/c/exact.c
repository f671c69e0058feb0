/* Reads some inputs first into no room, then into exactly the room that the answer needs, and then into one less of each
 * buffer in turn. The codes are as they should be, and nothing past a buffer is written: its end is the end of a block of
 * memory, for tools that see writes beyond, and after a buffer that is one less stands the record that is left out. */
#include "rows.h"
#include <stdio.h>
#include <stdlib.h>

static const size_t bytes_of[BUFFERS] = {sizeof(dephungo_step), sizeof(dephungo_spec),  sizeof(dephungo_fault), 1,
                                         sizeof(dephungo_range), sizeof(dephungo_peek)};

/* Blocks of so many records each, filled with a byte. An empty one is still a block. */
static void make(void *buffers[BUFFERS], const size_t rooms[BUFFERS]) {
    for (int b = 0; b < BUFFERS; b++) {
        size_t bytes = rooms[b] * bytes_of[b];
        buffers[b] = malloc(bytes ? bytes : 1);
        if (buffers[b] == NULL) exit(3);
        memset(buffers[b], 0x5a, bytes ? bytes : 1);
    }
}

/* Whether a call with these rooms, but one record less in the buffer `less`, answers the code, counts the room needed and
 * leaves the record that is left out. */
static int answers(const row *r, const size_t rooms[BUFFERS], int less, uint32_t code, dephungo_answer *answer) {
    void *buffers[BUFFERS];
    size_t told[BUFFERS];
    make(buffers, rooms);
    memcpy(told, rooms, sizeof told);
    if (less < BUFFERS) told[less]--;
    memset(answer, 0, sizeof *answer);
    int is_right = read_row(r, buffers, told, answer) == code;
    if (less < BUFFERS) {
        const unsigned char *after = (const unsigned char *)buffers[less] + told[less] * bytes_of[less];
        for (size_t i = 0; i < bytes_of[less]; i++) is_right &= after[i] == 0x5a;
    }
    for (int b = 0; b < BUFFERS; b++) free(buffers[b]);
    return is_right;
}

/* The same in each field; what lies between fields may be anything. */
static int are_same(const dephungo_answer *a, const dephungo_answer *b) {
    return memcmp(a, b, offsetof(dephungo_answer, is_source_literal)) == 0 && a->is_source_literal == b->is_source_literal;
}

static int holds(const row *r) {
    size_t none[BUFFERS] = {0};
    dephungo_answer needed, answer;
    if (!answers(r, none, BUFFERS, DEPHUNGO_SHORT, &needed)) return 0;
    const size_t rooms[BUFFERS] = {needed.steps, needed.specs, needed.faults, needed.texts, needed.lines,
                                   r->wants_peeks ? needed.steps : 0};
    int is_right = answers(r, rooms, BUFFERS, DEPHUNGO_DONE, &answer) && are_same(&answer, &needed);
    for (int b = 0; b < BUFFERS; b++) {
        if (rooms[b] == 0) continue;
        is_right &= answers(r, rooms, b, DEPHUNGO_SHORT, &answer) && are_same(&answer, &needed);
    }
    return is_right;
}

int main(void) {
    int failed = 0;
    for (int i = 0; i < ROWS; i++) {
        if (holds(&rows[i])) continue;
        printf("FAILED: %s\n", rows[i].input);
        failed++;
    }
    printf("%d passed, %d failed\n", ROWS - failed, failed);
    return failed != 0;
}
