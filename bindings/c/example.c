/* Prints the pieces and the errors of a format string, the first command-line argument. */
#include "dephungo.h"
#include <stdio.h>
#include <string.h>

int main(int argc, char **argv) {
    const char *input = argc > 1 ? argv[1] : "hi {name:>8}{}{";
    dephungo_options options = {.mode = DEPHUNGO_MODE_FORMAT};
    dephungo_step steps[64];
    dephungo_spec specs[32];
    dephungo_fault faults[16];
    uint8_t texts[4096];
    dephungo_buffers buffers = { /* (without a snippet there are no lines, and peeks are not wanted) */
        .steps = steps, .step_room = 64,
        .specs = specs, .spec_room = 32,
        .faults = faults, .fault_room = 16,
        .texts = texts, .text_room = sizeof texts,
    };
    dephungo_answer answer;
    if (!dephungo_fits_header()) return fprintf(stderr, "the library has another version than the header\n"), 2;
    uint32_t code = dephungo_read((const uint8_t *)input, strlen(input), NULL, 0, &options, &buffers, &answer);
    if (code == DEPHUNGO_SHORT) fprintf(stderr, "%zu steps and %zu faults are too many here\n", answer.steps, answer.faults);
    if (code != DEPHUNGO_DONE) return fprintf(stderr, "code %u\n", (unsigned)code), 2;
    for (size_t i = 0; i < answer.steps; i++) {
        dephungo_step *s = &steps[i];
        if (s->kind == DEPHUNGO_PIECE_TEXT) {
            printf("text \"%.*s\"\n", (int)(s->text.end - s->text.start), input + s->text.start);
        }
        if (s->kind != DEPHUNGO_PIECE_ARGUMENT) continue;
        if (s->position == DEPHUNGO_POSITION_NAMED) {
            printf("argument %.*s", (int)(s->text.end - s->text.start), input + s->text.start);
        } else {
            printf("argument %zu", s->number);
        }
        if (s->spec && specs[s->spec - 1].width_kind == DEPHUNGO_COUNT_IS) printf(" width %zu", specs[s->spec - 1].width_number);
        printf(" at %zu..%zu\n", s->position_span.start, s->position_span.end);
    }
    for (size_t i = 0; i < answer.faults; i++) {
        dephungo_range d = faults[i].description, at = faults[i].span;
        printf("fault at %zu..%zu: %.*s\n", at.start, at.end, (int)(d.end - d.start), (const char *)texts + d.start);
    }
    return answer.faults != 0;
}
