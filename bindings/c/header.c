/* What the header adds to the calls of the library: empty texts and buffers at NULL, and whether the library fits it. The
 * version and the sizes of the records are those of the header. */
#include "dephungo.h"
#include <stdio.h>

int main(void) {
    dephungo_options options = {.mode = DEPHUNGO_MODE_FORMAT};
    dephungo_buffers buffers = {0};
    dephungo_answer answer = {0};
    dephungo_step steps[2];
    const uint8_t text[] = {'a'};
    int is_right = dephungo_read(NULL, 0, NULL, 0, &options, &buffers, &answer) == DEPHUNGO_SHORT && answer.steps == 1;
    is_right &= dephungo_read(text, 1, NULL, 0, &options, &buffers, &answer) == DEPHUNGO_SHORT && answer.steps == 2;
    buffers.steps = steps;
    buffers.step_room = 2;
    is_right &= dephungo_read(text, 1, NULL, 0, &options, &buffers, &answer) == DEPHUNGO_DONE && steps[0].text.end == 1;
    is_right &= dephungo_read(NULL, 0, NULL, 0, &options, &buffers, &answer) == DEPHUNGO_DONE && answer.faults == 0;
    options.has_snippet = 1;
    is_right &= dephungo_read(NULL, 0, NULL, 0, &options, &buffers, &answer) == DEPHUNGO_DONE && !answer.is_source_literal;
    is_right &= buffers.specs == NULL && buffers.peeks == NULL;
    is_right &= dephungo_version() == DEPHUNGO_VERSION_NUMBER && dephungo_fits_header();
    is_right &= dephungo_size_of(DEPHUNGO_RECORD_BUFFERS + 1) == 0 && dephungo_size_of(UINT32_MAX) == 0;
    puts(is_right ? "all as it should be" : "not as it should be");
    return !is_right;
}
