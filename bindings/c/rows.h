/* The inputs that the programs beside this file read. */
#include "dephungo.h"
#include <string.h>

typedef struct {
    const char *input, *snippet;
    dephungo_options options;
    int wants_peeks;
} row;

static const row rows[] = {
    {"", "", {.mode = DEPHUNGO_MODE_FORMAT}, 0},
    {"plain text, no snippet", "", {.mode = DEPHUNGO_MODE_FORMAT}, 0},
    {"a{n:>w$.*x?}{}}{_:99999$}{", "", {.mode = DEPHUNGO_MODE_FORMAT}, 1},
    {"{r#a}{a.b}{:?#}{a?}{a+}{a,}{a=}{a<}{:}>", "", {.mode = DEPHUNGO_MODE_FORMAT}, 0},
    {"a{n}", "\"other\"", {.mode = DEPHUNGO_MODE_FORMAT, .has_snippet = 1}, 0},
    {"a{n:w$}\n  {}{:.*}}", "\"a{n:w$}\\n  \\x7b}{:.\\u{2a}}}\"", {.mode = DEPHUNGO_MODE_FORMAT, .has_snippet = 1}, 1},
    {"{_}\n{r#a}{a?}{", "\"{_}\\\n   \\n{r#a}{a?}{\"", {.mode = DEPHUNGO_MODE_FORMAT, .has_snippet = 1}, 0},
    {"a\nb{x}\n", "r#\"a\nb{x}\"#", {.is_raw = 1, .hashes = 1, .has_snippet = 1, .appended_newline = 1}, 0},
    {"mov {0:e}, {_}\n", "\"mov {0:e}, {_}\\n\"", {.mode = DEPHUNGO_MODE_INLINE_ASM, .has_snippet = 1}, 0},
    {"{a: text }{}", "\"{a: text }\\x7b}\"", {.mode = DEPHUNGO_MODE_DIAGNOSTIC_NAMED, .has_snippet = 1}, 0},
};

enum { ROWS = sizeof rows / sizeof rows[0] };

enum { STEPS, SPECS, FAULTS, TEXTS, LINES, PEEKS, BUFFERS };

/* Reads a row into buffers with these rooms. */
static uint32_t read_row(const row *r, void *const at[BUFFERS], const size_t rooms[BUFFERS], dephungo_answer *answer) {
    dephungo_buffers buffers = {
        at[STEPS], rooms[STEPS], at[SPECS], rooms[SPECS], at[FAULTS], rooms[FAULTS],
        at[TEXTS], rooms[TEXTS], at[LINES], rooms[LINES], at[PEEKS],  rooms[PEEKS],
    };
    return dephungo_read((const uint8_t *)r->input, strlen(r->input), (const uint8_t *)r->snippet, strlen(r->snippet),
                         &r->options, &buffers, answer);
}
