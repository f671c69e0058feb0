/* The parser of Rust's format strings, for C. The library that ./library builds is proved; the one
 * of bindings/c/portable is made from the crate for Rust, which is only tested.
 *
 * One call, dephungo_read, reads a whole input and writes the results into buffers of the
 * caller. The library owns nothing and keeps nothing after the call, so calls may run at once in
 * several threads, if none writes what another one reads or writes. The call uses malloc, realloc
 * and free, so it may not be made in a signal handler. A record is plain integers: any memory of
 * its size may be passed, and a copy of it stays valid as long as the input and the texts do. A
 * field whose comment begins with constants, such as TEXT, has a value only where the record has
 * one of them, and a range with a flag, such as place with has_place, only where that is not 0:
 * elsewhere its bytes are unspecified.
 * The snippet is the string literal that the input comes from, as it is in the source. If it
 * stands for the input, it is the source literal of the input.
 * A range of the input is in byte offsets of the input. A range in the source is in byte
 * offsets of the snippet, if that is the source literal of the input. Otherwise it is in those
 * of a literal that has the input, as it is, after its opening quote. The end of the text is an
 * exception, since no quote is counted there: it is the length of the snippet, or without one
 * that of the input (less 1 if a newline was appended). So a range up to the end may be empty
 * or end before it starts. */
#ifndef DEPHUNGO_H
#define DEPHUNGO_H
#include <stddef.h>
#include <stdint.h>

/* the version of the header and of its library, as in CHANGELOG.md */
#define DEPHUNGO_VERSION "0.3.0"
/* the same as one number: 1,000,000 times its first number, 1,000 times its second one, and its third one */
#define DEPHUNGO_VERSION_NUMBER 3000

#ifdef __cplusplus
extern "C" {
#endif

/* a byte range, of the input, the source or the texts */
typedef struct dephungo_range {
    size_t start; /* the byte offset of its start */
    size_t end;   /* the byte offset of its end, which is excluded */
} dephungo_range;

/* the next two characters before a call */
typedef struct dephungo_peek {
    uint8_t has_peek;          /* not 0 if there is a next character */
    uint8_t has_peek_ahead;    /* not 0 if there is a character after that */
    dephungo_range peek;       /* the byte range of the next character in the source */
    dephungo_range peek_ahead; /* the byte range in the source of the character after that */
} dephungo_peek;

/* the kind of text that the input is, as ParseMode of rustc_parse_format */
enum {
    DEPHUNGO_MODE_FORMAT = 0,           /* a format string, as std::fmt describes it */
    DEPHUNGO_MODE_INLINE_ASM = 1,       /* a template of inline assembly */
    DEPHUNGO_MODE_DIAGNOSTIC = 2,       /* the text of a diagnostic */
    DEPHUNGO_MODE_DIAGNOSTIC_NAMED = 3, /* the text of a diagnostic in which each argument must be a name, with nothing after its colon */
};

/* how to read the input */
typedef struct dephungo_options {
    uint32_t mode;             /* one of the MODE constants */
    uint32_t is_raw;           /* not 0 if the input comes from a raw string literal */
    size_t hashes;             /* the number of hashes of a raw literal */
    uint32_t has_snippet;      /* not 0 if there is a snippet: the source text that the input should come from */
    uint32_t appended_newline; /* not 0 if a newline was appended to the input that is not in the snippet */
} dephungo_options;

/* the kind of a width or a precision */
enum {
    DEPHUNGO_COUNT_IMPLIED = 0,  /* it is not written */
    DEPHUNGO_COUNT_IS = 1,       /* a number */
    DEPHUNGO_COUNT_IS_NAME = 2,  /* the value of the argument with this name */
    DEPHUNGO_COUNT_IS_PARAM = 3, /* the value of the argument with this index */
    DEPHUNGO_COUNT_IS_STAR = 4,  /* `*`: the value of the next implicit argument, which has this index */
};

/* the alignment of a value in its width */
enum {
    DEPHUNGO_ALIGN_UNKNOWN = 0, /* none is written */
    DEPHUNGO_ALIGN_LEFT = 1,    /* `<` */
    DEPHUNGO_ALIGN_RIGHT = 2,   /* `>` */
    DEPHUNGO_ALIGN_CENTER = 3,  /* `^` */
};

/* the sign flag */
enum {
    DEPHUNGO_SIGN_NONE = 0,  /* none is written */
    DEPHUNGO_SIGN_PLUS = 1,  /* `+` */
    DEPHUNGO_SIGN_MINUS = 2, /* `-` */
};

/* the case of the hexadecimal digits of a debug format */
enum {
    DEPHUNGO_HEX_NONE = 0,  /* none is written */
    DEPHUNGO_HEX_LOWER = 1, /* `x?` */
    DEPHUNGO_HEX_UPPER = 2, /* `X?` */
};

/* the kind of a type */
enum {
    DEPHUNGO_TYPE_NONE = 0,      /* none is written, or it is empty */
    DEPHUNGO_TYPE_TEXT = 1,      /* a text of the input, which is in the field type */
    DEPHUNGO_TYPE_LOWER_HEX = 2, /* `x` */
    DEPHUNGO_TYPE_UPPER_HEX = 3, /* `X` */
    DEPHUNGO_TYPE_DEBUG = 4,     /* `?` */
};

/* a value that means none, in a field whose other values each mean something */
enum {
    DEPHUNGO_NO_FILL = 0x110000, /* there is no fill character: no character has this code */
};

/* a format specification: what a placeholder has after its colon */
typedef struct dephungo_spec {
    uint32_t fill;                      /* the code of the fill character, or NO_FILL */
    uint8_t align;                      /* one of the ALIGN constants */
    uint8_t sign;                       /* one of the SIGN constants */
    uint8_t debug_hex;                  /* one of the HEX constants */
    uint8_t alternate;                  /* not 0 if the flag `#` is written */
    uint8_t zero_pad;                   /* not 0 if the flag `0` is written */
    uint8_t type_kind;                  /* one of the TYPE constants */
    uint8_t width_kind;                 /* one of the COUNT constants */
    uint8_t precision_kind;             /* one of the COUNT constants */
    uint8_t has_fill_span;              /* not 0 if there is a fill_span */
    uint8_t has_width_span;             /* not 0 if there is a width_span */
    uint8_t has_precision_span;         /* not 0 if there is a precision_span */
    uint8_t has_type_span;              /* not 0 if there is a type_span */
    size_t width_number;                /* IS: the width; IS_PARAM and IS_STAR: the index of the argument that is the width, from 0 */
    size_t precision_number;            /* the same of the precision */
    dephungo_range width_span;          /* the byte range of the width in the source */
    dephungo_range precision_span;      /* the byte range of the precision in the source */
    dephungo_range type;                /* TYPE_TEXT: the type, as a range of the input */
    dephungo_range type_span;           /* the byte range of the type in the source */
    dephungo_range fill_span;           /* the byte range of the fill character in the source */
    dephungo_range width_name;          /* IS_NAME: the name of the argument that is the width, as a range of the input */
    dephungo_range width_name_span;     /* IS_NAME: the byte range of that name in the source */
    dephungo_range precision_name;      /* IS_NAME: the name of the argument that is the precision, as a range of the input */
    dephungo_range precision_name_span; /* IS_NAME: the byte range of that name in the source */
} dephungo_spec;

/* the kind of piece that a call returned */
enum {
    DEPHUNGO_PIECE_NONE = 0,     /* none: at a closing brace that closes nothing, or at the end of the input */
    DEPHUNGO_PIECE_TEXT = 1,     /* literal text */
    DEPHUNGO_PIECE_ARGUMENT = 2, /* a placeholder */
};

/* the argument that a placeholder formats */
enum {
    DEPHUNGO_POSITION_IMPLICIT = 0, /* the next implicit argument, as in `{}` */
    DEPHUNGO_POSITION_INDEX = 1,    /* the argument with this index, as in `{0}` */
    DEPHUNGO_POSITION_NAMED = 2,    /* the argument with this name, as in `{name}` */
};

/* a call of the parser: the piece that it returned, and the state after it */
typedef struct dephungo_step {
    uint8_t kind;                 /* one of the PIECE constants */
    uint8_t position;             /* ARGUMENT: one of the POSITION constants */
    uint8_t has_place;            /* not 0 if the call closed a placeholder; always 0 without a source literal */
    size_t number;                /* IMPLICIT and INDEX: the index of the argument, from 0 */
    dephungo_range text;          /* TEXT: the text; NAMED: the name; as a range of the input */
    dephungo_range position_span; /* ARGUMENT: the byte range of its position in the source */
    size_t spec;                  /* ARGUMENT: the number of its record in specs, from 1, or 0 for the default specification, which has no record */
    dephungo_range place;         /* the byte range in the source of the placeholder that the call closed */
    size_t offset;                /* the byte offset in the input up to which it is read after the call */
    size_t next_index;            /* the index of the next implicit argument after the call */
    size_t lines;                 /* the number of lines after the call */
} dephungo_step;

/* the suggestion of a fault, as Suggestion of rustc_parse_format */
enum {
    DEPHUNGO_MEND_NONE = 0,                          /* no suggestion */
    DEPHUNGO_MEND_USE_POSITIONAL = 1,                /* use a positional argument in place of the field */
    DEPHUNGO_MEND_REMOVE_RAW_IDENT = 2,              /* remove `r#`, which is at suggestion_span */
    DEPHUNGO_MEND_REORDER_FORMAT_PARAMETER = 3,      /* replace suggestion_span by suggestion_text */
    DEPHUNGO_MEND_ADD_MISSING_COLON = 4,             /* put a colon before suggestion_span */
    DEPHUNGO_MEND_USE_RUST_DEBUG_PRINTING_MACRO = 5, /* use the macro `dbg!` */
};

/* an error in the input, with ranges of texts for what it says */
typedef struct dephungo_fault {
    uint8_t has_note;               /* not 0 if there is a note */
    uint8_t has_second_label;       /* not 0 if there is a second label */
    uint32_t suggestion;            /* one of the MEND constants */
    dephungo_range description;     /* the message, as a range of texts */
    dephungo_range note;            /* an additional note, as a range of texts */
    dephungo_range label;           /* the label of span, as a range of texts */
    dephungo_range span;            /* the byte range of the error in the source */
    dephungo_range second_label;    /* the label of second_span, as a range of texts */
    dephungo_range second_span;     /* a second byte range in the source, if there is a second label */
    dephungo_range suggestion_span; /* the byte range in the source that the suggestion is about */
    dephungo_range suggestion_text; /* REORDER_FORMAT_PARAMETER: the replacement, as a range of texts */
    size_t step;                    /* the index, from 0, of the step that found it */
} dephungo_fault;

/* the lengths of the results, even if they do not fit */
typedef struct dephungo_answer {
    size_t steps;              /* the number of steps; the last one is the call at the end of the input */
    size_t specs;              /* the number of specifications, in the order of the steps that have them */
    size_t faults;             /* the number of faults, in the order of the parser's list of errors */
    size_t texts;              /* the number of bytes of the texts of the faults */
    size_t lines;              /* the number of lines of a source literal, each without its newline and its indent */
    size_t front_faults;       /* the number of faults that were put at the front of the list when found: they come first */
    uint8_t is_source_literal; /* not 0 if the snippet is the source literal of the input */
} dephungo_answer;

/* the buffers that get the results, each with its room in records or, for texts, in bytes; one with the room 0 may be NULL */
typedef struct dephungo_buffers {
    dephungo_step *steps;   /* the calls of the parser, in order */
    size_t step_room;
    dephungo_spec *specs;   /* the specifications that the steps refer to */
    size_t spec_room;
    dephungo_fault *faults; /* the errors in the input */
    size_t fault_room;
    uint8_t *texts;         /* the texts of the faults, in UTF-8 */
    size_t text_room;
    dephungo_range *lines;  /* the byte ranges of the lines in the source */
    size_t line_room;
    dephungo_peek *peeks;   /* for each step, the two characters that come next before its call; with the room 0, none are looked for */
    size_t peek_room;
} dephungo_buffers;

/* the return values of dephungo_read */
enum {
    DEPHUNGO_DONE = 0,             /* success: all results are written */
    DEPHUNGO_SHORT = 1,            /* a buffer is too short: answer has the lengths needed, the buffers are unspecified */
    DEPHUNGO_NO_MEMORY = 2,        /* allocation failure: answer is unchanged, the buffers are unspecified */
    DEPHUNGO_NOT_TEXT = 3,         /* the input is not UTF-8; with this code and those below nothing is written */
    DEPHUNGO_SNIPPET_NOT_TEXT = 4, /* the snippet is not UTF-8 */
    DEPHUNGO_NO_SUCH_MODE = 5,     /* mode is none of the MODE constants */
    DEPHUNGO_TOO_LONG = 6,         /* the input has more than 10^12 bytes, or the raw literal more than 10^12 hashes */
};

/* dephungo_read reads a whole input and returns one of the codes above, such as DEPHUNGO_DONE.
 * input:    the input in UTF-8, unescaped and without quotes; NULL with the length 0 is an empty one
 * snippet:  the source text in UTF-8; ignored if has_snippet is 0: then pass NULL and 0
 * options:  how to read the input
 * buffers:  where the results are written; this record itself is only read, so it may be used again
 * answer:   the lengths of the results
 *
 * No other pointer may be NULL. What the call writes may not overlap anything else. */
uint32_t dephungo_read(
    const uint8_t *input, size_t input_length,
    const uint8_t *snippet, size_t snippet_length,
    const dephungo_options *options,
    dephungo_buffers *buffers,
    dephungo_answer *answer);

/* The proof is about calls without NULL. So a call of dephungo_read in C or C++ is one of this function, which puts another
 * pointer in place of each whose length or room is 0, and then calls the library. A caller without this header, as in another
 * language, passes no NULL. */
static inline uint32_t dephungo_read_nullable(
    const uint8_t *input, size_t input_length,
    const uint8_t *snippet, size_t snippet_length,
    const dephungo_options *options,
    dephungo_buffers *buffers,
    dephungo_answer *answer) {
    size_t nothing = 0;
    dephungo_buffers given = *buffers;
    if (!input_length) input = (const uint8_t *)&nothing;
    if (!snippet_length) snippet = (const uint8_t *)&nothing;
    if (!given.step_room) given.steps = (dephungo_step *)&nothing;
    if (!given.spec_room) given.specs = (dephungo_spec *)&nothing;
    if (!given.fault_room) given.faults = (dephungo_fault *)&nothing;
    if (!given.text_room) given.texts = (uint8_t *)&nothing;
    if (!given.line_room) given.lines = (dephungo_range *)&nothing;
    if (!given.peek_room) given.peeks = (dephungo_peek *)&nothing;
    return dephungo_read(input, input_length, snippet, snippet_length, options, &given, answer);
}
#define dephungo_read dephungo_read_nullable

/* the version of the library, which is the DEPHUNGO_VERSION_NUMBER of its own header */
uint32_t dephungo_version(void);

/* the records whose sizes the library tells */
enum {
    DEPHUNGO_RECORD_RANGE = 0,
    DEPHUNGO_RECORD_PEEK = 1,
    DEPHUNGO_RECORD_OPTIONS = 2,
    DEPHUNGO_RECORD_SPEC = 3,
    DEPHUNGO_RECORD_STEP = 4,
    DEPHUNGO_RECORD_FAULT = 5,
    DEPHUNGO_RECORD_ANSWER = 6,
    DEPHUNGO_RECORD_BUFFERS = 7,
};

/* the size in bytes that a record has in the library
 * record: one of the RECORD constants; for another number the size is 0 */
size_t dephungo_size_of(uint32_t record);

/* Returns 0 if the library is not the one of this header: the first or the second number of its version differs, or the size
 * of a record. Then dephungo_read may not be called. A program that uses the shared library asks this when it starts. */
static inline int dephungo_fits_header(void) {
    return dephungo_version() / 1000 == DEPHUNGO_VERSION_NUMBER / 1000
        && dephungo_size_of(DEPHUNGO_RECORD_RANGE) == sizeof(dephungo_range)
        && dephungo_size_of(DEPHUNGO_RECORD_PEEK) == sizeof(dephungo_peek)
        && dephungo_size_of(DEPHUNGO_RECORD_OPTIONS) == sizeof(dephungo_options)
        && dephungo_size_of(DEPHUNGO_RECORD_SPEC) == sizeof(dephungo_spec)
        && dephungo_size_of(DEPHUNGO_RECORD_STEP) == sizeof(dephungo_step)
        && dephungo_size_of(DEPHUNGO_RECORD_FAULT) == sizeof(dephungo_fault)
        && dephungo_size_of(DEPHUNGO_RECORD_ANSWER) == sizeof(dephungo_answer)
        && dephungo_size_of(DEPHUNGO_RECORD_BUFFERS) == sizeof(dephungo_buffers);
}

#ifdef __cplusplus
}
#endif
#endif
