/* wave.h: WAVE, the text encoding of WebAssembly component values: reading and writing for C and C++.

   A call reads texts, writes its answer to the caller's buffer, and returns a status; the report says more. Calls share
   nothing: any number of threads may call at the same time, but not with the same handle.

   A type can be handed over as its text, at each call (the calls whose names end in `_at`), or be held by a handle, which is
   opened once: with small texts, reading the type takes most of the time. A handle stays on the thread that opened it. Only
   handles hold memory that has to be given back, by the call that closes them.

   A value crosses as a text, or as a tape: its bytes, from which a program makes values of its own in one pass. docs/FORMATS.md
   describes the tapes of values, of calls, of types and of functions' types.

   What the caller has to keep, at each call:

   - A pointer to bytes is not null, and points to as many bytes as the length after it says, even if that is 0 (then any
     pointer to something will do). Texts are UTF-8 without a final 0; a text that is not UTF-8 gives WAVE_NOT_UTF8.
   - `out`, `report` and a handle are for this call alone: they overlap neither each other nor what is read, and nothing else
     reads or writes them during it. Nothing writes what is read during it; `type` and `text` may be the same bytes.
   - All bytes of `out`, as far as its length says, have been written before, for example with zeros. `report` need not be.
   - A handle began as `= {0}`, and since then only calls changed it. It is handed on by its address: a copy of it would hold
     the same thing twice.
   - No call comes from a signal handler, or from the child of a process with threads that has forked.
   - malloc, realloc and free are of one allocator, and align as C says.
   - There is enough stack, else the process dies: a level of a value takes up to 2,200 bytes at a type (in a record or
     a map; 1,900 in all others) and 1,150 without one, also where it is explained. So 384 KB are enough for every text and
     type within 100 levels, 3.2 MB within 1000. A type's text takes 750 bytes per level.

   `levels` is the limit of levels, which is how many values, or types in a type's text, may be one inside another. 0 stands for
   100, and more than 1000 for 1000. What has more is refused, as WAVE_KIND_NESTING_TOO_DEEP or WAVE_TYPE_KIND_NESTING_TOO_DEEP.
   If a call reads a type's text, the limit holds for that too.

   The answer has report->length bytes, without a final 0, at the start of `out`; after it `out` is unchanged. If the answer
   has more bytes than `out`, the status is WAVE_TOO_SMALL, report->length says how many, and `out` is unchanged, as it is
   at every other status except WAVE_OK. `out_length` may be 0, to ask for the length, or whether a text is refused.

   Link with -lwave; the library needs nothing but the C library. docs/PROVED.md says what is proved of these calls. */
#ifndef WAVE_H
#define WAVE_H

#include <stdbool.h>
#include <stddef.h>
#include <stdint.h>

#ifdef __cplusplus
extern "C" {
#endif

/* What a call returns. */
enum wave_status {
    WAVE_OK = 0,        /* the answer is in `out`, or the handle is open */
    WAVE_TOO_SMALL = 1, /* `out` is too small for the answer */
    WAVE_NO_MEMORY = 2, /* out of memory, wherever that happened; a call may have been refused anyhow */
    WAVE_NOT_UTF8 = 3,  /* an argument is not UTF-8: report->kind is an enum wave_argument, and report->start the
                           first byte that is no longer UTF-8 */
    WAVE_NO_TYPE = 4,   /* the type's text spells no type: report->kind is an enum wave_type_kind, and start and end
                           are bytes of the type's text */
    WAVE_REFUSED = 5,   /* the text is refused: report->kind is an enum wave_kind, and start and end are bytes of the
                           text */
    WAVE_NO_TAPE = 6,   /* the bytes are not the tape of a value of the type: report->kind is an enum wave_tape_kind, and
                           start, which equals end, is the number of bytes before the fault */
    WAVE_CLOSED = 7     /* the handle is closed */
};

/* Which argument is not UTF-8. */
enum wave_argument {
    WAVE_ARGUMENT_TYPE_TEXT = 1, /* the text of a type, or of a function's type */
    WAVE_ARGUMENT_VALUE_TEXT = 2 /* the text of a value, or of a call */
};

/* Why a text is refused. No number is ever given to another kind. (16 would be out of memory, which WAVE_NO_MEMORY says.) */
enum wave_kind {
    WAVE_KIND_EMPTY_TUPLE = 1,              /* `()` where a value is expected */
    WAVE_KIND_MULTIPLE_CHARS = 2,           /* never reported */
    WAVE_KIND_INVALID_ESCAPE = 3,           /* an escape that stands for no scalar */
    WAVE_KIND_INVALID_MULTILINE_STRING = 4, /* a multiline string whose first, last or other line is not right */
    WAVE_KIND_INVALID_PARAMS = 5,           /* too many or too few values for a function's parameters */
    WAVE_KIND_INVALID_TOKEN = 6,            /* a place where no token begins */
    WAVE_KIND_INVALID_TYPE = 7,             /* a value of another form than the type takes */
    WAVE_KIND_INVALID_VALUE = 8,            /* a number out of range, or a record with an unknown field */
    WAVE_KIND_TRAILING_CHARACTERS = 9,      /* something after the value */
    WAVE_KIND_UNEXPECTED_END = 10,          /* the end of the text where more is expected */
    WAVE_KIND_UNEXPECTED_TOKEN = 11,        /* a token that can not stand here */
    WAVE_KIND_DUPLICATE_FIELD = 12,         /* a field that was named before */
    WAVE_KIND_DUPLICATE_FLAG = 13,          /* a flag that was named before */
    WAVE_KIND_WASM_VALUE_ERROR = 14,        /* a value that could not be made */
    WAVE_KIND_NESTING_TOO_DEEP = 15         /* a value inside too many others */
};

/* Why a type's text is refused. No number is ever given to another kind. (108 would be out of memory.) */
enum wave_type_kind {
    WAVE_TYPE_KIND_UNEXPECTED_TOKEN = 101, /* a token that can't stand here */
    WAVE_TYPE_KIND_UNEXPECTED_END = 102,   /* the end of the text where more is expected */
    WAVE_TYPE_KIND_INVALID_TOKEN = 103,    /* a place where no token of a type begins */
    WAVE_TYPE_KIND_DUPLICATE_NAME = 104,   /* a name that occurred before in the same record, variant, enum or flags */
    WAVE_TYPE_KIND_INVALID_KEY_TYPE = 105, /* a type that the keys of a map can't have */
    WAVE_TYPE_KIND_INVALID_COUNT = 106,    /* a count that is not a decimal number from 0 to 4294967295 */
    WAVE_TYPE_KIND_NESTING_TOO_DEEP = 107  /* a type inside too many others */
};

/* Why bytes are not a tape. No number is ever given to another kind. (210 would be out of memory.) */
enum wave_tape_kind {
    WAVE_TAPE_KIND_VERSION = 201,     /* the first byte is not 1 */
    WAVE_TAPE_KIND_END = 202,         /* the end of the bytes where more are expected */
    WAVE_TAPE_KIND_TRAILING = 203,    /* bytes after the value */
    WAVE_TAPE_KIND_BYTE = 204,        /* a byte that is not 0 or 1 where one of them is expected, or not 0 where only that is */
    WAVE_TAPE_KIND_CHAR = 205,        /* a number that is not a Unicode scalar */
    WAVE_TAPE_KIND_UTF8 = 206,        /* a string that is not UTF-8 */
    WAVE_TAPE_KIND_NAME = 207,        /* no case has this name, or no flag after the one before has it */
    WAVE_TAPE_KIND_UNSUPPORTED = 208, /* a part of the type that is reached is f32 or f64, which have no values here */
    WAVE_TAPE_KIND_VALUE = 209        /* never reported */
};

/* What a call tells besides its status. Each call fills in all of it; fields that the status does not speak of are 0. */
typedef struct wave_report {
    size_t length; /* how many bytes the answer has: at WAVE_OK and WAVE_TOO_SMALL */
    size_t start;  /* where the refusal arose: from this byte .. */
    size_t end;    /* .. up to this one; start <= end, and both are within the text or tape that is refused */
    uint32_t kind; /* the kind of the refusal */
} wave_report;

/* Handles of a type and of a function's type. `wave_type type = {0};` is a closed one. */
typedef struct wave_type {
    void *at;
    bool full;
} wave_type;
typedef struct wave_func {
    void *at;
    bool full;
} wave_func;

/* The version of the library that runs, as 0x00MMmmpp: a byte each for its three numbers. */
uint32_t wave_version(void);

/* ---- without a type */

/* The untyped display of the text, as docs/FORMATS.md says: each token stays as it is written, but flags are in order and
   without `%`, and all is laid out as canonical texts are. With `out_length` 0 the call only tests the text: if the status is
   WAVE_TOO_SMALL, the text has the form of a value.
   Statuses: WAVE_OK, WAVE_TOO_SMALL, WAVE_NO_MEMORY, WAVE_NOT_UTF8, WAVE_REFUSED. */
uint32_t wave_untyped(const uint8_t *text, size_t text_length, uint32_t levels, uint8_t *out, size_t out_length,
                      wave_report *report);

/* What explains the refusal that wave_untyped reports for the same text and levels, as wave_explain does; empty if nothing is
   refused.
   Statuses: WAVE_OK, WAVE_TOO_SMALL, WAVE_NO_MEMORY, WAVE_NOT_UTF8. */
uint32_t wave_untyped_explain(const uint8_t *text, size_t text_length, uint32_t levels, uint8_t *out, size_t out_length,
                              wave_report *report);

/* ---- handles of types */

/* Opens the handle, so that it holds the type that the text spells, and no longer what it held. If the status isn't
   WAVE_OK, the handle is as it was, open or closed.
   Statuses: WAVE_OK, WAVE_NO_MEMORY, WAVE_NOT_UTF8, WAVE_NO_TYPE. */
uint32_t wave_type_open(const uint8_t *type, size_t type_length, uint32_t levels, wave_type *handle,
                        wave_report *report);

/* Closes the handle, and gives back what it held; a closed one stays closed. */
void wave_type_close(wave_type *handle);

/* The canonical text of the type.
   Statuses: WAVE_OK, WAVE_TOO_SMALL, WAVE_NO_MEMORY, WAVE_CLOSED. */
uint32_t wave_type_text(wave_type *handle, uint8_t *out, size_t out_length, wave_report *report);

/* The tape of the type.
   Statuses: WAVE_OK, WAVE_TOO_SMALL, WAVE_NO_MEMORY, WAVE_CLOSED. */
uint32_t wave_type_tape(wave_type *handle, uint8_t *out, size_t out_length, wave_report *report);

/* ---- values at a type that a handle holds */

/* The canonical text of the value that the text means at the type.
   Statuses: WAVE_OK, WAVE_TOO_SMALL, WAVE_NO_MEMORY, WAVE_NOT_UTF8, WAVE_REFUSED, WAVE_CLOSED. */
uint32_t wave_canonical(wave_type *handle, const uint8_t *text, size_t text_length, uint32_t levels, uint8_t *out,
                        size_t out_length, wave_report *report);

/* The tape of the value that the text means at the type.
   Statuses: as wave_canonical. */
uint32_t wave_read(wave_type *handle, const uint8_t *text, size_t text_length, uint32_t levels, uint8_t *out,
                   size_t out_length, wave_report *report);

/* The canonical text of the value of the type whose tape is all of the bytes.
   Statuses: WAVE_OK, WAVE_TOO_SMALL, WAVE_NO_MEMORY, WAVE_NO_TAPE, WAVE_CLOSED. */
uint32_t wave_write(wave_type *handle, const uint8_t *tape, size_t tape_length, uint8_t *out, size_t out_length,
                    wave_report *report);

/* What explains the refusal that wave_canonical and wave_read report for the same text and levels, in lines that end with a line
   feed, for people to read: the message; the place, such as ` --> line 1, column 5`, and after it the path within the value, such
   as `, at .servers[0]`, if it has one; the line with the place marked; and what was expected there. Lines are counted within
   the text that is handed over. If nothing is refused the explanation is empty: WAVE_OK with the length 0. A text that is not
   UTF-8 has no explanation: show its report->start.
   Statuses: WAVE_OK, WAVE_TOO_SMALL, WAVE_NO_MEMORY, WAVE_NOT_UTF8, WAVE_CLOSED. */
uint32_t wave_explain(wave_type *handle, const uint8_t *text, size_t text_length, uint32_t levels, uint8_t *out,
                      size_t out_length, wave_report *report);

/* ---- the same at a type's text */

/* As wave_type_text, of the type that the text spells.
   Statuses: WAVE_OK, WAVE_TOO_SMALL, WAVE_NO_MEMORY, WAVE_NOT_UTF8, WAVE_NO_TYPE. */
uint32_t wave_type_text_at(const uint8_t *type, size_t type_length, uint32_t levels, uint8_t *out, size_t out_length,
                           wave_report *report);

/* As wave_canonical, at the type that the text spells.
   Statuses: WAVE_OK, WAVE_TOO_SMALL, WAVE_NO_MEMORY, WAVE_NOT_UTF8, WAVE_NO_TYPE, WAVE_REFUSED. */
uint32_t wave_canonical_at(const uint8_t *type, size_t type_length, const uint8_t *text, size_t text_length,
                           uint32_t levels, uint8_t *out, size_t out_length, wave_report *report);

/* As wave_read, at the type that the text spells.
   Statuses: as wave_canonical_at. */
uint32_t wave_read_at(const uint8_t *type, size_t type_length, const uint8_t *text, size_t text_length,
                      uint32_t levels, uint8_t *out, size_t out_length, wave_report *report);

/* As wave_write, at the type that the text spells within so many levels.
   Statuses: WAVE_OK, WAVE_TOO_SMALL, WAVE_NO_MEMORY, WAVE_NOT_UTF8, WAVE_NO_TYPE, WAVE_NO_TAPE. */
uint32_t wave_write_at(const uint8_t *type, size_t type_length, const uint8_t *tape, size_t tape_length,
                       uint32_t levels, uint8_t *out, size_t out_length, wave_report *report);

/* As wave_explain, for the refusal that wave_canonical_at reports, also for WAVE_NO_TYPE; to explain only a type's text, hand
   over an empty `text`.
   Statuses: WAVE_OK, WAVE_TOO_SMALL, WAVE_NO_MEMORY, WAVE_NOT_UTF8. */
uint32_t wave_explain_at(const uint8_t *type, size_t type_length, const uint8_t *text, size_t text_length,
                         uint32_t levels, uint8_t *out, size_t out_length, wave_report *report);

/* ---- calls */

/* As wave_type_open, for a function's type, such as `func(a: u8, b: option<string>) -> bool`. */
uint32_t wave_func_open(const uint8_t *func, size_t func_length, uint32_t levels, wave_func *handle,
                        wave_report *report);

/* As wave_type_close. */
void wave_func_close(wave_func *handle);

/* The canonical text of the function's type, and its tape.
   Statuses: as wave_type_text. */
uint32_t wave_func_text(wave_func *handle, uint8_t *out, size_t out_length, wave_report *report);
uint32_t wave_func_tape(wave_func *handle, uint8_t *out, size_t out_length, wave_report *report);

/* The tape of the call that the text means, such as `f(1, "two")`: the name, and the values of the parameters, `none` for each
   option that is left out at the end. The limit of levels is that of each value; the parentheses of the call are not a level.
   Statuses: as wave_canonical. */
uint32_t wave_call(wave_func *handle, const uint8_t *text, size_t text_length, uint32_t levels, uint8_t *out,
                   size_t out_length, wave_report *report);

/* As wave_explain, for the refusal that wave_call reports for the same text and levels.
   Statuses: as wave_explain. */
uint32_t wave_call_explain(wave_func *handle, const uint8_t *text, size_t text_length, uint32_t levels, uint8_t *out,
                           size_t out_length, wave_report *report);

/* As wave_explain, for the refusal that wave_func_open reports for the same text and levels; empty if nothing is refused.
   Statuses: WAVE_OK, WAVE_TOO_SMALL, WAVE_NO_MEMORY, WAVE_NOT_UTF8. */
uint32_t wave_func_explain_at(const uint8_t *func, size_t func_length, uint32_t levels, uint8_t *out,
                              size_t out_length, wave_report *report);

#ifdef __cplusplus
}
#endif

#endif
