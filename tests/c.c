/* Makes the calls of the C library that tests/c asks for: reads requests on standard input, and answers each on standard
   output. What is read and what is written each ends where a page begins that can't be touched; what is read can't be
   written meanwhile. The handles of the calls are kept here, each in a slot. */
#define _DEFAULT_SOURCE
#include "wave.h"
#include <pthread.h>
#include <stdio.h>
#include <stdlib.h>
#include <string.h>
#include <sys/mman.h>

_Static_assert(sizeof(wave_report) == 3 * sizeof(size_t) + 8, "the size of a report");
_Static_assert(offsetof(wave_report, start) == sizeof(size_t), "the place of `start`");
_Static_assert(offsetof(wave_report, end) == 2 * sizeof(size_t), "the place of `end`");
_Static_assert(offsetof(wave_report, kind) == 3 * sizeof(size_t), "the place of `kind`");
_Static_assert(sizeof(wave_type) == 2 * sizeof(void *) && sizeof(wave_func) == sizeof(wave_type), "the size of a handle");
_Static_assert(offsetof(wave_type, full) == sizeof(void *) && offsetof(wave_func, full) == sizeof(void *), "the place of `full`");

enum { PAGE = 4096, PATTERN = 0xA5, SLOTS = 4, ROOM = 1 << 16, MOST = 64 << 20 };

/* `call` is the name behind `wave_`, or `damage`; `stack` how many bytes of stack it has, 0 for as many as the program */
struct request {
    char call[24];
    uint32_t slot, levels, fail_at, fail_on, stack, first_length, second_length, out_length;
};
struct answer {
    uint32_t status, kind, requests, kept, large, unused;
    int64_t live;
    uint64_t length, start, end;
};

/* ---- the heap: the request for memory `fail_at` of a call fails, with `fail_on` all after it too; one for more than MOST
   bytes always does, and is counted. `live` is how many blocks the library has taken and not given back */

static int counting;
static uint32_t requests, fail_at, fail_on, large;
static int64_t live;

void *__real_malloc(size_t);
void *__real_realloc(void *, size_t);
void __real_free(void *);

static int fails(size_t size) {
    if (!counting) return 0;
    requests++;
    large += size > MOST;
    return size > MOST || (fail_at && (fail_on ? requests >= fail_at : requests == fail_at));
}

void *__wrap_malloc(size_t size) {
    void *p = fails(size) ? 0 : __real_malloc(size);
    live += counting && p;
    return p;
}

void *__wrap_realloc(void *p, size_t size) {
    void *moved = fails(size) ? 0 : __real_realloc(p, size);
    live += counting && !p && moved;
    return moved;
}

void __wrap_free(void *p) {
    live -= counting && p;
    __real_free(p);
}

/* ---- bytes before a page that can't be touched */

struct region {
    uint8_t *whole, *bytes;
    size_t size, length;
};

static void stop(const char *why) {
    fprintf(stderr, "tests/c.c: %s\n", why);
    exit(2);
}

static struct region region(size_t length) {
    size_t size = (length + PAGE) / PAGE * PAGE;
    uint8_t *whole = mmap(0, size + PAGE, PROT_READ | PROT_WRITE, MAP_PRIVATE | MAP_ANONYMOUS, -1, 0);
    if (whole == MAP_FAILED || mprotect(whole + size, PAGE, PROT_NONE)) stop("no memory for a page");
    memset(whole, PATTERN, size);
    return (struct region){whole, whole + size - length, size, length};
}

static struct region text(size_t length) {
    struct region it = region(length);
    if (length && fread(it.bytes, 1, length, stdin) != length) stop("a request was cut off");
    if (mprotect(it.whole, it.size, PROT_READ)) stop("no page that can't be written");
    return it;
}

static void leave(struct region it) { munmap(it.whole, it.size + PAGE); }

static int is_filled(const uint8_t *bytes, size_t length) {
    return !length || (*bytes == PATTERN && !memcmp(bytes, bytes + 1, length - 1));
}

/* whether what lies before the bytes, and behind their first `length`, is as it was */
static int is_kept(struct region it, size_t length) {
    uint8_t *behind = it.bytes + length;
    return is_filled(it.whole, it.bytes - it.whole) && is_filled(behind, it.whole + it.size - behind);
}

/* ---- a call */

struct task {
    struct request asked;
    struct region first, second, out;
    wave_report report;
    uint32_t status;
};

static wave_type types[SLOTS];
static wave_func funcs[SLOTS];

#define FIRST it->first.bytes, it->first.length
#define SECOND it->second.bytes, it->second.length
#define LEVELS it->asked.levels
#define TYPE &types[it->asked.slot]
#define FUNC &funcs[it->asked.slot]
#define OUT it->out.bytes, it->out.length, &it->report

/* each call that returns a status, and its arguments */
#define CALLS(CALL)                                     \
    CALL(untyped, (SECOND, LEVELS, OUT))                \
    CALL(untyped_explain, (SECOND, LEVELS, OUT))        \
    CALL(type_open, (FIRST, LEVELS, TYPE, &it->report)) \
    CALL(type_text, (TYPE, OUT))                        \
    CALL(type_tape, (TYPE, OUT))                        \
    CALL(canonical, (TYPE, SECOND, LEVELS, OUT))        \
    CALL(read, (TYPE, SECOND, LEVELS, OUT))             \
    CALL(write, (TYPE, SECOND, OUT))                    \
    CALL(explain, (TYPE, SECOND, LEVELS, OUT))          \
    CALL(type_text_at, (FIRST, LEVELS, OUT))            \
    CALL(canonical_at, (FIRST, SECOND, LEVELS, OUT))    \
    CALL(read_at, (FIRST, SECOND, LEVELS, OUT))         \
    CALL(write_at, (FIRST, SECOND, LEVELS, OUT))        \
    CALL(explain_at, (FIRST, SECOND, LEVELS, OUT))      \
    CALL(func_open, (FIRST, LEVELS, FUNC, &it->report)) \
    CALL(func_text, (FUNC, OUT))                        \
    CALL(func_tape, (FUNC, OUT))                        \
    CALL(call, (FUNC, SECOND, LEVELS, OUT))             \
    CALL(call_explain, (FUNC, SECOND, LEVELS, OUT))     \
    CALL(func_explain_at, (FIRST, LEVELS, OUT))

static uint32_t status_of(struct task *it) {
    const char *name = it->asked.call;
#define CALL(word, arguments) \
    if (!strcmp(name, #word)) return wave_##word arguments;
    CALLS(CALL)
    memset(&it->report, 0, sizeof it->report);
    if (!strcmp(name, "version")) it->report.kind = wave_version();
    else if (!strcmp(name, "type_close")) wave_type_close(TYPE);
    else if (!strcmp(name, "func_close")) wave_func_close(FUNC);
    else stop("no such call");
    return WAVE_OK;
}

static void *make(void *task) {
    struct task *it = task;
    counting = 1;
    it->status = status_of(it);
    counting = 0;
    return 0;
}

static void make_within(struct task *it, size_t stack) {
    pthread_attr_t with;
    pthread_t thread;
    if (pthread_attr_init(&with) || pthread_attr_setstacksize(&with, stack)) stop("no such stack");
    if (pthread_create(&thread, &with, make, it) || pthread_join(thread, 0)) stop("no thread");
    pthread_attr_destroy(&with);
}

/* ---- damaged tapes */

static uint64_t drawn;

static uint64_t below(uint64_t most) {
    drawn ^= drawn << 13, drawn ^= drawn >> 7, drawn ^= drawn << 17;
    return drawn % most;
}

/* damages the tape once, and returns its length then, at most `room` */
static size_t damaged(uint8_t *tape, size_t length, size_t room) {
    size_t at = below(length + 1), some = below(9);
    uint64_t counts[] = {~0ull, 1ull << 63, 1ull << 32, 1ull << 20, length, length - at, 1, 0};
    if (length - at < some) some = length - at;
    switch (below(6)) {
    case 0:
        return at;
    case 1:
        if (at < length) tape[at] = (uint8_t)below(256);
        return length;
    case 2:
        if (at < length) tape[at] ^= (uint8_t)(1 << below(8));
        return length;
    case 3:
        if (length - at >= 8) memcpy(tape + at, &counts[below(8)], 8);
        return length;
    case 4:
        memmove(tape + at, tape + at + some, length - at - some);
        return length - some;
    default:
        if (length + some > room) return length;
        memmove(tape + at + some, tape + at, length - at);
        return length + some;
    }
}

struct counts {
    uint64_t taken, merged, refused;
};

/* What is wrong with what the calls say of the tape; null for nothing. What is taken has a text that reads back to the very tape,
   or, where keys of a map are repeated, to another tape of the same text. */
static const char *wrong(wave_type *type, struct region tape, struct region said, struct region again, struct counts *counts) {
    wave_report report, back;
    uint32_t status = wave_write(type, tape.bytes, tape.length, said.bytes, said.length, &report);
    if (status == WAVE_NO_TAPE) {
        counts->refused++;
        if (report.length || report.start != report.end || report.start > tape.length) return "no place in the tape";
        return report.kind < WAVE_TAPE_KIND_VERSION || report.kind > WAVE_TAPE_KIND_NAME ? "no kind" : 0;
    }
    if (status != WAVE_OK) return "another status";
    size_t length = report.length;
    if (wave_read(type, said.bytes, length, 1000, again.bytes, again.length, &back) != WAVE_OK) return "a text that is refused";
    if (back.length == tape.length && !memcmp(again.bytes, tape.bytes, tape.length)) {
        counts->taken++;
        return 0;
    }
    counts->merged++;
    struct region third = region(length);
    status = wave_write(type, again.bytes, back.length, third.bytes, length, &report);
    int same = status == WAVE_OK && report.length == length && !memcmp(third.bytes, said.bytes, length);
    leave(third);
    return same ? 0 : "a text with another tape";
}

/* Writes the value of each of `levels` damages of the tape `second`, drawn from the seed `fail_on`. The report says how many were
   taken, taken as other tapes, and refused; its kind is 1 where something was wrong. */
static void damage(struct task *it) {
    size_t whole = it->second.length;
    struct region said = region(ROOM), again = region(ROOM), room = region(2 * whole + 64);
    struct counts counts = {0, 0, 0};
    int64_t before = live;
    const char *why = 0;
    drawn = 0x9E3779B97F4A7C15u + it->asked.fail_on;
    for (uint32_t n = 0; n < it->asked.levels && !why; n++) {
        struct region tape = room;
        memcpy(room.bytes, it->second.bytes, whole);
        tape.length = whole;
        for (uint64_t more = below(3) + 1; more > 0; more--) tape.length = damaged(room.bytes, tape.length, room.length);
        tape.bytes = room.bytes + room.length - tape.length;
        memmove(tape.bytes, room.bytes, tape.length);
        counting = 1;
        why = wrong(TYPE, tape, said, again, &counts);
        counting = 0;
        if (live != before) why = "memory that is not given back";
        if (!why) continue;
        fprintf(stderr, "tests/c.c: %s, at the tape", why);
        for (size_t i = 0; i < tape.length; i++) fprintf(stderr, " %02x", tape.bytes[i]);
        fprintf(stderr, "\n");
    }
    it->report = (wave_report){counts.taken, counts.merged, counts.refused, why != 0};
    it->status = WAVE_NO_MEMORY;
    leave(said), leave(again), leave(room);
}

/* ---- requests */

static void answer(struct task *it) {
    size_t written = it->status == WAVE_OK ? it->report.length : 0;
    struct answer said = {it->status, it->report.kind, requests, 0, large, 0, live, it->report.length, it->report.start, it->report.end};
    said.kept = written <= it->out.length && is_kept(it->out, written);
    fwrite(&said, sizeof said, 1, stdout);
    if (written <= it->out.length) fwrite(it->out.bytes, 1, written, stdout);
    fflush(stdout);
}

int main(void) {
    struct task it;
    while (fread(&it.asked, sizeof it.asked, 1, stdin) == 1) {
        struct request *asked = &it.asked;
        it.first = text(asked->first_length), it.second = text(asked->second_length), it.out = region(asked->out_length);
        memset(&it.report, 0xEE, sizeof it.report);
        if (asked->slot >= SLOTS || asked->call[sizeof asked->call - 1]) stop("no such slot or call");
        requests = large = 0, fail_at = asked->fail_at, fail_on = asked->fail_on;
        if (!strcmp(asked->call, "damage")) damage(&it);
        else if (asked->stack) make_within(&it, asked->stack);
        else make(&it);
        answer(&it);
        leave(it.first), leave(it.second), leave(it.out);
    }
    return 0;
}
