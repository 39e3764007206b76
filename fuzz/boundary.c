/* boundary COUNT SEED guard|heap FIRST STEP: calls every function of crsf.h with slices of every length up to 300, a block's up to
 * 520, or of each STEP-th from FIRST on, then COUNT times with slices drawn at random: any bytes, valid ones, and ones near them.
 * It judges each answer and every byte that was lent, and makes each call twice.
 *
 * guard: each slice ends directly before a page that can't be touched, in a second turn it starts directly behind one, and const
 * slices lie in pages that can't be written: an access outside is a signal. heap: each slice is allocated at its length, for
 * valgrind.
 *
 * Prints how often each number was answered. Fails at the first thing that crsf.h rules out, and where a number that a function
 * can answer never was. The same arguments make the same calls. */
#define _GNU_SOURCE
#include <signal.h>
#include <stdarg.h>
#include <sys/mman.h>
#include <unistd.h>

#include "slices.h"
#include "log.h"
#include "question.h"

#if __has_include(<valgrind/memcheck.h>)
#include <valgrind/memcheck.h>
#else /* where there is no valgrind */
#define VALGRIND_MAKE_MEM_UNDEFINED(at, len) 0
#define VALGRIND_MAKE_MEM_DEFINED(at, len) 0
#define VALGRIND_CHECK_MEM_IS_DEFINED(at, len) 0
#endif

enum { MOST_SLICES = 3, NUMBERS = 31, AREA = 1 << 16 /* whole pages on any machine */ };
enum {
    CHECK, TEXT, ACK, POPUP, POPUP_FIELDS, READ, WRITE, EDIT, EDIT_LIST, REPLAY,
    QUESTION_ASK, QUESTION_RETURN, QUESTION_COMMAND, FUNCTIONS
};
/* What is counted beside the answers: of lists, the answer bytes; of events, the kinds, and the numbers of two of them; of questions, how
 * they opened or closed. */
enum { EDITS_IN_LISTS = FUNCTIONS, KINDS_OF_EVENTS, REFUSED_RECORDS, DAMAGED_BLOCKS, CLOSINGS, ROWS };

/* The numbers are those of 01's table, from '0' on: ':' is 10, and 02's 27 to 30 for questions are K to N; also 3 where an image is
 * handed out, 5 where one is handed in, and 1 and 3 for a list's form. The check has no refusal. */
static const struct {
    const char *name, *numbers;
    int slices;
    enum content contents[MOST_SLICES];
    size_t image; /* the size of what goes into room, where it is always the same */
} functions[FUNCTIONS] = {
    [CHECK] = {"crsf_check", "0", 1, {BYTES}, 0},
    [TEXT] = {"crsf_text", "0123", 2, {BYTES, ROOM}, CRSF_TEXT_SIZE},
    [ACK] = {"crsf_ack", "0123", 2, {BYTES, ROOM}, CRSF_ACK_SIZE},
    [POPUP] = {"crsf_popup", "01235", 2, {FIELDS, ROOM}, CRSF_POPUP_SIZE},
    [POPUP_FIELDS] = {"crsf_popup_fields", "035", 2, {POPUP_IMAGE, ROOM}, CRSF_POPUP_FIELDS_SIZE},
    [READ] = {"crsf_read", "01234", 2, {PAYLOAD, ROOM}, CRSF_RECORD_SIZE},
    [WRITE] = {"crsf_write", "0235", 2, {RECORD, ROOM}, 0},
    [EDIT] = {"crsf_edit", "0124678", 1, {PAYLOAD_IN_PLACE}, 0},
    [EDIT_LIST] = {"crsf_edit_list", "013", 3, {PAYLOAD_IN_PLACE, EDITS, ROOM}, 0},
    [REPLAY] = {"crsf_replay", "035", 3, {REPLAY_IN_PLACE, BLOCK, ROOM}, CRSF_EVENT_SIZE},
    [QUESTION_ASK] = {"crsf_question_ask", "05KL", 2, {QUESTION_IN_PLACE, POPUP_IMAGE}, 0},
    [QUESTION_RETURN] = {"crsf_question_return", "025KMN", 1, {QUESTION_IN_PLACE}, 0},
    [QUESTION_COMMAND] = {"crsf_question_command", "025KLMN", 2, {QUESTION_IN_PLACE, CALLING}, 0},
};

/* The call at hand. */
static struct {
    int function, slices;
    struct slice {
        uint8_t bytes[LONGEST_BLOCK + 8], *at; /* what was lent, and where it lies */
        size_t len;
        enum content content;
    } slice[MOST_SLICES];
    uint32_t numbers[3]; /* the arguments that are no slices */
} call;

static enum { HEAP, ENDS, STARTS } turn;
static size_t first_length, length_step;
static unsigned long long seed, calls, answers[ROWS][NUMBERS];

static _Noreturn void fail(const char *what, ...)
{
    static const char *const turns[] = {"heap", "guard behind", "guard in front"};
    va_list values;
    va_start(values, what);
    fprintf(stderr, "%s ", functions[call.function].name);
    vfprintf(stderr, what, values);
    fprintf(stderr, "\n%s, seed %llu, call %llu, lengths", turns[turn], seed, calls);
    for (int i = 0; i < call.slices; i++)
        fprintf(stderr, " %zu", call.slice[i].len);
    fprintf(stderr, ", numbers %u %u %u\n", call.numbers[0], call.numbers[1], call.numbers[2]);
    _exit(1);
}

/* Comes from within the function that is called, so printing is at rest; SIGTERM comes when run's time is up.
 * The attribute is for qemu, whose stack isn't aligned here. */
__attribute__((force_align_arg_pointer)) static void on_signal(int signal, siginfo_t *about, void *context)
{
    (void)context;
    if (signal == SIGTERM)
        fail("is still at work");
    for (int i = 0; i < call.slices; i++) {
        const ptrdiff_t place = (uint8_t *)about->si_addr - call.slice[i].at;
        if (call.slice[i].at != NULL && place > -AREA && place < AREA)
            fail("may not touch byte %td of slice %d like this", place, i);
    }
    fail("ends with signal %d at %p", signal, about->si_addr);
}

/* DRAWING */

/* The size of what goes into room: an answer for each edit, or an image. A payload's is the count, and any buffer may be lent. */
static size_t size_in_room(void)
{
    return call.function == EDIT_LIST ? call.slice[1].len / CRSF_EDIT_SIZE : functions[call.function].image;
}
static size_t room(void) { return call.function == WRITE ? within(0, CRSF_MAX_PAYLOAD) : size_in_room(); }

static bool on_question(int function) { return function >= QUESTION_ASK && function <= QUESTION_COMMAND; }

/* They go by the first slice. */
static void draw_numbers(int function, const uint8_t *first, uint32_t numbers[3])
{
    for (int i = 0; i < 2; i++)
        numbers[i] = below(256);
    numbers[2] = below(8) == 0 ? below(256) : below(2); /* an ACK's action, a response */
    if (function == EDIT)
        numbers[0] = field(first[2]), numbers[1] = number();
    if (function == REPLAY)
        numbers[0] = (uint32_t)next();
    if (on_question(function))
        numbers[0] = second_near(first), numbers[1] = value_near(first);
}

static void draw(int function)
{
    call.function = function;
    call.slices = functions[function].slices;
    for (int turn = 0; turn < call.slices; turn++) {
        const int i = function == REPLAY ? call.slices - 1 - turn : turn; /* what put_valid goes by comes first */
        struct slice *s = &call.slice[i];
        s->content = functions[function].contents[i];
        const uint32_t most = longest_of(s->content);
        put_any(s->bytes, most);
        s->len = s->content == ROOM ? room() : put_valid(s->content, s->bytes, call.slice[0].bytes, call.slice[1].bytes);
        s->len = damaged(s->bytes, s->len, most);
    }
    draw_numbers(function, call.slice[0].bytes, call.numbers);
}

/* A payload's last byte becomes right for the length it has now, a block's for what it holds now; one in four stays as it fell. */
static void renew_check(struct slice *s)
{
    if ((s->content == PAYLOAD || s->content == PAYLOAD_IN_PLACE) && s->len > 0 && below(4) > 0)
        s->bytes[s->len - 1] = check_of(s->bytes, s->len);
    if (s->content == BLOCK && s->len == CRSF_BLOCK_SIZE && below(4) > 0)
        close_block(s->bytes);
}

/* LENDING */

/* Two views of the same bytes, each between pages that can't be touched: one may be written, the other only read. */
static struct { uint8_t *writable, *read_only; } areas[MOST_SLICES];

static uint8_t *view(int file, int protection)
{
    uint8_t *at = mmap(NULL, 3 * AREA, PROT_NONE, MAP_PRIVATE | MAP_ANONYMOUS, -1, 0);
    if (at == MAP_FAILED || mmap(at + AREA, AREA, protection, MAP_SHARED | MAP_FIXED, file, 0) == MAP_FAILED)
        perror("mmap"), exit(2);
    return at + AREA;
}

static void make_areas(void)
{
    for (int i = 0; i < MOST_SLICES; i++) {
        const int file = memfd_create("area", 0);
        if (file < 0 || ftruncate(file, AREA) != 0)
            perror("memfd_create"), exit(2);
        areas[i].writable = view(file, PROT_READ | PROT_WRITE);
        areas[i].read_only = view(file, PROT_READ);
    }
}

static bool is_const(const struct slice *s) { return s->content < PAYLOAD_IN_PLACE; }

static uint8_t *lend_pages(int i, const struct slice *s)
{
    const size_t place = turn == ENDS ? AREA - s->len : 0;
    memcpy(areas[i].writable + place, s->bytes, s->len);
    return (is_const(s) ? areas[i].read_only : areas[i].writable) + place;
}

/* What lies in room before a call is not to matter: for valgrind it was never written. */
static uint8_t *lend_heap(const struct slice *s)
{
    uint8_t *at = malloc(s->len);
    memcpy(at, s->bytes, s->len);
    if (s->content == ROOM)
        (void)VALGRIND_MAKE_MEM_UNDEFINED(at, s->len);
    return at;
}

static uint8_t *lend(int i, const struct slice *s)
{
    if (s->len == 0 && below(2) == 0)
        return NULL;
    return turn == HEAP ? lend_heap(s) : lend_pages(i, s);
}

/* JUDGING */

static void judge_number(int row, const char *numbers, uint32_t number)
{
    if (number >= NUMBERS || strchr(numbers, '0' + (int)number) == NULL)
        fail("may not answer %u%s", number, row == EDITS_IN_LISTS ? " to an edit" : "");
    answers[row][number]++;
}

/* But for questions only crsf_write counts, from 5 bytes on: destination, source, id, at least one byte, check. That its buffer has
 * so many is judged with the slices. */
static void judge_count(uint32_t count, const struct slice *buffer)
{
    if (buffer == NULL ? count != 0 : count < 5 || count > CRSF_MAX_PAYLOAD)
        fail("may not count %u", count);
    if (buffer != NULL && buffer->at[count - 1] != check_of(buffer->at, count))
        fail("counts %u, and the last byte is not the check", count);
}

/* How many bytes at the front of a slice an answer says to be written; in place, all may be. */
static size_t said(const struct slice *s, uint32_t answer)
{
    if (is_const(s) || CRSF_NUMBER(answer) != CRSF_ACCEPTED)
        return 0;
    if (s->content != ROOM)
        return s->len;
    return call.function == WRITE ? CRSF_COUNT(answer) : size_in_room();
}

static size_t changed(const struct slice *s, size_t from)
{
    size_t n = 0;
    for (size_t i = from; i < s->len; i++)
        n += s->at[i] != s->bytes[i];
    return n;
}

static void judge_slice(int i, const struct slice *s, size_t written)
{
    if (written > s->len)
        fail("has no room for %zu bytes in slice %d", written, i);
    if (turn == HEAP && VALGRIND_CHECK_MEM_IS_DEFINED(s->at, written) != 0)
        fail("leaves bytes of slice %d unwritten", i);
    if (turn == HEAP) /* the rest may be looked at from here on */
        (void)VALGRIND_MAKE_MEM_DEFINED(s->at, s->len);
    if (changed(s, written) > 0)
        fail("may not change slice %d from byte %zu on", i, written);
}

/* The answer bytes of a list; how many of its edits were accepted. */
static size_t judge_list(const uint8_t *given)
{
    size_t accepted = 0;
    for (size_t i = 0; i < size_in_room(); i++) {
        judge_number(EDITS_IN_LISTS, functions[EDIT].numbers, given[i]);
        accepted += given[i] == CRSF_ACCEPTED;
    }
    return accepted;
}

static void judge_same(const char *what, const uint8_t *given, const uint8_t *expected, size_t len)
{
    for (size_t i = 0; i < len; i++)
        if (given[i] != expected[i])
            fail("%s otherwise from byte %zu on: %u, not %u", what, i, given[i], expected[i]);
}

/* The answer, and where it accepts the event and what is kept. */
static void judge_replay(const struct slice *s, uint32_t number)
{
    uint8_t replay[CRSF_REPLAY_SIZE], event[CRSF_EVENT_SIZE];
    const uint32_t expected = expected_answer(s[0].bytes, s[0].len, s[1].bytes, s[1].len, s[2].len);
    if (number != expected)
        fail("answers %u, not %u", number, expected);
    if (number != CRSF_ACCEPTED)
        return;
    memcpy(replay, s[0].bytes, sizeof replay);
    expect_event(replay, call.numbers[0], s[1].bytes, s[1].len, event);
    judge_same("hands on", s[2].at, event, sizeof event);
    judge_same("keeps", s[0].at, replay, sizeof replay);
    answers[KINDS_OF_EVENTS][event[0]]++;
    if (event[0] == CRSF_KIND_REFUSED || event[0] == CRSF_KIND_DAMAGED)
        answers[event[0] == CRSF_KIND_REFUSED ? REFUSED_RECORDS : DAMAGED_BLOCKS][event[8]]++;
}

/* The word, and the question that is to be kept. */
static uint32_t expected_of(const struct slice *s, const uint32_t *n, uint8_t *question)
{
    popup_fields fields;
    if (!is_question(s[0].bytes, s[0].len))
        return 5;
    memcpy(question, s[0].bytes, CRSF_QUESTION_SIZE);
    switch (call.function) {
    case QUESTION_ASK:
        return s[1].len == CRSF_POPUP_SIZE && inspect(s[1].bytes, fields) ? expect_asked(question, n[0], s[1].bytes) : 5;
    case QUESTION_RETURN: return n[2] <= 1 ? expect_returned(question, n[0], (uint8_t)n[1], (uint8_t)n[2]) : 2;
    default: return expect_commanded(question, n[0], s[1].bytes, s[1].len);
    }
}

static void judge_question(const struct slice *s, uint32_t answer)
{
    uint8_t question[CRSF_QUESTION_SIZE];
    const uint32_t expected = expected_of(s, call.numbers, question);
    if (answer != expected)
        fail("answers %u with count %u, not %u with %u", CRSF_NUMBER(answer), answer >> 8, CRSF_NUMBER(expected), expected >> 8);
    if (CRSF_NUMBER(answer) != CRSF_ACCEPTED)
        return;
    judge_same("keeps", s[0].at, question, sizeof question);
    answers[CLOSINGS][CRSF_COUNT(answer)]++;
}

static void judge(uint32_t answer)
{
    const struct slice *s = call.slice;
    const bool accepted = CRSF_NUMBER(answer) == CRSF_ACCEPTED;
    for (int i = 0; i < call.slices; i++)
        judge_slice(i, &s[i], said(&s[i], answer));
    judge_number(call.function, functions[call.function].numbers, CRSF_NUMBER(answer));
    if (on_question(call.function))
        judge_question(s, answer);
    else
        judge_count(CRSF_COUNT(answer), call.function == WRITE && accepted ? &s[1] : NULL);
    if (CRSF_PLACE(answer) != 0)
        fail("may not answer place %u", CRSF_PLACE(answer));
    if (call.function == REPLAY)
        judge_replay(s, CRSF_NUMBER(answer));
    if (s[0].content == PAYLOAD_IN_PLACE) {
        const size_t edits = accepted && call.function == EDIT_LIST ? judge_list(s[2].at) : accepted;
        if (changed(&s[0], 0) > 5 * edits) /* each the bytes of a number, at most 4, and the check */
            fail("may not change %zu bytes by %zu edits", changed(&s[0], 0), edits);
    }
}

/* CALLING */

/* 0 where the check is the remainder. */
static uint32_t judged_check(const struct slice *s, uint8_t start)
{
    const uint8_t check = crsf_check(s->at, s->len, start);
    if (check != divided(start, s->bytes, s->len))
        fail("answers %u, not the remainder", check);
    return 0;
}

static uint32_t answer_of(const struct slice *s, const uint32_t *n)
{
    switch (call.function) {
    case CHECK: return judged_check(s, (uint8_t)n[0]);
    case TEXT: return crsf_text(s[0].at, s[0].len, s[1].at, s[1].len);
    case ACK: return crsf_ack((uint8_t)n[0], (uint8_t)n[1], (uint8_t)n[2], s[0].at, s[0].len, s[1].at, s[1].len);
    case POPUP: return crsf_popup(s[0].at, s[0].len, s[1].at, s[1].len);
    case POPUP_FIELDS: return crsf_popup_fields(s[0].at, s[0].len, s[1].at, s[1].len);
    case READ: return crsf_read(s[0].at, s[0].len, s[1].at, s[1].len);
    case WRITE: return crsf_write(s[0].at, s[0].len, s[1].at, s[1].len);
    case EDIT: return crsf_edit(s[0].at, s[0].len, n[0], n[1]);
    case EDIT_LIST: return crsf_edit_list(s[0].at, s[0].len, s[1].at, s[1].len, s[2].at, s[2].len);
    case REPLAY: return crsf_replay(s[0].at, s[0].len, n[0], s[1].at, s[1].len, s[2].at, s[2].len);
    case QUESTION_ASK: return crsf_question_ask(s[0].at, s[0].len, n[0], s[1].at, s[1].len);
    case QUESTION_RETURN: return crsf_question_return(s[0].at, s[0].len, n[0], (uint8_t)n[1], (uint8_t)n[2]);
    default: return crsf_question_command(s[0].at, s[0].len, n[0], s[1].at, s[1].len);
    }
}

/* Whether the call comes at the last second at which its question may be answered. */
static bool at_the_end(const uint8_t *question)
{
    popup_fields fields;
    return inspect(question + CRSF_QUESTION_POPUP, fields) && call.numbers[0] - sent_of(question) == fields[CRSF_POPUP_FIELDS_TIMEOUT];
}

/* What a wrong function would do: run builds each kind, and has to see it caught. */
#ifndef WRONG
#define WRONG 0
#endif
#define IF(kind, of, when) if (WRONG == (kind) && call.function == (of) && (when))
static uint32_t spoiled(const struct slice *s, uint32_t answer)
{
    static volatile uint8_t seen;
    const uint32_t number = CRSF_NUMBER(answer);
    IF(1, READ, number == 0) seen = s[0].at[s[0].len];
    IF(2, POPUP, number == 0) seen = s[0].at[-1];
    IF(3, TEXT, number == 0) s[1].at[s[1].len] = 0;
    IF(4, ACK, number == 0 && s[0].len > 0) s[0].at[0] ^= 1;
    IF(5, POPUP_FIELDS, number != 0 && s[1].len > 0) s[1].at[0] ^= 1;
    IF(6, READ, number == 0 && s[1].len > CRSF_RECORD_SIZE) s[1].at[CRSF_RECORD_SIZE] ^= 1;
    IF(7, EDIT, number == CRSF_NO_SUCH_FIELD) answer = 9;
    IF(8, WRITE, number == 0 && CRSF_COUNT(answer) < s[1].len && CRSF_COUNT(answer) < CRSF_MAX_PAYLOAD) answer += 1 << 8;
    IF(9, EDIT, number == 0 && s[0].len >= 6) for (size_t i = 0; i < s[0].len; i++) s[0].at[i] = s[0].bytes[i] ^ (i < 6);
    IF(10, EDIT_LIST, number == CRSF_BUFFER_OVERFLOW) answer = CRSF_INVALID_PAYLOAD_LENGTH;
    IF(11, WRITE, number == 0 && s[1].at[s[1].len - 1] == 7) seen = 7;
    IF(12, TEXT, number == 0) (void)VALGRIND_MAKE_MEM_UNDEFINED(s[1].at + CRSF_TEXT_SIZE - 1, 1);
    IF(13, TEXT, number == 0) for (;;) seen = 0;
    IF(14, REPLAY, number == 0 && s[1].len > 0) seen = s[1].at[s[1].len];
    IF(15, REPLAY, number != 0 && s[0].len > 0) s[0].at[0] ^= 1;
    IF(16, REPLAY, number == 0 && s[2].at[0] == CRSF_KIND_GAP) s[2].at[0] = CRSF_KIND_STEP_BACK;
    IF(17, REPLAY, number == 0 && s[2].at[0] == CRSF_KIND_COMMAND) s[2].at[1] = 1;
    IF(18, REPLAY, number == 0 && s[2].at[0] == CRSF_KIND_DAMAGED) s[0].at[4] ^= 1;
    IF(19, REPLAY, number == CRSF_RECORD_NOT_MADE && s[0].len == CRSF_REPLAY_SIZE) answer = CRSF_BUFFER_OVERFLOW;
    IF(20, READ, number == 0) s[1].at[CRSF_RECORD_SOURCE] = seen++;
    IF(21, QUESTION_ASK, number == 0) seen = s[1].at[s[1].len];
    IF(22, QUESTION_ASK, number == CRSF_CLOCK_BACK) answer = CRSF_STILL_OPEN;
    IF(23, QUESTION_RETURN, number != 0 && s[0].len > CRSF_QUESTION_LAST) s[0].at[CRSF_QUESTION_LAST] ^= 1;
    IF(24, QUESTION_RETURN, CRSF_COUNT(answer) == CRSF_PROCESSED && at_the_end(s[0].bytes)) answer = CRSF_EXPIRED << 8;
    IF(25, QUESTION_RETURN, CRSF_COUNT(answer) == CRSF_EXPIRED) memcpy(s[0].at, s[0].bytes, s[0].len), answer = CRSF_NO_QUESTION;
    IF(26, QUESTION_COMMAND, number == CRSF_INVALID_PAYLOAD) answer = CRSF_RECORD_NOT_MADE;
    IF(27, QUESTION_COMMAND, CRSF_COUNT(answer) == CRSF_CANCELLED) s[0].at[CRSF_QUESTION_OPEN] = 1;
    return (void)seen, answer;
}

/* The same bytes lent once more: nothing is kept between calls, so all comes out as before. */
static void call_again(uint32_t answer)
{
    uint8_t first[MOST_SLICES][LONGEST_BLOCK + 8];
    for (int i = 0; i < call.slices; i++) {
        const struct slice *s = &call.slice[i];
        if (is_const(s) || s->len == 0)
            continue;
        memcpy(first[i], s->at, s->len);
        memcpy(s->at, s->bytes, s->len);
    }
    if (spoiled(call.slice, answer_of(call.slice, call.numbers)) != answer)
        fail("answers otherwise when called again");
    for (int i = 0; i < call.slices; i++)
        if (!is_const(&call.slice[i]) && call.slice[i].len > 0 && memcmp(first[i], call.slice[i].at, call.slice[i].len) != 0)
            fail("leaves other bytes in slice %d when called again", i);
}

static void make_call(void)
{
    for (int i = 0; i < call.slices; i++) {
        renew_check(&call.slice[i]);
        call.slice[i].at = lend(i, &call.slice[i]);
    }
    calls++;
    const uint32_t answer = spoiled(call.slice, answer_of(call.slice, call.numbers));
    judge(answer);
    call_again(answer);
    for (int i = 0; turn == HEAP && i < call.slices; i++)
        free(call.slice[i].at);
}

/* Each length of slice i with each of slice j; where both are the same, between pages with each kind of command. */
static void every_length(int function, int i, int j)
{
    const enum content *contents = functions[function].contents;
    const size_t most = turn == HEAP ? 0 : i == j ? KINDS - 1 : longest_of(contents[j]);
    for (size_t a = first_length; a <= longest_of(contents[i]); a += length_step)
        for (size_t b = 0; b <= most; b++) {
            draw(function);
            call.slice[j].len = b;
            call.slice[i].len = a;
            make_call();
        }
}

static void take_turn(int which, unsigned long long count)
{
    turn = which;
    for (int function = 0; function < FUNCTIONS; function++)
        for (int i = 0; i < functions[function].slices; i++)
            for (int j = i; j < (turn == HEAP ? i + 1 : functions[function].slices); j++)
                every_length(function, i, j);
    while (count-- > 0) {
        draw((int)below(FUNCTIONS));
        make_call();
    }
}

/* One line; false where a number that can be answered never was. */
static bool report(const char *name, const char *numbers, const unsigned long long *counts)
{
    unsigned long long all = 0;
    bool each = true;
    for (int i = 0; i < NUMBERS; i++)
        all += counts[i];
    printf("%-21s %8llu", name, all);
    for (; *numbers != '\0'; numbers++) {
        const unsigned long long count = counts[*numbers - '0'];
        printf("  %d: %llu%s", *numbers - '0', count, count > 0 ? "" : ", never answered");
        each = each && count > 0;
    }
    putchar('\n');
    return each;
}

int main(int argc, char **argv)
{
    if (argc != 6 || (strcmp(argv[3], "guard") != 0 && strcmp(argv[3], "heap") != 0) || strtoull(argv[5], NULL, 10) == 0)
        return fputs("boundary COUNT SEED guard|heap FIRST STEP\n", stderr), 2;
    const unsigned long long count = strtoull(argv[1], NULL, 10);
    state = seed = strtoull(argv[2], NULL, 10);
    first_length = strtoull(argv[4], NULL, 10), length_step = strtoull(argv[5], NULL, 10);

    const struct sigaction action = {.sa_sigaction = on_signal, .sa_flags = SA_SIGINFO};
    const int signals[] = {SIGSEGV, SIGBUS, SIGILL, SIGFPE, SIGTRAP, SIGABRT, SIGTERM};
    for (size_t i = 0; i < sizeof signals / sizeof signals[0]; i++)
        sigaction(signals[i], &action, NULL);

    if (strcmp(argv[3], "heap") == 0) {
        take_turn(HEAP, count);
    } else {
        make_areas();
        take_turn(ENDS, count / 2);
        take_turn(STARTS, count - count / 2);
    }

    bool each = true;
    for (int i = 0; i < FUNCTIONS; i++)
        each = report(functions[i].name, functions[i].numbers, answers[i]) && each;
    each = report("  edits in lists", functions[EDIT].numbers, answers[EDITS_IN_LISTS]) && each;
    each = report("  kinds of events", "012345", answers[KINDS_OF_EVENTS]) && each;
    each = report("  records refused", "124", answers[REFUSED_RECORDS]) && each;
    each = report("  blocks damaged", "19:", answers[DAMAGED_BLOCKS]) && each;
    each = report("  closings", "0123", answers[CLOSINGS]) && each;
    if (!each)
        return 1;
    printf("%llu calls, 0 outside\n", calls);
    return 0;
}
