#define _DEFAULT_SOURCE /* sigaltstack */

#include "guard.h"

#include <signal.h>
#include <stdio.h>
#include <stdlib.h>
#include <string.h>
#include <unistd.h>

#include "draft.h"
#include "room.h"
#include "sheet.h"

/* The rooms of the four slices of a run, for each side; and of a second sheet. */
static struct room sheets[SIDES], stims[SIDES], outs[SIDES], nexts[SIDES], second_sheets[SIDES];

/* What the slices that a run fills hold beforehand: a byte left as it is differs between the two calls. */
static const uint8_t fills[SIDES] = {0xa5, 0x5a};

static const char *volatile current = "none";
static size_t passed_count, failed_count;

void guard_open(void)
{
    for (enum side side = 0; side < SIDES; side++) {
        room_open(&sheets[side], MOST_BYTES);
        room_open(&stims[side], SHEET_LONGEST_STIMULUS + 1);
        room_open(&outs[side], 64 * SHEET_LONGEST_STIMULUS);
        room_open(&nexts[side], MOST_BYTES);
        room_open(&second_sheets[side], MOST_BYTES);
    }
}

static void on_fault(int signal)
{
    static const char text[] = "fault in a call: ";
    const char *name = current;
    (void)signal;
    if (write(2, text, sizeof text - 1) < 0 || write(2, name, strlen(name)) < 0 || write(2, "\n", 1) < 0)
        _exit(1);
    _exit(1);
}

void guard_thread(void)
{
    /* One thread at a time makes calls, so one stack serves the handlers of all. */
    static uint8_t handler_stack[65536];
    stack_t stack = {.ss_sp = handler_stack, .ss_size = sizeof handler_stack};
    struct sigaction action = {.sa_handler = on_fault, .sa_flags = SA_ONSTACK};
    sigemptyset(&action.sa_mask);
    if (sigaltstack(&stack, NULL) != 0 || sigaction(SIGSEGV, &action, NULL) != 0 || sigaction(SIGBUS, &action, NULL) != 0) {
        perror("sigaction");
        exit(1);
    }
}

void guard_name(const char *name)
{
    current = name;
}

void tally(int passed, const char *name, const char *what)
{
    passed_count += passed ? 1 : 0;
    failed_count += passed ? 0 : 1;
    if (!passed)
        printf("failed: %s: %s\n", name, what);
}

size_t tally_count(void)
{
    return passed_count + failed_count;
}

int tally_end(void)
{
    printf("%zu passed, %zu failed\n", passed_count, failed_count);
    return failed_count == 0 ? 0 : 1;
}

uint64_t guarded_check(const char *name, const uint8_t *sheet, size_t length)
{
    uint64_t results[SIDES];
    current = name;
    for (enum side side = 0; side < SIDES; side++)
        results[side] = sheet_check(room_copy(&sheets[side], side, sheet, length), length);
    current = "none";
    if (results[PAGE_AFTER] != results[PAGE_BEFORE])
        tally(0, name, "two checks of the same bytes differ");
    return results[PAGE_AFTER];
}

/* One call of the run with its slices at one side of their rooms. */
static struct run_answer lend(const struct run_call *call, enum side side)
{
    uint8_t fill = fills[side];
    const uint8_t *sheet = room_copy(&sheets[side], side, call->sheet, call->sheet_length);
    const uint8_t *stim = room_copy(&stims[side], side, call->stim, call->stim_length);
    uint8_t *out = room_fill(&outs[side], side, call->out_length, fill);
    uint8_t *next = room_fill(&nexts[side], side, call->next_length, fill);
    uint64_t result =
        sheet_run(sheet, call->sheet_length, stim, call->stim_length, out, call->out_length, next, call->next_length);
    int untouched = all_are(out, call->out_length, fill) && all_are(next, call->next_length, fill);
    return (struct run_answer){result, out, next, untouched};
}

static int kept_beyond(const struct run_call *call, enum side side)
{
    return room_kept(&outs[side], side, call->out_length, fills[side]) &&
           room_kept(&nexts[side], side, call->next_length, fills[side]);
}

struct run_answer guarded_run(const char *name, const struct run_call *call)
{
    current = name;
    struct run_answer one = lend(call, PAGE_AFTER), other = lend(call, PAGE_BEFORE);
    current = "none";
    int equal = memcmp(one.out, other.out, call->out_length) == 0 && memcmp(one.next, other.next, call->next_length) == 0;
    if (one.result != other.result || one.untouched != other.untouched || (!one.untouched && !equal))
        tally(0, name, "two runs on the same bytes differ");
    if (!kept_beyond(call, PAGE_AFTER) || !kept_beyond(call, PAGE_BEFORE))
        tally(0, name, "the run writes beyond a slice");
    return one;
}

/* What a call that carries values gave. The slice stands until the next call. */
struct carry_answer {
    uint64_t result;
    const uint8_t *next;
    int untouched;
};

static struct carry_answer lend_two(const struct carry_call *call, enum side side)
{
    const uint8_t *old_sheet = room_copy(&sheets[side], side, call->old_sheet, call->old_length);
    const uint8_t *new_sheet = room_copy(&second_sheets[side], side, call->new_sheet, call->new_length);
    uint8_t *next = room_fill(&nexts[side], side, call->next_length, fills[side]);
    uint64_t result = sheet_carry(old_sheet, call->old_length, new_sheet, call->new_length, next, call->next_length);
    return (struct carry_answer){result, next, all_are(next, call->next_length, fills[side])};
}

static struct carry_answer guarded_carry(const char *name, const struct carry_call *call)
{
    current = name;
    struct carry_answer one = lend_two(call, PAGE_AFTER), other = lend_two(call, PAGE_BEFORE);
    current = "none";
    int equal = memcmp(one.next, other.next, call->next_length) == 0;
    if (one.result != other.result || one.untouched != other.untouched || (!one.untouched && !equal))
        tally(0, name, "two calls on the same bytes differ");
    for (enum side side = 0; side < SIDES; side++)
        if (!room_kept(&nexts[side], side, call->next_length, fills[side]))
            tally(0, name, "the call writes beyond a slice");
    return one;
}

static void tally_result(const char *name, const char *call, uint64_t result, uint32_t code, uint32_t place)
{
    char what[128];
    snprintf(what, sizeof what, "%s: %u at %u instead of %u at %u", call, sheet_code_of(result), sheet_place_of(result), code, place);
    tally(result == ((uint64_t)code << 32 | place), name, what);
}

void expect_refused(const char *name, const struct run_call *call, uint32_t code, uint32_t place)
{
    struct run_answer answer = guarded_run(name, call);
    tally_result(name, "run", answer.result, code, place);
    tally(answer.untouched, name, "the refused run alters a slice");
}

/* Compares a slice, and says where it differs first. */
static void tally_bytes(const char *name, const char *slice, const uint8_t *given, const uint8_t *wanted, size_t length)
{
    size_t at = 0;
    char what[128] = "";
    while (at < length && given[at] == wanted[at])
        at++;
    if (at < length)
        snprintf(what, sizeof what, "byte %zu of the %s slice: %u instead of %u", at, slice, given[at], wanted[at]);
    tally(at == length, name, what);
}

void expect_run(const char *name, const struct run_call *call, uint32_t cycles, const uint8_t *out, const uint8_t *next)
{
    struct run_answer answer = guarded_run(name, call);
    tally_result(name, "run", answer.result, SHEET_ACCEPTED, cycles);
    tally_bytes(name, "output", answer.out, out, call->out_length);
    tally_bytes(name, "next", answer.next, next, call->next_length);
}

void expect(const char *name, const uint8_t *sheet, size_t length, uint32_t code, uint32_t place)
{
    static const uint8_t stim[] = {255, 255, 255};
    int accepted = code == SHEET_ACCEPTED;
    struct run_call call = {sheet, length, stim, accepted ? 0 : sizeof stim, 5, 7};
    tally_result(name, "check", guarded_check(name, sheet, length), code, place);
    expect_refused(name, &call, accepted ? SHEET_WRONG_OUTPUT_LENGTH : code, place * !accepted);
}

void expect_carry_refused(const char *name, const struct carry_call *call, uint32_t code, uint32_t place)
{
    struct carry_answer answer = guarded_carry(name, call);
    tally_result(name, "carry", answer.result, code, place);
    tally(answer.untouched, name, "the refused call alters a slice");
}

void expect_carried(const char *name, const struct carry_call *call, const uint8_t *next)
{
    struct carry_answer answer = guarded_carry(name, call);
    tally_result(name, "carry", answer.result, SHEET_DONE, 0);
    tally_bytes(name, "next", answer.next, next, call->next_length);
}

static int possible(uint32_t code, uint32_t place, size_t length)
{
    if (length < RECORD_BYTES || length > SHEET_LONGEST || length % RECORD_BYTES != 0)
        return code == SHEET_WRONG_LENGTH && place == 0;
    if (code == SHEET_WRONG_HEADER)
        return place == 0;
    return code != SHEET_WRONG_LENGTH && code <= SHEET_ILL_TYPED && 1 <= place && place < length / RECORD_BYTES;
}

/* Whether two sheets differ only in the low bytes of leaves' words a. */
static int leaves_apart(const uint8_t *sheet, const uint8_t *next, size_t length)
{
    for (size_t at = 0; at < length; at++) {
        const uint8_t *record = sheet + at / RECORD_BYTES * RECORD_BYTES;
        int leaf = record[0] == LEAF && record[1] == 0 && at % RECORD_BYTES == 2 * A;
        if (sheet[at] != next[at] && !leaf)
            return 0;
    }
    return 1;
}

void expect_possible(const char *name, const uint8_t *sheet, size_t length)
{
    static const uint8_t stim[] = {1, 2, 1};
    uint64_t verdict = guarded_check(name, sheet, length);
    struct run_answer run = guarded_run(name, &(struct run_call){sheet, length, stim, sizeof stim, 3, length});
    uint32_t code = sheet_code_of(verdict), run_code = sheet_code_of(run.result), run_place = sheet_place_of(run.result);
    char what[128];
    snprintf(what, sizeof what, "check %u at %u, run %u at %u, with %zu bytes", code, sheet_place_of(verdict), run_code, run_place,
             length);
    tally(possible(code, sheet_place_of(verdict), length), name, what);
    if (code != SHEET_ACCEPTED)
        tally(run.result == verdict && run.untouched, name, what);
    else if (run_code == SHEET_WRONG_INPUT)
        tally(run_place < sizeof stim && run.untouched, name, what);
    else
        tally(run_code == SHEET_ACCEPTED && run_place == sizeof stim && leaves_apart(sheet, run.next, length), name, what);
}
