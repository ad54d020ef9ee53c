/*
 * sheet.h: sheets of picoELLA circuits, translated from text, checked, run and previewed. For hosts in C (C99 or later) and C++.
 *
 *     uint64_t sheet_check(sheet, length)
 *         Is the sheet well formed and well typed, and what is the type of its output?
 *     uint64_t sheet_run(sheet, sheet_length, stim, stim_length, out, out_length, next, next_length)
 *         What does it put out, cycle by cycle, and what is the sheet then?
 *     uint64_t sheet_carry(old_sheet, old_length, new_sheet, new_length, next, next_length)
 *         What is the new sheet with what the delays of the old one hold, by their labels?
 *     uint64_t sheet_fired(sheet, sheet_length, stim, stim_length, fired, fired_length)
 *         Which alternative of each IF says yes first in one cycle?
 *     uint64_t sheet_preview(sheet, sheet_length, stim, stim_length, out, out_length)
 *         What would it put out for one cycle, without taking it?
 *     uint64_t sheet_possible(sheet, sheet_length, stim, stim_length, out, out_length)
 *         How many constructors are still possible at each output leaf in one cycle?
 *     struct sheet_pressed sheet_press(sheet, sheet_length, stim, stim_length, leaf)
 *         Which change of one input leaf alters this output leaf in one cycle?
 *     struct sheet_counts sheet_count(sheet, sheet_length, leaf)
 *         How many inputs of one cycle give each value of this output leaf?
 *     struct sheet_replayed sheet_replay(sheet, sheet_length, stim, stim_length, recorded,
 *                                        recorded_length, next, next_length)
 *         Are these the outputs of a run, and if not, where do they first differ?
 *     uint64_t sheet_translate(text, text_length, sheet, sheet_length)
 *         What is the sheet of a circuit typed with names?
 *
 * A result holds a code and a place: take them with sheet_code_of and sheet_place_of, and turn a code into a sentence with
 * sheet_sentence. What a sheet is, what a cycle computes and when each code is given is in docs/SHEETS.md. Above the declaration of
 * each call stands a sample, which takes from the host around it the slices and lengths that it does not declare.
 *
 * RULES FOR EVERY CALL
 *
 * - A slice is lent as a pointer to its first byte and then its length in bytes. The pointer is valid even where the length is 0:
 *   never null. A slice of 16-bit words has its length in words, and its pointer is aligned to 2.
 * - Slices lent to one call do not overlap, and nothing else writes to them while the call runs.
 * - A call touches nothing but the slices lent to it and its stack: it allocates nothing, keeps no pointer and no state. Several
 *   threads may call at the same time.
 * - Any content and any length is a good call. What is wrong with a sheet or a text is said by the result, and a refusal leaves
 *   every lent slice unaltered.
 * - What a call finds and does not write to a slice it returns in a struct by value. The first
 *   field of the struct is the result, and a refusal leaves 0 in all the others.
 *
 * PLATFORM
 *
 * x86-64 Linux; calls follow the System V ABI. A host links one of two archives:
 *
 *     libchecker.a    sheet_check and sheet_translate, with nothing of the simulator
 *     libsheets.a     every call
 *
 * tools/build-archives writes them to target/staticlib/. They need nothing but memcpy, memmove, memset, memcmp and bcmp of the C library:
 *
 *     cc -Iinclude host.c target/staticlib/libsheets.a
 *
 * examples/check.c, examples/run.c, examples/carry.c, examples/fired.c, examples/preview.c,
 * examples/possible.c, examples/press.c, examples/count.c, examples/replay.c, examples/bound.c and
 * examples/translate.c are whole hosts.
 */
#ifndef SHEET_H
#define SHEET_H

#include <stddef.h>
#include <stdint.h>

#ifdef __cplusplus
extern "C" {
#endif

/*
 * Versions, newest first; CHANGELOG.md is made from these lines.
 *
 *     1.9.0  sheet_possible: how many constructors are still possible at each output leaf in one
 *            cycle; code 22. sheet_carry needs less stack than before.
 *     1.8.0  sheet_replay: whether recorded outputs are those of a run, and else where they first
 *            differ; code 17.
 *     1.7.0  sheet_count: how many inputs of one cycle give each value of an output leaf. More than
 *            65,536 inputs (SHEET_MOST_INPUTS) are refused by 20.
 *     1.6.0  sheet_press: which change of one input leaf alters an output leaf in one cycle; code
 *            21. It is the first call that returns a struct. Code 20 has its name.
 *     1.5.1  0 is called SHEET_DONE; SHEET_ACCEPTED stays. The most records and the most leaves
 *            have names.
 *     1.5.0  sheet_translate: the sheet of a circuit typed with names; codes 13 to 15. It is in
 *            both archives. The other calls need more stack than before.
 *     1.4.0  sheet_preview: the outputs of one cycle, without taking it.
 *     1.3.0  sheet_fired: which alternative of each IF says yes first in one cycle; code 16.
 *            sheet_run needs more stack than before.
 *     1.2.0  sheet_carry: a new sheet with the values that the delays of a running one hold, by
 *            their labels; codes 18 and 19. Word d of a delay is its label. IFs may share a
 *            pattern.
 *     1.1.0  An empty stimulus is a run of no cycles and is no longer refused by 8. An undecided IF
 *            gives each leaf on which both branches agree. Both calls need more stack than before.
 *     1.0.0  sheet_check and sheet_run; codes 0 to 12. There are two archives, libchecker.a and
 *            libsheets.a.
 */

/*
 * The version of this header and of the archives that go with it. The first number rises where a host that was right may no longer
 * be, the second where a call or a code is added, the third where neither is so.
 */
#define SHEET_VERSION_MAJOR 1
#define SHEET_VERSION_MINOR 9
#define SHEET_VERSION_PATCH 0

/* The same as text, and as one number to compare: 1.2.3 is 10203. */
#define SHEET_VERSION "1.9.0"
#define SHEET_VERSION_NUMBER (SHEET_VERSION_MAJOR * 10000 + SHEET_VERSION_MINOR * 100 + SHEET_VERSION_PATCH)

/* The most records that a sheet may have. */
#define SHEET_MOST_RECORDS 4096

/* The most leaves that a type may have, and so the most bytes that one cycle takes in or puts out. */
#define SHEET_MOST_LEAVES 64

/* The most bytes that a sheet may have: 4,096 records of 12. */
#define SHEET_LONGEST 49152

/* The most bytes that a stimulus may have. */
#define SHEET_LONGEST_STIMULUS 65535

/* The most bytes that a run puts out: 65,535 cycles of 64 leaves. */
#define SHEET_LONGEST_OUTPUT 4194240

/* The most fully defined inputs of one cycle that are counted. */
#define SHEET_MOST_INPUTS 65536

/* The most bytes that a text may have. */
#define SHEET_LONGEST_TEXT 65535

/*
 * A result is code * 2^32 + place. Of the checks that a call makes, in its order, the first that applies is answered, with its
 * place. Above each code stands what its place says; sheet_sentence has a sentence on it for people.
 */
enum sheet_code {
    /*
     * Nothing is refused, by whichever call. The check's place is the record of the output's type, a run's the number of cycles
     * done, a translation's the length of the sheet in bytes, that of every other call 0.
     */
    SHEET_DONE = 0,
    /* The check's and the run's word for it. A translation's 0 does not say that the sheet is accepted: it does not check it. */
    SHEET_ACCEPTED = SHEET_DONE,

    /* The sheet is refused, by every call that takes one; in carrying, the old one. */
    /* Place 0. */
    SHEET_WRONG_LENGTH = 1,
    /* Place 0, which is the header's record. */
    SHEET_WRONG_HEADER = 2,
    /* Codes 3 to 6: the lowest record that breaks the rule. */
    SHEET_WRONG_RECORD = 3,
    SHEET_WRONG_NAMING = 4,
    SHEET_WRONG_TYPE = 5,
    SHEET_TOO_DEEP = 6,
    /* The first record that breaks a type rule, parts before the whole. */
    SHEET_ILL_TYPED = 7,

    /* The sheet is accepted, and the run, the replay or a call on one cycle is refused. */
    /* Place 0. */
    SHEET_WRONG_STIMULUS = 8,
    /* The first byte of the stimulus that is above the constructor count of its leaf, counted from 0. */
    SHEET_WRONG_INPUT = 9,
    /* Codes 10 and 11: the length that is needed, in bytes. Carrying and the replay give 11 too. */
    SHEET_WRONG_OUTPUT_LENGTH = 10,
    SHEET_WRONG_NEXT_LENGTH = 11,

    /* Of programs, not of calls: 1 is the sheet's file, 2 the stimulus's, 3 the record's. */
    SHEET_NO_FILE = 12,

    /* A text is not translated. Its bytes are counted from 0. */
    /* The first byte at which no legal text goes on, 65,535 at the latest; the text's length where it ends too soon. */
    SHEET_WRONG_TEXT = 13,
    /* The first byte of the first wrong name; where no name is wrong, the bracket of the first constant pair that has no type. */
    SHEET_WRONG_NAME = 14,
    /* The length that the sheet needs, in bytes; over SHEET_LONGEST where it would have over SHEET_MOST_RECORDS records. */
    SHEET_NO_ROOM = 15,

    /* Of sheet_fired: the number of words that is needed. */
    SHEET_WRONG_WORDS = 16,
    /* Of sheet_replay: the length that is needed, in bytes. */
    SHEET_WRONG_RECORDED_LENGTH = 17,

    /* The old sheet is accepted and carrying is refused. */
    /* The code, 1 to 7, by which the check refuses the new sheet. */
    SHEET_NEW_SHEET_REFUSED = 18,
    /* The lowest delay whose label a lower-numbered delay of the same sheet bears; the old sheet is searched first. */
    SHEET_LABEL_TWICE = 19,

    /* Of sheet_count: place 0. */
    SHEET_TOO_MANY_INPUTS = 20,
    /* Of sheet_press and sheet_count: the number of output leaves. */
    SHEET_NO_OUTPUT_LEAF = 21,
    /* Of sheet_possible: the lowest record that is a feedback or a flat type above 64 constructors. */
    SHEET_NOT_FOR_SETS = 22
};

/* The code of a result. */
static inline uint32_t sheet_code_of(uint64_t result)
{
    return (uint32_t)(result >> 32);
}

/* The place of a result. */
static inline uint32_t sheet_place_of(uint64_t result)
{
    return (uint32_t)(result & 0xffffffffu);
}

/* What a code says, for people. */
static inline const char *sheet_sentence(uint32_t code)
{
    static const char *const sentences[] = {
        "Done: nothing is refused.",
        "The sheet is under 12 bytes long, over 49,152, or no multiple of 12.",
        "The header's kind, count or last word is wrong, or it names no record or one of the wrong sort.",
        "A record has an unknown kind, or a word that its kind, the numbering rule or the sort it asks for does not allow.",
        "A record is named by no word, or by several that are not all words d of IFs.",
        "A pair type has the same parts as a lower one, or over 64 leaves.",
        "An expression lies over 64 deep, or in the defining parts of over three feedbacks.",
        "A type rule is broken.",
        "The stimulus is over 65,535 bytes long, or not made of whole cycles; or not of one, for a call on one cycle.",
        "A byte of the stimulus is above the constructor count of its leaf.",
        "The output slice has another length than the cycles times the output's leaves.",
        "The next slice is not as long as the sheet that it receives.",
        "The file cannot be opened.",
        "The text leaves the grammar here, ends too soon, or is over 65,535 bytes long.",
        "A name is declared twice or is taken, is not declared or not in scope, or is of the wrong kind; or a constant pair has no type.",
        "The slice is too short for the sheet, or the sheet would have over 4,096 records.",
    };
    switch (code) {
    case SHEET_WRONG_WORDS:
        return "The slice has another length than one word for each record.";
    case SHEET_WRONG_RECORDED_LENGTH:
        return "The recorded outputs have another length than the cycles times the output's leaves.";
    case SHEET_NEW_SHEET_REFUSED:
        return "The new sheet is refused by the check.";
    case SHEET_LABEL_TWICE:
        return "Two delays of one sheet bear the same label.";
    case SHEET_TOO_MANY_INPUTS:
        return "The product of the constructor counts of the input's leaves is over 65,536.";
    case SHEET_NO_OUTPUT_LEAF:
        return "The output has no leaf of this number.";
    case SHEET_NOT_FOR_SETS:
        return "A record is a feedback, or a flat type of over 64 constructors.";
    }
    return code < sizeof sentences / sizeof *sentences ? sentences[code] : "No call returns this code.";
}

/*
 * The check's stack need in bytes, rounded up, from the caller's frame down. It does not grow with the sheet beyond this:
 * expressions lie at most 64 deep, types of at most 64 leaves bound the depth of patterns, and chains are loops. Measured by
 * host/measure.c on the deepest sheets and on sheets of 4,096 records: the stack is filled with a pattern before the call, and after
 * it the lowest byte that changed is looked for. The tests fail where a call uses more than this figure, or never half of it.
 */
#define SHEET_CHECK_STACK 114688

/*
 * The check: whether the sheet is accepted, and with which type. Codes 0 to 7.
 *
 *     uint64_t result = sheet_check(sheet, length);
 *     if (sheet_code_of(result) == SHEET_ACCEPTED)
 *         printf("type %u\n", (unsigned)sheet_place_of(result));
 *     else
 *         printf("record %u: %s\n", (unsigned)sheet_place_of(result), sheet_sentence(sheet_code_of(result)));
 */
uint64_t sheet_check(const uint8_t *sheet, size_t length);

/*
 * The run's stack need, measured as the check's. It does not grow with the cycles, nor with the sheet beyond this: besides the
 * bounds above, a feedback is applied at most 65 times, once more than a type has leaves, and lies in the defining parts of at
 * most two others.
 */
#define SHEET_RUN_STACK 131072

/*
 * The run: what the sheet puts out for a stimulus, and the sheet after it. It begins with the check. Codes 0 to 11.
 *
 * Each cycle takes as many bytes of the stimulus as the input has leaves. On success `out` holds the output's leaves of each cycle
 * after those of the cycle before, and `next` the sheet after the last cycle: the sheet with what its delays then hold. A run that
 * begins from there goes on where this one ended, so many cycles may be run in one call or in several. An empty stimulus is a
 * run of no cycles: `out` has length 0, `next` receives the sheet as it is, and the place is 0.
 *
 * `next` is to be as long as the sheet, and `out` as long as the cycles times the output's leaves, which the host need not know:
 * lend `out` with length 0. A good sheet with a good stimulus that is not empty is then refused with code 10, whose place is the
 * length that `out` needs, 1 to SHEET_LONGEST_OUTPUT; a lower code says what is wrong with them. Code 10 goes before 11, so the
 * answer does not depend on `next`. Nothing is written, as on every refusal. That length divided by the number of cycles is the
 * number of output leaves. With an empty stimulus `out` needs length 0, so that this call is the run itself: it answers 0 at place
 * 0 and fills `next`, or 11 if `next` is not as long as the sheet, and says nothing of the output's leaves.
 *
 * A run may take long: what lies in a feedback of 64 leaves may be evaluated 65 times in each cycle,
 * in three of them 274,625 times. A cycle of 3,532 records took 5 seconds of processor time. A host
 * that must answer in time can tell such a sheet before it runs it: steps_of in examples/steps.h
 * gives the most steps of a cycle, and docs/SHEETS.md, Time, how long a step took.
 *
 *     uint8_t none[1], *out = none;
 *     uint64_t result = sheet_run(sheet, length, stim, stim_length, none, 0, next, length);
 *     if (sheet_code_of(result) == SHEET_WRONG_OUTPUT_LENGTH) {
 *         size_t needed = sheet_place_of(result);
 *         out = malloc(needed);
 *         if (out != NULL)
 *             result = sheet_run(sheet, length, stim, stim_length, out, needed, next, length);
 *     }
 *     if (sheet_code_of(result) == SHEET_ACCEPTED)
 *         printf("%u cycles\n", (unsigned)sheet_place_of(result));
 */
uint64_t sheet_run(const uint8_t *sheet, size_t sheet_length, const uint8_t *stim, size_t stim_length, uint8_t *out,
                   size_t out_length, uint8_t *next, size_t next_length);

/* Carrying's stack need, measured as the check's. A table of 65,536 labels, 128 KiB of it, is held while no check runs. */
#define SHEET_CARRY_STACK 163840

/*
 * Carrying: the new sheet with the values that the delays of the old, running one hold. Codes 0 to 7, 18, 19 and 11, in this order.
 *
 * Word d of a delay is its label, 0 for none. A delay of the new sheet goes on with what the old sheet's delay of the same label
 * holds, where their types have the same shape: both flat with equal numbers of constructors, or both pairs whose parts have the same
 * shape. Nothing else of the new sheet changes: a delay with no label, with one that no delay of the old sheet bears, or with a type of
 * another shape keeps what it holds. On success `next`, which is to be as long as the new sheet, holds that sheet; the check accepts
 * it with the new sheet's type, and the place is 0. When every delay is labelled and no label stands twice, carrying a sheet that a
 * run led to into the sheet that the run began from gives the former, byte for byte.
 *
 *     uint64_t result = sheet_carry(running, running_length, changed, changed_length, next, changed_length);
 *     if (sheet_code_of(result) == SHEET_DONE)
 *         result = sheet_run(next, changed_length, stim, stim_length, out, out_length, after, changed_length);
 */
uint64_t sheet_carry(const uint8_t *old_sheet, size_t old_length, const uint8_t *new_sheet, size_t new_length, uint8_t *next,
                     size_t next_length);

/* The stack need of the call for fired alternatives, measured as the check's and bounded as the run's. */
#define SHEET_FIRED_STACK 131072

/*
 * Which alternative fired: for one cycle of the sheet a word for each record. At an IF it is the record of the first alternative of its
 * chain that says yes, or 0 where none does, in the evaluation in which every feedback around the IF has its settled value; at
 * every other record it is 0. Codes 0 to 9 and 16.
 *
 * The stimulus is exactly one cycle: an empty one and more than one cycle are refused by code 8. `fired` is one word for each record,
 * so as long as the sheet's length divided by 12; any other length is refused by code 16, whose place is the number of words needed.
 * The length counts words of 16 bits, and `fired` is aligned to 2. The sheet is not written: the cycle is looked at, not taken.
 * In this sample the sheet's slice has at most SHEET_LONGEST bytes, so that `fired` has the words that are lent.
 *
 *     static uint16_t fired[SHEET_MOST_RECORDS];
 *     uint64_t result = sheet_fired(sheet, length, stim, stim_length, fired, length / 12);
 *     if (sheet_code_of(result) == SHEET_DONE)
 *         for (size_t record = 0; record < length / 12; record++)
 *             if (fired[record] != 0)
 *                 printf("record %zu: alternative %d\n", record, fired[record]);
 */
uint64_t sheet_fired(const uint8_t *sheet, size_t sheet_length, const uint8_t *stim, size_t stim_length, uint16_t *fired,
                     size_t fired_length);

/* The preview's stack need, measured as the check's and bounded as the run's. */
#define SHEET_PREVIEW_STACK 131072

/*
 * The preview: what the sheet puts out for one cycle of input, without taking it. It begins with the check. Codes 0 to 10, and 0
 * at place 0.
 *
 * `stim` is exactly one cycle, as many bytes as the input has leaves; an empty stimulus and one of several cycles are refused by 8. On
 * success `out` holds the output's leaves, the bytes that sheet_run puts out for that cycle; the sheet is only read. `out` is to be as
 * long as the output has leaves: lent with length 0, a good preview is refused with code 10, whose place is that length, 1 to
 * SHEET_MOST_LEAVES.
 *
 *     uint8_t out[SHEET_MOST_LEAVES];
 *     uint64_t result = sheet_preview(sheet, length, stim, stim_length, out, 0);
 *     if (sheet_code_of(result) == SHEET_WRONG_OUTPUT_LENGTH) {
 *         size_t needed = sheet_place_of(result);
 *         result = sheet_preview(sheet, length, stim, stim_length, out, needed);
 *     }
 *     if (sheet_code_of(result) == SHEET_DONE)
 *         printf("first leaf %d\n", out[0]);
 */
uint64_t sheet_preview(const uint8_t *sheet, size_t sheet_length, const uint8_t *stim, size_t stim_length, uint8_t *out,
                       size_t out_length);

/*
 * The stack need of the call on what can still happen, measured and bounded as the check's. It is
 * more than that of a run, since a leaf has a set of 8 bytes in place of a value of one.
 */
#define SHEET_POSSIBLE_STACK 212992

/*
 * What can still happen: how many constructors are still possible at each output leaf in one cycle,
 * where undefined leaves of the input, of constants and of what delays hold may yet be anything of
 * their types. It begins with the check. Codes 0 to 7, 22 and 8 to 10, in this order, and 0 at
 * place 0.
 *
 * The sheet has no feedback, and no flat type, used or not, of over 64 constructors: else it is
 * refused by 22, whose place is the lowest such record. `stim` is exactly one cycle, as many bytes
 * as the input has leaves; an empty stimulus and one of several cycles are refused by 8. On success
 * `out` holds a byte for each output leaf: how many constructors are possible there, 1 up to all of
 * the leaf's type. The sheet is only read. `out` is to be as long as the output has leaves: lent
 * with length 0, a good call is refused with code 10, whose place is that length, 1 to
 * SHEET_MOST_LEAVES.
 *
 * In whichever way the undefined leaves are filled, sheet_preview then shows at each output leaf
 * one of the constructors that were counted. A leaf that it shows defined already has the count 1,
 * and no count rises when a leaf is filled. A count may be more than the constructors that fillings
 * lead to. docs/SHEETS.md, What can still happen, has the rules.
 *
 *     uint8_t out[SHEET_MOST_LEAVES];
 *     uint64_t result = sheet_possible(sheet, length, stim, stim_length, out, 0);
 *     if (sheet_code_of(result) == SHEET_WRONG_OUTPUT_LENGTH) {
 *         size_t needed = sheet_place_of(result);
 *         result = sheet_possible(sheet, length, stim, stim_length, out, needed);
 *     }
 *     if (sheet_code_of(result) == SHEET_DONE)
 *         printf("first leaf: %d possible\n", out[0]);
 */
uint64_t sheet_possible(const uint8_t *sheet, size_t sheet_length, const uint8_t *stim, size_t stim_length,
                        uint8_t *out, size_t out_length);

/* The stack need of the call for one press, measured as the check's and bounded as the run's. */
#define SHEET_PRESS_STACK 131072

/*
 * What sheet_press returns, 32 bytes: the result; 1 if a change is found and 0 if none is; the
 * input leaf that changes, counted from 0; and the constructor that it changes to. Where no change
 * is found, and on a refusal, the last three are 0.
 */
struct sheet_pressed {
    uint64_t result, found, leaf, constructor;
};

/*
 * One press away: which change of one input leaf alone alters an output leaf in one cycle. It
 * begins with the check. Codes 0 to 9 and 21, and 0 at place 0.
 *
 * `stim` is exactly one cycle, as many bytes as the input has leaves; an empty stimulus and one of
 * several cycles are refused by 8. `leaf` is the number of an output leaf, counted from 0. Any
 * number is a good call: one that no output leaf has is refused by 21, whose place is the number
 * of output leaves, 1 to SHEET_MOST_LEAVES. So a host can ask for that number with the leaf
 * SIZE_MAX.
 *
 * A change sets one input leaf to a constructor of its type other than its value in `stim`. A leaf
 * that is undefined there, 0, can change to each of its constructors; no leaf changes to 0. The
 * change alters the output leaf if sheet_preview shows another byte there for the changed input
 * than for `stim`; one of the two bytes may be 0. The call gives the lowest input leaf that has
 * such a change, and the lowest constructor with which it is one. It gives none exactly where
 * there is none. The sheet and the stimulus are only read, and delays hold what they hold in the
 * sheet.
 *
 * A call may take long. It evaluates the cycle once for `stim` and once for each change that it
 * tries until one alters the output leaf: at most 16,320 changes, of 64 leaves with 255
 * constructors. Each evaluation may be as long as a preview.
 *
 *     struct sheet_pressed pressed = sheet_press(sheet, length, stim, stim_length, 0);
 *     if (sheet_code_of(pressed.result) != SHEET_DONE)
 *         printf("%s\n", sheet_sentence(sheet_code_of(pressed.result)));
 *     else if (pressed.found)
 *         printf("leaf %u to %u\n", (unsigned)pressed.leaf, (unsigned)pressed.constructor);
 */
struct sheet_pressed sheet_press(const uint8_t *sheet, size_t sheet_length, const uint8_t *stim,
                                 size_t stim_length, size_t leaf);

/*
 * The stack need of the count, the struct that it returns among it, measured as the check's and
 * bounded as the run's: besides, at most 16 leaves of an input have two constructors or more.
 */
#define SHEET_COUNT_STACK 131072

/*
 * What sheet_count returns, 1,032 bytes: the result, and a counter for each byte that a leaf can
 * be, 0 to 255. On a refusal every counter is 0.
 */
struct sheet_counts {
    uint64_t result;
    uint32_t counters[256];
};

/*
 * The count: how many fully defined inputs lead an output leaf to each value in one cycle. It
 * begins with the check. Codes 0 to 7, 20 and 21, and 0 at place 0.
 *
 * `leaf` is the number of an output leaf, counted from 0. An input is fully defined if each of its
 * leaves is a constructor of its type, 1 up to their number; none is 0. There are as many such
 * inputs as the constructor counts of the input's leaves give, multiplied. Over SHEET_MOST_INPUTS
 * of them are refused by 20, whether or not the output leaf depends on every input leaf. Any `leaf`
 * is a good call: a number that no output leaf has is refused by 21, after 20, and its place is the
 * number of output leaves.
 *
 * On success counters[c] is the number of fully defined inputs for which sheet_preview shows c at
 * the output leaf. counters[0] is the number of those that leave it undefined, which a constant, a
 * delay or a feedback may do. Each such input is counted once, so that the counters add up to the
 * number of inputs; those above the constructor count of the output leaf are 0. The sheet is only
 * read, and delays hold what they hold in the sheet.
 *
 * A call may take long. Where the output leaf is defined before all input leaves are, one evaluation
 * of the cycle counts all inputs that go on from there; where it is not, each input is evaluated by
 * itself. There are at most 83,309 evaluations, and each may be as long as a preview. That is long
 * where feedbacks lie in each other: with three of 64 leaves, 1,539 records in all, a preview took
 * 0.8 seconds of processor time, and the count of the two inputs of that sheet 1.6. docs/SHEETS.md,
 * Counting inputs, has the commands.
 *
 *     struct sheet_counts counts = sheet_count(sheet, length, 0);
 *     if (sheet_code_of(counts.result) != SHEET_DONE)
 *         printf("%s\n", sheet_sentence(sheet_code_of(counts.result)));
 *     else
 *         for (unsigned value = 0; value < 256; value++)
 *             if (counts.counters[value] != 0)
 *                 printf("%u: %u inputs\n", value, (unsigned)counts.counters[value]);
 */
struct sheet_counts sheet_count(const uint8_t *sheet, size_t sheet_length, size_t leaf);

/*
 * The stack need of the replay, measured as the check's and bounded as the run's. A copy of the
 * sheet, 48 KiB of it, lies on the stack, since `next` is written only where the record agrees.
 */
#define SHEET_REPLAY_STACK 180224

/*
 * What sheet_replay returns, 32 bytes: the result; 0 if the record agrees and 1 if it differs; the
 * number of cycles done if it agrees, else the first cycle whose outputs differ, counted from 0;
 * and 0 if it agrees, else the lowest differing leaf of that cycle, counted from 0. On a refusal
 * the last three are 0.
 */
struct sheet_replayed {
    uint64_t result, differs, cycle, leaf;
};

/*
 * The replay: whether recorded outputs are those that the sheet makes for a stimulus. It begins
 * with the check. Codes 0 to 9, 17 and 11, in this order, and 0 at place 0.
 *
 * The sheet, the stimulus and `next` are those of sheet_run. `recorded` has, as the output of a run
 * has, the output's leaves of each cycle after those of the cycle before. It is to be as long as
 * the cycles times the output's leaves: any other length is refused by 17, whose place is the
 * length needed. Lent with length 0, a good replay of some cycles is refused in this way. Code 17
 * goes before 11, and 11 is asked before anything is compared.
 *
 * The record agrees if every byte of it is the one that sheet_run puts out, in all cycles; `next`
 * then holds the sheet after the last cycle, as after the run. Else it differs, which is no
 * refusal, and `next` is left as it was. A byte is compared as it is: one above the constructor
 * count of its leaf differs, and so does 0 where the run puts out a constructor. An empty stimulus
 * is a run of no cycles, with which a record of length 0 agrees.
 *
 *     struct sheet_replayed replayed = sheet_replay(sheet, length, stim, stim_length, recorded,
 *                                                   recorded_length, next, length);
 *     if (sheet_code_of(replayed.result) != SHEET_DONE)
 *         printf("%s\n", sheet_sentence(sheet_code_of(replayed.result)));
 *     else if (replayed.differs)
 *         printf("cycle %u leaf %u\n", (unsigned)replayed.cycle, (unsigned)replayed.leaf);
 *     else
 *         printf("%u cycles agree\n", (unsigned)replayed.cycle);
 */
struct sheet_replayed sheet_replay(const uint8_t *sheet, size_t sheet_length, const uint8_t *stim,
                                   size_t stim_length, const uint8_t *recorded,
                                   size_t recorded_length, uint8_t *next, size_t next_length);

/*
 * The translation's stack need, measured as the check's, by host/text_stack.c on the deepest and the widest texts. It is far more than
 * that of the other calls, since tables for the longest text lie on the stack: a thread that translates needs a stack to match.
 */
#define SHEET_TRANSLATE_STACK 2097152

/*
 * The translation: the sheet of a circuit typed with names. Codes 0 and 13 to 15. docs/SHEETS.md, Text, has the grammar.
 *
 * The text is bytes, at most SHEET_LONGEST_TEXT of them and with no zero needed after the last: declarations of types, INPUT with
 * the input's type, and one expression. On success the place is the length of the sheet in bytes, a multiple of 12 from 36 to
 * SHEET_LONGEST; `sheet` holds it from its start, and zeros from there to its end. A longer slice is as good, and one of
 * SHEET_LONGEST bytes is long enough for every sheet. The length can be asked for: lend `sheet` with length 0, and a good text is
 * refused with code 15, whose place is the length. A text of more than SHEET_MOST_RECORDS records is refused with 15 whatever the
 * slice; its place is then above SHEET_LONGEST.
 *
 * Codes 13 and 14 have as their place a byte of the text, counted from 0: for 13 the first one with which no legal text goes on,
 * also inside a word, or the text's length if more was to come; for 14 the first byte of a name that is declared twice, not declared,
 * out of scope or of the wrong kind, or, where no name is wrong, the bracket of the first pair in the constant of a DELAY that has no
 * declared type. A refusal leaves `sheet` as it was, every byte.
 *
 * What the check asks of a sheet is not looked at: over 64 leaves, expressions too deep, types that do not fit and all else of
 * codes 1 to 7 come when the sheet is checked. A run of the sheet, where it is accepted, puts out what the text means over its names.
 *
 *     static const char text[] = "TYPE bit = hi | lo IN INPUT bit (IF input MATCHES hi THEN lo ELSE hi)";
 *     static uint8_t sheet[SHEET_LONGEST];
 *     uint64_t result = sheet_translate((const uint8_t *)text, strlen(text), sheet, sizeof sheet);
 *     size_t length = sheet_place_of(result);
 *     if (sheet_code_of(result) == SHEET_DONE)
 *         result = sheet_check(sheet, length);
 *     else
 *         printf("byte %zu: %s\n", length, sheet_sentence(sheet_code_of(result)));
 */
uint64_t sheet_translate(const uint8_t *text, size_t text_length, uint8_t *sheet, size_t sheet_length);

#ifdef __cplusplus
}
#endif

#endif
