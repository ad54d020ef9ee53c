/* The stack that translations of the longest texts need. */
#include <string.h>

#include "made_text.h"
#include "measure.h"
#include "sheet.h"
#include "stack.h"
#include "suite.h"

/* More than a translation should need, so that it shows how much that is. */
enum { MEASURED_STACK = 16 * 1024 * 1024 };

/* Texts of one kind: what is repeated, as often as 65,535 bytes hold it, what stands inside, and what ends each. */
static const struct {
    const char *name, *begun, *again, *inside, *ended;
} long_texts[] = {
    {"open brackets", BIT, "(", "", ""},
    {"pairs inside", BIT, "(", "hi", ",hi)"},
    {"pairs after", BIT, "(hi,", "lo", ")"},
    {"LETs inside", BIT, "(LET x=", "hi", " IN x)"},
    {"LETs after", BIT, "(LET x=hi IN ", "x", ")"},
    {"feedbacks", BIT, "(LET INIT?bit REC y=", "input", " IN y)"},
    {"IFs", BIT, "(IF input MATCHES hi THEN ", "hi", " ELSE lo)"},
    {"delays", BIT, "(DELAY(hi,", "?bit", "))"},
    {"open patterns", BIT "(IF input MATCHES ", "(hi,", "lo", ")"},
    {"open constants", BIT "(DELAY (", "(hi,", "lo", ")"},
    {"constants of 64 leaves", DOUBLED "INPUT a ", "(?g,", "?g", ")"},
    {"alternatives", BIT "(IF input MATCHES hi", "|lo", " THEN hi ELSE lo)", ""},
    {"parts", BIT "input", "[1]", "", ""},
    {"blanks", BIT, " ", "hi", ""},
};

/* Many declarations: constructors of one type, or pair types, each of the one before. */
static void make_constructors(void)
{
    text_begin("TYPE type = ");
    for (size_t number = 0; made.length + 40 < SHEET_LONGEST_TEXT; number++) {
        text_add_name(number, 4);
        text_add("|");
    }
    text_add("zzzzz IN INPUT type zzzzz");
}

static void make_types(void)
{
    text_begin("TYPE aaaa=x IN ");
    for (size_t number = 1; made.length + 60 < SHEET_LONGEST_TEXT; number++) {
        text_add("TYPE ");
        text_add_name(number, 4);
        text_add("=(");
        text_add_name(number - 1, 4);
        text_add(",aaaa)IN ");
    }
    text_add("INPUT aaaa x");
}

static void translate_made(void)
{
    static uint8_t slice[SHEET_LONGEST];
    sheet_translate(made.bytes, made.length, slice, sizeof slice);
}

/* The most so far, and on which text. */
static size_t most;
static const char *worst = "";

static void measure(const char *name)
{
    size_t used = stack_used(MEASURED_STACK, translate_made);
    if (used > most) {
        most = used;
        worst = name;
    }
}

static void stack_need(void)
{
    for (size_t k = 0; k < sizeof long_texts / sizeof *long_texts; k++) {
        text_begin(long_texts[k].begun);
        size_t one = strlen(long_texts[k].again) + strlen(long_texts[k].ended);
        size_t times = (SHEET_LONGEST_TEXT - made.length - strlen(long_texts[k].inside)) / one;
        text_add_times(long_texts[k].again, times);
        text_add(long_texts[k].inside);
        text_add_times(long_texts[k].ended, times);
        measure(long_texts[k].name);
    }
    make_constructors();
    measure("constructors");
    make_types();
    measure("pair types");
    tell_stack("sheet_translate", most, worst, SHEET_TRANSLATE_STACK);
}

TESTS_ONCE(stack_need)
