/*
 * Texts that codes 13 and 14 refuse, and such as they do not, worked out by hand from docs/SHEETS.md, Text. The mark @ stands
 * before the byte that is the place, and is no part of the text.
 */
#include <string.h>

#include "guard.h"
#include "made_text.h"
#include "sheet.h"
#include "suite.h"

#define TWO "TYPE bit = hi | lo IN TYPE two = (bit, bit) IN INPUT two "

/* Longer than any sheet here. */
enum { ROOM = 2000 };

static const char *const illegal[] = {
    /* Declarations, and INPUT with no IN after it. */
    "@INPUT bit hi", BIT "@IN hi", "TYPE one = @IN INPUT one a", "TYPE one = a | @IN INPUT one a",
    "TYPE one = @| a IN INPUT one a", "TYPE one = (a@) IN INPUT one a", "TYPE one = (a, a@, a) IN INPUT one a",
    "TYPE one = (a, a) @| b IN INPUT one a", "TYPE one = (@(a, a), a) IN INPUT one a", "TYPE one = a @, b IN INPUT one a",
    "TYPE one = a IN INPUT @(a, a) a", "TYPE one = a IN @LET", "TYPE one = a IN @a", "TYPE @= a IN INPUT one a",
    "TYPE one @a IN INPUT one a", "TYPE one = @?a",

    /* Brackets: around each pair, LET, IF and DELAY, once, and around nothing else. */
    BIT "(input@)", BIT "((hi, lo)@)", BIT "(@)", BIT "@LET x = hi IN x", BIT "@IF hi MATCHES hi THEN hi ELSE lo",
    BIT "@DELAY (hi, input)", BIT "hi@, lo", BIT "(hi, lo@, hi)", BIT "(hi, @)", BIT "(@, hi)", BIT "((LET x = hi IN x)@)",
    BIT "(hi, @LET x = hi IN x)", BIT "(IF input MATCHES (hi|lo@)|hi THEN hi ELSE lo)",
    BIT "(IF input MATCHES (hi@) THEN hi ELSE lo)", BIT "(DELAY @hi, input)", BIT "(DELAY (hi, input)@, lo)",
    BIT "(DELAY ((hi@), input))", BIT "(DELAY (hi@))", BIT "(DELAY ((hi, lo), input@, hi))", BIT "(LET x = hi IN x@, x)",
    BIT "(LET @(x) = hi IN x)",

    /* Parts: 1 and 2 are tokens, and stand after expressions alone. */
    BIT "input[1@2]", BIT "input[@3]", BIT "input[@0]", BIT "input[@]", BIT "input[@x]", BIT "@1", BIT "@[1]", BIT "input[1]@1",
    BIT "input[1]@]", BIT "input@]", BIT "(DELAY (hi@[1], input))", BIT "(DELAY ((hi, lo)@[1], input))",
    BIT "(IF input MATCHES hi@[1] THEN hi ELSE lo)", BIT "(IF input MATCHES (hi, lo)@[1] THEN hi ELSE lo)",

    /* Patterns have no `?`; INIT has one, with a type name. */
    BIT "(IF input MATCHES @?bit THEN hi ELSE lo)", BIT "(IF input MATCHES (hi, @? bit) THEN hi ELSE lo)",
    BIT "(IF input MATCHES hi | @THEN hi ELSE lo)", BIT "(IF input MATCHES @| hi THEN hi ELSE lo)",
    BIT "(IF input MATCHES hi | @| lo THEN hi ELSE lo)", BIT "(LET INIT @bit REC x = x IN x)",
    BIT "(LET INIT ?@(bit, bit) REC x = x IN x)", BIT "(LET INIT ?bit @x = x IN x)", BIT "(LET @REC x = x IN x)", BIT "?@?bit",
    BIT "?@(bit, bit)",

    /* Byte by byte, also inside a word. */
    "TYP@X", "TYP@ ", "TYP@\n", "TYPE@x", "TYPE@1", "TYPE a = b IN@PUT", "TYPE a = b IN@x", "TYPE a = b I@ N",
    "TYPE a = b IN INPUT@bit hi", "TYPE a = b IN INPU@ a b", "TYPE @Bit = hi", "TYPE b@It = hi", "@type", "TYPE bit =@= hi",
    BIT "h@I", BIT "(I@NIT", BIT "(LET IN@ ", BIT "(LET INIT@I", BIT "(LET INIT@x", BIT "(LET INIT ? bit RE@D",
    BIT "(IF hi MATCH@ hi THEN", BIT "(IF hi MATCHES@x", BIT "(IF hi @THEN", BIT "(IF hi MATCHES hi @ELSE",
    BIT "(IF hi MATCHES hi TH@IN", BIT "(DELAY@E", BIT "(@X", BIT "hi @hi", BIT "hi@)", BIT "hi @IN", BIT "hi@=", BIT "hi@|lo",
    "TYPE abcdefghijklmnop@q = hi IN INPUT bit hi", BIT "abcdefghijklmnop@q", BIT "(LET abcdefghijklmnop@q",
    BIT "(IF hi MATCHES abcdefghijklmnop@q", BIT "(DELAY (abcdefghijklmnop@q",

    /* A text that could go on, and ends. */
    "@", "  \n@", "TYP@", "TYPE@", "TYPE a@", "TYPE a =@", "TYPE a = b@", "TYPE a = b |@", "TYPE a = b I@", "TYPE a = b IN@",
    "TYPE a = b IN \n@", "TYPE a = b IN INPUT@", "TYPE bit = hi | lo IN INPUT bit@", "TYPE abcdefghijklmnop@", BIT "@",
    BIT "(@", BIT "(hi,@", BIT "(hi, lo@", BIT "(D@", BIT "(DELAY@", BIT "input[@", BIT "input[1@", BIT "?@",
    BIT "(LET x = hi IN x@", BIT "(IF hi MATCHES hi THEN hi ELSE lo@", BIT "(DELAY (hi, lo@", BIT "(DELAY (hi, lo)@",

    /* Bytes that belong to no text. */
    "TYPE a = b@\tIN", BIT "hi@\r", BIT "hi@\x80", BIT "hi@\x7f", BIT "hi@\xff", BIT "@0", BIT "hi@;", BIT "hi@_o", BIT "hi@.",
    "@\xef\xbb\xbfTYPE",

    /* Names do not matter before. */
    BIT "(nope@)", "TYPE input = input IN INPUT nope (nope, ?nope[1@",
};

static const char *const wrong_names[] = {
    /* All names by their places, whatever they are there for. */
    BIT "(LET INIT ?@nope REC bit = hi IN hi)", BIT "(LET INIT ?bit REC @bit = nope IN hi)",
    BIT "(IF @nope MATCHES none THEN none ELSE hi)", BIT "(IF input MATCHES @nope THEN none ELSE hi)",
    BIT "(IF input MATCHES hi THEN @nope ELSE none)", BIT "(IF input MATCHES hi THEN hi ELSE @nope)",
    BIT "(LET @hi = nope IN hi)", BIT "(DELAY (@nope, none))", BIT "(DELAY (hi, @none))", BIT "(DELAY ((hi, lo), @nope))",
    BIT "((DELAY ((hi, lo), input)), @nope)", "TYPE a = b | @b IN INPUT nope nope", "TYPE a = b IN INPUT @nope nope",
    "TYPE a = @a IN TYPE a = a IN INPUT a a",

    /* Types, constructors and `input` are all different, and no LET takes one. */
    "TYPE bit = hi | @hi IN INPUT bit hi", "TYPE bit = hi | lo | @hi IN INPUT bit hi", "TYPE bit = @bit | hi IN INPUT bit hi",
    "TYPE bit = hi | @bit IN INPUT bit hi", "TYPE a = b IN TYPE @b = c IN INPUT a b", "TYPE a = b IN TYPE c = @a IN INPUT a b",
    "TYPE a = b IN TYPE @a = c IN INPUT a b", "TYPE a = b IN TYPE c = d | @b IN INPUT a b",
    "TYPE a = b IN TYPE @a = (a, a) IN INPUT a b", "TYPE a = b IN TYPE @b = (a, a) IN INPUT a b",
    "TYPE @input = hi IN INPUT input hi", "TYPE bit = @input IN INPUT bit input",
    "TYPE bit = hi IN TYPE @input = (bit, bit) IN INPUT bit hi", BIT "(LET @lo = hi IN lo)", BIT "(LET @bit = hi IN hi)",
    BIT "(LET @input = hi IN hi)", BIT "(LET INIT ?bit REC @hi = hi IN hi)", BIT "(LET INIT ?bit REC @input = hi IN hi)",

    /* Scopes. */
    BIT "(LET x = @x IN x)", BIT "(LET x = (@x, x) IN x)", BIT "((LET x = hi IN x), @x)", BIT "(@x, (LET x = hi IN x))",
    BIT "(LET x = (LET y = hi IN y) IN @y)", BIT "(LET x = hi IN ((LET y = x IN y), @y))",
    BIT "(LET INIT ?bit REC x = (LET y = x IN y) IN @y)", BIT "((LET INIT ?bit REC x = x IN x), @x)",
    BIT "(LET y = (LET INIT ?bit REC x = @y IN x) IN y)", BIT "@inputs", BIT "@inpu", BIT "@h", BIT "@hilo",

    /* A type is declared from its IN on. */
    "TYPE a = b IN TYPE c = (a, @c) IN INPUT a b", "TYPE a = b IN TYPE c = (@c, a) IN INPUT a b",
    "TYPE c = (@a, a) IN TYPE a = b IN INPUT a b", "TYPE c = (@c, c) IN INPUT c hi",

    /* Kinds. */
    BIT "?@hi", BIT "?@input", BIT "(LET x = hi IN ?@x)", "TYPE bit = hi IN INPUT @hi hi", "TYPE bit = hi IN INPUT @input hi",
    "TYPE a = b IN TYPE c = (@b, a) IN INPUT a b", "TYPE a = b IN TYPE c = (a, @b) IN INPUT a b",
    "TYPE a = b IN TYPE c = (@input, a) IN INPUT a b", BIT "(LET INIT ?@hi REC x = x IN x)",
    BIT "(LET INIT ?@input REC x = x IN x)", BIT "(LET INIT ?@x REC x = x IN x)", BIT "(DELAY (@bit, hi))",
    BIT "(DELAY (@input, hi))", BIT "(LET x = hi IN (DELAY (@x, hi)))", BIT "(DELAY (?@hi, hi))", BIT "(DELAY (?@input, hi))",
    TWO "(DELAY ((hi, @two), input))", TWO "(DELAY ((@bit, hi), input))", BIT "(IF input MATCHES @input THEN hi ELSE hi)",
    BIT "(LET x = hi IN (IF input MATCHES @x THEN hi ELSE hi))", TWO "(IF input MATCHES (hi, @input) THEN hi ELSE hi)",
    TWO "(IF input MATCHES (hi|lo, bit|@nope) THEN hi ELSE hi)", BIT "@bit", TWO "(hi, @two)", BIT "(LET x = @bit IN x)",
    TWO "@two[1]",

    /* Pairs of constants without a type: the outermost bracket, of the first DELAY. */
    BIT "(DELAY (@(hi, lo), input))", BIT "(DELAY (@((hi, lo), hi), input))", TWO "(DELAY (@((hi, lo), (lo, hi)), input))",
    TWO "(DELAY (@((hi, lo), hi), input))", TWO "(DELAY (@(hi, (lo, hi)), input))", TWO "(DELAY (@(?two, hi), input))",
    TWO "(DELAY (@(hi, (hi, (hi, lo))), input))", BIT "((DELAY (@(hi, lo), input)), (DELAY ((lo, hi), input)))",
    BIT "(DELAY (@(hi, lo), (DELAY ((lo, hi), input))))", BIT "(DELAY (hi, (DELAY (@(hi, lo), input))))",
    TWO "((DELAY ((hi, lo), input)), (DELAY (@(hi, ?two), input)))",
    "TYPE a = b IN TYPE c = d IN TYPE e = (a, c) IN INPUT a (DELAY (@(d, b), b))",
    "TYPE a = b IN TYPE c = (a, a) IN TYPE d = (a, a) IN TYPE e = (d, d) IN INPUT a (DELAY (@((b, b), ?d), b))",
    "TYPE a = b IN TYPE c = (a, a) IN TYPE d = (a, a) IN TYPE e = (c, c) IN INPUT a (DELAY (@(?c, ?d), b))",
};

static const char *const right[] = {
    "TYPE one = a IN INPUT one a", "\n TYPE bit=hi|lo IN INPUT bit(LET x=hi IN(x,x)[1])\n", "TYPE bit=hi IN INPUT bit?bit",
    "TYPE one=a IN INPUT one(IF a MATCHES a THEN a ELSE a)", "TYPE abcdefghijklmnop = hi IN INPUT abcdefghijklmnop hi",
    BIT "hi \n \n ", BIT "((hi, lo), (LET x = hi IN (x, x)))", BIT "input[1][2] [ 1 ]", BIT "(hi, lo)[1]", BIT "?bit[2]",
    BIT "(LET x = input[1] IN x[2])[1]", BIT "input[ 1\n]", BIT "? bit", BIT "?\n\n bit",
    BIT "(LET INIT ? bit REC x = x IN x)[2]", BIT "(DELAY (?  bit, hi))[1]",
    BIT "(IF input MATCHES (hi|lo, lo|hi) | bit THEN hi ELSE lo)", BIT "(IF input MATCHES ((hi, lo)|bit, hi) THEN hi ELSE lo)",
    BIT "(LET x = hi IN (LET x = x IN x))", BIT "(LET x = hi IN ((LET x = lo IN x), x))",
    BIT "(LET INIT ?bit REC x = (LET x = x IN x) IN x)", BIT "(LET in = hi IN (LET type = in IN type))",
    BIT "(LET delay = hi IN (delay, delay)[1])", BIT "(LET inputs = hi IN inputs)", TWO "(DELAY ((hi, ?bit), input))",
    TWO "(DELAY (?two, input))",
    "TYPE a = b IN TYPE c = (a, a) IN TYPE d = (a, a) IN TYPE e = (c, d) IN INPUT a (DELAY (((b, b), ?d), b))",
};

/* Takes the mark out of a text; gives the place of it. */
static size_t unmarked(const char *marked, uint8_t *text, size_t *length)
{
    const char *mark = strchr(marked, '@');
    size_t place = mark == NULL ? strlen(marked) : (size_t)(mark - marked);
    *length = strlen(marked) - (mark != NULL);
    memcpy(text, marked, place);
    if (mark != NULL)
        memcpy(text + place, mark + 1, *length - place);
    return place;
}

static void refused(const char *marked, uint32_t code)
{
    uint8_t text[ROOM];
    struct translation lent = {.text = text, .sheet_length = ROOM};
    size_t place = unmarked(marked, text, &lent.text_length);
    expect_text_refused(marked, &lent, code, (uint32_t)place);
    /* 13 and 14 go before 15. */
    lent.sheet_length = 0;
    expect_text_refused(marked, &lent, code, (uint32_t)place);
}

static void wrong_texts(void)
{
    for (size_t k = 0; k < sizeof illegal / sizeof *illegal; k++)
        refused(illegal[k], SHEET_WRONG_TEXT);
    for (size_t k = 0; k < sizeof wrong_names / sizeof *wrong_names; k++)
        refused(wrong_names[k], SHEET_WRONG_NAME);
    for (size_t k = 0; k < sizeof right / sizeof *right; k++) {
        struct translation lent = {(const uint8_t *)right[k], strlen(right[k]), ROOM};
        uint64_t result = guarded_translate(right[k], &lent).result;
        tally(sheet_code_of(result) == SHEET_DONE, right[k], "the text is refused");
    }
}

TESTS(wrong_texts, TRANSLATION_STACK)
