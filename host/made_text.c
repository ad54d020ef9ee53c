#include "made_text.h"

#include <assert.h>
#include <string.h>

struct made_text made;

void text_begin(const char *words)
{
    made.length = 0;
    text_add(words);
}

void text_add(const char *words)
{
    size_t added = strlen(words);
    assert(made.length + added <= MOST_TEXT);
    memcpy(made.bytes + made.length, words, added);
    made.length += added;
}

void text_add_times(const char *words, size_t times)
{
    for (size_t k = 0; k < times; k++)
        text_add(words);
}

void text_add_name(size_t number, size_t letters)
{
    char name[17] = "";
    assert(letters < sizeof name);
    for (size_t at = letters; at-- > 0; number /= 26)
        name[at] = (char)('a' + number % 26);
    text_add(name);
}

void text_pad(size_t bytes, char byte)
{
    assert(made.length <= bytes && bytes <= MOST_TEXT);
    memset(made.bytes + made.length, byte, bytes - made.length);
    made.length = bytes;
}

struct translation lent_made(size_t sheet_length)
{
    return (struct translation){made.bytes, made.length, sheet_length};
}
