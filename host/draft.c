#include "draft.h"

#include <assert.h>
#include <string.h>

void draft_begin(struct draft *draft)
{
    draft->count = 0;
    draft_add(draft, HEADER);
}

uint16_t draft_add(struct draft *draft, uint16_t kind)
{
    assert(draft->count < MOST_RECORDS);
    uint16_t *words = draft->words[draft->count];
    memset(words, 0, sizeof draft->words[0]);
    words[KIND] = kind;
    return (uint16_t)draft->count++;
}

uint16_t draft_part(struct draft *draft, uint16_t namer, enum word word, uint16_t kind)
{
    uint16_t part = draft_add(draft, kind);
    draft->words[namer][word] = part;
    return part;
}

void draft_take(struct draft *draft, const uint16_t (*records)[WORDS], size_t count)
{
    assert(count <= MOST_RECORDS);
    memcpy(draft->words, records, count * sizeof draft->words[0]);
    draft->count = count;
}

size_t draft_write(const struct draft *draft, uint8_t *bytes)
{
    for (size_t record = 0; record < draft->count; record++) {
        for (size_t word = 0; word < WORDS; word++) {
            uint16_t value = draft->words[record][word];
            uint8_t *at = bytes + record * RECORD_BYTES + 2 * word;
            at[0] = (uint8_t)(value & 0xff);
            at[1] = (uint8_t)(value >> 8);
        }
    }
    return draft->count * RECORD_BYTES;
}

void draft_end(struct draft *draft)
{
    draft->words[0][C] = (uint16_t)draft->count;
}
