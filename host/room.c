#define _DEFAULT_SOURCE /* MAP_ANONYMOUS */

#include "room.h"

#include <assert.h>
#include <stdio.h>
#include <stdlib.h>
#include <string.h>
#include <sys/mman.h>
#include <unistd.h>

/* How far beyond the open end of a slice bytes are filled. */
enum { BEYOND = 256 };

static void fail(const char *what)
{
    perror(what);
    exit(1);
}

void room_open(struct room *room, size_t most)
{
    size_t page = (size_t)sysconf(_SC_PAGESIZE);
    room->bytes = (most + BEYOND + page - 1) / page * page;
    uint8_t *pages = mmap(NULL, room->bytes + 2 * page, PROT_NONE, MAP_PRIVATE | MAP_ANONYMOUS, -1, 0);
    if (pages == MAP_FAILED)
        fail("mmap");
    room->start = pages + page;
}

static void protect(const struct room *room, int protection)
{
    if (mprotect(room->start, room->bytes, protection) != 0)
        fail("mprotect");
}

static uint8_t *slice_at(const struct room *room, enum side side, size_t length)
{
    assert(length + BEYOND <= room->bytes);
    return side == PAGE_AFTER ? room->start + room->bytes - length : room->start;
}

/* The filled bytes beyond the open end. */
static uint8_t *beyond(const struct room *room, enum side side, size_t length)
{
    uint8_t *slice = slice_at(room, side, length);
    return side == PAGE_AFTER ? slice - BEYOND : slice + length;
}

uint8_t *room_fill(const struct room *room, enum side side, size_t length, uint8_t fill)
{
    protect(room, PROT_READ | PROT_WRITE);
    memset(beyond(room, side, length), fill, BEYOND);
    return memset(slice_at(room, side, length), fill, length);
}

const uint8_t *room_copy(const struct room *room, enum side side, const uint8_t *bytes, size_t length)
{
    uint8_t *slice = room_fill(room, side, length, 0xff);
    memcpy(slice, bytes, length);
    protect(room, PROT_READ);
    return slice;
}

int room_kept(const struct room *room, enum side side, size_t length, uint8_t fill)
{
    return all_are(beyond(room, side, length), BEYOND, fill);
}

int all_are(const uint8_t *bytes, size_t length, uint8_t value)
{
    for (size_t at = 0; at < length; at++)
        if (bytes[at] != value)
            return 0;
    return 1;
}
