/* Memory to lend to calls: slices that end at an unreadable page, or begin after one. */
#ifndef ROOM_H
#define ROOM_H

#include <stddef.h>
#include <stdint.h>

/* On which side of a slice the unreadable page lies. */
enum side { PAGE_AFTER, PAGE_BEFORE, SIDES };

/* Pages between two unreadable ones. */
struct room {
    uint8_t *start;
    size_t bytes;
};

/* Maps a room for slices of up to `most` bytes. Stops the program where it can't be had. */
void room_open(struct room *room, size_t most);

/* Copies bytes to one side of the room, and makes it read-only. Gives their address there. */
const uint8_t *room_copy(const struct room *room, enum side side, const uint8_t *bytes, size_t length);

/* Fills a slice at one side of the room with one byte, and some bytes beyond its open end too. The room can be written. */
uint8_t *room_fill(const struct room *room, enum side side, size_t length, uint8_t fill);

/* Whether the bytes beyond the open end of such a slice are as they were filled. */
int room_kept(const struct room *room, enum side side, size_t length, uint8_t fill);

/* Whether all bytes of a slice are this one. */
int all_are(const uint8_t *bytes, size_t length, uint8_t value);

#endif
