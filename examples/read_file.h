/* What all examples need: reading a file into memory. */
#ifndef READ_FILE_H
#define READ_FILE_H

#include <stdint.h>
#include <stdio.h>

/* Reads a file from its start, as far as there is room, and says whether it could be read. */
static int read_file(const char *name, uint8_t *room, size_t most, size_t *length)
{
    FILE *file = fopen(name, "rb");
    if (file == NULL)
        return 0;
    *length = fread(room, 1, most, file);
    int sound = !ferror(file);
    fclose(file);
    return sound;
}

#endif
