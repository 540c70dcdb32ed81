/* Files read whole, and files that are replaced only once all of the new one is written. */
#ifndef FILES_H
#define FILES_H

#include "status.h"

#include <stddef.h>
#include <stdint.h>

/* An input: its name in messages, its bytes, and which file it is. */
struct input {
    const char *name;
    uint8_t *bytes;      /* never NULL, not even for length 0 */
    size_t length;
    int regular;
    uint64_t device, file;
};

/* Says whether the word stands for standard input or output: "-", or its name as a device. */
int is_standard(const char *path);

/* Reads a file, or standard input for "-". Of one longer than `most` bytes, most + 1 are read. */
enum status read_input(struct input *input, const char *path, size_t most);

/*
 * Writes a file, or standard output for "-". A file is written beside its place and renamed,
 * so that its name stands for the old bytes or for all of the new ones.
 * `source` is an input that must not be replaced.
 */
enum status write_output(const char *path, const uint8_t *bytes, size_t length,
                         const struct input *source);

#endif
