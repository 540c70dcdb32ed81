#define _GNU_SOURCE /* statx: its answer has the same layout on every machine */
#include "files.h"

#include <errno.h>
#include <fcntl.h>
#include <stdlib.h>
#include <string.h>
#include <sys/stat.h>
#include <unistd.h>

int is_standard(const char *path)
{
    return strcmp(path, "-") == 0 || strcmp(path, "/dev/stdin") == 0 ||
           strcmp(path, "/dev/stdout") == 0;
}

static enum status unreadable(const struct input *input)
{
    return fail("%s: can't be read: %s\nCheck the name and the permissions of the file.",
                input->name, strerror(errno));
}

/* Reads until the input ends or the room is full. */
static enum status read_all(struct input *input, int from, size_t room)
{
    ssize_t got = 1;

    while (input->length < room && got != 0) {
        got = read(from, input->bytes + input->length, room - input->length);
        if (got < 0 && errno != EINTR)
            return unreadable(input);
        if (got > 0)
            input->length += (size_t)got;
    }
    return DONE;
}

static enum status read_from(struct input *input, int from, size_t most)
{
    struct statx about;

    if (statx(from, "", AT_EMPTY_PATH, STATX_TYPE | STATX_INO, &about) != 0)
        return unreadable(input);
    input->regular = S_ISREG(about.stx_mode);
    input->device = (uint64_t)about.stx_dev_major << 32 | about.stx_dev_minor;
    input->file = about.stx_ino;
    input->bytes = malloc(most + 1);
    if (input->bytes == NULL)
        return unreadable(input);
    return read_all(input, from, most + 1);
}

enum status read_input(struct input *input, const char *path, size_t most)
{
    int standard = is_standard(path);
    int from = standard ? STDIN_FILENO : open(path, O_RDONLY | O_CLOEXEC);
    enum status status;

    memset(input, 0, sizeof *input);
    input->name = standard ? "standard input" : path;
    if (from < 0)
        return unreadable(input);
    status = read_from(input, from, most);
    if (!standard)
        close(from);
    return status;
}
