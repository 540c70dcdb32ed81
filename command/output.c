#define _GNU_SOURCE /* statx: its answer has the same layout on every machine */
#include "files.h"

#include <errno.h>
#include <fcntl.h>
#include <stdio.h>
#include <stdlib.h>
#include <string.h>
#include <sys/stat.h>
#include <unistd.h>

static enum status unwritable(const char *name, const char *what)
{
    return fail("%s: can't be written: %s%s\n"
                "Nothing is changed there; give another place behind -o, or make room.",
                name, what, strerror(errno));
}

/* Writes all bytes; answers 0, or -1 with errno set. */
static int write_all(int to, const uint8_t *bytes, size_t length)
{
    while (length > 0) {
        ssize_t put = write(to, bytes, length);
        if (put < 0 && errno == EINTR)
            continue;
        if (put < 0)
            return -1;
        bytes += put;
        length -= (size_t)put;
    }
    return 0;
}

/* Writes to what can't be replaced: a device, a pipe, standard output. */
static enum status write_straight(const char *name, int to, const uint8_t *bytes, size_t length)
{
    int wrong = to < 0 || write_all(to, bytes, length) != 0;

    if (!wrong && to != STDOUT_FILENO)
        wrong = close(to) != 0;
    if (!wrong)
        return DONE;
    return fail("%s: can't be written: %s\n"
                "What came out there is not whole: don't use it, and run the command again.",
                name, strerror(errno));
}

/* The permissions of a new file, or those of the file that it replaces. */
static mode_t permissions(const struct statx *old)
{
    mode_t mask;

    if (old != NULL)
        return old->stx_mode & 0777;
    mask = umask(0);
    umask(mask);
    return 0666 & ~mask;
}

/* Sees the file safe on its disk, where the disk can tell. */
static int settle(int file)
{
    return fsync(file) != 0 && errno != EINVAL ? -1 : 0;
}

/* Fills the new file and closes it; answers 0, or -1 with errno set. */
static int fill(int to, const struct statx *old, const uint8_t *bytes, size_t length)
{
    int wrong, why;

    /* Another owner is kept where that is allowed. */
    if (old != NULL && fchown(to, old->stx_uid, old->stx_gid) != 0)
        errno = 0;
    wrong = write_all(to, bytes, length) != 0 || fchmod(to, permissions(old)) != 0 ||
            settle(to) != 0;
    why = errno;
    if (close(to) != 0 && !wrong)
        return -1;
    errno = why;
    return wrong ? -1 : 0;
}

/* The name of a new file in the same folder, for mkstemp. */
static char *beside(const char *place)
{
    static const char pattern[] = ".mersclund-XXXXXX";
    const char *slash = strrchr(place, '/');
    size_t folder = slash == NULL ? 0 : (size_t)(slash - place) + 1;
    char *name = malloc(folder + sizeof pattern);

    if (name != NULL) {
        memcpy(name, place, folder);
        memcpy(name + folder, pattern, sizeof pattern);
    }
    return name;
}

static enum status replace(const char *path, const char *place, const struct statx *old,
                           const uint8_t *bytes, size_t length)
{
    char *name = beside(place);
    int to = name == NULL ? -1 : mkstemp(name);
    enum status status = DONE;

    if (to < 0) {
        status = unwritable(path, "no file can be made beside it: ");
    } else if (fill(to, old, bytes, length) != 0 || rename(name, place) != 0) {
        status = unwritable(path, "");
        unlink(name);
    }
    free(name);
    return status;
}

/* Replaces a file that is there, a link's end rather than the link. */
static enum status replace_old(const char *path, const struct statx *old,
                               const uint8_t *bytes, size_t length)
{
    char *place = realpath(path, NULL);
    enum status status;

    if (place == NULL || access(place, W_OK) != 0)
        status = unwritable(path, "");
    else
        status = replace(path, place, old, bytes, length);
    free(place);
    return status;
}

static int same_file(const struct statx *old, const struct input *source)
{
    return source->regular && source->file == old->stx_ino &&
           source->device == ((uint64_t)old->stx_dev_major << 32 | old->stx_dev_minor);
}

enum status write_output(const char *path, const uint8_t *bytes, size_t length,
                         const struct input *source)
{
    const unsigned wanted = STATX_TYPE | STATX_MODE | STATX_INO | STATX_UID | STATX_GID;
    struct statx old;

    if (is_standard(path))
        return write_straight("standard output", STDOUT_FILENO, bytes, length);
    if (statx(AT_FDCWD, path, 0, wanted, &old) != 0) {
        if (errno != ENOENT)
            return unwritable(path, "");
        return replace(path, path, NULL, bytes, length);
    }
    if (S_ISDIR(old.stx_mode))
        return fail("%s: can't be written: it is a folder\nGive the name of a file behind -o.", path);
    if (!S_ISREG(old.stx_mode))
        return write_straight(path, open(path, O_WRONLY | O_CLOEXEC), bytes, length);
    if (same_file(&old, source))
        return fail("%s: is read and would be written over\nGive another name behind -o.", path);
    return replace_old(path, &old, bytes, length);
}
