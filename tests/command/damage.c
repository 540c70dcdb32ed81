/*
 * Runs the command on damaged decks and books:
 *     damage COMMAND FOLDER SEED COUNT SAMPLE...
 * Each input is a sample with a few wrong bytes. The command must end with 0, 1 or 2, say what
 * belongs to that, and leave an output file where it ends with 0 and none otherwise.
 * An input that shows something else stays in FOLDER.
 */
#define _GNU_SOURCE
#include <fcntl.h>
#include <stdint.h>
#include <stdio.h>
#include <stdlib.h>
#include <string.h>
#include <sys/wait.h>
#include <unistd.h>

enum { ROOM = 1 << 16, WORDS = 12 };

static uint64_t state;

/* Numbers that look random and come again for the same seed (splitmix64). */
static size_t below(size_t bound)
{
    uint64_t z = state += 0x9E3779B97F4A7C15u;
    z = (z ^ z >> 30) * 0xBF58476D1CE4E5B9u;
    z = (z ^ z >> 27) * 0x94D049BB133111EBu;
    return (size_t)((z ^ z >> 31) % bound);
}

static uint8_t any_byte(void)
{
    static const uint8_t likely[] = "\t\n\r\n '*(),+-AXLZ09\x1A\x7F\x80\xC3\xFF";
    return below(2) ? (uint8_t)below(256) : likely[below(sizeof likely)];
}

/* The bytes to damage. */
static uint8_t bytes[ROOM];
static size_t length;

static void insert(size_t at, const uint8_t *from, size_t count)
{
    if (length + count > ROOM)
        return;
    memmove(bytes + at + count, bytes + at, length - at);
    memmove(bytes + at, from, count);
    length += count;
}

static void damage(void)
{
    uint8_t piece[300];
    size_t at = below(length + 1), count = below(below(4) ? 8 : 300), i;

    if (count > length - at)
        count = length - at;
    switch (below(6)) {
    case 0: /* cut a piece out */
        memmove(bytes + at, bytes + at + count, length - at - count);
        length -= count;
        break;
    case 1: /* cut the end off */
        if (below(4) == 0)
            length = at;
        break;
    case 2: /* a piece twice */
        memcpy(piece, bytes + at, count);
        insert(below(length + 1), piece, count);
        break;
    case 3: /* bytes more */
        for (i = 0; i < count; i++)
            piece[i] = any_byte();
        insert(at, piece, count);
        break;
    default: /* a byte changed */
        if (at < length)
            bytes[at] = below(2) ? any_byte() : (uint8_t)(bytes[at] ^ 1u << below(8));
    }
}

static int read_sample(const char *path)
{
    FILE *file = fopen(path, "rb");
    if (file == NULL)
        return 0;
    length = fread(bytes, 1, ROOM / 2, file);
    fclose(file);
    return 1;
}

static int write_input(const char *path)
{
    FILE *file = fopen(path, "wb");
    return file != NULL && fwrite(bytes, 1, length, file) == length && fclose(file) == 0;
}

/* Puts together a command line on the file "input"; a sample named .book is loaded or printed. */
static void choose(const char *command, const char *sample, char *word[WORDS])
{
    static char at[8];
    size_t i = 0, end = strlen(sample);
    int book = end > 5 && strcmp(sample + end - 5, ".book") == 0;

    word[i++] = (char *)command;
    word[i++] = book == (below(20) > 0) ? (below(2) ? "load" : "print") : "assemble";
    word[i++] = below(4) ? "input" : "-";
    if (strcmp(word[1], "print") != 0) {
        word[i++] = "-o";
        word[i++] = "output";
    }
    if (strcmp(word[1], "assemble") == 0 && below(3) == 0)
        word[i++] = "--width=96";
    if (strcmp(word[1], "load") == 0) {
        snprintf(at, sizeof at, "%zX", below(3) ? below(65536) : below(512));
        word[i++] = "--at";
        word[i++] = at;
        if (below(3) == 0) {
            word[i++] = "--storage";
            word[i++] = "storage";
        }
    }
    word[i] = NULL;
}

/* Opens the file as one of the standard streams. */
static int as(int number, const char *path, int how)
{
    int opened = open(path, how, 0666);
    return opened >= 0 && dup2(opened, number) == number;
}

/* Runs the words, and answers how they ended; -1 where no exit status was given. */
static int run(char *word[WORDS])
{
    int ended;
    pid_t child = fork();

    if (child == 0) {
        if (as(0, "input", O_RDONLY) && as(1, "said", O_WRONLY | O_CREAT | O_TRUNC) &&
            as(2, "told", O_WRONLY | O_CREAT | O_TRUNC))
            execv(word[0], word);
        _exit(126);
    }
    if (child < 0 || waitpid(child, &ended, 0) != child || !WIFEXITED(ended))
        return -1;
    return WEXITSTATUS(ended);
}

/* Says what is wrong with how the command ended; NULL for nothing. */
static const char *wrong(int status, int output_wanted)
{
    static char told[400];
    FILE *file = fopen("told", "rb");
    int written = access("output", F_OK) == 0, refused;

    if (file == NULL)
        return "it told nothing";
    told[fread(told, 1, sizeof told - 1, file)] = '\0';
    fclose(file);
    refused = strstr(told, ": refused ") != NULL;
    if (status < 0 || status > 2)
        return "it ended with another status";
    if ((status == 0) != (told[0] == '\0'))
        return "what it told does not fit its status";
    if (refused != (status == 1))
        return "a refusal does not fit its status";
    if (written != (status == 0 && output_wanted))
        return "the output file does not fit its status";
    return NULL;
}

/* Makes input number `number` from one of the samples, runs the command on it, and answers how it
   ended; 3 where that is wrong, which it says. */
static int one(char **argv, size_t samples, unsigned long number)
{
    const char *sample, *what;
    char *word[WORDS];
    size_t times;
    int status;

    state = strtoull(argv[3], NULL, 10) << 32 | number;
    sample = argv[5 + below(samples)];
    if (!read_sample(sample))
        return perror(sample), 3;
    for (times = below(4) + below(2) * below(20); times > 0; times--)
        damage();
    choose(argv[1], sample, word);
    unlink("output");
    if (!write_input("input"))
        return perror("input"), 3;
    status = run(word);
    what = wrong(status, strcmp(word[1], "print") != 0);
    if (what == NULL)
        return status;
    printf("command: damaged input %lu of seed %s (%s, %s): %s: status %d\n", number, argv[3],
           sample, word[1], what, status);
    return 3;
}

int main(int argc, char **argv)
{
    unsigned long number, count, ended[4] = {0, 0, 0, 0};

    if (argc < 6 || chdir(argv[2]) != 0)
        return fprintf(stderr, "usage: damage COMMAND FOLDER SEED COUNT SAMPLE...\n"), 2;
    count = strtoul(argv[4], NULL, 10);
    for (number = 0; number < count && ended[3] == 0; number++)
        ended[one(argv, (size_t)argc - 5, number)]++;
    printf("command: %lu damaged inputs: %lu done, %lu refused, %lu not read, %lu failed\n",
           number, ended[0], ended[1], ended[2], ended[3]);
    return ended[0] == 0 || ended[1] == 0 || ended[2] == 0 || ended[3] != 0;
}
