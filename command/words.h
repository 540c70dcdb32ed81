/* The words of the command line behind the command's name. */
#ifndef WORDS_H
#define WORDS_H

#include "status.h"

/* An option: its name, what stands behind it, and what was given there, NULL for nothing. */
struct option {
    const char *name;
    const char *takes;
    const char *given;
};

/* A command's words: what is known of them, and what they were. */
struct words {
    const char *command;
    const char *help;
    const char *takes;       /* the file that it works on; NULL where it takes none */
    struct option *options;  /* the last has no name; NULL where it takes none */
    const char *file;
    int helped;              /* help was asked for and given: there is nothing else to do */
};

/* Reads the words up to NULL, and says what is wrong with them. */
enum status read_words(struct words *words, char **word);

#endif
