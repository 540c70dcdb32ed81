#include "words.h"

#include <stdio.h>
#include <string.h>

static enum status misuse(const struct words *words, const char *what, const char *word)
{
    return fail("mersclund %s: %s%s\nmersclund %s --help shows how it is used.",
                words->command, what, word, words->command);
}

/* The option that the word names, and what stands behind its = if there is one. */
static struct option *option_of(const struct words *words, const char *word, const char **value)
{
    struct option *option = words->options;

    for (; option != NULL && option->name != NULL; option++) {
        size_t length = strlen(option->name);
        if (strncmp(word, option->name, length) != 0)
            continue;
        *value = word[length] == '=' && length > 2 ? word + length + 1 : NULL;
        if (word[length] == '\0' || *value != NULL)
            return option;
    }
    return NULL;
}

/* Takes the option at *word, and leaves *word at its last word. */
static enum status take_option(const struct words *words, char ***word)
{
    const char *value = NULL;
    struct option *option = option_of(words, **word, &value);

    if (option == NULL)
        return fail("mersclund %s: no option %s; a file whose name begins with - goes behind --, "
                    "or is written ./%s\nmersclund %s --help shows the options.",
                    words->command, **word, **word, words->command);
    if (option->given != NULL)
        return misuse(words, "given twice: ", option->name);
    if (value == NULL)
        value = *++*word;
    if (value == NULL)
        return fail("mersclund %s: %s needs a word behind it: %s %s",
                    words->command, option->name, option->name, option->takes);
    if (*value == '\0')
        return misuse(words, "an empty word behind ", option->name);
    option->given = value;
    return DONE;
}

static enum status take_file(struct words *words, const char *word)
{
    if (words->takes == NULL)
        return misuse(words, "takes no file: ", word);
    if (words->file != NULL)
        return misuse(words, "one file at a time, and this is another: ", word);
    if (*word == '\0')
        return misuse(words, "the name of a file is empty", "");
    words->file = word;
    return DONE;
}

enum status read_words(struct words *words, char **word)
{
    int options = 1;
    enum status status = DONE;

    for (; status == DONE && *word != NULL; word++) {
        int dashed = options && (*word)[0] == '-' && (*word)[1] != '\0';
        if (dashed && strcmp(*word, "--") == 0) {
            options = 0;
        } else if (dashed && (strcmp(*word, "--help") == 0 || strcmp(*word, "-h") == 0)) {
            words->helped = 1;
            fputs(words->help, stdout);
            return all_said();
        } else if (dashed) {
            status = take_option(words, &word);
        } else {
            status = take_file(words, *word);
        }
    }
    if (status == DONE && words->takes != NULL && words->file == NULL)
        return misuse(words, "no file was given: ", words->takes);
    return status;
}
