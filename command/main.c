/* mersclund: assembles decks, loads and prints books, over the proved library. */
#define _GNU_SOURCE
#include "commands.h"
#include "refusals.h"
#include "words.h"

#include <errno.h>
#include <fcntl.h>
#include <signal.h>
#include <stdio.h>
#include <string.h>
#include <unistd.h>

static const char help[] =
    "mersclund: assembles decks for the IBM System/3, loads and prints the books\n"
    "\n"
    "  mersclund assemble DECK [-o BOOK] [--width 80|96]\n"
    "  mersclund load BOOK --at HEX [--storage FILE] [-o FILE]\n"
    "  mersclund print BOOK\n"
    "  mersclund numbers\n"
    "\n"
    "mersclund COMMAND --help tells more about each. A file named - is standard input or output;\n"
    "one whose name begins with - goes behind --.\n"
    "Exit status: 0 done, 1 refused, 2 misuse or a file that can't be read or written.\n"
    "To begin: mersclund assemble examples/ledger -o ledger.book && mersclund print ledger.book\n";

static const char numbers_help[] =
    "mersclund numbers\n"
    "\n"
    "Prints every number of refusal with its sentence, and what to do about it.\n";

enum status numbers_command(char **given)
{
    struct words words = {"numbers", numbers_help, NULL, NULL, NULL, 0};
    enum status status = read_words(&words, given);

    if (status != DONE || words.helped)
        return status;
    write_numbers(stdout);
    return all_said();
}

static const struct {
    const char *name;
    enum status (*run)(char **words);
} commands[] = {
    {"assemble", assemble_command},
    {"load", load_command},
    {"print", print_command},
    {"numbers", numbers_command},
};

/*
 * Keeps numbers 0 to 2 from files that are opened later: where one of them is closed, it is
 * opened the wrong way round, so that using it fails.
 */
static int hold_standard(void)
{
    int number;

    for (number = 0; number <= 2; number++)
        if (fcntl(number, F_GETFD) < 0 && errno == EBADF &&
            open("/dev/null", number == 0 ? O_WRONLY : O_RDONLY) != number)
            return -1;
    return 0;
}

static enum status run(int argc, char **argv)
{
    size_t i;

    if (argc < 2) {
        fputs(help, stderr);
        return FAILED;
    }
    if (strcmp(argv[1], "--help") == 0 || strcmp(argv[1], "-h") == 0 ||
        strcmp(argv[1], "help") == 0) {
        fputs(help, stdout);
        return all_said();
    }
    for (i = 0; i < sizeof commands / sizeof commands[0]; i++)
        if (strcmp(argv[1], commands[i].name) == 0)
            return commands[i].run(argv + 2);
    return fail("mersclund: no command %s; the commands are assemble, load, print and numbers\n"
                "mersclund --help shows how they are used.", argv[1]);
}

int main(int argc, char **argv)
{
    if (hold_standard() != 0)
        return FAILED;
    /* A closed pipe or a limit on files is an error to tell, not an end without a word. */
    signal(SIGPIPE, SIG_IGN);
    signal(SIGXFSZ, SIG_IGN);
    return (int)run(argc, argv);
}
