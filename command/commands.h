/* The commands: each takes the words behind its name, up to NULL. */
#ifndef COMMANDS_H
#define COMMANDS_H

#include "status.h"

enum status assemble_command(char **words);
enum status load_command(char **words);
enum status print_command(char **words);
enum status numbers_command(char **words);

#endif
