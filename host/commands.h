/* commands.h: the commands of pathpetal, each with the words after its own name. */
#ifndef COMMANDS_H
#define COMMANDS_H

#include "say.h"

enum status make_command(int count, char **words);
enum status run_command(int count, char **words);
enum status show_command(int count, char **words);
enum status check_command(int count, char **words);

#endif
