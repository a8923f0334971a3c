/* options.h: the command line of one command. */
#ifndef OPTIONS_H
#define OPTIONS_H

#include "say.h"

struct option {
    const char *name;  /* "--steps" */
    const char *takes; /* what its value is called, NULL if it takes none */
    const char *value; /* as given, NULL if it was not */
};

/* Fills in the options (a list that ends in one without a name) and the names beside them, of which there must be
   exactly `count`. Takes --name VALUE and --name=VALUE. */
enum status options_read(int count_given, char **given, struct option *options, const char **names, size_t count,
                         const char *usage);

/* The value of an option; NULL if it was not given. */
const char *option_value(const struct option *options, const char *name);

/* An option's value as a whole number within bounds. */
enum status option_number(const struct option *options, const char *name, int64_t lowest, int64_t highest,
                          int64_t *number);

#endif
