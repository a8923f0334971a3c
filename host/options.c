#include "options.h"

#include <string.h>

static struct option *find(struct option *options, const char *given, size_t length)
{
    for (; options->name; options++)
        if (strlen(options->name) == length && memcmp(options->name, given, length) == 0)
            return options;
    return NULL;
}

static enum status wrong(const char *usage)
{
    say("usage: %s", usage);
    return STATUS_USAGE;
}

enum status options_read(int count_given, char **given, struct option *options, const char **names, size_t count,
                         const char *usage)
{
    size_t found = 0;
    bool only_names = false;
    for (int k = 0; k < count_given; k++) {
        const char *equals = strchr(given[k], '=');
        struct option *option;
        if (!only_names && strcmp(given[k], "--") == 0) {
            only_names = true;
            continue;
        }
        if (only_names || given[k][0] != '-' || given[k][1] == '\0') {
            if (found == count) {
                say("'%s' is one name too many", SHOWN(given[k]));
                return wrong(usage);
            }
            if (given[k][0] == '\0') {
                say("an empty name");
                return wrong(usage);
            }
            names[found++] = given[k];
            continue;
        }
        if (given[k][1] != '-')
            equals = NULL;
        option = find(options, given[k], equals ? (size_t)(equals - given[k]) : strlen(given[k]));
        if (!option) {
            say("'%s' is no option of this command", SHOWN(given[k]));
            return wrong(usage);
        }
        if (option->value) {
            say("%s is given twice", option->name);
            return wrong(usage);
        }
        if (!option->takes) {
            if (equals) {
                say("%s takes no value", option->name);
                return wrong(usage);
            }
            option->value = "";
            continue;
        }
        if (!equals && k + 1 == count_given) {
            say("%s needs %s after it", option->name, option->takes);
            return wrong(usage);
        }
        option->value = equals ? equals + 1 : given[++k];
        if (option->value[0] == '\0') {
            say("%s needs %s after it", option->name, option->takes);
            return wrong(usage);
        }
    }
    if (found < count) {
        say("a file name is missing");
        return wrong(usage);
    }
    return STATUS_DONE;
}

const char *option_value(const struct option *options, const char *name)
{
    for (; options->name; options++)
        if (strcmp(options->name, name) == 0)
            return options->value;
    return NULL;
}

enum status option_number(const struct option *options, const char *name, int64_t lowest, int64_t highest,
                          int64_t *number)
{
    const char *value = option_value(options, name);
    switch (read_number(value ? value : "", lowest, highest, number)) {
    case NUMBER_TAKEN: return STATUS_DONE;
    case NUMBER_OUTSIDE:
        say("%s %s: must be %s to %s", name, SHOWN(value), GROUPED(lowest), GROUPED(highest));
        return STATUS_REFUSED;
    case NUMBER_EMPTY: say("%s is missing", name); return STATUS_USAGE;
    case NUMBER_NOT: break;
    }
    say("%s '%s': is not a whole number", name, SHOWN(value));
    return STATUS_USAGE;
}
