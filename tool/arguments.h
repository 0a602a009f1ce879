/* The command line: a command, its words, its options; and the commands that there are. */
#ifndef ARGUMENTS_H
#define ARGUMENTS_H

#include <stdint.h>

typedef enum {
    OPTION_JSON,
    OPTION_CSV,
    OPTION_SURVEY,
    OPTION_BOX,
    OPTION_XY,
    OPTION_STRICT,
    OPTION_OFFICE,
    OPTION_AS,
    OPTION_TAKEN,
    OPTION_CLASSES,
    OPTION_SIDE,
    OPTION_SLOTS,
    OPTION_FILLER,
    OPTION_NODATA,
    OPTION_CELL,
    OPTION_WEST,
    OPTION_NORTH,
    OPTION_SHEET,
    OPTION_CLASS,
    OPTION_ELSE,
    OPTION_BLOCKS,
    OPTION_ALL,
    OPTION_SAVE,
    OPTION_GEOJSON,
    OPTION_PICTURE,
    OPTION_SCALE,
    OPTION_EXIT_LIVE,
    OPTION_PATCH,
    OPTION_NOTE,
    OPTION_BY,
    OPTION_FORCE,
    OPTION_WAIT,
    OPTION_HELP,
    OPTIONS
} option;

/* words[0] is the first word after the command; given[o] is NULL where the option is not there, else the words of the
 * command line that are its values, of which there may be none. */
typedef struct {
    const char *command;
    int count;
    char **words;
    char **given[OPTIONS];
} arguments;

typedef struct {
    const char *name;
    int least, most;  /* how many words it takes, LINE included */
    uint64_t options; /* bit o for option o */
    void (*run)(const arguments *a);
    const char *usage, *summary, *text;
} command;

/* The table of commands; its last row has no name. */
extern const command commands[];

/* The command with this name, or the end. */
const command *command_named(const char *name);

/* Takes the words after the command apart; ends where they do not fit it. */
arguments parse(const command *c, int count, char **words);

/* The first value of an option, or NULL where it is not given. */
const char *value_of(const arguments *a, option o);

void print_help(const char *name);
void print_overview(void);

#endif
