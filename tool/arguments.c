/* The command line taken apart, and the help that follows from the same tables. */
#include "arguments.h"

#include "tool.h"

#include <stdlib.h>
#include <string.h>

static const struct {
    const char *name;
    int count; /* of its values */
    const char *values, *text;
} options[OPTIONS] = {
    [OPTION_JSON] = { "json", 0, "", "the answer as JSON" },
    [OPTION_CSV] = { "csv", 0, "", "the answer as CSV" },
    [OPTION_SURVEY] = { "survey", 1, "NAME", "this survey of the line (the one added last where it is not given)" },
    [OPTION_BOX] = { "box", 4, "WEST SOUTH EAST NORTH", "a window in the line's coordinates" },
    [OPTION_XY] = { "xy", 2, "X Y", "a pixel by the line's coordinates" },
    [OPTION_STRICT] = { "strict", 0, "", "refuse a window that reaches over the edge" },
    [OPTION_OFFICE] = { "office", 1, "0|1", "the office" },
    [OPTION_AS] = { "as", 1, "NAME", "the survey's name (the file's where it is not given)" },
    [OPTION_TAKEN] = { "taken", 1, "DATE", "the day on which the survey was taken, like 2026-05-31" },
    [OPTION_CLASSES] = { "classes", 1, "FILE", "the classes: class,name[,colour][,grey][,price]" },
    [OPTION_SIDE] = { "side", 1, "N", "the side of a sheet in pixels, a power of two up to 1024" },
    [OPTION_SLOTS] = { "slots", 1, "S", "the number of classes, 1 to 32 (the highest of --classes and one more)" },
    [OPTION_FILLER] = { "filler", 1, "CLASS", "the class past the survey's edge on the last sheets (0)" },
    [OPTION_NODATA] = { "nodata", 1, "CLASS", "the class of cells without data" },
    [OPTION_CELL] = { "cell", 1, "METRES", "the side of a pixel where the survey does not tell it (1)" },
    [OPTION_WEST] = { "west", 1, "X", "the western edge where the survey does not tell it (0)" },
    [OPTION_NORTH] = { "north", 1, "Y", "the northern edge where the survey does not tell it" },
    [OPTION_SHEET] = { "sheet", 1, "I.J", "the sheet, by its row and column among the sheets" },
    [OPTION_CLASS] = { "class", 1, "CLASS", "this class against all others" },
    [OPTION_ELSE] = { "else", 1, "CLASS", "the class of pairs that the table does not name" },
    [OPTION_BLOCKS] = { "blocks", 0, "", "list the blocks too" },
    [OPTION_ALL] = { "all", 0, "", "list hidden findings too" },
    [OPTION_SAVE] = { "save", 0, "", "keep the patches in the layer findings" },
    [OPTION_GEOJSON] = { "geojson", 1, "FILE", "write the patches as GeoJSON" },
    [OPTION_PICTURE] = { "picture", 1, "OUT.png", "draw the ground with its findings" },
    [OPTION_SCALE] = { "scale", 1, "N", "the side of a pixel in the picture" },
    [OPTION_EXIT_LIVE] = { "exit-live", 0, "", "end with 32 where a live finding is there" },
    [OPTION_PATCH] = { "patch", 2, "ROW COLUMN", "the patch that has this pixel" },
    [OPTION_NOTE] = { "note", 1, "TEXT", "why" },
    [OPTION_BY] = { "by", 1, "NAME", "who does it (the login name where it is not given)" },
    [OPTION_FORCE] = { "force", 0, "", "replace an output of another kind" },
    [OPTION_WAIT] = { "wait", 1, "SECONDS", "how long to wait for another program (10)" },
    [OPTION_HELP] = { "help", 0, "", "this text" },
};

const command *command_named(const char *name) {
    for (const command *c = commands; c->name; c++) if (strcmp(c->name, name) == 0) return c;
    fail(STATUS_USAGE, "there is no command '%s'; 'prowcurl help' lists them", name);
}

/* The option that a word names: the name alone, or the name, '=' and a value. */
static option option_of(const command *c, const char *word) {
    size_t length = strcspn(word, "=");
    for (int o = 0; o < OPTIONS; o++) {
        if (strlen(options[o].name) != length || strncmp(options[o].name, word, length) != 0) continue;
        if (c->options >> o & 1) return (option)o;
        fail(STATUS_USAGE, "'prowcurl %s' has no option --%s; see 'prowcurl help %s'", c->name, word, c->name);
    }
    fail(STATUS_USAGE, "there is no option --%s; see 'prowcurl help %s'", word, c->name);
}

/* The option at words[i]; gives the place after its values. */
static int take_option(const command *c, arguments *a, int i, int count, char **words) {
    option o = option_of(c, words[i] + 2);
    char *equals = strchr(words[i], '=');
    int wanted = options[o].count;
    if (a->given[o]) fail(STATUS_USAGE, "--%s stands twice", options[o].name);
    if (wanted == 0 && equals) fail(STATUS_USAGE, "--%s takes no value", options[o].name);
    if (wanted == 1 && equals) {
        words[i] = equals + 1;
        a->given[o] = &words[i];
        return i + 1;
    }
    if (equals || i + wanted >= count)
        fail(STATUS_USAGE, "--%s wants %s: %s", options[o].name, wanted == 1 ? "a value" : "values after it",
             options[o].values);
    a->given[o] = &words[i + 1];
    return i + 1 + wanted;
}

/* A word is an option where it begins with two dashes; -1 is a number, and - alone a name. */
arguments parse(const command *c, int count, char **words) {
    arguments a = { .command = c->name, .words = room_for((size_t)count + 1, sizeof *a.words) };
    for (int i = 0, only_words = 0; i < count;) {
        if (only_words || strncmp(words[i], "--", 2) != 0) {
            a.words[a.count++] = words[i++];
        } else if (words[i][2] == 0) {
            only_words = 1;
            i++;
        } else {
            i = take_option(c, &a, i, count, words);
        }
    }
    if (a.given[OPTION_HELP]) return a;
    int few = c->least - a.count, many = a.count - c->most;
    if (few > 0 || many > 0)
        fail(STATUS_USAGE, "'prowcurl %s' has %d word%s too %s; usage: prowcurl %s", c->name, few > 0 ? few : many,
             (few > 0 ? few : many) == 1 ? "" : "s", few > 0 ? "few" : "many", c->usage);
    if (a.given[OPTION_JSON] && a.given[OPTION_CSV]) fail(STATUS_USAGE, "--json and --csv exclude each other");
    return a;
}

const char *value_of(const arguments *a, option o) { return a->given[o] ? a->given[o][0] : NULL; }

void print_help(const char *name) {
    const command *c = command_named(name);
    printf("usage: prowcurl %s\n\n%s\n\n%s\n\noptions:\n", c->usage, c->summary, c->text);
    for (int o = 0; o < OPTIONS; o++) {
        if (!(c->options >> o & 1)) continue;
        char *word = text_of("--%s%s%s", options[o].name, options[o].count ? " " : "", options[o].values);
        printf("  %-20s %s\n", word, options[o].text);
        free(word);
    }
}

void print_overview(void) {
    printf("usage: prowcurl COMMAND LINE.gpkg ..\n\n");
    for (const command *c = commands; c->name; c++) printf("  %-14s %s\n", c->name, c->summary);
    printf("\n'prowcurl help COMMAND' tells of one. Every answer can be had with --json. The exit status is 0, the\n"
           "number of a refusal (1 to 25), or 64 and above where the command line or a file is wrong.\n");
}
