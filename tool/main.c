/* prowcurl: the day's work on a line of ground classes, in one file. Everything that is said about the ground is the
 * library's answer; this is also the model of how a program should use it. */
#include "commands.h"
#include "tool.h"

#include <stdlib.h>
#include <string.h>

#define BIT(o) ((uint64_t)1 << OPTION_##o)
#define ALWAYS (BIT(JSON) | BIT(CSV) | BIT(HELP) | BIT(WAIT))
#define ASKS (ALWAYS | BIT(SURVEY))
#define IN_WINDOW (ASKS | BIT(BOX) | BIT(STRICT))

static const char window_text[] =
    "WINDOW is ROW COLUMN HEIGHT WIDTH in the survey's rows and columns, or --box: the pixels whose centres lie in\n"
    "it. It may reach over the edge, with negative numbers too, and what lies outside is left out; with --strict\n"
    "such a window is refused.";

const command commands[] = {
    { "init", 1, 1, ALWAYS | BIT(CLASSES) | BIT(SIDE) | BIT(SLOTS) | BIT(FILLER), run_init,
      "init LINE [--classes FILE] [--side 1024]", "make a line",
      "LINE is a new file, a GeoPackage, which other programs read too. A survey is cut into sheets of --side. How\n"
      "many classes a line has is said by --slots, else by the highest of --classes, else it is 32." },
    { "add", 2, 2,
      ALWAYS | BIT(AS) | BIT(TAKEN) | BIT(NODATA) | BIT(FILLER) | BIT(CELL) | BIT(WEST) | BIT(NORTH), run_add,
      "add LINE SURVEY [--as NAME] [--taken DATE] [--nodata CLASS]", "add a survey to a line",
      "SURVEY is an 8-bit grey PGM, an ESRI ASCII grid (- is standard input for these two), whatever GDAL reads, such\n"
      "as a GeoTIFF, or a map of the first version, MAP.hlq with its log. It has up to 1048576 rows and columns. Its\n"
      "numbers are the classes, unless the classes of the line have greys. Coordinates, cell size and coordinate\n"
      "system come along. A second survey must lie on the same grid; the one added last is the one that commands\n"
      "speak of." },
    { "info", 1, 1, ASKS, run_info, "info LINE", "say what is in a line",
      "Rows, columns, sheets, coordinates, surveys; and how many steps can be taken back and redone." },
    { "check", 1, 1, ALWAYS, run_check, "check LINE", "check a whole line",
      "The database's own check; every sheet's digest and list, whose raster is built again and must give the same\n"
      "list; every log, whose steps are taken back in memory. Where something is wrong, the exit status is the\n"
      "refusal's number, or 65." },
    { "set", 3, 3, ALWAYS | BIT(OFFICE) | BIT(BY), run_set,
      "set LINE classes|rules|prices|waivers FILE.csv [--office N]",
      "take classes, rules, prices or waivers from a CSV",
      "The rows of the file take the place of those that are there, all of them or none. Rules and waivers are those\n"
      "of an office: of --office, or of the column office, where the rows of both offices are replaced. A rule that\n"
      "has waivers cannot go before these." },
    { "get", 2, 3, ALWAYS | BIT(OFFICE) | BIT(FORCE), run_get,
      "get LINE classes|rules|prices|waivers [FILE.csv] [--office N]", "write them as a CSV",
      "To standard output, or to a file, which 'set' takes back." },
    { "at", 1, 3, ASKS | BIT(XY), run_at, "at LINE ROW COLUMN | at LINE --xy X Y", "name the class at a pixel",
      "The largest block of one class around the pixel: its sheet and key, its level, its class, and where it lies;\n"
      "and the patches that have the pixel." },
    { "report", 1, 5, IN_WINDOW, run_report, "report LINE WINDOW", "list the classes in a window", window_text },
    { "exist", 2, 6, IN_WINDOW, run_exist, "exist LINE WINDOW CLASS", "say whether a class is in a window",
      window_text },
    { "select", 2, 6, IN_WINDOW, run_select, "select LINE WINDOW CLASS",
      "list the largest blocks of a class in a window", window_text },
    { "areas", 1, 5, IN_WINDOW, run_areas, "areas LINE [WINDOW]", "measure each class: pixels, square metres, price",
      "Without a window the whole survey is measured. The size of a pixel and the prices, which are those of a square\n"
      "metre, are the line's." },
    { "batch", 2, 2, ASKS, run_batch, "batch LINE QUESTIONS.csv", "ask many windows at once",
      "QUESTIONS.csv has the columns ask (exist or report), row, column, height, width and class; a report needs no\n"
      "class. A window that is refused is answered with the refusal, and stops no other." },
    { "findings", 1, 1,
      ASKS | BIT(OFFICE) | BIT(BLOCKS) | BIT(ALL) | BIT(SAVE) | BIT(GEOJSON) | BIT(PICTURE) | BIT(SCALE) |
          BIT(EXIT_LIVE) | BIT(FORCE), run_findings,
      "findings LINE [--office 0|1] [--all] [--blocks] [--save] [--geojson F] [--picture F] [--exit-live]",
      "run an office's rules: patches, and totals of each rule and of the line",
      "A patch is what a rule finds in one piece, side by side and across sheets; live and hidden ones are apart.\n"
      "Hidden is what the office has waived whole. --picture draws it with a legend, --geojson and --save are for\n"
      "GIS programs. With --csv the patches are the table, with --blocks too the blocks." },
    { "waive", 2, 6, ASKS | BIT(OFFICE) | BIT(PATCH) | BIT(BOX) | BIT(STRICT) | BIT(NOTE) | BIT(BY), run_waive,
      "waive LINE RULE (BLOCK | --patch ROW COLUMN | WINDOW) --office N [--note TEXT]",
      "accept what a rule finds in a block, a patch or a window",
      "A patch is named by any of its pixels, and its blocks are waived; of a window the largest blocks of the\n"
      "rule's class in it. An office has up to 256 rows on a sheet: where more are needed nothing is added." },
    { "unwaive", 2, 6, ASKS | BIT(OFFICE) | BIT(PATCH) | BIT(BOX) | BIT(STRICT) | BIT(BY), run_unwaive,
      "unwaive LINE RULE (BLOCK | --patch ROW COLUMN | WINDOW) --office N", "take waivers back",
      "The waiver of a block, those that meet a patch, or those that lie in a window." },
    { "publish", 1, 1, ASKS, run_publish, "publish LINE", "write the layers for GIS programs anew",
      "The layers ground (a tile a sheet), windows and findings (of both offices) of the file itself." },
    { "page", 2, 2, ASKS | BIT(OFFICE) | BIT(FORCE), run_page, "page LINE OUT.html [--office 0|1]",
      "write a page for the foreman: pictures, patches, areas, waivers, steps",
      "One file, which needs no network: a browser shows it, sorts and filters the patches, and prints it. - is\n"
      "standard output." },
    { "paint", 2, 6, IN_WINDOW | BIT(BY), run_paint, "paint LINE WINDOW CLASS | paint LINE BLOCK CLASS",
      "give a window or a block a class, as one step",
      "All sheets that it meets change together or not at all. BLOCK is i.j:KEY as 'at' and 'select' give it, and on\n"
      "a line of one sheet the key alone. What could be redone no longer can." },
    { "undo", 1, 1, ASKS, run_undo, "undo LINE", "take the latest step back", "It can be redone." },
    { "redo", 1, 1, ASKS, run_redo, "redo LINE", "put back what was taken back last",
      "There is nothing to redo after a new paint." },
    { "steps", 1, 1, ASKS, run_steps, "steps LINE", "tell who edited what and when",
      "All steps since the survey came, or since 'forget'; those that are not done were taken back, and can be\n"
      "redone." },
    { "forget", 1, 1, ASKS, run_forget, "forget LINE", "empty the log of edits",
      "The survey stays as it is, and earlier steps can no longer be taken back or redone." },
    { "adopt", 3, 3, ASKS | BIT(SHEET) | BIT(BY), run_adopt, "adopt LINE OLD.hlq PLACES.csv [--sheet I.J]",
      "take over waivers that were kept by place",
      "The former checker kept a waiver by the place of its record in the list: PLACES.csv has the columns office,\n"
      "rule and place, counted from 0, and if wanted note. OLD.hlq is the map of that day, which lies at the\n"
      "survey's first corner or at that of --sheet. Each becomes a waiver of its block, all or none. The answer\n"
      "names for each the block that it was given for, and what stands at that place in today's list." },
    { "change", 4, 4, ALWAYS | BIT(AS) | BIT(TAKEN) | BIT(ELSE), run_change,
      "change LINE OLD NEW TABLE.csv [--as NAME]", "combine two surveys into a third",
      "TABLE.csv has the columns old, new and class: the class of a pixel that had the class old and has new. Pairs\n"
      "that it does not name get the class of --else. The new survey is then the one that commands speak of." },
    { "export", 3, 3, ASKS | BIT(SHEET) | BIT(CLASS) | BIT(FORCE), run_export,
      "export LINE pgm|grid|tif OUT | export LINE leaves|bits|hlq OUT --sheet I.J",
      "write a survey or a sheet to a file",
      "The survey's pixels as a PGM, an ESRI ASCII grid with its coordinates, or a GeoTIFF (by GDAL). A sheet as\n"
      "leaves (a CSV of key and class), as the two bit strings OUT.nodes and OUT.leaves, which want two classes or\n"
      "--class, or as the library's file. - is standard output." },
    { "help", 0, 1, BIT(HELP), run_help, "help [COMMAND]", "tell of the commands, or of one",
      "The manual page prowcurl(1) has the formats of the files." },
    { 0 },
};

void run_help(const arguments *a) {
    if (a->count == 1) print_help(a->words[0]);
    else print_overview();
}

int main(int count, char **words) {
    if (count < 2) {
        print_overview();
        return STATUS_USAGE;
    }
    if (strcmp(words[1], "--version") == 0) return printf("prowcurl, interface %d\n", HLQ_INTERFACE) < 0;
    if (strcmp(words[1], "--help") == 0 || strcmp(words[1], "-h") == 0) words[1] = "help";
    const command *c = command_named(words[1]);
    arguments a = parse(c, count - 2, words + 2);
    if (a.given[OPTION_HELP]) print_help(c->name);
    else c->run(&a);
    free(a.words);
    if (fflush(stdout) != 0) fail(STATUS_IO, "the answer cannot be written");
    return 0;
}
