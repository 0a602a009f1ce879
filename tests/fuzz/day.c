/* day.gpkg: a small line as after some days of work, which the fuzzers of CSV, lines and words begin with: three by two
 * sheets of side 4, classes, rules and waivers of both offices, two surveys, steps that are done and one taken back. */
#include "in_process.h"

#include <string.h>

static void write_words(const char *name, const char *words) {
    write_bytes(name, words, strlen(words));
    keep_file(name);
}

/* A survey so wide that its page has a picture for each sheet. */
static void write_wide(void) {
    char bytes[12 + 2080] = "P5\n2080 1\n7\n";
    for (int i = 0; i < 2080; i++) bytes[12 + i] = (char)(i % 1000 < 3);
    write_bytes("wide.pgm", bytes, sizeof bytes);
    keep_file("wide.pgm");
}

/* The ground in patches, so that sheets have leaves of every size. */
static void write_surveys(void) {
    char first[] = "P5\n7 11\n255\n", pixels[11 * 7];
    char bytes[sizeof first - 1 + sizeof pixels];
    memcpy(bytes, first, sizeof first - 1);
    for (int i = 0; i < 77; i++) pixels[i] = (char)(i / 7 < 4 ? 1 : i % 7 < 4 ? i / 28 : i % 5);
    memcpy(bytes + sizeof first - 1, pixels, sizeof pixels);
    write_bytes("s.pgm", bytes, sizeof bytes);
    keep_file("s.pgm");
    for (int i = 0; i < 77; i += 3) pixels[i] = 2;
    memcpy(bytes + sizeof first - 1, pixels, sizeof pixels);
    write_bytes("t.pgm", bytes, sizeof bytes);
    keep_file("t.pgm");
    write_words("g.asc", "ncols 2\nnrows 2\nxllcorner 3\nyllcorner 5\ncellsize 2\nNODATA_value -9999\n0 1\n"
                         "2 -9999\n");
}

static void write_tables(void) {
    write_words("classes.csv", "class,name,colour,grey,price\n0,field,#c9ffaa,,0.25\n1,wood,,,3\n2,\"water, open\",,,\n"
                               "3,g\xc3\xa4nge \xe2\x82\xac,#5b5060,,\n4,road,,,-1\n");
    write_words("rules.csv", "office,id,row,column,height,width,class,name\n0,3,0,0,11,7,1,wood <b>\n0,20,2,2,6,4,2,\n"
                             "1,3,0,0,4,4,1,\"a, b\"\n");
    write_words("waivers.csv", "office,rule,sheet,key,note\n0,3,0.0,10,far\n0,3,0.0,21,\n"
                               "0,20,1.0,0,\"why \"\"so\"\"\"\n1,3,0.0,0,all\n");
    write_words("questions.csv", "ask,row,column,height,width,class\nexist,0,0,4,4,wood\nreport,-1,-1,20,20,\n"
                                 "exist,9,9,1,1,3\nexist,3,3,4,4,77\n");
    write_words("pairs.csv", "old,new,class\n0,0,0\nwood,1,1\n2,2,2\n");
    write_words("places.csv", "office,rule,place,note\n0,3,1,old\n1,3,0,\n");
    write_words("greys.csv", "class,name,grey\n0,a,0 1\n1,b,2\n");
    write_words("wide.csv", "office,id,row,column,height,width,class\n0,1,0,0,1,2080,1\n");
}

/* one.gpkg: one sheet, whose survey GDAL's programs brought, so that it has a coordinate system. A patch of it touches
 * itself by corners, both ways, and has a hole. */
static void make_placed(void) {
    static const char info[] = "{\"size\": [4, 8], \"geoTransform\": [562000.5, 2, 0, 5934000, 0, -2],"
                               " \"coordinateSystem\": {\"wkt\": \"PROJCRS[\\\"here\\\",ID[\\\"EPSG\\\",25832]]\"},"
                               " \"bands\": [{\"type\": \"Byte\"}]}";
    static const char raw[] = "\1\1\1\1" "\1\1\0\1" "\1\0\1\1" "\1\1\1\1" "\1\1\1\1" "\1\0\1\1" "\1\1\0\1" "\1\1\1\1";
    gdal = (gdal_stub){ .info = info, .info_length = sizeof info - 1, .srs = "PROJCS[\"here\"]\n", .srs_length = 15,
                        .head = "NBITS 8\n", .head_length = 8, .raw = raw, .raw_length = 32 };
    write_bytes("one.tif", "II*", 4);
    write_words("one.csv", "office,id,row,column,height,width,class,name\n0,3,0,0,8,4,1,\xc3\xbc\n1,3,4,0,2,2,0,\n");
    MUST_RUN("init", "one.gpkg", "--side", "8", "--slots", "2", "--filler", "1");
    MUST_RUN("add", "one.gpkg", "one.tif");
    MUST_RUN("set", "one.gpkg", "rules", "one.csv");
    keep_file("one.gpkg");
    gdal = (gdal_stub){ 0 };
}

void make_day(void) {
    write_surveys();
    write_wide();
    write_tables();
    MUST_RUN("init", "day.gpkg", "--side", "4", "--slots", "8");
    MUST_RUN("set", "day.gpkg", "classes", "classes.csv");
    MUST_RUN("add", "day.gpkg", "s.pgm", "--taken", "2026-05-31", "--cell", "0.5");
    MUST_RUN("set", "day.gpkg", "rules", "rules.csv");
    MUST_RUN("set", "day.gpkg", "waivers", "waivers.csv");
    MUST_RUN("paint", "day.gpkg", "1", "1", "5", "5", "3", "--by", "crew 4");
    MUST_RUN("paint", "day.gpkg", "0.1:10", "2");
    MUST_RUN("paint", "day.gpkg", "8", "0", "9", "9", "road");
    MUST_RUN("undo", "day.gpkg");
    MUST_RUN("add", "day.gpkg", "t.pgm", "--as", "after");
    MUST_RUN("paint", "day.gpkg", "2", "3", "4", "2", "0");
    MUST_RUN("paint", "day.gpkg", "0", "0", "11", "7", "1");
    MUST_RUN("undo", "day.gpkg");
    MUST_RUN("publish", "day.gpkg");
    keep_file("day.gpkg");
    MUST_RUN("export", "day.gpkg", "hlq", "old.hlq", "--sheet", "0.0");
    keep_file("old.hlq");
    make_placed();
    MUST_RUN("init", "new.gpkg", "--side", "4", "--slots", "8");
    keep_file("new.gpkg");
    /* what libraries make at first use and keep */
    MUST_RUN("findings", "day.gpkg", "--picture", "day.png", "--geojson", "day.json", "--json");
    MUST_RUN("page", "day.gpkg", "day.html");
    MUST_RUN("check", "day.gpkg");
    restore_folder();
    settled = 1;
}
