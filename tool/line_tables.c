/* The tables of a line: those that GeoPackage 1.3 wants, the layers that GIS programs show, and ours. */
#include "line_tables.h"

#include <string.h>

/* Tables and columns of GeoPackage, as its annex has them. */
static const char geopackage[] =
    "CREATE TABLE gpkg_spatial_ref_sys (srs_name TEXT NOT NULL, srs_id INTEGER PRIMARY KEY,"
    " organization TEXT NOT NULL, organization_coordsys_id INTEGER NOT NULL, definition TEXT NOT NULL,"
    " description TEXT);"
    "CREATE TABLE gpkg_contents (table_name TEXT NOT NULL PRIMARY KEY, data_type TEXT NOT NULL,"
    " identifier TEXT UNIQUE, description TEXT DEFAULT '',"
    " last_change DATETIME NOT NULL DEFAULT (strftime('%Y-%m-%dT%H:%M:%fZ','now')), min_x DOUBLE, min_y DOUBLE,"
    " max_x DOUBLE, max_y DOUBLE, srs_id INTEGER REFERENCES gpkg_spatial_ref_sys(srs_id));"
    "CREATE TABLE gpkg_geometry_columns (table_name TEXT NOT NULL UNIQUE REFERENCES gpkg_contents(table_name),"
    " column_name TEXT NOT NULL, geometry_type_name TEXT NOT NULL,"
    " srs_id INTEGER NOT NULL REFERENCES gpkg_spatial_ref_sys(srs_id), z TINYINT NOT NULL, m TINYINT NOT NULL,"
    " PRIMARY KEY (table_name, column_name));"
    "CREATE TABLE gpkg_tile_matrix_set (table_name TEXT NOT NULL PRIMARY KEY REFERENCES gpkg_contents(table_name),"
    " srs_id INTEGER NOT NULL REFERENCES gpkg_spatial_ref_sys(srs_id), min_x DOUBLE NOT NULL, min_y DOUBLE NOT NULL,"
    " max_x DOUBLE NOT NULL, max_y DOUBLE NOT NULL);"
    "CREATE TABLE gpkg_tile_matrix (table_name TEXT NOT NULL REFERENCES gpkg_contents(table_name),"
    " zoom_level INTEGER NOT NULL, matrix_width INTEGER NOT NULL, matrix_height INTEGER NOT NULL,"
    " tile_width INTEGER NOT NULL, tile_height INTEGER NOT NULL, pixel_x_size DOUBLE NOT NULL,"
    " pixel_y_size DOUBLE NOT NULL, PRIMARY KEY (table_name, zoom_level));"
    "INSERT INTO gpkg_spatial_ref_sys VALUES"
    " ('Undefined Cartesian SRS', -1, 'NONE', -1, 'undefined', 'undefined Cartesian coordinate reference system'),"
    " ('Undefined geographic SRS', 0, 'NONE', 0, 'undefined', 'undefined geographic coordinate reference system'),"
    " ('WGS 84', 4326, 'EPSG', 4326, 'GEOGCS[\"WGS 84\",DATUM[\"WGS_1984\",SPHEROID[\"WGS 84\",6378137,298.257223563,"
    "AUTHORITY[\"EPSG\",\"7030\"]],AUTHORITY[\"EPSG\",\"6326\"]],PRIMEM[\"Greenwich\",0,AUTHORITY[\"EPSG\",\"8901\"]],"
    "UNIT[\"degree\",0.0174532925199433,AUTHORITY[\"EPSG\",\"9122\"]],AUTHORITY[\"EPSG\",\"4326\"]]', 'WGS 84');";

/* The layers. A table that GIS programs list as attributes wants a number for its key, so where ours has several
 * columns they are unique beside it. */
static const char layers[] =
    "CREATE TABLE ground (id INTEGER PRIMARY KEY AUTOINCREMENT, zoom_level INTEGER NOT NULL,"
    " tile_column INTEGER NOT NULL, tile_row INTEGER NOT NULL, tile_data BLOB NOT NULL,"
    " UNIQUE (zoom_level, tile_column, tile_row));"
    "CREATE TABLE windows (fid INTEGER PRIMARY KEY AUTOINCREMENT, geom POLYGON, office INTEGER, rule INTEGER,"
    " name TEXT, class TEXT);"
    "CREATE TABLE findings (fid INTEGER PRIMARY KEY AUTOINCREMENT, geom MULTIPOLYGON, office INTEGER, rule INTEGER,"
    " name TEXT, class TEXT, state TEXT, blocks INTEGER, pixels INTEGER, square_metres DOUBLE);"
    "CREATE TABLE classes (class INTEGER PRIMARY KEY CHECK (class BETWEEN 0 AND 31), name TEXT NOT NULL UNIQUE,"
    " colour TEXT, grey TEXT, price DOUBLE);"
    "CREATE TABLE rules (fid INTEGER PRIMARY KEY AUTOINCREMENT, office INTEGER NOT NULL CHECK (office IN (0, 1)),"
    " id INTEGER NOT NULL CHECK (id BETWEEN 0 AND 4294967295), name TEXT NOT NULL DEFAULT '',"
    " class INTEGER NOT NULL CHECK (class BETWEEN 0 AND 31), \"row\" INTEGER NOT NULL, \"column\" INTEGER NOT NULL,"
    " height INTEGER NOT NULL, width INTEGER NOT NULL, UNIQUE (office, id));"
    "CREATE TABLE waivers (fid INTEGER PRIMARY KEY AUTOINCREMENT, office INTEGER NOT NULL, rule INTEGER NOT NULL,"
    " sheet_row INTEGER NOT NULL, sheet_column INTEGER NOT NULL, key INTEGER NOT NULL, note TEXT NOT NULL DEFAULT '',"
    " \"by\" TEXT NOT NULL DEFAULT '', at TEXT NOT NULL DEFAULT '',"
    " UNIQUE (office, rule, sheet_row, sheet_column, key),"
    " FOREIGN KEY (office, rule) REFERENCES rules (office, id) DEFERRABLE INITIALLY DEFERRED);"
    "INSERT INTO gpkg_contents (table_name, data_type, identifier, srs_id) VALUES"
    " ('windows', 'features', 'windows', -1), ('findings', 'features', 'findings', -1),"
    " ('classes', 'attributes', 'classes', NULL), ('rules', 'attributes', 'rules', NULL),"
    " ('waivers', 'attributes', 'waivers', NULL);"
    "INSERT INTO gpkg_geometry_columns VALUES ('windows', 'geom', 'POLYGON', -1, 0, 0),"
    " ('findings', 'geom', 'MULTIPOLYGON', -1, 0, 0);";

static const char ours[] =
    "CREATE TABLE prowcurl (id INTEGER PRIMARY KEY CHECK (id = 1), format INTEGER NOT NULL, m INTEGER NOT NULL,"
    " slots INTEGER NOT NULL, rows INTEGER NOT NULL DEFAULT 0, columns INTEGER NOT NULL DEFAULT 0,"
    " west DOUBLE NOT NULL DEFAULT 0, north DOUBLE NOT NULL DEFAULT 0, cell DOUBLE NOT NULL DEFAULT 1,"
    " filler INTEGER NOT NULL, srs_id INTEGER NOT NULL DEFAULT -1 REFERENCES gpkg_spatial_ref_sys (srs_id));"
    "CREATE TABLE surveys (id INTEGER PRIMARY KEY AUTOINCREMENT, name TEXT NOT NULL UNIQUE,"
    " taken TEXT NOT NULL DEFAULT '');"
    "CREATE TABLE sheets (survey INTEGER NOT NULL REFERENCES surveys (id), sheet_row INTEGER NOT NULL,"
    " sheet_column INTEGER NOT NULL, list BLOB NOT NULL, log_keys BLOB NOT NULL DEFAULT x'',"
    " log_values BLOB NOT NULL DEFAULT x'', used INTEGER NOT NULL DEFAULT 0, in_force INTEGER NOT NULL DEFAULT 0,"
    " digest BLOB NOT NULL, PRIMARY KEY (survey, sheet_row, sheet_column));"
    "CREATE TABLE steps (id INTEGER PRIMARY KEY AUTOINCREMENT, survey INTEGER NOT NULL REFERENCES surveys (id),"
    " words TEXT NOT NULL, \"by\" TEXT NOT NULL, at TEXT NOT NULL, done INTEGER NOT NULL CHECK (done IN (0, 1)));"
    "CREATE TABLE step_sheets (step INTEGER NOT NULL REFERENCES steps (id) ON DELETE CASCADE,"
    " survey INTEGER NOT NULL, sheet_row INTEGER NOT NULL, sheet_column INTEGER NOT NULL,"
    " PRIMARY KEY (step, sheet_row, sheet_column),"
    " FOREIGN KEY (survey, sheet_row, sheet_column) REFERENCES sheets (survey, sheet_row, sheet_column));"
    "CREATE INDEX step_sheets_by_sheet ON step_sheets (survey, sheet_row, sheet_column);";

static void run_script(line *l, const char *script) {
    int code = sqlite3_exec(l->db, script, NULL, NULL, NULL);
    if (code != SQLITE_OK) fail_as_sqlite(l, code);
}

void make_tables(line *l) {
    run_sql(l, "PRAGMA application_id = 1196444487", ""); /* GEOPACKAGE_ID; a pragma takes no bound value */
    run_sql(l, "PRAGMA user_version = 10300", "");
    run_sql(l, "BEGIN IMMEDIATE", "");
    run_script(l, geopackage);
    run_script(l, layers);
    run_script(l, ours);
    run_sql(l, "INSERT INTO prowcurl (id, format, m, slots, filler) VALUES (1, ?, ?, ?, ?)", "iiii",
            (int64_t)LINE_FORMAT, (int64_t)l->m, (int64_t)l->slots, (int64_t)l->filler);
}

/* The matrix of tiles reaches to the end of the last sheets, the layers to the survey's edge. */
void place_layers(line *l) {
    double east = l->west + l->columns * l->cell, south = l->north - l->rows * l->cell;
    double side = (double)side_of(l), wide = sheet_columns(l) * side, high = sheet_rows(l) * side;
    run_sql(l, "UPDATE gpkg_geometry_columns SET srs_id = ?", "i", l->srs);
    run_sql(l, "UPDATE gpkg_contents SET srs_id = ?, min_x = ?, min_y = ?, max_x = ?, max_y = ?"
               " WHERE data_type <> 'attributes'", "idddd", l->srs, l->west, south, east, l->north);
    run_sql(l, "INSERT INTO gpkg_contents (table_name, data_type, identifier, min_x, min_y, max_x, max_y, srs_id)"
               " VALUES ('ground', 'tiles', 'ground', ?, ?, ?, ?, ?)", "ddddi", l->west, south, east, l->north,
            l->srs);
    run_sql(l, "INSERT INTO gpkg_tile_matrix_set VALUES ('ground', ?, ?, ?, ?, ?)", "idddd", l->srs, l->west,
            l->north - high * l->cell, l->west + wide * l->cell, l->north);
    run_sql(l, "INSERT INTO gpkg_tile_matrix VALUES ('ground', 0, ?, ?, ?, ?, ?, ?)", "iiiidd",
            (int64_t)sheet_columns(l), (int64_t)sheet_rows(l), (int64_t)side_of(l), (int64_t)side_of(l), l->cell,
            l->cell);
}
