/* Calls of prowcurl_sheet.h that from_python.py makes: the header's own are inline, and no library has them. */
#include "prowcurl_sheet.h"

size_t sheet_bytes(uint32_t m, uint32_t s, size_t log_room) { return hlq_sheet_bytes(m, s, log_room); }

hlq_refusal sheet_in(void *memory, size_t bytes, uint32_t m, uint32_t s, size_t log_room, hlq_sheet *sheet) {
    return hlq_sheet_in(memory, bytes, m, s, log_room, sheet);
}

hlq_refusal sheet_build(hlq_sheet *sheet, const uint8_t *raster, size_t raster_len) {
    return hlq_sheet_build(sheet, raster, raster_len);
}

hlq_refusal sheet_area(const hlq_sheet *sheet, hlq_window window, uint32_t feature, uint64_t *pixels) {
    return hlq_sheet_area(sheet, window, feature, pixels);
}

hlq_refusal sheet_paint(hlq_sheet *sheet, uint32_t key, uint32_t feature) {
    return hlq_sheet_paint(sheet, key, feature);
}

hlq_refusal sheet_take_back(hlq_sheet *sheet) { return hlq_sheet_take_back(sheet); }

hlq_refusal key_read(uint32_t m, const char *text, uint32_t *key) { return hlq_key_read(m, text, key); }
