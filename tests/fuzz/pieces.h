/* What a run of the tool takes of memory and of SQLite, so that it can be given back when the run ends, however it
 * ends. */
#ifndef PIECES_H
#define PIECES_H

/* Before anything else: memory is watched, and SQLite gets its own. */
void watch_pieces(void);
/* What is taken from here on is the run's. */
void begin_pieces(void);
/* A piece that stays after the run. */
void keep_piece(const void *piece);
/* All that the run still has; ends the fuzzer where a statement of SQLite is among it. */
void give_back_pieces(void);
/* 0 from the request on that memory_ends_at names. */
int memory_is_there(void);

#endif
