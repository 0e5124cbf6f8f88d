/* Comfusy as a library: one call that does all that the program does, on texts in memory; and three that read a program once and answer its lines one by
   one. docs/LIBRARY.md tells them with examples. */
#ifndef COMFUSY_H
#define COMFUSY_H

#ifndef __cplusplus
#include <stdbool.h>
#endif
#include <stddef.h>
#include <stdint.h>

#ifdef __cplusplus
extern "C" {
#endif

/* What a call answers. All but COMFUSY_TOO_SMALL are the statuses of the program: docs/FORMATS.md. */
enum {
  COMFUSY_DONE = 0,
  COMFUSY_TOO_SMALL = 1,   /* a buffer is too small: call again with the sizes that were told */
  COMFUSY_USAGE = 2,       /* the words are no command, or no UTF-8; or a program is closed */
  COMFUSY_NO_FILE = 3,     /* a word names no file of those that are given */
  COMFUSY_TEXT = 6,        /* a text is too long, or none of its language */
  COMFUSY_TYPES = 7,       /* a rule on names or types is broken */
  COMFUSY_NOT_LINEAR = 8,  /* a relation is not linear */
  COMFUSY_PAST = 9,        /* a coefficient passes the limit of numbers */
  COMFUSY_LIMIT = 10,      /* a counted limit is passed, or that of what is written */
  COMFUSY_INPUT_LONG = 11, /* the input is too long, in language 2 */
  COMFUSY_NO_MEMORY = 12,  /* memory ran out; what is in the buffers may be cut */
  COMFUSY_REJECTED = 13,   /* steps are not accepted */
  COMFUSY_NO = 14,         /* all is written, and of a strict check some answers are no */
  COMFUSY_UNDECIDED = 15   /* the same where none is no, and some are undecided */
};

/* Counted bytes: `at` points to `size` of them. They need no zero behind them, and may hold any bytes. */
typedef struct {
  const uint8_t *at;
  size_t size;
} comfusy_bytes;

/* A file: the name by which a word means it, and its text. */
typedef struct {
  comfusy_bytes name;
  comfusy_bytes text;
} comfusy_file;

/* Does what the program does on these words, which are those behind its name, with these files and this standard input.
 *
 * `out` and `err` get the first bytes, as many as fit, of what the program writes to its standard output and its standard error. `*out_size` and `*err_size`
 * get the number of all of them: with COMFUSY_TOO_SMALL at least one of the two is greater than its room, and the same call with so much room answers
 * the same with all of them. Of two files of one name the first counts. No file of the system is read, and nothing is kept between calls: threads may
 * call at the same time.
 *
 * What each pointer must be, also where the count beside it is 0:
 *   - none is null;
 *   - `words`, `files`, `input` and each `at` point to as many elements as are counted, which nobody writes while the call lasts;
 *   - `out` and `err` point to as many bytes as their rooms say, and `out_size` and `err_size` to one number each; nobody else reads or writes
 *     these four while the call lasts, and no two of them overlap, nor any of them what the others point to;
 *   - `words`, `files` and the sizes are aligned as their types are, and no count of bytes is above PTRDIFF_MAX.
 * Memory comes from malloc, and all of it is given back before the call ends.
 */
uint32_t comfusy(const comfusy_bytes *words, size_t word_count, const comfusy_file *files, size_t file_count, const uint8_t *input, size_t input_size,
                 uint8_t *out, size_t out_room, size_t *out_size, uint8_t *err, size_t err_room, size_t *err_size);

/* A program that was opened, or a closed one, as COMFUSY_CLOSED is. Its fields are the library's: nobody else reads or writes them. It may be moved, and not
 * copied: of two copies one would be used after the other was closed. */
typedef struct {
  void *at;
  bool is_open;
} comfusy_program;

#define COMFUSY_CLOSED {NULL, false}

/* Reads a program once: the words are `run FILE` or `exec FILE` with their flags, but not `--stats`, whose tallies stand behind all replies.
 *
 * COMFUSY_DONE: the program is open. With any other status it is closed, and this is the status with which `comfusy` would end on these words and files
 * whatever the input; `err` and `*err_size` are as there. COMFUSY_USAGE also tells of another command. A program that was open before is closed first.
 *
 * What each pointer must be, beside what `comfusy` says of those that it has too:
 *   - `program` is not null, is aligned as its type is, and points to a program that is COMFUSY_CLOSED or that one of these three calls left;
 *   - nobody else reads, writes, moves or copies it while the call lasts, and it overlaps nothing that the others point to.
 */
uint32_t comfusy_open(const comfusy_bytes *words, size_t word_count, const comfusy_file *files, size_t file_count, comfusy_program *program, uint8_t *err,
                      size_t err_room, size_t *err_size);

/* Answers one line, which stands here without its line feed. `out` gets the first bytes, as many as fit, of the reply and its line feed, as `run` and `exec`
 * write them; `*out_size` gets the number of all of them.
 *
 * COMFUSY_DONE: they are all there. COMFUSY_TOO_SMALL: nothing is lost, the same call with so much room answers the same. COMFUSY_NO_MEMORY: nothing is
 * written. COMFUSY_USAGE: the program is closed. What the call took is given back before it ends, and the program is as before, whatever it answers.
 * A line may hold any bytes: one with a line feed in it is answered as other bytes that spell no values.
 *
 * The pointers must be as `comfusy` and `comfusy_open` say. One program is used by one call at a time; calls on several may be at the same time.
 */
uint32_t comfusy_line(comfusy_program *program, const uint8_t *line, size_t line_size, uint8_t *out, size_t out_room, size_t *out_size);

/* Closes a program: its memory is given back. One that is closed stays so. The pointer must be as `comfusy_open` says. */
void comfusy_close(comfusy_program *program);

#ifdef __cplusplus
}
#endif

#endif
