/* `run` and `exec` over the library, line by line: the program is opened once, and each line of the standard input is answered as it comes. It takes the words
   of comfusy, and ends with its status. Its buffers have room for one byte at first, and grow to the sizes that are told. */
#define _POSIX_C_SOURCE 200809L
#include "given.h"

#include <unistd.h>

enum { PIECE = 65536 };

typedef struct {
  uint8_t *at;
  size_t room;
} buffer;

static buffer with_room(size_t room) {
  return (buffer){must(malloc(room)), room};
}

static void grow(buffer *bytes, size_t room) {
  bytes->at = must(realloc(bytes->at, room));
  bytes->room = room;
}

/* Whether a call asks for this buffer to be larger; then it is. */
static bool has_grown(uint32_t status, buffer *bytes, size_t size) {
  if (status != COMFUSY_TOO_SMALL) {
    return false;
  }
  if (size <= bytes->room) {
    exit(98);
  }
  grow(bytes, size);
  return true;
}

static uint32_t open_given(given_words given, comfusy_program *program, buffer *err) {
  size_t size;
  uint32_t status;
  do {
    status = comfusy_open(given.words, given.word_count, given.files, given.file_count, program, err->at, err->room, &size);
  } while (has_grown(status, err, size));
  fwrite(err->at, 1, size, stderr);
  return status;
}

static uint32_t answer(comfusy_program *program, const uint8_t *line, size_t line_size, buffer *out) {
  size_t size;
  uint32_t status;
  do {
    status = comfusy_line(program, line, line_size, out->at, out->room, &size);
  } while (has_grown(status, out, size));
  fwrite(out->at, 1, size, stdout);
  return status;
}

/* Answers the lines that end among these bytes, and moves what is left behind them to the front; `*size` is how much that is. */
static uint32_t answer_ended(comfusy_program *program, uint8_t *at, size_t *size, buffer *out) {
  const uint8_t *line = at, *end = at + *size, *feed;
  uint32_t status = COMFUSY_DONE;
  while (status == COMFUSY_DONE && (feed = memchr(line, '\n', (size_t)(end - line))) != NULL) {
    status = answer(program, line, (size_t)(feed - line), out);
    line = feed + 1;
  }
  *size = (size_t)(end - line);
  memmove(at, line, *size);
  fflush(stdout);
  return status;
}

/* As the program does, the lines that a piece of the input ends are answered before the next piece is read. */
static uint32_t answer_all(comfusy_program *program, buffer *out) {
  buffer in = with_room(PIECE);
  size_t size = 0;
  ssize_t more;
  uint32_t status = COMFUSY_DONE;
  while (status == COMFUSY_DONE && (more = read(STDIN_FILENO, in.at + size, in.room - size)) > 0) {
    size += (size_t)more;
    status = answer_ended(program, in.at, &size, out);
    if (size == in.room) {
      grow(&in, 2 * size);
    }
  }
  if (status == COMFUSY_DONE && size > 0) {
    status = answer(program, in.at, size, out);
  }
  free(in.at);
  return status;
}

int main(int count, char **words) {
  given_words given = given_of((size_t)count - 1, words + 1);
  buffer out = with_room(1), err = with_room(1);
  comfusy_program program = COMFUSY_CLOSED;
  uint32_t status = open_given(given, &program, &err);
  give_back(given);
  if (status == COMFUSY_DONE) {
    status = answer_all(&program, &out);
  }
  comfusy_close(&program);
  free(out.at);
  free(err.at);
  return (int)status;
}
