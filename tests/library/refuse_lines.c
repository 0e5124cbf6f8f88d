/* Opening a program, answering its lines and closing it, again and again, each time with one more allocation refused, until none is:
   `refuse_lines COMMAND FILE INPUT`. It writes how many times that was. The status is 0 where each call answered COMFUSY_NO_MEMORY, or what the undisturbed
   call answers, a line for which memory ran out was answered by the next call, and all memory was given back. */
#include "counted.h"

enum { LINES = 64 };

static uint8_t out[ROOM + BEHIND], err[ROOM + BEHIND], wanted[LINES][256], text[ROOM], input[ROOM];
static size_t wanted_size[LINES];

/* Whether a line is answered as in the undisturbed run, or in that run, which reply it has. */
static int is_answered(comfusy_program *program, const uint8_t *line, size_t line_size, int number) {
  size_t size;
  uint32_t status = comfusy_line(program, line, line_size, out, ROOM, &size);
  if (status == COMFUSY_NO_MEMORY && refused > 0) {
    status = size == 0 ? comfusy_line(program, line, line_size, out, ROOM, &size) : COMFUSY_USAGE;
  }
  if (refused == 0 && size <= sizeof wanted[number]) {
    wanted_size[number] = size;
    memcpy(wanted[number], out, size);
  }
  return status == COMFUSY_DONE && is_marked(out) && size == wanted_size[number] && memcmp(out, wanted[number], size) == 0;
}

static int are_answered(comfusy_program *program, size_t input_size) {
  const uint8_t *line = input, *feed;
  for (int number = 0; number < LINES && (feed = memchr(line, '\n', (size_t)(input + input_size - line))) != NULL; number++) {
    if (!is_answered(program, line, (size_t)(feed - line), number)) {
      printf("allocation %ld: line %d\n", refused, number + 1);
      return 0;
    }
    line = feed + 1;
  }
  return 1;
}

int main(int count, char **given) {
  size_t text_size = read_file(given[2], text), input_size = count > 3 ? read_file(given[3], input) : 0, err_size;
  comfusy_bytes name = {(const uint8_t *)"file", 4}, words[] = {{(const uint8_t *)given[1], strlen(given[1])}, name};
  comfusy_file file = {name, {text, text_size}};
  for (refused = 0;; refused++) {
    comfusy_program program = COMFUSY_CLOSED;
    memset(out, MARK, sizeof out);
    memset(err, MARK, sizeof err);
    asked = held = 0;
    uint32_t status = comfusy_open(words, 2, &file, 1, &program, err, ROOM, &err_size);
    if ((status != COMFUSY_NO_MEMORY || refused == 0) && (status != COMFUSY_DONE || !are_answered(&program, input_size))) {
      printf("allocation %ld: status %u\n", refused, status);
      return 1;
    }
    comfusy_close(&program);
    comfusy_close(&program);
    if (held != 0 || program.is_open || !is_marked(err)) {
      printf("allocation %ld: %ld blocks kept, or a byte behind a buffer\n", refused, held);
      return 1;
    }
    if (refused > 0 && asked < refused) {
      printf("%ld\n", refused - 1);
      return 0;
    }
  }
}
