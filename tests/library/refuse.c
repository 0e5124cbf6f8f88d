/* One call after the other, in each of which one more allocation is refused, until none is: `refuse NAME FILE [INPUT]`, NAME being the command.
   It writes how many calls there were. The status is 0 where each call answered COMFUSY_NO_MEMORY, or what the undisturbed call answers, gave back all its
   memory, and wrote no byte behind its buffers. */
#include "counted.h"

static uint8_t out[ROOM + BEHIND], err[ROOM + BEHIND], wanted[ROOM], text[ROOM], input[ROOM];

int main(int count, char **given) {
  size_t text_size = read_file(given[2], text), input_size = count > 3 ? read_file(given[3], input) : 0;
  comfusy_bytes name = {(const uint8_t *)"file", 4}, words[] = {{(const uint8_t *)given[1], strlen(given[1])}, name};
  comfusy_file file = {name, {text, text_size}};
  size_t out_size, err_size, wanted_size = 0;
  uint32_t wanted_status = 0;
  for (refused = 0;; refused++) {
    memset(out, MARK, sizeof out);
    memset(err, MARK, sizeof err);
    asked = held = 0;
    uint32_t status = comfusy(words, 2, &file, 1, input, input_size, out, ROOM, &out_size, err, ROOM, &err_size);
    if (held != 0 || !is_marked(out) || !is_marked(err)) {
      printf("allocation %ld: %ld blocks kept, or a byte behind a buffer\n", refused, held);
      return 1;
    }
    if (refused == 0) {
      wanted_status = status;
      wanted_size = out_size;
      memcpy(wanted, out, out_size);
    } else if (asked < refused) {
      printf("%ld\n", refused - 1);
      return 0;
    }
    /* A pass that finds no memory leaves what is compiled as it was: the target may be longer, and `compile` alone shows that. */
    if (status != COMFUSY_NO_MEMORY && (status != wanted_status || (strcmp(given[1], "compile") != 0 &&
                                        (out_size != wanted_size || memcmp(out, wanted, out_size) != 0)))) {
      printf("allocation %ld: status %u, %zu bytes\n", refused, status, out_size);
      return 1;
    }
  }
}
