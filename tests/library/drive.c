/* The program over the library: it takes the words of comfusy, reads the files that they name and the standard input, and ends with its status.
   It calls with small buffers first, and then with as much room as was told. */
#include "given.h"

/* Whether the command of these words reads the standard input. */
static bool reads_input(size_t count, char **words) {
  return count > 0 && (strcmp(words[0], "run") == 0 || strcmp(words[0], "exec") == 0);
}

int main(int count, char **words) {
  given_words given = given_of((size_t)count - 1, words + 1);
  comfusy_bytes input = {must(malloc(1)), 0};
  if (reads_input(given.word_count, words + 1)) {
    free((void *)input.at);
    input = all_of(stdin);
  }
  size_t out_room = 16, err_room = 1, out_size, err_size;
  uint8_t *out = must(malloc(out_room)), *err = must(malloc(err_room));
  uint32_t status;
  while ((status = comfusy(given.words, given.word_count, given.files, given.file_count, input.at, input.size, out, out_room, &out_size, err, err_room,
                           &err_size)) == COMFUSY_TOO_SMALL) {
    if (out_size <= out_room && err_size <= err_room) {
      return 98;
    }
    out_room = out_size > out_room ? out_size : out_room;
    err_room = err_size > err_room ? err_size : err_room;
    out = must(realloc(out, out_room));
    err = must(realloc(err, err_room));
  }
  fwrite(out, 1, out_size, stdout);
  fwrite(err, 1, err_size, stderr);
  give_back(given);
  free((void *)input.at);
  free(out);
  free(err);
  return (int)status;
}
