/* Threads with a program each: `threads run FILE`, FILE being a source that halves the first of two numbers and rounds up. Each thread opens the program, asks
   it for its lines and closes it. The status is how many of them had a wrong reply. */
#define _POSIX_C_SOURCE 200809L
#include "given.h"

#include <pthread.h>

enum { THREADS = 8, LINES = 1000, ROOM = 64 };

static bool is_answered(comfusy_program *program, int number) {
  char line[ROOM], reply[ROOM];
  uint8_t out[ROOM];
  size_t size, line_size = (size_t)snprintf(line, ROOM, "%d %d", number, number + 1);
  size_t reply_size = (size_t)snprintf(reply, ROOM, "%d\n", (number + 1) / 2);
  return comfusy_line(program, (const uint8_t *)line, line_size, out, ROOM, &size) == COMFUSY_DONE && size == reply_size && memcmp(out, reply, size) == 0;
}

/* Gives the words back where all is well, and NULL where a reply is wrong. */
static void *answer_lines(void *words) {
  given_words *given = words;
  comfusy_program program = COMFUSY_CLOSED;
  uint8_t err[ROOM];
  size_t err_size;
  bool are_answered = comfusy_open(given->words, given->word_count, given->files, given->file_count, &program, err, ROOM, &err_size) == COMFUSY_DONE;
  for (int number = 0; number < LINES && are_answered; number++) {
    are_answered = is_answered(&program, number);
  }
  comfusy_close(&program);
  return are_answered ? words : NULL;
}

int main(int count, char **words) {
  given_words given = given_of((size_t)count - 1, words + 1);
  pthread_t threads[THREADS];
  int wrong = 0;
  for (int i = 0; i < THREADS; i++) {
    if (pthread_create(&threads[i], NULL, answer_lines, &given) != 0) {
      return 99;
    }
  }
  for (int i = 0; i < THREADS; i++) {
    void *ended;
    wrong += pthread_join(threads[i], &ended) != 0 || ended == NULL;
  }
  give_back(given);
  return wrong;
}
