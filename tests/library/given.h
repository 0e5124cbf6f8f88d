/* What the words of a command line name: the words themselves and the files, as the library takes them. */
#ifndef GIVEN_H
#define GIVEN_H

#include "comfusy.h"

#include <stdio.h>
#include <stdlib.h>
#include <string.h>

typedef struct {
  comfusy_bytes *words;
  comfusy_file *files;
  size_t word_count, file_count;
} given_words;

static void *must(void *memory) {
  if (memory == NULL) {
    exit(99);
  }
  return memory;
}

/* All bytes of a stream; nothing of one that cannot be read. */
static comfusy_bytes all_of(FILE *stream) {
  size_t room = 65536, size = 0, more;
  uint8_t *bytes = must(malloc(room));
  while ((more = fread(bytes + size, 1, room - size, stream)) > 0) {
    size += more;
    if (size == room) {
      room *= 2;
      bytes = must(realloc(bytes, room));
    }
  }
  return (comfusy_bytes){bytes, size};
}

static comfusy_bytes text_of(const char *word) {
  return (comfusy_bytes){(const uint8_t *)word, strlen(word)};
}

static void read_file(given_words *given, comfusy_bytes name, FILE *stream) {
  comfusy_bytes text = all_of(stream);
  if (ferror(stream)) {
    free((void *)text.at);
  } else {
    given->files[given->file_count++] = (comfusy_file){name, text};
  }
  fclose(stream);
}

/* These words, which are those behind a program's name, with the files that the words behind the first one name. */
static given_words given_of(size_t count, char **words) {
  given_words given = {must(calloc(count + 1, sizeof *given.words)), must(calloc(count + 1, sizeof *given.files)), count, 0};
  for (size_t i = 0; i < count; i++) {
    given.words[i] = text_of(words[i]);
    FILE *stream = i > 0 ? fopen(words[i], "rb") : NULL;
    if (stream != NULL) {
      read_file(&given, given.words[i], stream);
    }
  }
  return given;
}

static void give_back(given_words given) {
  for (size_t i = 0; i < given.file_count; i++) {
    free((void *)given.files[i].text.at);
  }
  free(given.words);
  free(given.files);
}

#endif
