/* Blocks of memory, counted, of which one is refused. Linked with --wrap=malloc,--wrap=realloc,--wrap=free. */
#ifndef COUNTED_H
#define COUNTED_H

#include "comfusy.h"

#include <stdio.h>
#include <stdlib.h>
#include <string.h>

void *__real_malloc(size_t size);
void *__real_realloc(void *at, size_t size);
void __real_free(void *at);

/* How many blocks were asked for, which one is refused, and how many are held. */
static long asked, refused, held;

static int is_refused(void) {
  return ++asked == refused;
}

void *__wrap_malloc(size_t size) {
  void *at = is_refused() ? NULL : __real_malloc(size);
  held += at != NULL;
  return at;
}

void *__wrap_realloc(void *old, size_t size) {
  void *at = is_refused() ? NULL : __real_realloc(old, size);
  held += at != NULL && old == NULL;
  return at;
}

void __wrap_free(void *at) {
  held -= at != NULL;
  __real_free(at);
}

enum { ROOM = 1 << 20, BEHIND = 16, MARK = 0xa5 };

static size_t read_file(const char *name, uint8_t *into) {
  FILE *stream = fopen(name, "rb");
  if (stream == NULL) {
    exit(97);
  }
  size_t size = fread(into, 1, ROOM, stream);
  fclose(stream);
  return size;
}

/* Whether no byte was written behind the room of a buffer. */
static int is_marked(const uint8_t *bytes) {
  for (int i = 0; i < BEHIND; i++) {
    if (bytes[ROOM + i] != MARK) {
      return 0;
    }
  }
  return 1;
}

#endif
