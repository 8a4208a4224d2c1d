/* Loaded before the C library: it refuses one of a program's requests for memory, that whose number REFUSED has, and says at
   the program's end how many there were, and how many blocks were not given back.

   A program that asks for MARK + n bytes, and is refused them, begins a window: of the requests in it the n-th is refused, each
   if n is EACH, and none if n is greater than their number. MARK bytes end it, and a line says how many requests it had. */
#define _GNU_SOURCE
#include <dlfcn.h>
#include <stdio.h>
#include <stdlib.h>
#include <unistd.h>

#define MARK 0x520000UL
#define EACH 0xFFFF

static long requests, refused, blocks, in_window, window_refused;

static void *(*given_malloc)(size_t);
static void *(*given_realloc)(void *, size_t);
static void (*given_free)(void *);

__attribute__((constructor)) static void begin(void) {
  const char *number = getenv("REFUSED");
  refused = number ? atol(number) : 0;
  given_malloc = dlsym(RTLD_NEXT, "malloc");
  given_realloc = dlsym(RTLD_NEXT, "realloc");
  given_free = dlsym(RTLD_NEXT, "free");
}

__attribute__((destructor)) static void end(void) {
  dprintf(STDERR_FILENO, "requests %ld, blocks %ld\n", requests, blocks);
}

static int is_mark(size_t size) {
  if (size >> 16 != MARK >> 16)
    return 0;
  if (size == MARK)
    dprintf(STDERR_FILENO, "window %ld\n", in_window);
  window_refused = size - MARK;
  in_window = 0;
  return 1;
}

static int is_refused(void) {
  int is_in_window = ++in_window == window_refused || window_refused == EACH;
  return ++requests == refused || is_in_window;
}

void *malloc(size_t size) {
  void *block = is_mark(size) || is_refused() ? NULL : given_malloc(size);
  blocks += block != NULL;
  return block;
}

void *realloc(void *old, size_t size) {
  void *block = is_refused() ? NULL : given_realloc(old, size);
  blocks += block != NULL && old == NULL;
  return block;
}

void free(void *block) {
  blocks -= block != NULL;
  given_free(block);
}
