/* The heap under the proved calls: Rattle's three functions over malloc, realloc and free, as the toolchain's libc/src/heap.rt states them.
 * Nothing there says when a request is refused, and every caller has an answer for that. So a watched call is given up by refusing what it
 * asks for from then on. */
#include "calls.h"

void *malloc(size_t size);
void *realloc(void *block, size_t size);
void free(void *block);

/* Whether there is memory, and where; where there is none a byte of which nothing is owned. */
typedef struct { bool ok; void *at; } tried;

tried rattle_alloc(size_t size, size_t align);
tried rattle_realloc(void *block, size_t kept, size_t size, size_t align);
void rattle_dealloc(void *block);

_Thread_local xvsh_watched_call *xvsh_watched_now = NULL;

/* Whether the call that this thread is in is given up; asks its watch, which may make calls of its own meanwhile. */
static bool is_over(void) {
  xvsh_watched_call *now = xvsh_watched_now;
  if (!now) return false;
  if (!now->is_over && ++now->requests % XVSH_REQUESTS_A_LOOK == 0) {
    xvsh_watched_now = NULL;
    now->is_over = now->watch->goes_on(now->watch->context, now->requests) == 0;
    xvsh_watched_now = now;
  }
  return now->is_over;
}

static tried answered(void *at) {
  static uint8_t nothing;
  tried answer = { at != NULL, at ? at : &nothing };
  return answer;
}

tried rattle_alloc(size_t size, size_t align) {
  return answered(is_over() ? NULL : malloc(size ? size : align));
}

tried rattle_realloc(void *block, size_t kept, size_t size, size_t align) {
  (void)kept;
  return answered(is_over() ? NULL : realloc(block, size ? size : align));
}

void rattle_dealloc(void *block) {
  free(block);
}
