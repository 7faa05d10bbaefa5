/* Refuses each request for memory of a call in turn: each call tells it or answers right, and keeps nothing.
 * Linked with -Wl,--wrap=malloc,--wrap=realloc,--wrap=free. */
#include "xvsh.h"
#include <stdio.h>
#include <stdlib.h>
#include <string.h>

void *__real_malloc(size_t size);
void *__real_realloc(void *block, size_t size);
void __real_free(void *block);

static long left = -1, asked, held;

void *__wrap_malloc(size_t size) {
  asked++;
  if (left >= 0 && left-- == 0) return NULL;
  held++;
  return __real_malloc(size);
}

void *__wrap_realloc(void *block, size_t size) {
  asked++;
  if (left >= 0 && left-- == 0) return NULL;
  held += block == NULL;
  return __real_realloc(block, size);
}

void __wrap_free(void *block) {
  held -= block != NULL;
  __real_free(block);
}

static xvsh_file files[1];
static xvsh_task task, racy;
static xvsh_bytes events, suite;

static uint32_t call(int kind, xvsh_answer *answer) {
  switch (kind) {
    case 0: return xvsh_plain(&task, answer);
    case 1: return xvsh_run(&task, 100000, XVSH_KERNEL, 0, answer);
    case 2: return xvsh_replay(&task, xvsh_text("D 0 0\nT 0 0\nD 0 1\nT 0 1\n"), answer);
    case 3: return xvsh_replay(&task, events, answer);
    case 4: return xvsh_check(&task, 0, answer);
    case 5: return xvsh_explain(&task, answer);
    case 6: return xvsh_explore(&task, 100000, 0, answer);
    case 7: return xvsh_explore(&racy, 100000, 1, answer);
    case 8: return xvsh_trace(&task, 100000, XVSH_KERNEL, 0, answer);
    case 13: return xvsh_draw(&task, 100000, XVSH_KERNEL, 0, answer);
    case 10: return xvsh_check_turns(&task, 0, answer);
    case 11: return xvsh_check_room(&task, 1, answer);
    case 12: return xvsh_explain_why(&task, answer);
    case 14: return xvsh_grade(&task, suite, 0, 0, answer);
    case 15: return xvsh_grade(&racy, suite, 0, 0, answer);
    case 16: return xvsh_grade(&task, xvsh_text("title = 1\n"), 0, 0, answer);
    case 17: return xvsh_draw_two(&task, events, events, answer);
    case 18: return xvsh_draw_svg(&task, 100000, XVSH_KERNEL, 0, answer);
    case 19: return xvsh_draw_two_svg(&task, events, events, answer);
    default: return xvsh_look(&task, xvsh_text("D 0 1\nT 0 1\nD 0 2\nT 0 2\n"), answer);
  }
}

static bool same(xvsh_bytes one, xvsh_bytes other) {
  return one.length == other.length && memcmp(one.at, other.at, one.length) == 0;
}

/* Whether an answer of a call that was refused memory is right, beside the one of the same call that was not. A run tells a process that
 * memory was refused, and goes on; then it says so, and a schedule may lead nowhere. */
static bool is_right(int kind, const xvsh_answer *answer, const xvsh_answer *wanted) {
  if (answer->status == XVSH_MEMORY) return true;
  if ((kind == 1 || kind == 8 || kind == 13 || kind == 18) && answer->status == XVSH_SPENT) return true;
  bool by_events = kind == 2 || kind == 3 || kind == 9 || kind == 17 || kind == 19;
  if (by_events && answer->status >= XVSH_NOT_RUNNABLE && answer->status <= XVSH_UNFINISHED) return true;
  if (answer->status != wanted->status) return false;
  return answer->full == XVSH_HEAP || kind == 9 || (same(answer->out, wanted->out) && same(answer->json, wanted->json) && (answer->status == XVSH_OK || same(answer->diag, wanted->diag)));
}

int main(void) {
  long wrong = 0, calls = 0;
  files[0].name = xvsh_text("todo");
  files[0].bytes = xvsh_text("alpha\nbeta\n");
  task.script = xvsh_text("ls\necho hi | cat; grep a todo | head -1\n");
  task.input = xvsh_text("");
  task.files.at = files;
  task.files.length = 1;
  racy = task;
  racy.script = xvsh_text("echo a &\n");
  suite = xvsh_text("[[test]]\nname = \"t\"\noutput = \"a\\n\"\nfiles = { todo = { file = \"todo\" } }\n[[test]]\nname = \"own\"\nscript = \"echo a\"\noutput = \"a\\n\"\n");
  xvsh_answer run = XVSH_ANSWER;
  if (call(1, &run) != XVSH_OK) return 1;
  events = run.events;
  for (int kind = 0; kind < 20; kind++) {
    xvsh_answer answer = XVSH_ANSWER, wanted = XVSH_ANSWER;
    left = -1;
    asked = 0;
    held = 0;
    call(kind, &wanted);
    long requests = asked, kept = held;
    held = 0;
    /* an exploration asks thousands of times: of these every seventh request, else each */
    for (long at = 0; at < requests; at += requests > 20000 ? 7 : 1) {
      left = at;
      call(kind, &answer);
      left = -1;
      bool right = is_right(kind, &answer, &wanted);
      uint32_t status = answer.status;
      xvsh_answer_free(&answer);
      if (!right || held) fprintf(stderr, "call %d, request %ld of %ld: status %u, %ld held\n", kind, at, requests, status, held);
      wrong += !right || held != 0;
      held = 0;
      calls++;
    }
    xvsh_answer_free(&wanted);
    wrong += held != -kept;
  }
  printf("%ld calls, %ld wrong\n", calls, wrong);
  return wrong != 0;
}
