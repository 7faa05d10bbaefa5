/* Each call on drawn tasks: scripts, inputs, names, files and schedules of drawn bytes and lengths, each in memory of exactly its
 * length, so that valgrind sees a byte that the library reads past it, and AddressSanitizer one that the header does. What can be told of an answer without knowing the task is tested:
 * a fault has a name and nothing else, a table's lengths add up to its block, an object is one line, and a run's events are replayed to
 * the same output. usage: drawn COUNT [SEED] */
#include <stdio.h>
#include <stdlib.h>
#include <string.h>
#include "xvsh.h"

static uint64_t seed;
static long wrong, faults, whole;

/* A drawn number below `most`. */
static uint32_t drawn(uint32_t most) {
  seed = seed * 6364136223846793005u + 1442695040888963407u;
  return (uint32_t)(seed >> 33) % most;
}

static void hold(bool right, const char *what, long number) {
  if (right) return;
  wrong++;
  fprintf(stderr, "drawn: task %ld: %s\n", number, what);
}

/* Memory of exactly that length, and of none a null or a byte that is no part of it. */
static uint8_t *room(size_t length) {
  if (length == 0 && drawn(2)) return NULL;
  uint8_t *at = malloc(length ? length : 1);
  if (!at) abort();
  return at;
}

static xvsh_bytes any_bytes(size_t length) {
  uint8_t *at = room(length);
  for (size_t i = 0; i < length; i++) at[i] = (uint8_t)drawn(256);
  return (xvsh_bytes){ at, length };
}

/* A script of drawn words, and now and then of drawn bytes. */
static xvsh_bytes any_script(void) {
  static const char *const words[] = { "echo", "cat", "wc", "grep a", "head -1", "tee g", "lss", " ", " ", " ", "f", "g", "h", "|", "|", ";", "&",
    "(", ")", "<", ">", ">>", "\n", "\n", "-2", "^.*b$", "abc", "\t", "\r", "'\"\\", "\x7f\xc3\xa9" };
  if (drawn(10) == 0) return any_bytes(drawn(700));
  uint8_t line[4096];
  size_t length = 0;
  for (uint32_t left = drawn(60); left; left--) {
    const char *word = words[drawn(sizeof words / sizeof words[0])];
    size_t size = strlen(word);
    if (length + size > sizeof line) break;
    memcpy(line + length, word, size);
    length += size;
  }
  if (length && drawn(40) == 0) line[drawn((uint32_t)length)] = 0;
  uint8_t *at = room(length);
  if (length) memcpy(at, line, length);
  return (xvsh_bytes){ at, length };
}

/* A name: mostly one that scripts use. */
static xvsh_bytes any_name(void) {
  if (drawn(4) == 0) return any_bytes(drawn(17));
  uint8_t *at = room(1);
  at[0] = (uint8_t)("fghp"[drawn(4)]);
  return (xvsh_bytes){ at, 1 };
}

static xvsh_task any_task(xvsh_file *files) {
  xvsh_task task = { any_script(), any_bytes(drawn(3) ? drawn(40) : drawn(3000)), { files, drawn(4) }, 0, drawn(2) };
  if (drawn(2)) task.budget = 1 + drawn(drawn(2) ? 4000 : 8000000);
  for (size_t i = 0; i < task.files.length; i++) files[i] = (xvsh_file){ any_name(), any_bytes(drawn(2) ? drawn(10) : drawn(2000)) };
  if (task.files.length == 0 && drawn(2)) task.files.at = NULL;
  return task;
}

static void let_go(const xvsh_task *task, const xvsh_file *files) {
  free((void *)task->script.at);
  free((void *)task->input.at);
  for (size_t i = 0; i < task->files.length; i++) {
    free((void *)files[i].name.at);
    free((void *)files[i].bytes.at);
  }
}

/* The events with one byte changed, cut, or as they are, in memory of exactly their length. */
static xvsh_bytes any_schedule(xvsh_bytes events) {
  size_t length = drawn(3) ? events.length : events.length ? drawn((uint32_t)events.length) : 0;
  uint8_t *at = room(length);
  if (length) memcpy(at, events.at, length);
  if (length && drawn(2)) at[drawn((uint32_t)length)] = (uint8_t)("DT 019\n#"[drawn(8)]);
  return (xvsh_bytes){ at, length };
}

static bool is_empty(const xvsh_answer *answer) {
  return !answer->out.length && !answer->diag.length && !answer->events.length && !answer->json.length && !answer->block.length && !answer->sizes.length;
}

/* Whether the call succeeded; what holds of every answer is tested. */
static bool told(uint32_t status, const xvsh_answer *answer, const char *call, long number) {
  hold(status == answer->status, call, number);
  if (status != XVSH_OK) {
    faults++;
    bool has_words = status == XVSH_BAD_SUITE && answer->diag.length && answer->place;
    hold(xvsh_fault_name(status).length > 0 && (has_words || is_empty(answer)), call, number);
    return false;
  }
  size_t length = 0;
  for (size_t i = 0; i < answer->sizes.length; i++) length += answer->sizes.at[i].name + answer->sizes.at[i].bytes;
  hold(length == answer->block.length, call, number);
  xvsh_bytes json = answer->json;
  hold(!json.length || (json.at[0] == '{' && json.at[json.length - 2] == '}' && memchr(json.at, '\n', json.length) == json.at + json.length - 1), call, number);
  whole++;
  return true;
}

/* A suite, now and then with a changed byte, or cut, in memory of exactly its length. */
static xvsh_bytes any_suite(void) {
  static const char *const suites[] = {
    "[[test]]\nname = \"t\"\noutput = \"a\\n\"\nstates = 50\n",
    "states = 50\n[[test]]\nname = \"t\"\noutput_file = \"f\"\ninput = \"b a\\n\"\n[test.files]\ng = { file = \"g\" }\nf = \"x\"\n[test.expect]\nf = \"x\"\n",
    "states = 50\nbytes = 90\n[[test]]\nname = \"own\"\nscript = \"echo a | cat\"\noutput = \"a\\n\"\n[[test]]\nname = \"theirs\"\npoints = 4\noutput = \"\"\n",
  };
  const char *suite = suites[drawn(3)];
  size_t length = drawn(3) ? strlen(suite) : drawn((uint32_t)strlen(suite));
  uint8_t *at = room(length);
  if (length) memcpy(at, suite, length);
  if (length && drawn(2)) at[drawn((uint32_t)length)] = drawn(3) ? (uint8_t)"\"=[]{}\n#.1tf"[drawn(12)] : (uint8_t)drawn(256);
  return (xvsh_bytes){ at, length };
}

static bool same(xvsh_bytes one, xvsh_bytes other) {
  return one.length == other.length && (one.length == 0 || memcmp(one.at, other.at, one.length) == 0);
}

static void ask(const xvsh_task *task, xvsh_answer *answer, xvsh_answer *other, long number) {
  told(xvsh_plain(task, answer), answer, "plain", number);
  told(xvsh_check(task, drawn(2), answer), answer, "check", number);
  told(xvsh_explain(task, answer), answer, "explain", number);
  told(xvsh_check_turns(task, drawn(2), answer), answer, "check_turns", number);
  told(xvsh_check_room(task, drawn(2), answer), answer, "check_room", number);
  told(xvsh_explain_why(task, answer), answer, "explain_why", number);
  told(xvsh_explore(task, drawn(20) ? 1 + drawn(60) : drawn(2) * UINT64_MAX, drawn(2), answer), answer, "explore", number);
  told(xvsh_trace(task, drawn(20000), drawn(7), drawn(70), answer), answer, "trace", number);
  xvsh_bytes empty = XVSH_NO_BYTES;
  told(xvsh_draw(task, drawn(20000), drawn(7), drawn(70), answer), answer, "draw", number);
  told(xvsh_draw_svg(task, drawn(20000), drawn(7), drawn(70), answer), answer, "draw_svg", number);
  bool ran = told(xvsh_run(task, 20000, drawn(6), drawn(64), answer), answer, "run", number);
  if (ran && told(xvsh_replay(task, answer->events, other), other, "replay", number)) hold(same(answer->out, other->out) && same(answer->block, other->block), "replay", number);
  xvsh_bytes schedule = any_schedule(ran ? answer->events : empty);
  told(xvsh_replay(task, schedule, other), other, "replay of a changed schedule", number);
  told(xvsh_look(task, schedule, other), other, "look", number);
  if (told(xvsh_draw_two(task, ran ? answer->events : empty, schedule, other), other, "draw_two", number)) hold(same(answer->out, other->out) && other->events.length > 0, "draw_two", number);
  if (told(xvsh_draw_two_svg(task, ran ? answer->events : empty, schedule, other), other, "draw_two_svg", number)) hold(same(answer->out, other->out) && other->events.length > 0, "draw_two_svg", number);
  free((void *)schedule.at);
  xvsh_bytes suite = any_suite();
  told(xvsh_grade(task, suite, drawn(2) * 40, drawn(4) == 0, other), other, "grade", number);
  free((void *)suite.at);
}

int main(int count, char **words) {
  long tasks = count > 1 ? atol(words[1]) : 1000;
  seed = count > 2 ? strtoull(words[2], NULL, 10) : 20261128;
  xvsh_answer answer = XVSH_ANSWER, other = XVSH_ANSWER;
  for (long number = 1; number <= tasks; number++) {
    xvsh_file files[4];
    xvsh_task task = any_task(files);
    ask(&task, &answer, &other, number);
    let_go(&task, files);
  }
  xvsh_answer_free(&answer);
  xvsh_answer_free(&other);
  printf("%ld tasks, %ld answers, %ld faults, %ld wrong\n", tasks, whole, faults, wrong);
  return wrong || !whole || !faults;
}
