/* Tests of include/xvsh.h at its border: nulls, lengths past every limit, budgets, faults, leaks, threads and stacks. What scripts give is
 * tested by drawn.py. usage: border COUNT [STACK [REQUESTS]]: as many calls by threads, a stack of so many bytes in place of 1 MiB, and the
 * most requests for memory after which a long call is given up. */
#include "xvsh.h"
#include <pthread.h>
#include <stdio.h>
#include <stdlib.h>
#include <string.h>
#include <time.h>

_Static_assert(sizeof(xvsh_task) == 64 && sizeof(xvsh_answer) == 120 && sizeof(xvsh_sizes) == 24, "the layout of version 0.3");

static long failed, tested;

static void test(bool holds, const char *what, int line) {
  tested++;
  if (!holds) {
    failed++;
    fprintf(stderr, "border.c:%d: %s\n", line, what);
  }
}
#define TEST(holds) test((holds), #holds, __LINE__)

static bool is(xvsh_bytes bytes, const char *text) {
  return bytes.length == strlen(text) && memcmp(bytes.at, text, bytes.length) == 0;
}

static bool is_nothing(const xvsh_answer *answer) {
  return !answer->out.length && !answer->diag.length && !answer->events.length && !answer->json.length && !answer->block.length
      && !answer->sizes.length && !answer->full && !answer->fine && !answer->whole;
}

static xvsh_task task_of(const char *script, const xvsh_file *files, size_t count) {
  xvsh_task task = { xvsh_text(script), XVSH_NO_BYTES, { files, count }, 0, 0 };
  return task;
}

static bool refused(const xvsh_task *task, uint32_t fault, uint64_t place) {
  xvsh_answer answer = XVSH_ANSWER;
  bool right = xvsh_plain(task, &answer) == fault && answer.place == place && is_nothing(&answer);
  if (!right) fprintf(stderr, "status %u place %llu\n", answer.status, (unsigned long long)answer.place);
  right = xvsh_run(task, 1000000, XVSH_KERNEL, 0, &answer) == fault && answer.place == place && is_nothing(&answer) && right;
  right = xvsh_replay(task, xvsh_text(""), &answer) == fault && answer.place == place && is_nothing(&answer) && right;
  right = xvsh_trace(task, 1000000, XVSH_KERNEL, 0, &answer) == fault && answer.place == place && is_nothing(&answer) && right;
  right = xvsh_draw(task, 1000000, XVSH_KERNEL, 0, &answer) == fault && answer.place == place && is_nothing(&answer) && right;
  right = xvsh_draw_svg(task, 1000000, XVSH_KERNEL, 0, &answer) == fault && answer.place == place && is_nothing(&answer) && right;
  right = xvsh_draw_two_svg(task, xvsh_text(""), xvsh_text(""), &answer) == fault && answer.place == place && is_nothing(&answer) && right;
  right = xvsh_draw_two(task, xvsh_text(""), xvsh_text(""), &answer) == fault && answer.place == place && is_nothing(&answer) && right;
  right = xvsh_look(task, xvsh_text(""), &answer) == fault && answer.place == place && is_nothing(&answer) && right;
  right = xvsh_explore(task, 1000000, 1, &answer) == fault && answer.place == place && is_nothing(&answer) && right;
  right = xvsh_check_turns(task, 0, &answer) == fault && answer.place == place && is_nothing(&answer) && right;
  right = xvsh_check_room(task, 0, &answer) == fault && answer.place == place && is_nothing(&answer) && right;
  right = xvsh_explain_why(task, &answer) == fault && answer.place == place && is_nothing(&answer) && right;
  /* a check and an explanation look at the script alone */
  bool of_script = fault == XVSH_NULL || fault == XVSH_SCRIPT_TOO_LONG || fault == XVSH_LINE_TOO_LONG || fault == XVSH_BYTE_ZERO;
  uint32_t wanted = of_script ? fault : XVSH_OK;
  right = xvsh_check(task, 0, &answer) == wanted && (wanted ? answer.place == place && is_nothing(&answer) : answer.json.length > 0) && right;
  right = xvsh_explain(task, &answer) == wanted && (wanted ? answer.place == place && is_nothing(&answer) : answer.json.length > 0) && right;
  xvsh_answer_free(&answer);
  return right;
}

/* Whether the object of an answer holds this text, and is a line with nothing beside it. */
static bool tells(const xvsh_answer *answer, const char *text) {
  size_t length = strlen(text), at = 0;
  const xvsh_bytes json = answer->json;
  if (answer->out.length || answer->diag.length || answer->events.length || answer->block.length || answer->sizes.length || answer->full) return false;
  if (json.length < 3 || json.at[0] != '{' || json.at[json.length - 2] != '}' || memchr(json.at, '\n', json.length) != json.at + json.length - 1) return false;
  while (at + length <= json.length && memcmp(json.at + at, text, length) != 0) at++;
  return at + length <= json.length;
}

static void nulls(void) {
  xvsh_answer answer = XVSH_ANSWER;
  xvsh_task task;
  memset(&task, 0, sizeof task);
  TEST(xvsh_plain(&task, &answer) == XVSH_OK && answer.fine == 1 && answer.out.length == 0);
  task.script.length = 1;
  TEST(refused(&task, XVSH_NULL, 0));
  task.script.length = SIZE_MAX;
  TEST(refused(&task, XVSH_NULL, 0));
  task.script.length = 0;
  task.input.length = 1;
  TEST(refused(&task, XVSH_NULL, 0));
  task.input.length = 0;
  task.files.length = 1;
  TEST(refused(&task, XVSH_NULL, 0));
  xvsh_file files[2] = { { xvsh_text("f"), { NULL, 0 } }, { xvsh_text("g"), xvsh_text("x\n") } };
  task = task_of("cat f g | wc\n", files, 2);
  TEST(xvsh_plain(&task, &answer) == XVSH_OK && is(answer.out, "1 1 2 \n") && answer.sizes.length == 2);
  files[0].bytes.length = 1;
  TEST(refused(&task, XVSH_NULL, 0));
  files[0].bytes.length = 0;
  files[1].name.at = NULL;
  TEST(refused(&task, XVSH_NULL, 0));
  files[1].name.length = 0;
  TEST(refused(&task, XVSH_BAD_NAME, 2));
  xvsh_bytes schedule = { NULL, 1 };
  TEST(xvsh_replay(&task, schedule, &answer) == XVSH_NULL && is_nothing(&answer));
  TEST(xvsh_look(&task, schedule, &answer) == XVSH_NULL && is_nothing(&answer));
  schedule.length = 0;
  task = task_of("echo\n", NULL, 0);
  TEST(xvsh_replay(&task, schedule, &answer) == XVSH_UNFINISHED && is_nothing(&answer));
  TEST(xvsh_look(&task, schedule, &answer) == XVSH_OK && tells(&answer, "\"stands\":\"runnable\"") && !answer.fine);
  xvsh_answer_free(&answer);
}

static void limits(void) {
  static char bytes[XVSH_MAX_SCRIPT + 1];
  static char names[XVSH_MAX_FILES + 2][4];
  static xvsh_file files[XVSH_MAX_FILES + 2];
  xvsh_answer answer = XVSH_ANSWER;
  memset(bytes, '\n', sizeof bytes);
  xvsh_task task = task_of("", NULL, 0);
  task.script.at = (const uint8_t *)bytes;
  task.script.length = XVSH_MAX_SCRIPT + 1;
  TEST(refused(&task, XVSH_SCRIPT_TOO_LONG, 0));
  task.script.length = SIZE_MAX;
  TEST(refused(&task, XVSH_SCRIPT_TOO_LONG, 0));
  task.script.length = XVSH_MAX_SCRIPT;
  TEST(xvsh_plain(&task, &answer) == XVSH_OK);
  task = task_of("wc\n", NULL, 0);
  task.input.at = (const uint8_t *)bytes;
  task.input.length = XVSH_MAX_INPUT;
  TEST(xvsh_plain(&task, &answer) == XVSH_OK && is(answer.out, "1048576 0 1048576 \n"));
  task.input.length = XVSH_MAX_INPUT + 1;
  TEST(refused(&task, XVSH_INPUT_TOO_LONG, 0));
  task.input.length = SIZE_MAX;
  TEST(refused(&task, XVSH_INPUT_TOO_LONG, 0));

  memset(bytes, 'x', XVSH_MAX_LINE + 1);
  task = task_of("", NULL, 0);
  task.script.at = (const uint8_t *)bytes;
  task.script.length = XVSH_MAX_LINE;
  TEST(xvsh_plain(&task, &answer) == XVSH_OK);
  task.script.length = XVSH_MAX_LINE + 1;
  TEST(refused(&task, XVSH_LINE_TOO_LONG, 1));
  task.script.at = (const uint8_t *)"echo\necho \0\n";
  task.script.length = 12;
  TEST(refused(&task, XVSH_BYTE_ZERO, 2));

  for (size_t i = 0; i < XVSH_MAX_FILES + 2; i++) {
    snprintf(names[i], sizeof names[i], "%03zu", i);
    files[i].name = xvsh_text(names[i]);
    files[i].bytes = xvsh_text("");
  }
  task = task_of("echo\n", files, XVSH_MAX_FILES);
  TEST(xvsh_plain(&task, &answer) == XVSH_OK && answer.sizes.length == XVSH_MAX_FILES && answer.block.length == 3 * XVSH_MAX_FILES);
  task.files.length = XVSH_MAX_FILES + 1;
  TEST(refused(&task, XVSH_TOO_MANY_FILES, XVSH_MAX_FILES + 1));
  files[7].bytes.at = NULL; /* so the rows are copied */
  TEST(refused(&task, XVSH_TOO_MANY_FILES, XVSH_MAX_FILES + 1));
  task.files.length = SIZE_MAX / sizeof *files;
  TEST(refused(&task, XVSH_TOO_MANY_FILES, XVSH_MAX_FILES + 1));
  files[200].name = files[3].name;
  TEST(refused(&task, XVSH_TAKEN_NAME, 201));
  task.files.length = 2;
  files[1].name = files[0].name;
  TEST(refused(&task, XVSH_TAKEN_NAME, 2));
  files[1].name = xvsh_text("fifteenletters_");
  TEST(refused(&task, XVSH_BAD_NAME, 2));
  files[1].name = xvsh_text("a/b");
  TEST(refused(&task, XVSH_BAD_NAME, 2));
  files[1].name = xvsh_text("b");
  files[1].bytes.at = (const uint8_t *)bytes;
  files[1].bytes.length = XVSH_MAX_FILE + 1;
  TEST(refused(&task, XVSH_TOO_LONG, 2));
  files[1].bytes.length = SIZE_MAX;
  TEST(refused(&task, XVSH_TOO_LONG, 2));
  files[1].bytes.length = XVSH_MAX_FILE;
  TEST(xvsh_plain(&task, &answer) == XVSH_OK && answer.block.length == XVSH_MAX_FILE + 4);
  xvsh_answer_free(&answer);
}

static void runs(void) {
  xvsh_answer answer = XVSH_ANSWER, again = XVSH_ANSWER;
  xvsh_file files[1] = { { xvsh_text("todo"), xvsh_text("alpha\nbeta\ngamma\n") } };
  xvsh_task task = task_of("lss\ngrep a todo | head -2 > top; cat top\n", files, 1);
  for (uint32_t order = XVSH_KERNEL; order <= XVSH_EAGER; order++) {
    TEST(xvsh_run(&task, 100000, order, 7, &answer) == XVSH_OK);
    TEST(is(answer.out, "alpha\nbeta\n") && is(answer.diag, "exec lss failed\n") && answer.full == XVSH_ROOMY);
    TEST(xvsh_replay(&task, answer.events, &again) == XVSH_OK && is(again.out, "alpha\nbeta\n"));
    TEST(again.events.length == answer.events.length && memcmp(again.events.at, answer.events.at, again.events.length) == 0);
  }
  xvsh_bytes cut = { answer.events.at, 12 };
  TEST(xvsh_replay(&task, cut, &again) == XVSH_UNFINISHED && is_nothing(&again));
  TEST(xvsh_replay(&task, xvsh_text("D 0 0\nX\n"), &again) == XVSH_NO_EVENT && again.place == 2);
  TEST(xvsh_replay(&task, xvsh_text("D 0 5\n"), &again) == XVSH_NOT_RUNNABLE && again.place == 1);
  TEST(xvsh_replay(&task, xvsh_text("# a note\nT 0 0\n"), &again) == XVSH_NOT_RUNNING && again.place == 1);
  TEST(xvsh_run(&task, 10, XVSH_KERNEL, 0, &answer) == XVSH_SPENT && is_nothing(&answer));
  TEST(xvsh_run(&task, 0, XVSH_KERNEL, 0, &answer) == XVSH_BAD_TURNS && is_nothing(&answer));
  TEST(xvsh_run(&task, XVSH_MAX_TURNS + 1u, XVSH_KERNEL, 0, &answer) == XVSH_BAD_TURNS);
  TEST(xvsh_run(&task, UINT64_MAX, XVSH_KERNEL, 0, &answer) == XVSH_BAD_TURNS);
  TEST(xvsh_run(&task, 1000, 6, 0, &answer) == XVSH_BAD_ORDER && is_nothing(&answer));
  TEST(xvsh_run(&task, 1000, XVSH_STARVING, 64, &answer) == XVSH_BAD_ORDER);
  xvsh_answer_free(&answer);
  xvsh_answer_free(&again);
}

static void asks(void) {
  xvsh_answer answer = XVSH_ANSWER;
  xvsh_task task = task_of("cat f | wc\n", NULL, 0);
  TEST(xvsh_check(&task, 0, &answer) == XVSH_OK && tells(&answer, "\"findings\":[]") && answer.fine && !answer.whole);
  TEST(xvsh_explain(&task, &answer) == XVSH_OK && tells(&answer, "\"status\":\"nothing to tell\"") && answer.fine && !answer.whole);
  char deep[] = "(((((((((((((((((((((((((((((((((((((((((((((((((((((((((((((("
                "echo a;);););););););););););););););););););););););););););););););););););););););););););););););););););););););););););););)\n";
  task = task_of(deep, NULL, 0);
  TEST(xvsh_explain(&task, &answer) == XVSH_OK && tells(&answer, "\"lack\":{\"line\":1,\"table\":\"processes\",\"need\":65,\"most\":64}") && !answer.fine);
  TEST(xvsh_check_room(&task, 0, &answer) == XVSH_OK && tells(&answer, "\"lack\":{\"line\":1,\"table\":\"processes\",\"need\":65,\"most\":64}") && !answer.fine);
  TEST(xvsh_check_turns(&task, 0, &answer) == XVSH_OK && tells(&answer, ",\"turns\":") && answer.fine);
  task = task_of("cat f | wc\n", NULL, 0);
  TEST(xvsh_explain_why(&task, &answer) == XVSH_OK && tells(&answer, "\"missing\":[{\"line\":1,\"name\":\"f\"}],\"settled\":true") && !answer.fine);
  TEST(xvsh_check_room(&task, 1, &answer) == XVSH_OK && tells(&answer, "\"status\":\"harmless\"") && answer.fine && !answer.whole);
  xvsh_file file = { xvsh_text("f"), xvsh_text("a\n") };
  task = task_of("cat f | wc\n", &file, 1);
  TEST(xvsh_explain_why(&task, &answer) == XVSH_OK && tells(&answer, "\"status\":\"nothing to tell\"") && answer.fine);
  task = task_of("cat f | tee f\n", &file, 1);
  TEST(xvsh_explain_why(&task, &answer) == XVSH_OK && tells(&answer, "\"reasons\":[{\"kind\":\"clash\",\"line\":1,") && !answer.fine);
  TEST(xvsh_check_room(&task, 0, &answer) == XVSH_OK && tells(&answer, "\"room\":null") && !answer.fine);
  task = task_of("echo a\n\n)\n", NULL, 0);
  TEST(xvsh_check_turns(&task, 0, &answer) == XVSH_OK && answer.fine && xvsh_check_turns(&task, 1, &answer) == XVSH_OK && !answer.fine);
  TEST(xvsh_check_room(&task, 0, &answer) == XVSH_OK && answer.fine && xvsh_check_room(&task, 1, &answer) == XVSH_OK && !answer.fine);
  TEST(xvsh_check(&task, 0, &answer) == XVSH_OK && tells(&answer, "\"kind\":\"fault\",\"line\":3") && answer.fine);
  TEST(xvsh_check(&task, 1, &answer) == XVSH_OK && tells(&answer, "\"code\":3") && !answer.fine);
  TEST(xvsh_check(&task, UINT32_MAX, &answer) == XVSH_OK && tells(&answer, "\"code\":3") && !answer.fine);
  task = task_of("echo a\nlss &\n", NULL, 0);
  TEST(xvsh_check(&task, 0, &answer) == XVSH_OK && tells(&answer, "{\"kind\":\"background\",\"line\":2}") && !answer.fine);
  TEST(xvsh_explain(&task, &answer) == XVSH_OK && tells(&answer, "\"kind\":\"NoProgram\",\"line\":2") && !answer.fine);
  task = task_of("echo b > f &; echo a > g\n", NULL, 0);
  TEST(xvsh_explore(&task, 100000, 0, &answer) == XVSH_OK && tells(&answer, "\"status\":\"one output\"") && answer.fine && answer.whole);
  task = task_of("echo a &; echo b\n", NULL, 0);
  TEST(xvsh_explore(&task, 100000, 0, &answer) == XVSH_OK && tells(&answer, "\"number\":4,\"output\":\"ba\\n\\n\"") && !answer.fine && answer.whole);
  TEST(xvsh_explore(&task, 1, 0, &answer) == XVSH_OK && tells(&answer, "\"every_order_tried\":false") && !answer.fine && !answer.whole);
  task = task_of("echo a | cat\n", NULL, 0);
  TEST(xvsh_explore(&task, 1, 0, &answer) == XVSH_OK && tells(&answer, "\"status\":\"settled\"") && answer.fine && answer.whole);
  TEST(xvsh_explore(&task, XVSH_MAX_STATES, 7, &answer) == XVSH_OK && tells(&answer, "\"status\":\"one output\"") && answer.fine && answer.whole);
  TEST(xvsh_explore(&task, 0, 0, &answer) == XVSH_BAD_STATES && is_nothing(&answer));
  TEST(xvsh_explore(&task, XVSH_MAX_STATES + 1u, 0, &answer) == XVSH_BAD_STATES && is_nothing(&answer));
  TEST(xvsh_explore(&task, UINT64_MAX, 1, &answer) == XVSH_BAD_STATES && is_nothing(&answer));
  xvsh_answer_free(&answer);
}

/* Whether the suite is refused so, with these words. */
static bool is_refused(const xvsh_task *task, const char *suite, uint32_t alone, uint32_t fault, uint64_t place, const char *said) {
  xvsh_answer answer = XVSH_ANSWER;
  bool right = xvsh_grade(task, xvsh_text(suite), 0, alone, &answer) == fault && answer.place == place && is(answer.diag, said);
  xvsh_bytes none = XVSH_NO_BYTES;
  if (answer.diag.length) free((void *)(uintptr_t)answer.diag.at);
  answer.diag = none;
  right = right && is_nothing(&answer);
  xvsh_answer_free(&answer);
  return right;
}

#define COPIES "[[test]]\nname = \"copies\"\npoints = 3\noutput = \"x\\n\"\ninput_file = \"d/in\"\n"

/* What is due is worked out by docs/GRADING.md. */
static void grades(void) {
  static char suite[XVSH_MAX_SUITE + 2], script[XVSH_MAX_SCRIPT + 2];
  static xvsh_file files[XVSH_MAX_FILES + 1];
  xvsh_answer answer = XVSH_ANSWER;
  xvsh_file in[2] = { { xvsh_text("d/in"), xvsh_text("x\n") }, { xvsh_text("d/in"), xvsh_text("y\n") } };
  xvsh_task task = task_of("cat", in, 2);
  TEST(xvsh_grade(&task, xvsh_text(COPIES), 0, 0, &answer) == XVSH_OK && answer.fine && !answer.whole);
  TEST(tells(&answer, "\"points\":3,\"of\":3,\"passed\":1,\"tests\":1,\"scripts\":[{\"script\":\"-\","));
  task = task_of("head -1 | wc", in, 1);
  TEST(xvsh_grade(&task, xvsh_text(COPIES), 0, 0, &answer) == XVSH_OK && tells(&answer, "\"verdict\":\"wrong\"") && !answer.fine);
  task = task_of("", in, 1);
  TEST(xvsh_grade(&task, xvsh_text(COPIES), 0, 0, &answer) == XVSH_OK && tells(&answer, "\"found\":null") && !answer.fine);
  TEST(is_refused(&task, COPIES, 1, XVSH_BAD_SUITE, 1, "the test has no script of its own, and none is given"));
  TEST(is_refused(&task, COPIES "script = \"cat\"\n", 0, XVSH_UNUSED_SCRIPT, 0, ""));
  TEST(is_refused(&task, COPIES COPIES "every_way = true\n", 0, XVSH_BAD_SUITE, 7, "`name` is that of the test of line 1 too"));
  TEST(is_refused(&task, COPIES "[[test]]\nname = \"u\"\noutput = \"\"\nevery_way = true\n", 0, XVSH_EVERY_WAY, 2, ""));
  TEST(is_refused(&task, "", 0, XVSH_BAD_SUITE, 1, "the suite has no [[test]]") && is_refused(&task, "", 1, XVSH_BAD_SUITE, 1, "the suite has no [[test]]"));
  task = task_of("cat", in, 0);
  TEST(is_refused(&task, COPIES, 0, XVSH_BAD_SUITE, 5, "cannot read d/in"));
  TEST(xvsh_grade(&task, xvsh_text("[[test]]\nname = \"o\"\nscript = \"echo a\"\noutput = \"a\\n\"\n"), 0, UINT32_MAX, &answer) == XVSH_OK && answer.fine && tells(&answer, "\"script\":null"));
  xvsh_bytes none = { NULL, 0 }, some = { NULL, 1 };
  TEST(xvsh_grade(&task, none, 0, 0, &answer) == XVSH_BAD_SUITE && xvsh_grade(&task, some, 0, 0, &answer) == XVSH_NULL && is_nothing(&answer));
  /* a bound on states: the 64 runs are right, and not every order is tried */
  task = task_of("echo a &", NULL, 0);
  TEST(xvsh_grade(&task, xvsh_text("[[test]]\nname = \"s\"\noutput = \"a\\n\"\n"), 0, 0, &answer) == XVSH_OK && tells(&answer, "\"pass, every order tried\"") && answer.fine);
  TEST(xvsh_grade(&task, xvsh_text("[[test]]\nname = \"s\"\noutput = \"a\\n\"\n"), 2, 0, &answer) == XVSH_OK && tells(&answer, "\"unsure\"") && !answer.fine);
  TEST(xvsh_grade(&task, xvsh_text("[[test]]\nname = \"s\"\noutput = \"a\\n\"\n"), UINT64_MAX, 0, &answer) == XVSH_OK && answer.fine);
  /* a suite as long as one may be, and a byte more; a script that is too long is a verdict */
  memset(suite, '#', sizeof suite - 1);
  memcpy(suite, COPIES, sizeof COPIES - 1);
  memset(script, '\n', sizeof script - 1);
  xvsh_bytes longest = { (const uint8_t *)suite, XVSH_MAX_SUITE };
  task = task_of(script, in, 1);
  TEST(xvsh_grade(&task, longest, 0, 0, &answer) == XVSH_OK && tells(&answer, "\"verdict\":\"too large\""));
  longest.length++;
  TEST(xvsh_grade(&task, longest, 0, 0, &answer) == XVSH_SUITE_TOO_LONG && is_nothing(&answer));
  for (size_t i = 0; i < XVSH_MAX_FILES + 1; i++) files[i] = in[0];
  task = task_of("cat", files, XVSH_MAX_FILES);
  TEST(xvsh_grade(&task, xvsh_text(COPIES), 0, 0, &answer) == XVSH_OK && answer.fine);
  task.files.length++;
  TEST(is_refused(&task, COPIES, 0, XVSH_TOO_MANY_FILES, XVSH_MAX_FILES + 1, ""));
  xvsh_answer_free(&answer);
}

/* The bytes up to the end of the line of this number, from 0, of a schedule. */
static xvsh_bytes first_lines(xvsh_bytes bytes, size_t count) {
  xvsh_bytes first = { bytes.at, 0 };
  while (count > 0 && first.length < bytes.length) count -= bytes.at[first.length++] == '\n';
  return first;
}

static void looks(void) {
  xvsh_answer run = XVSH_ANSWER, answer = XVSH_ANSWER;
  xvsh_task task = task_of("echo hi | cat > f\n", NULL, 0);
  TEST(xvsh_run(&task, 100000, XVSH_DRAWN, 3, &run) == XVSH_OK);
  TEST(xvsh_trace(&task, 100000, XVSH_DRAWN, 3, &answer) == XVSH_OK && answer.out.length == 0 && answer.block.length == 4 && answer.sizes.length == 1);
  size_t lines = 0, events = 0;
  for (size_t at = 0; at < answer.events.length; at++) lines += answer.events.at[at] == '\n';
  for (size_t at = 0; at < run.events.length; at++) events += run.events.at[at] == '\n';
  TEST(lines == events + 2 && answer.events.length > 13 && memcmp(answer.events.at, "{\"kind\":\"run\"", 13) == 0);
  TEST(xvsh_trace(&task, 3, XVSH_KERNEL, 0, &answer) == XVSH_SPENT && is_nothing(&answer));
  TEST(xvsh_trace(&task, 0, XVSH_KERNEL, 0, &answer) == XVSH_BAD_TURNS && is_nothing(&answer));
  TEST(xvsh_trace(&task, 1000, 6, 0, &answer) == XVSH_BAD_ORDER && is_nothing(&answer));
  for (size_t count = 0; count <= events; count++) {
    TEST(xvsh_look(&task, first_lines(run.events, count), &answer) == XVSH_OK);
    TEST(answer.fine == (count == events) && tells(&answer, answer.fine ? "\"stands\":\"finished\"" : "\"stands\":\"runnable\""));
  }
  TEST(tells(&answer, "{\"name\":\"f\",\"data\":\"hi\\n\"}"));
  TEST(xvsh_look(&task, xvsh_text("D 0 0\nX\n"), &answer) == XVSH_NO_EVENT && answer.place == 2 && is_nothing(&answer));
  TEST(xvsh_look(&task, xvsh_text("D 0 1\nT 0 1\nD 0 5\n"), &answer) == XVSH_NOT_RUNNABLE && answer.place == 3 && is_nothing(&answer));
  TEST(xvsh_look(&task, xvsh_text("D 0 1\nT 1 1\n"), &answer) == XVSH_NOT_RUNNING && answer.place == 2 && is_nothing(&answer));
  TEST(xvsh_look(&task, xvsh_text("D 0 1\nD 7 0\nT 0 1\n"), &answer) == XVSH_OK && !answer.fine);
  xvsh_answer_free(&run);
  xvsh_answer_free(&answer);
}

static void appends(void) {
  xvsh_answer answer = XVSH_ANSWER;
  xvsh_task task = task_of("echo hello > f; echo J >> f; cat f\n", NULL, 0);
  TEST(xvsh_plain(&task, &answer) == XVSH_OK && is(answer.out, "J\nllo\n"));
  task.appends = 1;
  TEST(xvsh_plain(&task, &answer) == XVSH_OK && is(answer.out, "hello\nJ\n"));
  task.appends = UINT32_MAX;
  TEST(xvsh_plain(&task, &answer) == XVSH_OK && is(answer.out, "hello\nJ\n"));
  xvsh_left left;
  memset(&left, 0, sizeof left);
  TEST(xvsh_next_file(&answer, &left) && is(left.name, "f") && is(left.bytes, "hello\nJ\n") && !left.soft);
  TEST(!xvsh_next_file(&answer, &left));
  xvsh_answer_free(&answer);
  TEST(is_nothing(&answer) && answer.status == 0);
}

/* A few kilobytes of script that write hundreds of megabytes: refused within the budget, quickly. */
static void budgets(void) {
  static uint8_t big[XVSH_MAX_FILE];
  static char script[8192];
  memset(big, 'y', sizeof big);
  size_t length = 0;
  for (int line = 0; line < 16; line++) {
    for (int at = 0; at < 30; at++) length += (size_t)sprintf(script + length, "cat f f f f f;");
    script[length - 1] = '\n';
  }
  script[length] = 0;
  xvsh_file files[1] = { { xvsh_text("f"), { big, sizeof big } } };
  xvsh_task task = task_of(script, files, 1);
  task.budget = 64 << 20;
  xvsh_answer answer = XVSH_ANSWER;
  TEST(xvsh_plain(&task, &answer) == XVSH_MEMORY && is_nothing(&answer));
  task = task_of("cat f | wc\n", files, 1);
  task.budget = 64 << 20;
  TEST(xvsh_plain(&task, &answer) == XVSH_OK && is(answer.out, "0 1 274432 \n"));
  task.budget = 1;
  TEST(xvsh_plain(&task, &answer) == XVSH_MEMORY && is_nothing(&answer));
  xvsh_answer_free(&answer);
}

static void words(void) {
  int named = 0;
  for (uint32_t number = 0; number < 100; number++) {
    xvsh_bytes name = xvsh_fault_name(number), text = xvsh_fault_text(number);
    TEST((name.length == 0) == (text.length == 0));
    named += name.length > 0;
  }
  TEST(named == 24 && xvsh_fault_name(XVSH_OK).length == 0 && xvsh_fault_name(UINT32_MAX).length == 0);
  TEST(is(xvsh_fault_name(XVSH_TOO_LONG), "TooLong") && is(xvsh_fault_name(XVSH_LINE_TOO_LONG), "LineTooLong"));
  TEST(is(xvsh_fault_name(XVSH_BYTE_ZERO), "ByteZero") && is(xvsh_fault_name(XVSH_BAD_NAME), "BadName"));
  TEST(is(xvsh_fault_name(XVSH_TOO_MANY_FILES), "TooManyFiles") && is(xvsh_fault_name(XVSH_TOO_LARGE), "TooLarge"));
  TEST(is(xvsh_fault_name(XVSH_MEMORY), "Memory") && is(xvsh_fault_name(XVSH_SPENT), "Spent") && is(xvsh_fault_name(XVSH_NO_EVENT), "NoEvent"));
  TEST(is(xvsh_fault_name(XVSH_NOT_RUNNABLE), "NotRunnable") && is(xvsh_fault_name(XVSH_NOT_RUNNING), "NotRunning"));
  TEST(is(xvsh_fault_name(XVSH_UNFINISHED), "Unfinished") && is(xvsh_fault_name(XVSH_TAKEN_NAME), "TakenName"));
  TEST(is(xvsh_fault_name(XVSH_SCRIPT_TOO_LONG), "ScriptTooLong") && is(xvsh_fault_name(XVSH_INPUT_TOO_LONG), "InputTooLong"));
  TEST(is(xvsh_fault_name(XVSH_BAD_TURNS), "BadTurns") && is(xvsh_fault_name(XVSH_BAD_ORDER), "BadOrder"));
  TEST(is(xvsh_fault_name(XVSH_NULL), "Null") && is(xvsh_fault_name(XVSH_GIVEN_UP), "GivenUp") && is(xvsh_fault_name(XVSH_BAD_SUITE), "BadSuite"));
  TEST(is(xvsh_fault_name(XVSH_SUITE_TOO_LONG), "SuiteTooLong") && is(xvsh_fault_name(XVSH_UNUSED_SCRIPT), "UnusedScript"));
  TEST(is(xvsh_fault_name(XVSH_EVERY_WAY), "EveryWay"));
  TEST(xvsh_version() == XVSH_VERSION);
}

static long repeats;

/* Each call `repeats` times in all, on an answer of the thread's own. */
static void *again(void *unused) {
  xvsh_file files[1] = { { xvsh_text("f"), xvsh_text("a\nb\n") } };
  xvsh_task task = task_of("echo hello | tee g; cat f g | wc\n", files, 1);
  xvsh_bytes suite = xvsh_text("[[test]]\nname = \"t\"\noutput = \"hello\\n3 3 10 \\n\"\nfiles = { f = \"a\\nb\\n\" }\n");
  xvsh_answer answer = XVSH_ANSWER, other = XVSH_ANSWER;
  bool right = true;
  for (long i = 0; i < repeats; i++) {
    right = xvsh_plain(&task, &answer) == XVSH_OK && is(answer.out, "hello\n3 3 10 \n") && right;
    if (i % 100 == 0) {
      right = xvsh_check(&task, 1, &answer) == XVSH_OK && answer.fine && right;
      right = xvsh_explain(&task, &answer) == XVSH_OK && answer.fine && right;
      right = xvsh_check_turns(&task, 1, &answer) == XVSH_OK && answer.fine && right;
      right = xvsh_check_room(&task, 1, &answer) == XVSH_OK && answer.fine && right;
      right = xvsh_explain_why(&task, &answer) == XVSH_OK && answer.fine && right;
      right = xvsh_explore(&task, 100000, 0, &answer) == XVSH_OK && answer.fine && right;
      right = xvsh_grade(&task, suite, 0, 0, &answer) == XVSH_OK && answer.fine && right;
      right = xvsh_grade(&task, xvsh_text("title"), 0, 0, &answer) == XVSH_BAD_SUITE && answer.diag.length > 0 && right;
      right = xvsh_look(&task, xvsh_text("D 0 1\nT 0 1\n"), &answer) == XVSH_OK && !answer.fine && right;
      right = xvsh_trace(&task, 100000, XVSH_DRAWN, (uint64_t)i, &answer) == XVSH_OK && is(answer.out, "hello\n3 3 10 \n") && right;
    }
    if (i % 20 == 0) {
      right = xvsh_run(&task, 100000, XVSH_DRAWN, (uint64_t)i, &answer) == XVSH_OK && is(answer.out, "hello\n3 3 10 \n") && right;
      right = xvsh_replay(&task, answer.events, &other) == XVSH_OK && is(other.out, "hello\n3 3 10 \n") && right;
    }
  }
  xvsh_answer_free(&answer);
  xvsh_answer_free(&other);
  (void)unused;
  return right ? NULL : "wrong";
}

static void threads(long count) {
  pthread_t made[4];
  void *wrong;
  repeats = count / 4;
  for (int i = 0; i < 4; i++) TEST(pthread_create(&made[i], NULL, again, NULL) == 0);
  for (int i = 0; i < 4; i++) TEST(pthread_join(made[i], &wrong) == 0 && wrong == NULL);
}

/* The deepest lines of 511 bytes: 255 groups round a command, and 256 commands between pipes, `;` and `&`. */
static size_t deep_line(int kind, char *line) {
  size_t length = 0;
  for (int i = 0; i < 255; i++) {
    if (kind > 0) line[length++] = 'a';
    line[length++] = "(|;&"[kind];
  }
  line[length++] = 'a';
  for (int i = 0; kind == 0 && i < 255; i++) line[length++] = ')';
  return length;
}

static void *deepest(void *unused) {
  char line[XVSH_MAX_LINE];
  bool right = true;
  xvsh_answer answer = XVSH_ANSWER;
  for (int kind = 0; kind < 4; kind++) {
    xvsh_task task = { { (const uint8_t *)line, deep_line(kind, line) }, XVSH_NO_BYTES, XVSH_NO_FILES, 0, 0 };
    right = task.script.length == XVSH_MAX_LINE && right;
    right = xvsh_plain(&task, &answer) == XVSH_OK && right;
    right = xvsh_run(&task, 100000, XVSH_KERNEL, 0, &answer) == XVSH_OK && right;
    right = xvsh_check(&task, 0, &answer) == XVSH_OK && right;
    right = xvsh_explain(&task, &answer) == XVSH_OK && right;
    right = xvsh_check_turns(&task, 0, &answer) == XVSH_OK && xvsh_check_room(&task, 0, &answer) == XVSH_OK && right;
    right = xvsh_explain_why(&task, &answer) == XVSH_OK && right;
    right = xvsh_explore(&task, 50, 1, &answer) == XVSH_OK && right;
    right = xvsh_trace(&task, 100000, XVSH_KERNEL, 0, &answer) == XVSH_OK && right;
    right = xvsh_draw(&task, 100000, XVSH_KERNEL, 0, &answer) == XVSH_OK && right;
    right = xvsh_grade(&task, xvsh_text("[[test]]\nname = \"t\"\noutput = \"\"\nstates = 50\n"), 0, 0, &answer) == XVSH_OK && right;
    right = xvsh_look(&task, xvsh_text("D 0 1\nT 0 1\nD 0 2\nT 0 2\n"), &answer) == XVSH_OK && right;
  }
  xvsh_answer_free(&answer);
  (void)unused;
  return right ? NULL : "wrong";
}

static void stack(size_t size) {
  pthread_attr_t attributes;
  pthread_t made;
  void *wrong;
  pthread_attr_init(&attributes);
  TEST(pthread_attr_setstacksize(&attributes, size) == 0);
  TEST(pthread_create(&made, &attributes, deepest, NULL) == 0);
  TEST(pthread_join(made, &wrong) == 0 && wrong == NULL);
  pthread_attr_destroy(&attributes);
}

/* Processor seconds of this thread. */
static double seconds(void) {
  struct timespec now;
  clock_gettime(CLOCK_THREAD_CPUTIME_ID, &now);
  return (double)now.tv_sec + 1e-9 * (double)now.tv_nsec;
}

typedef struct { uint64_t most; double stopped; } limit;

static uint32_t is_below(void *context, uint64_t requests) {
  limit *until = context;
  if (requests < until->most) return 1;
  until->stopped = seconds();
  return 0;
}

/* To free what a call holds when it is given up takes less than it took to build that. It is a thirtieth, about; a busy machine makes more
   of so short a time, so half, and a tenth of a second beside it, are let pass. */
static void ends_soon(double began, double stopped) {
  double built = stopped - began, freed = seconds() - stopped;
  if (freed > 0.1 + built / 2) fprintf(stderr, "given up after %.3f seconds, and freed in %.3f\n", built, freed);
  TEST(freed <= 0.1 + built / 2);
}

/* A call that is given up ends soon, whatever it holds by then, and leaves nothing. `timed`: whether its times say anything. */
static void watched(bool timed, uint64_t highest) {
  xvsh_answer answer = XVSH_ANSWER;
  xvsh_task task = task_of("(echo a; echo b; echo c)&; (echo d; echo e; echo f)&; (echo g; echo h; echo i)&\n", NULL, 0);
  for (uint64_t requests = 1; requests <= highest; requests *= 16) {
    limit until = { requests, 0 };
    xvsh_watch watch = { is_below, &until };
    double began = seconds();
    TEST(xvsh_explore_watched(&task, XVSH_MAX_STATES, 1, &watch, &answer) == XVSH_GIVEN_UP && answer.status == XVSH_GIVEN_UP && answer.place == 0 && is_nothing(&answer));
    if (timed) ends_soon(began, until.stopped);
  }
  /* a grading of the same, whose runs are all right, so that every order is searched; it holds a suite besides */
  xvsh_bytes suite = xvsh_text("[[test]]\nname = \"t\"\noutput = \"\"\nstates = 10000000\n");
  xvsh_task wide = task_of("(echo a; echo b; echo c) > f &; (echo d; echo e; echo f) > g &; (echo g; echo h; echo i) > h &; (echo j; echo k; echo l) > i &; (echo m; echo n; echo o) > j &\n", NULL, 0);
  for (uint64_t requests = 1; requests <= highest; requests *= 16) {
    limit until = { requests, 0 };
    xvsh_watch watch = { is_below, &until };
    double began = seconds();
    TEST(xvsh_grade_watched(&wide, suite, 0, 0, &watch, &answer) == XVSH_GIVEN_UP && answer.status == XVSH_GIVEN_UP && answer.place == 0 && is_nothing(&answer));
    if (timed) ends_soon(began, until.stopped);
  }
  limit never = { UINT64_MAX, 0 };
  xvsh_watch watch = { is_below, &never };
  task = task_of("echo a &; echo b\n", NULL, 0);
  TEST(xvsh_explore_watched(&task, 100000, 0, &watch, &answer) == XVSH_OK && tells(&answer, "\"number\":4,\"output\":\"ba\\n\\n\"") && answer.whole);
  TEST(xvsh_explore_watched(&task, 100000, 0, NULL, &answer) == XVSH_OK && answer.whole);
  TEST(xvsh_grade_watched(&task, suite, 0, 0, &watch, &answer) == XVSH_OK && tells(&answer, "\"wrong\"") && !answer.fine);
  TEST(xvsh_grade_watched(&task, suite, 0, 0, NULL, &answer) == XVSH_OK && tells(&answer, "\"wrong\""));
  xvsh_answer_free(&answer);
}

int main(int count, char **arguments) {
  long repeats_asked = count > 1 ? atol(arguments[1]) : 1000;
  nulls();
  limits();
  runs();
  asks();
  grades();
  looks();
  appends();
  budgets();
  words();
  /* under valgrind and sanitizers, which get a larger stack, time says nothing */
  watched(count <= 2, count > 3 ? strtoull(arguments[3], NULL, 10) : 1 << 20);
  threads(repeats_asked);
  stack(count > 2 ? (size_t)atol(arguments[2]) : 1 << 20);
  printf("%ld tested, %ld failed\n", tested, failed);
  return failed != 0;
}
