/* Stands for what is proved of the library where it isn't built, to test what is around that: the header, the functions in C, bindings/pack,
 * dist/install, the Python module.
 *
 * A call answers with what it was given: the script as the output, the call's name and numbers as the diagnostics, a schedule as the
 * events, and the files as they are. The script `fault N P` is the fault N at the place P, and `full N` is one whose run found N full.
 * STANDIN_VERSION is the version in place of the header's. */
#include "calls.h"
#include <stdio.h>
#include <stdlib.h>
#include <string.h>

static xvsh_bytes copied(const void *from, size_t length) {
  xvsh_bytes made = XVSH_NO_BYTES;
  uint8_t *at = length ? malloc(length) : NULL;
  if (!at) return made;
  memcpy(at, from, length);
  made.at = at;
  made.length = length;
  return made;
}

static size_t number_in(const xvsh_task *task, const char *word, int which) {
  char text[64] = "";
  unsigned long found[2] = { 0, 0 };
  size_t length = strlen(word), room = sizeof text - 1;
  memcpy(text, task->script.at, task->script.length < room ? task->script.length : room);
  if (strncmp(text, word, length) == 0) sscanf(text + length, "%lu %lu", &found[0], &found[1]);
  return found[which];
}

static void keep_files(const xvsh_task *task, xvsh_answer *answer) {
  size_t total = 0, at = 0, count = task->files.length;
  for (size_t i = 0; i < count; i++) total += task->files.at[i].name.length + task->files.at[i].bytes.length;
  xvsh_sizes *sizes = count ? calloc(count, sizeof *sizes) : NULL;
  uint8_t *block = total ? malloc(total) : NULL;
  if (!sizes || !block) { free(sizes); free(block); return; }
  for (size_t i = 0; i < count; i++) {
    const xvsh_file *file = &task->files.at[i];
    memcpy(block + at, file->name.at, file->name.length);
    at += file->name.length;
    memcpy(block + at, file->bytes.at, file->bytes.length);
    at += file->bytes.length;
    sizes[i].name = file->name.length;
    sizes[i].bytes = file->bytes.length;
    sizes[i].soft = file->name.at[0] == 's';
  }
  answer->sizes.at = sizes;
  answer->sizes.length = count;
  answer->block.at = block;
  answer->block.length = total;
}

static void answered(const xvsh_task *task, const char *numbers, const char *json, xvsh_answer *answer) {
  answer->status = (uint32_t)number_in(task, "fault ", 0);
  answer->place = number_in(task, "fault ", 1);
  if (answer->status) return;
  answer->full = (uint32_t)number_in(task, "full ", 0);
  answer->out = copied(task->script.at, task->script.length);
  answer->diag = copied(numbers, strlen(numbers));
  answer->json = copied(json, strlen(json));
  answer->fine = 1;
  answer->whole = 1;
  keep_files(task, answer);
}

uint32_t xvsh_version(void) {
  const char *version = getenv("STANDIN_VERSION");
  return version ? (uint32_t)strtoul(version, NULL, 10) : XVSH_VERSION;
}

void xvsh_fault_call(uint32_t number, xvsh_bytes *words) {
  static const uint8_t name[] = "LineTooLong", text[] = "a line has more than 511 bytes";
  if (number != XVSH_LINE_TOO_LONG) return;
  words[0].at = name;
  words[0].length = sizeof name - 1;
  words[1].at = text;
  words[1].length = sizeof text - 1;
}

void xvsh_plain_call(const xvsh_task *task, xvsh_answer *answer) {
  char text[96];
  snprintf(text, sizeof text, "plain %llu %u", (unsigned long long)task->budget, (unsigned)task->appends);
  answered(task, text, "", answer);
}

static void run(const char *name, const xvsh_task *task, uint64_t turns, uint32_t order, uint64_t number, xvsh_answer *answer) {
  char text[96];
  snprintf(text, sizeof text, "%s %llu %u %llu", name, (unsigned long long)turns, (unsigned)order, (unsigned long long)number);
  answered(task, text, "", answer);
}

void xvsh_run_call(const xvsh_task *task, uint64_t turns, uint32_t order, uint64_t number, xvsh_answer *answer) {
  run("run", task, turns, order, number, answer);
}

void xvsh_trace_call(const xvsh_task *task, uint64_t turns, uint32_t order, uint64_t number, xvsh_answer *answer) {
  static const char line[] = "{\"kind\": \"dispatch\", \"n\": 1, \"hart\": 0, \"pid\": 2}\n";
  run("trace", task, turns, order, number, answer);
  if (!answer->status) answer->events = copied(line, sizeof line - 1);
}

void xvsh_draw_call(const xvsh_task *task, uint64_t turns, uint32_t order, uint64_t number, xvsh_answer *answer) {
  static const char page[] = "<!doctype html>\n";
  run("draw", task, turns, order, number, answer);
  if (!answer->status) answer->events = copied(page, sizeof page - 1);
}

/* The page has the lengths of the two schedules. */
void xvsh_draw_two_call(const xvsh_task *task, const uint8_t *one, size_t one_length, const uint8_t *other, size_t other_length, xvsh_answer *answer) {
  char text[96];
  (void)one;
  (void)other;
  snprintf(text, sizeof text, "<!doctype html>%llu %llu", (unsigned long long)one_length, (unsigned long long)other_length);
  answered(task, "two", "", answer);
  if (!answer->status) answer->events = copied(text, strlen(text));
}

void xvsh_draw_svg_call(const xvsh_task *task, uint64_t turns, uint32_t order, uint64_t number, xvsh_answer *answer) {
  static const char picture[] = "<svg>\n";
  run("svg", task, turns, order, number, answer);
  if (!answer->status) answer->events = copied(picture, sizeof picture - 1);
}

/* The picture has the lengths of the two schedules. */
void xvsh_draw_two_svg_call(const xvsh_task *task, const uint8_t *one, size_t one_length, const uint8_t *other, size_t other_length, xvsh_answer *answer) {
  char text[96];
  (void)one;
  (void)other;
  snprintf(text, sizeof text, "<svg>%llu %llu", (unsigned long long)one_length, (unsigned long long)other_length);
  answered(task, "two svg", "", answer);
  if (!answer->status) answer->events = copied(text, strlen(text));
}

void xvsh_replay_call(const xvsh_task *task, const uint8_t *schedule, size_t length, xvsh_answer *answer) {
  answered(task, "replay", "", answer);
  if (!answer->status) answer->events = copied(schedule, length);
}

void xvsh_check_call(const xvsh_task *task, uint32_t strict, xvsh_answer *answer) {
  answered(task, strict ? "strict" : "check", "{\"findings\": [{\"kind\": \"background\", \"line\": 2}]}\n", answer);
}

void xvsh_explain_call(const xvsh_task *task, xvsh_answer *answer) {
  static const char json[] = "{\"notes\": [{\"kind\": \"NoListing\", \"line\": 1, \"places\": [{\"first\": 0, \"past\": 2}], \"sentence\": \"none\", \"text\": \"ls\"}]}\n";
  answered(task, "explain", json, answer);
}

void xvsh_check_turns_call(const xvsh_task *task, uint32_t strict, xvsh_answer *answer) {
  answered(task, strict ? "strict" : "turns", "{\"findings\": [], \"turns\": 7}\n", answer);
}

void xvsh_check_room_call(const xvsh_task *task, uint32_t strict, xvsh_answer *answer) {
  static const char json[] = "{\"findings\": [], \"room\": {\"size\": {\"need\": null, \"most\": 9}}, "
    "\"lack\": {\"table\": \"size\", \"need\": 10, \"most\": 9}}\n";
  answered(task, strict ? "strict" : "room", json, answer);
}

void xvsh_explain_why_call(const xvsh_task *task, xvsh_answer *answer) {
  static const char json[] = "{\"notes\": [], \"missing\": [{\"line\": 2, \"name\": \"g\"}], \"settled\": false, "
    "\"reasons\": [{\"kind\": \"cut pipe\", \"line\": 1, \"name\": \"f\", \"again\": 3}]}\n";
  answered(task, "why", json, answer);
}

struct tried { bool ok; void *at; };
struct tried rattle_alloc(size_t size, size_t align);
void rattle_dealloc(void *block);

/* The script `ask N` asks for memory N times, of which one refusal is the fault XVSH_MEMORY, and `shrug N` goes on without it. */
static bool asks(const xvsh_task *task) {
  bool refused = false;
  size_t ask = number_in(task, "ask ", 0), shrug = number_in(task, "shrug ", 0);
  for (size_t i = 0; i < ask + shrug && !(refused && ask); i++) {
    struct tried got = rattle_alloc(100, 8);
    if (got.ok) rattle_dealloc(got.at);
    refused = !got.ok || refused;
  }
  return !(refused && ask);
}

void xvsh_explore_call(const xvsh_task *task, uint64_t states, uint32_t thorough, xvsh_answer *answer) {
  char json[256];
  snprintf(json, sizeof json, "{\"states\": %llu, \"stuck\": null, \"outcomes\": [{\"output\": \"a\", \"files\": [{\"name\": \"f\", \"bytes\": \"b\"}], "
           "\"schedule\": [1, 2]}], \"thorough\": %u}\n", (unsigned long long)states, (unsigned)thorough);
  if (!asks(task)) { answer->status = XVSH_MEMORY; return; }
  answered(task, "explore", json, answer);
  answer->whole = task->script.length != 3 || memcmp(task->script.at, "cut", 3) != 0;
}

/* The suite `wrong N WORDS` is wrong in line N, for these words; any other passes a script that has its text. `own` has a script of its own. */
void xvsh_grade_call(const xvsh_task *task, const uint8_t *suite, size_t length, uint64_t states, uint32_t alone, xvsh_answer *answer) {
  static const char wrong[] = "wrong ", form[] = "{\"format\": \"xvsh-result\", \"version\": 1, \"command\": \"grade\", \"status\": \"s\", \"points\": %llu, "
    "\"of\": %u, \"passed\": 0, \"tests\": 0, \"scripts\": [%s{\"script\": \"-\", \"points\": %llu, \"of\": 1, \"passed\": 0, \"tests\": 1, "
    "\"results\": [{\"name\": \"t\", \"verdict\": \"wrong\", \"points\": 0, \"of\": 1}]}]}\n";
  static const char own[] = "{\"script\": null, \"points\": 0, \"of\": 0, \"passed\": 0, \"tests\": 0, \"results\": []}, ";
  char json[512];
  unsigned long long most = states;
  snprintf(json, sizeof json, form, most, (unsigned)alone, length == 3 && memcmp(suite, "own", 3) == 0 ? own : "", most);
  if (!asks(task)) { answer->status = XVSH_MEMORY; return; }
  if (length > sizeof wrong && memcmp(suite, wrong, sizeof wrong - 1) == 0) {
    answer->status = XVSH_BAD_SUITE;
    answer->place = suite[sizeof wrong - 1] - (uint8_t)'0';
    answer->diag = copied(suite + sizeof wrong + 1, length - sizeof wrong - 1);
    return;
  }
  answered(task, "grade", json, answer);
  if (answer->status) return;
  answer->fine = length == task->script.length && (length == 0 || memcmp(suite, task->script.at, length) == 0);
}

void xvsh_look_call(const xvsh_task *task, const uint8_t *schedule, size_t length, xvsh_answer *answer) {
  static const char json[] = "{\"stands\": \"runnable\", \"ps\": {\"processes\": [{\"pid\": 0, \"parent\": 0, \"prog\": \"init\", \"state\": \"runnable\", "
    "\"next\": {\"name\": \"wait\"}}]}, \"pipes\": {\"pipes\": []}, \"files\": {\"files\": []}, \"out\": {\"out\": \"\", \"diag\": \"\"}}\n";
  (void)schedule;
  answered(task, "look", json, answer);
  answer->fine = length > 100;
}
