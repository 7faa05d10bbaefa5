/* The functions of include/xvsh.h: they see to null pointers, and hand a task without one to the calls that are proved (calls.h).
 * What they need of the C library is `free`. */
#include "calls.h"

void free(void *block);

static const xvsh_bytes no_bytes = XVSH_NO_BYTES;
static const xvsh_answer begun = XVSH_ANSWER;

/* A task without null pointers, and room for the files of one that had some. A 202nd file and those behind it are left out, since one of
 * the 201 before it is a fault. */
typedef struct { xvsh_task task; xvsh_file files[XVSH_MAX_FILES + 1]; } safe_task;

uint32_t xvsh_version_number(void) {
  return xvsh_version();
}

xvsh_bytes xvsh_text(const char *text) {
  xvsh_bytes bytes = XVSH_NO_BYTES;
  if (!text) return bytes;
  bytes.at = XVSH_AT_(uint8_t, text);
  while (text[bytes.length]) bytes.length++;
  return bytes;
}

/* Frees bytes of an answer, which are none of the caller's to write. */
static void free_bytes(const void *at, size_t length) {
  if (length) free((void *)(uintptr_t)at);
}

void xvsh_answer_free(xvsh_answer *answer) {
  if (!answer) return;
  free_bytes(answer->out.at, answer->out.length);
  free_bytes(answer->diag.at, answer->diag.length);
  free_bytes(answer->events.at, answer->events.length);
  free_bytes(answer->json.at, answer->json.length);
  free_bytes(answer->block.at, answer->block.length);
  free_bytes(answer->sizes.at, answer->sizes.length);
  *answer = begun;
}

/* The name of a fault, and its text behind it. */
static xvsh_bytes fault_words(uint32_t number, int which) {
  xvsh_bytes words[2] = { XVSH_NO_BYTES, XVSH_NO_BYTES };
  xvsh_fault_call(number, words);
  return words[which];
}

xvsh_bytes xvsh_fault_name(uint32_t number) {
  return fault_words(number, 0);
}

xvsh_bytes xvsh_fault_text(uint32_t number) {
  return fault_words(number, 1);
}

bool xvsh_next_file(const xvsh_answer *answer, xvsh_left *left) {
  if (!answer || !left || left->next >= answer->sizes.length) return false;
  const xvsh_sizes *sizes = &answer->sizes.at[left->next++];
  left->name.at = answer->block.at + left->from;
  left->name.length = sizes->name;
  left->bytes.at = left->name.at + sizes->name;
  left->bytes.length = sizes->bytes;
  left->soft = sizes->soft != 0;
  left->from += sizes->name + sizes->bytes;
  return true;
}

/* Makes a null as no bytes. False where its length isn't 0. */
static bool make_safe(xvsh_bytes *bytes) {
  if (bytes->at) return true;
  bool is_empty = bytes->length == 0;
  *bytes = no_bytes;
  return is_empty;
}

/* Makes the files of the task without nulls, as copies of the rows where some has one. False where one has a length. */
static bool make_files_safe(safe_task *safe) {
  static const xvsh_files none = XVSH_NO_FILES;
  const xvsh_files given = safe->task.files;
  size_t count = given.length, null = 0;
  if (!given.at) {
    safe->task.files = none;
    return count == 0;
  }
  if (count > XVSH_MAX_FILES + 1) count = XVSH_MAX_FILES + 1;
  for (size_t i = 0; i < count; i++) null += !given.at[i].name.at || !given.at[i].bytes.at;
  if (!null) return true;
  bool good = true;
  for (size_t i = 0; i < count; i++) {
    safe->files[i] = given.at[i];
    good = make_safe(&safe->files[i].name) && good;
    good = make_safe(&safe->files[i].bytes) && good;
  }
  safe->task.files.at = safe->files;
  safe->task.files.length = count;
  return good;
}

/* Frees what the answer held. False where a pointer is null that mustn't be: then the answer tells that, if there is one. */
static bool begin(const xvsh_task *task, safe_task *safe, xvsh_answer *answer) {
  if (!answer) return false;
  xvsh_answer_free(answer);
  answer->status = XVSH_NULL;
  if (!task) return false;
  safe->task = *task;
  bool good = make_safe(&safe->task.script);
  good = make_safe(&safe->task.input) && good;
  good = make_files_safe(safe) && good;
  if (good) answer->status = XVSH_OK;
  return good;
}

/* The same, and no null schedule or suite. */
static bool begin_with(const xvsh_task *task, xvsh_bytes *more, safe_task *safe, xvsh_answer *answer) {
  if (!begin(task, safe, answer)) return false;
  if (make_safe(more)) return true;
  answer->status = XVSH_NULL;
  return false;
}

static uint32_t status_of(const xvsh_answer *answer) {
  return answer ? answer->status : XVSH_NULL;
}

/* Has the thread's requests for memory watched, and returns the call that was watched before: a watch may make calls of its own, watched
 * ones too. */
static xvsh_watched_call *watch_on(xvsh_watched_call *now) {
  xvsh_watched_call *outer = xvsh_watched_now;
  xvsh_watched_now = now;
  return outer;
}

/* Ends that, and tells where the call was given up, whatever it came to. */
static uint32_t watch_off(const xvsh_watched_call *now, xvsh_watched_call *outer, xvsh_answer *answer) {
  xvsh_watched_now = outer;
  if (now->is_over) {
    xvsh_answer_free(answer);
    answer->status = XVSH_GIVEN_UP;
  }
  return answer->status;
}

uint32_t xvsh_plain(const xvsh_task *task, xvsh_answer *answer) {
  safe_task safe;
  if (begin(task, &safe, answer)) xvsh_plain_call(&safe.task, answer);
  return status_of(answer);
}

uint32_t xvsh_run(const xvsh_task *task, uint64_t turns, uint32_t order, uint64_t number, xvsh_answer *answer) {
  safe_task safe;
  if (begin(task, &safe, answer)) xvsh_run_call(&safe.task, turns, order, number, answer);
  return status_of(answer);
}

uint32_t xvsh_replay(const xvsh_task *task, xvsh_bytes schedule, xvsh_answer *answer) {
  safe_task safe;
  if (begin_with(task, &schedule, &safe, answer)) xvsh_replay_call(&safe.task, schedule.at, schedule.length, answer);
  return status_of(answer);
}

uint32_t xvsh_check(const xvsh_task *task, uint32_t strict, xvsh_answer *answer) {
  safe_task safe;
  if (begin(task, &safe, answer)) xvsh_check_call(&safe.task, strict, answer);
  return status_of(answer);
}

uint32_t xvsh_check_turns(const xvsh_task *task, uint32_t strict, xvsh_answer *answer) {
  safe_task safe;
  if (begin(task, &safe, answer)) xvsh_check_turns_call(&safe.task, strict, answer);
  return status_of(answer);
}

uint32_t xvsh_check_room(const xvsh_task *task, uint32_t strict, xvsh_answer *answer) {
  safe_task safe;
  if (begin(task, &safe, answer)) xvsh_check_room_call(&safe.task, strict, answer);
  return status_of(answer);
}

uint32_t xvsh_explain(const xvsh_task *task, xvsh_answer *answer) {
  safe_task safe;
  if (begin(task, &safe, answer)) xvsh_explain_call(&safe.task, answer);
  return status_of(answer);
}

uint32_t xvsh_explain_why(const xvsh_task *task, xvsh_answer *answer) {
  safe_task safe;
  if (begin(task, &safe, answer)) xvsh_explain_why_call(&safe.task, answer);
  return status_of(answer);
}

uint32_t xvsh_explore(const xvsh_task *task, uint64_t states, uint32_t thorough, xvsh_answer *answer) {
  safe_task safe;
  if (begin(task, &safe, answer)) xvsh_explore_call(&safe.task, states, thorough, answer);
  return status_of(answer);
}

uint32_t xvsh_explore_watched(const xvsh_task *task, uint64_t states, uint32_t thorough, const xvsh_watch *watch, xvsh_answer *answer) {
  safe_task safe;
  if (!watch || !watch->goes_on) return xvsh_explore(task, states, thorough, answer);
  if (!begin(task, &safe, answer)) return status_of(answer);
  xvsh_watched_call now = { watch, 0, false }, *outer = watch_on(&now);
  xvsh_explore_call(&safe.task, states, thorough, answer);
  return watch_off(&now, outer, answer);
}

uint32_t xvsh_grade(const xvsh_task *task, xvsh_bytes suite, uint64_t states, uint32_t alone, xvsh_answer *answer) {
  safe_task safe;
  if (begin_with(task, &suite, &safe, answer)) xvsh_grade_call(&safe.task, suite.at, suite.length, states, alone, answer);
  return status_of(answer);
}

uint32_t xvsh_grade_watched(const xvsh_task *task, xvsh_bytes suite, uint64_t states, uint32_t alone, const xvsh_watch *watch, xvsh_answer *answer) {
  safe_task safe;
  if (!watch || !watch->goes_on) return xvsh_grade(task, suite, states, alone, answer);
  if (!begin_with(task, &suite, &safe, answer)) return status_of(answer);
  xvsh_watched_call now = { watch, 0, false }, *outer = watch_on(&now);
  xvsh_grade_call(&safe.task, suite.at, suite.length, states, alone, answer);
  return watch_off(&now, outer, answer);
}

uint32_t xvsh_trace(const xvsh_task *task, uint64_t turns, uint32_t order, uint64_t number, xvsh_answer *answer) {
  safe_task safe;
  if (begin(task, &safe, answer)) xvsh_trace_call(&safe.task, turns, order, number, answer);
  return status_of(answer);
}

uint32_t xvsh_draw(const xvsh_task *task, uint64_t turns, uint32_t order, uint64_t number, xvsh_answer *answer) {
  safe_task safe;
  if (begin(task, &safe, answer)) xvsh_draw_call(&safe.task, turns, order, number, answer);
  return status_of(answer);
}

uint32_t xvsh_draw_two(const xvsh_task *task, xvsh_bytes schedule, xvsh_bytes other, xvsh_answer *answer) {
  safe_task safe;
  if (!begin_with(task, &schedule, &safe, answer)) return status_of(answer);
  if (make_safe(&other)) xvsh_draw_two_call(&safe.task, schedule.at, schedule.length, other.at, other.length, answer);
  else answer->status = XVSH_NULL;
  return status_of(answer);
}

uint32_t xvsh_draw_svg(const xvsh_task *task, uint64_t turns, uint32_t order, uint64_t number, xvsh_answer *answer) {
  safe_task safe;
  if (begin(task, &safe, answer)) xvsh_draw_svg_call(&safe.task, turns, order, number, answer);
  return status_of(answer);
}

uint32_t xvsh_draw_two_svg(const xvsh_task *task, xvsh_bytes schedule, xvsh_bytes other, xvsh_answer *answer) {
  safe_task safe;
  if (!begin_with(task, &schedule, &safe, answer)) return status_of(answer);
  if (make_safe(&other)) xvsh_draw_two_svg_call(&safe.task, schedule.at, schedule.length, other.at, other.length, answer);
  else answer->status = XVSH_NULL;
  return status_of(answer);
}

uint32_t xvsh_look(const xvsh_task *task, xvsh_bytes schedule, xvsh_answer *answer) {
  safe_task safe;
  if (begin_with(task, &schedule, &safe, answer)) xvsh_look_call(&safe.task, schedule.at, schedule.length, answer);
  return status_of(answer);
}
