/* One call of the library on bytes that a fuzzer chose. The first byte says which call, the next five its numbers; what follows is cut at each
 * byte 0xff in the script, the standard input, the bytes of the files f and g, the schedule or the suite, and another schedule. Beside what
 * afl-fuzz sees, a crash and a call that doesn't return, these are held: a fault has a name and no bytes but of XVSH_BAD_SUITE, an object is one line,
 * a run's events are replayed to the same output, and a settled script that finishes with room prints what it means. */
#include <stdint.h>
#include <stdio.h>
#include <stdlib.h>
#include <string.h>
#include <unistd.h>
#include "xvsh.h"

enum { MOST = 1 << 16, PARTS = 6, TURNS = 20000, STATES = 200 };

static xvsh_bytes parts[PARTS];

static void hold(int right) {
  if (!right) abort();
}

/* Memory of exactly its length, of each part. */
static void cut(const uint8_t *at, size_t length) {
  for (size_t part = 0; part < PARTS; part++) {
    const uint8_t *end = part + 1 < PARTS ? memchr(at, 0xff, length) : NULL;
    size_t size = end ? (size_t)(end - at) : length;
    uint8_t *own = malloc(size ? size : 1);
    if (!own) _exit(0);
    memcpy(own, at, size);
    parts[part] = (xvsh_bytes){ own, size };
    at += size, length -= size;
    if (end) at++, length--;
  }
}

static int same(xvsh_bytes one, xvsh_bytes other) {
  return one.length == other.length && (one.length == 0 || memcmp(one.at, other.at, one.length) == 0);
}

static void seen(const xvsh_answer *answer, uint32_t status) {
  hold(answer->status == status);
  if (status != XVSH_OK) {
    hold(xvsh_fault_name(status).length != 0);
    hold(!answer->out.length && !answer->json.length && !answer->events.length && !answer->block.length);
    hold(status == XVSH_BAD_SUITE || !answer->diag.length);
  }
  if (answer->json.length) hold(memchr(answer->json.at, '\n', answer->json.length) == answer->json.at + answer->json.length - 1);
}

/* A run, its replay, and what it means. */
static void run(const xvsh_task *task, uint32_t order, uint64_t number) {
  xvsh_answer ran = XVSH_ANSWER, again = XVSH_ANSWER, means = XVSH_ANSWER;
  uint32_t status = xvsh_run(task, TURNS, order, number, &ran);
  seen(&ran, status);
  if (status == XVSH_OK) {
    hold(xvsh_replay(task, ran.events, &again) == XVSH_OK && same(ran.out, again.out) && same(ran.diag, again.diag) && same(ran.block, again.block));
    status = xvsh_plain(task, &means);
    if (status == XVSH_OK && means.fine && ran.full == XVSH_ROOMY) hold(same(ran.out, means.out));
  }
  xvsh_answer_free(&ran), xvsh_answer_free(&again), xvsh_answer_free(&means);
}

static void call(const uint8_t *how, const xvsh_task *task) {
  xvsh_answer answer = XVSH_ANSWER;
  uint32_t status = XVSH_OK, order = how[1] % 7;
  uint64_t number = how[2], states = 1 + how[3] % STATES;
  switch (how[0] % 16) {
    case 0: case 1: case 2: run(task, order % 6, number); return;
    case 3: status = xvsh_plain(task, &answer); break;
    case 4: status = xvsh_replay(task, parts[4], &answer); break;
    case 5: status = xvsh_check(task, how[4], &answer); break;
    case 6: status = xvsh_check_turns(task, how[4], &answer); break;
    case 7: status = xvsh_check_room(task, how[4], &answer); break;
    case 8: status = xvsh_explain(task, &answer); break;
    case 9: status = xvsh_explain_why(task, &answer); break;
    case 10: status = xvsh_explore(task, states, how[4] & 1, &answer); break;
    case 11: status = xvsh_grade(task, parts[4], states, how[4] & 1, &answer); break;
    case 12: status = xvsh_look(task, parts[4], &answer); break;
    case 13: status = xvsh_draw(task, 2000, order, number, &answer); break;
    case 14: status = xvsh_draw_two(task, parts[4], parts[5], &answer); break;
    default: status = xvsh_trace(task, 2000, order, number, &answer); break;
  }
  seen(&answer, status);
  xvsh_answer_free(&answer);
}

static void try_bytes(const uint8_t *at, size_t length) {
  if (length < 6) return;
  cut(at + 6, length - 6);
  xvsh_file files[] = { { { (const uint8_t *)"f", 1 }, parts[2] }, { { (const uint8_t *)"g", 1 }, parts[3] } };
  xvsh_task task = { .script = parts[0], .input = parts[1], .files = { files, 2 }, .budget = 1 << 22, .appends = at[5] & 1 };
  call(at, &task);
  for (size_t part = 0; part < PARTS; part++) free((void *)(uintptr_t)parts[part].at);
}

#ifndef __AFL_LOOP
#define __AFL_LOOP(most) (left-- > 0)
static int left = 1;
#endif

int main(void) {
  static uint8_t bytes[MOST];
  while (__AFL_LOOP(1000)) {
    size_t length = 0;
    for (ssize_t got; length < MOST && (got = read(0, bytes + length, MOST - length)) > 0;) length += (size_t)got;
    try_bytes(bytes, length);
  }
  return 0;
}
