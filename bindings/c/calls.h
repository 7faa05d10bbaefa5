/* The calls that crates/xvsh_c exports, as they are: no pointer is null, and the answer holds nothing. bindings/c/xvsh.c hands them what a
 * caller gave. They are none of the library's: the shared one hides them. */
#ifndef XVSH_CALLS_H
#define XVSH_CALLS_H
#include "xvsh.h"

void xvsh_fault_call(uint32_t number, xvsh_bytes *words);
void xvsh_plain_call(const xvsh_task *task, xvsh_answer *answer);
void xvsh_run_call(const xvsh_task *task, uint64_t turns, uint32_t order, uint64_t number, xvsh_answer *answer);
void xvsh_replay_call(const xvsh_task *task, const uint8_t *schedule, size_t length, xvsh_answer *answer);
void xvsh_check_call(const xvsh_task *task, uint32_t strict, xvsh_answer *answer);
void xvsh_check_turns_call(const xvsh_task *task, uint32_t strict, xvsh_answer *answer);
void xvsh_check_room_call(const xvsh_task *task, uint32_t strict, xvsh_answer *answer);
void xvsh_explain_call(const xvsh_task *task, xvsh_answer *answer);
void xvsh_explain_why_call(const xvsh_task *task, xvsh_answer *answer);
void xvsh_explore_call(const xvsh_task *task, uint64_t states, uint32_t thorough, xvsh_answer *answer);
void xvsh_trace_call(const xvsh_task *task, uint64_t turns, uint32_t order, uint64_t number, xvsh_answer *answer);
void xvsh_draw_call(const xvsh_task *task, uint64_t turns, uint32_t order, uint64_t number, xvsh_answer *answer);
void xvsh_draw_two_call(const xvsh_task *task, const uint8_t *one, size_t one_length, const uint8_t *other, size_t other_length, xvsh_answer *answer);
void xvsh_draw_svg_call(const xvsh_task *task, uint64_t turns, uint32_t order, uint64_t number, xvsh_answer *answer);
void xvsh_draw_two_svg_call(const xvsh_task *task, const uint8_t *one, size_t one_length, const uint8_t *other, size_t other_length, xvsh_answer *answer);
void xvsh_grade_call(const xvsh_task *task, const uint8_t *suite, size_t length, uint64_t states, uint32_t alone, xvsh_answer *answer);
void xvsh_look_call(const xvsh_task *task, const uint8_t *schedule, size_t length, xvsh_answer *answer);

/* A watched call, how many requests for memory it made, and whether it is given up. */
typedef struct { const xvsh_watch *watch; uint64_t requests; bool is_over; } xvsh_watched_call;

/* The one that this thread is in, or a null. Hidden, and at a fixed place of the thread's, so that a request for memory costs a look. */
extern _Thread_local xvsh_watched_call *xvsh_watched_now __attribute__((visibility("hidden"), tls_model("initial-exec")));

#endif
