/* xvsh.h: xv6's shell, its processes and six programs, as a library. Version 0.3.0.
 *
 * Each call below does what a command of the program `xvsh` does, on bytes in memory; docs/LIBRARY.md says what is proved of each.
 * What is not proved: this header and the functions of bindings/c, which see to null pointers, hand a task to what is proved, and are the
 * heap under it, over malloc, realloc and free; the compiler; and that a caller keeps the rules that follow.
 *
 * What nothing checks:
 *  - A length counts the bytes that lie at its pointer, or the rows. Where the length is 0 the pointer may be null.
 *  - What is lent for a call (a task, all that it points to, a schedule, a suite) is written by nobody while the call runs, and shares no
 *    byte with the answer.
 *  - An answer was begun by XVSH_ANSWER, is all zeroes, or is one that an earlier call filled, and no other call writes it at the same time.
 *
 * Who owns what. A task and what it points to stay the caller's; a call keeps none of it. The bytes of an answer are the caller's
 * from the call's return until xvsh_answer_free; each call of this header frees first what its answer held. They lie in memory of
 * malloc. Nothing is kept between calls: a session is its schedule, which the caller holds.
 *
 * Null. Of a pair of a pointer and a length, a null of length 0 is as no bytes. Any other null is the fault XVSH_NULL: one in a pair, a
 * null task, and a null answer, in which nothing can be told. xvsh_answer_free of a null does nothing, and xvsh_next_file of one is false.
 *
 * Threads. The library has no state, starts no thread, takes no lock, and reads no file, clock or environment. Any number of calls
 * may run at once, each on an answer of its own. No call from a signal handler, and none in the child of a fork of a process that
 * has threads. A call needs a stack of 1 MiB at most: it grows with how deeply the parentheses of a line of 511 bytes are nested.
 *
 * Faults. A call returns 0, or the number of a fault: then the answer has that number as `status`, what it is about as `place`, and
 * nothing else, but for XVSH_BAD_SUITE, which has `diag`. xvsh_fault_name and xvsh_fault_text have the name and the text of a number. A
 * number is never given to another fault; new ones may come, so have a default. No call aborts, and each returns: xvsh_run, xvsh_trace and
 * the drawings of one run take at most `turns` events, xvsh_replay, xvsh_look and the drawings of two runs those of the schedules,
 * xvsh_explore finds at most `states` states, and so does xvsh_grade of each test, and xvsh_plain asks for at most the task's budget of
 * memory, where it has one. The checks and xvsh_explain run nothing; xvsh_explain_why runs the script by its meaning.
 *
 * Versions. xvsh_version_number() is 1,000,000 times the first number, 1,000 times the second, and the third. As long as the first is 0,
 * the shared library's soname has the first and the second, now libxvsh.so.0.3, and else the first alone. Under one soname these never
 * change: the size of a struct and the place of each of its members, what a function takes and gives, and the number of a fault, of an
 * order and of what was full. These may come, with the third number: functions, faults, and what else can be full; members of an object
 * of JSON may come at any time. A program that was linked to the library runs with each later one of its soname. One that
 * loads it by itself compares xvsh_version_number() / 1000 with XVSH_VERSION / 1000 as long as the first number is 0.
 *
 * Everything here is a function of the library, and nothing else is exported by the shared one.
 */
#ifndef XVSH_H
#define XVSH_H
#include <stdbool.h>
#include <stddef.h>
#include <stdint.h>
#ifdef __cplusplus
extern "C" {
#endif

#define XVSH_VERSION_MAJOR 0
#define XVSH_VERSION_MINOR 3
#define XVSH_VERSION_PATCH 0
#define XVSH_VERSION 3000u             /* 1,000,000 * 0 + 1,000 * 3 + 0 */

/* Limits. What passes one is a fault. */
#define XVSH_MAX_SCRIPT 1048576u       /* bytes of a script */
#define XVSH_MAX_INPUT 1048576u        /* bytes of a standard input */
#define XVSH_MAX_LINE 511u             /* bytes of a line of a script, before its LF */
#define XVSH_MAX_FILES 200u            /* files at once */
#define XVSH_MAX_FILE 274432u          /* bytes of a file */
#define XVSH_MAX_NAME 14u              /* bytes of a file's name, which has at least one, and none that is 0 or '/' */
#define XVSH_MAX_TURNS 1000000000u     /* events of a run */
#define XVSH_MAX_STATES 10000000u      /* states of the kernel that an exploration keeps */
#define XVSH_MAX_SUITE 1048576u        /* bytes of a suite */

/* Bytes, which need not end in 0. */
typedef struct { const uint8_t *at; size_t length; } xvsh_bytes;

/* A file of a task. */
typedef struct { xvsh_bytes name, bytes; } xvsh_file;
typedef struct { const xvsh_file *at; size_t length; } xvsh_files;

/* What a call is about: a script, its standard input, and its files, no two of one name. */
typedef struct {
  xvsh_bytes script, input;
  xvsh_files files;
  uint64_t budget;   /* the most bytes of memory that the run of xvsh_plain may ask for in all, counting none that it gives back;
                        0: no such bound. The answer comes on top, and is no longer than what the run held. It bounds no other
                        call: an exploration is bounded by its states, and any other run by its turns */
  uint32_t appends;  /* 0: `>>` writes over a file from its beginning, as xv6's does; else it appends */
} xvsh_task;

/* Faults. Those up to 63 have the numbers and names of docs/FORMATS.md. */
typedef enum {
  XVSH_OK = 0,
  XVSH_TOO_LONG = 2,          /* a file has too many bytes; place: the file of the task, from 1 */
  XVSH_LINE_TOO_LONG = 3,     /* place: the line of the script, from 1 */
  XVSH_BYTE_ZERO = 4,         /* a line holds a byte 0; place: the line of the script, from 1 */
  XVSH_BAD_NAME = 5,          /* no file of a script can have that name; place: the file, from 1 */
  XVSH_TOO_MANY_FILES = 6,    /* place: the file, from 1 */
  XVSH_TOO_LARGE = 7,         /* the script makes a file too large, or one too many; of xvsh_explore: a run has more turns than can
                                 be counted */
  XVSH_MEMORY = 8,            /* memory was refused, or the budget is spent */
  XVSH_SPENT = 9,             /* the turns are over, and the run isn't finished */
  XVSH_NO_EVENT = 10,         /* a line of the schedule is no event; place: the line, from 1 */
  XVSH_NOT_RUNNABLE = 11,     /* an event dispatches what can't be dispatched; place: the event, from 1 */
  XVSH_NOT_RUNNING = 12,      /* an event is a call of a process that isn't running there; place: the event, from 1 */
  XVSH_UNFINISHED = 13,       /* all events took place, and the run isn't finished */
  XVSH_TAKEN_NAME = 15,       /* a file before it has its name; place: the file, from 1 */
  XVSH_SCRIPT_TOO_LONG = 64,
  XVSH_INPUT_TOO_LONG = 65,
  XVSH_BAD_TURNS = 66,        /* 0, or more than XVSH_MAX_TURNS */
  XVSH_BAD_ORDER = 67,        /* no xvsh_order */
  XVSH_BAD_STATES = 68,       /* 0, or more than XVSH_MAX_STATES */
  XVSH_NULL = 69,             /* a null pointer with a length other than 0; a null task, or a null answer */
  XVSH_GIVEN_UP = 70,         /* the watch of the call had it given up */
  XVSH_BAD_SUITE = 71,        /* the suite is wrong, or names a file that isn't there or is too long; place: the line of the suite, from 1;
                                 diag: what is wrong with it, as `xvsh grade` says it behind the line */
  XVSH_SUITE_TOO_LONG = 72,
  XVSH_UNUSED_SCRIPT = 73,    /* each test of the suite has a script of its own, and the suite isn't alone */
  XVSH_EVERY_WAY = 74         /* a test is to run in every way, which takes threads; place: the test, from 1 */
} xvsh_status;

/* Which process takes the next turn of a run. */
typedef enum {
  XVSH_KERNEL = 0,    /* the one that the kernel chooses */
  XVSH_DRAWN = 1,     /* any, drawn by a generator that `number` seeds: one number, one order, on every machine */
  XVSH_LOWEST = 2,    /* the one in the lowest slot */
  XVSH_HIGHEST = 3,   /* the one in the highest slot */
  XVSH_STARVING = 4,  /* the lowest but the one in slot `number`, which waits until no other can run */
  XVSH_EAGER = 5      /* the one that took the last turn, as long as it can */
} xvsh_order;

/* What was full first in a run. */
typedef enum { XVSH_ROOMY, XVSH_PROCS, XVSH_OPEN, XVSH_DESCRIPTORS, XVSH_FILES, XVSH_SIZE, XVSH_HEAP } xvsh_full;

/* How long a file's name and bytes are, and 1 where the file is soft: the left side of a pipe writes it whose right side may stop before it has
 * read all. Of a settled script no other file depends on the order of processes; of one that isn't settled, of which every file may, this says
 * nothing of the others. It is known of xvsh_plain alone, and else 0. */
typedef struct { size_t name, bytes; uint32_t soft; } xvsh_sizes;
typedef struct { const xvsh_sizes *at; size_t length; } xvsh_table;

/* What a call gives. What a call doesn't speak of is empty or 0. A call that is watched gives what it gives unwatched. */
typedef struct {
  xvsh_bytes out;      /* the standard output */
  xvsh_bytes diag;     /* the diagnostics of a run; of XVSH_BAD_SUITE what is wrong */
  xvsh_bytes events;   /* of a run a line an event: `D HART PROCESS` or `T HART PROCESS`; of xvsh_trace the lines of the trace, of xvsh_draw
                          and xvsh_draw_two the page, of xvsh_draw_svg and xvsh_draw_two_svg the picture */
  xvsh_bytes json;     /* an object of JSON, and LF: of xvsh_check, xvsh_check_turns, xvsh_check_room, xvsh_explain, xvsh_explain_why,
                          xvsh_explore, xvsh_look and xvsh_grade */
  xvsh_bytes block;    /* the files at the end, in byte order of their names: of each its name, and behind it its bytes */
  xvsh_table sizes;    /* how long these are: a row a file; xvsh_next_file walks them */
  uint64_t place;      /* what a fault is about, or 0 */
  uint32_t status;     /* XVSH_OK, or the fault */
  uint32_t full;       /* an xvsh_full */
  uint32_t fine;       /* xvsh_plain: 1 where the script is settled; xvsh_check and xvsh_check_turns: where no line holds a `&` or a clash, or
                          strictly is no command; xvsh_check_room: where moreover there is room for it; xvsh_explain and xvsh_explain_why:
                          where there is nothing to tell; xvsh_explore: where all outcomes have one output and one set of files;
                          xvsh_look: where the run is finished; xvsh_grade: where every test was passed */
  uint32_t whole;      /* xvsh_explore: 1 where every order was tried, or what it leaves is known without */
} xvsh_answer;

/* Used below: a pointer to bytes or rows as one to another type. */
#ifdef __cplusplus
#define XVSH_AT_(type, at) (static_cast<const type *>(static_cast<const void *>(at)))
#else
#define XVSH_AT_(type, at) ((const type *)(const void *)(at))
#endif

#define XVSH_NO_BYTES { XVSH_AT_(uint8_t, ""), 0 }
#define XVSH_NO_FILES { XVSH_AT_(xvsh_file, ""), 0 }
#define XVSH_ANSWER { XVSH_NO_BYTES, XVSH_NO_BYTES, XVSH_NO_BYTES, XVSH_NO_BYTES, XVSH_NO_BYTES, \
                      { XVSH_AT_(xvsh_sizes, ""), 0 }, 0, 0, 0, 0, 0 }

/* The version of the library that runs. xvsh_version is the same. */
uint32_t xvsh_version_number(void);
uint32_t xvsh_version(void);

/* The bytes of a C string without its 0; of a null none. */
xvsh_bytes xvsh_text(const char *text);

/* Frees what an answer holds, and begins it anew. */
void xvsh_answer_free(xvsh_answer *answer);

/* A fault's name, as "LineTooLong"; no bytes for a number that is none. The bytes are the library's, for ever. */
xvsh_bytes xvsh_fault_name(uint32_t number);

/* A fault's text, as "a line has more than 511 bytes". */
xvsh_bytes xvsh_fault_text(uint32_t number);

/* A file of an answer; soft as in xvsh_sizes. */
typedef struct { xvsh_bytes name, bytes; bool soft; size_t next, from; } xvsh_left;

/* Walks the files of an answer: begin with an xvsh_left that is all 0, and go on while it returns true. */
bool xvsh_next_file(const xvsh_answer *answer, xvsh_left *left);

/* Runs the script by its meaning: each pipe's left side to its end before its right side starts. Gives out, the files, and whether
 * the script is settled (fine): then no order of its processes changes any of it, soft files left out. */
uint32_t xvsh_plain(const xvsh_task *task, xvsh_answer *answer);

/* Runs the script by its processes on one hart, in at most `turns` events, from 1 to XVSH_MAX_TURNS, and in this xvsh_order, whose
 * `number` is 0 where it needs none. Gives out, diag, the files, the events, and what was full. */
uint32_t xvsh_run(const xvsh_task *task, uint64_t turns, uint32_t order, uint64_t number, xvsh_answer *answer);

/* Runs it by the events of a schedule of one to eight harts: a run's, or any other. Gives what xvsh_run gives. */
uint32_t xvsh_replay(const xvsh_task *task, xvsh_bytes schedule, xvsh_answer *answer);

/* Checks the lines of the script, as `xvsh check --json`. Gives that object (docs/FORMATS.md) as json, and fine where no line holds a
 * `&` or a clash; with `strict` other than 0 only where each line is a command too. Nothing is run: neither the input nor the files
 * are looked at. */
uint32_t xvsh_check(const xvsh_task *task, uint32_t strict, xvsh_answer *answer);

/* Checks the same, and tells in how many turns a run by its processes is finished, whatever their order, on this input and these files: as
 * `xvsh check --turns --json`, whose object it gives as json. Fine is as of xvsh_check. */
uint32_t xvsh_check_turns(const xvsh_task *task, uint32_t strict, xvsh_answer *answer);

/* Checks the same, and tells how many processes, open files, descriptors, files and bytes in a file it may need at most, whatever the order
 * of its processes, on this input and these files, and with which line first that is more than xv6 has: as `xvsh check --room --json`,
 * whose object it gives as json. Fine where the lines are, and there is room for it. */
uint32_t xvsh_check_room(const xvsh_task *task, uint32_t strict, xvsh_answer *answer);

/* Tells in sentences what is wrong or unexpected in the lines of the script, as `xvsh explain --json`. Gives that object as json, and
 * fine where no line has a note and none may need more processes, open files or descriptors than there are. Nothing is run, as with xvsh_check. */
uint32_t xvsh_explain(const xvsh_task *task, xvsh_answer *answer);

/* Tells the same, which names no file has when a line uses them, and each reason why the script isn't settled on this input and these
 * files: as `xvsh explain --why --json`, whose object it gives as json. Fine where there is none of all that. The script is run by its
 * meaning to find that out, so XVSH_TOO_LARGE is a fault of it; the task's budget doesn't bound that run. */
uint32_t xvsh_explain_why(const xvsh_task *task, xvsh_answer *answer);

/* Tries every order of the script's processes, as `xvsh explore --json`, of at most `states` states of the kernel, from 1 to
 * XVSH_MAX_STATES, for each of which memory is kept. A settled script none of whose files is soft has one outcome, and is explored
 * only with `thorough` other than 0. Gives that object as json, fine where all outcomes that were found have one output and one set of
 * files, and whole where every order was tried, or what it leaves is known without. Where something was full, or some order never ends,
 * the object's `status` and `code` say so. */
uint32_t xvsh_explore(const xvsh_task *task, uint64_t states, uint32_t thorough, xvsh_answer *answer);

/* Who is asked whether a call is to go on, in the thread of the call: every XVSH_REQUESTS_A_LOOK requests for memory that the call makes,
 * with their number so far. Where it returns 0 the call is given up. It may make calls of its own. */
typedef struct { uint32_t (*goes_on)(void *context, uint64_t requests); void *context; } xvsh_watch;
#define XVSH_REQUESTS_A_LOOK 1024u

/* Explores as xvsh_explore does, and asks the watch meanwhile; as that call where the watch, or its function, is null. A call that is given
 * up is refused all memory from then on, frees what it holds, and returns XVSH_GIVEN_UP. */
uint32_t xvsh_explore_watched(const xvsh_task *task, uint64_t states, uint32_t thorough, const xvsh_watch *watch, xvsh_answer *answer);

/* Grades the script by the tests of a suite, a text of TOML (docs/GRADING.md), as `xvsh grade --json SUITE SCRIPT` with one job does, where the
 * script is at `-`: gives that object as json, and fine where every test was passed. A test that has a script of its own is run on that. With
 * `alone` other than 0 each must have one, and the task's script isn't looked at, as without a SCRIPT. `states` other than 0 is an upper bound
 * on the states of each test, as --states. Input and what `>>` means are those of each test: the task's aren't looked at.
 *
 * A path that stands in the suite, as of input_file, names the task's file of exactly that name, and of two the first; such a name may have
 * any length, and such a file the bytes that its use may have. No test may ask for every_way, which takes threads. A test to whose judging
 * memory is refused isn't told as `not judged`: the call is refused with XVSH_MEMORY. */
uint32_t xvsh_grade(const xvsh_task *task, xvsh_bytes suite, uint64_t states, uint32_t alone, xvsh_answer *answer);

/* Grades as xvsh_grade does, and asks the watch meanwhile, as xvsh_explore_watched does. */
uint32_t xvsh_grade_watched(const xvsh_task *task, xvsh_bytes suite, uint64_t states, uint32_t alone, const xvsh_watch *watch, xvsh_answer *answer);

/* Runs the script as xvsh_run does, and gives what that gives, but for events the lines of the run's trace, as `xvsh run --trace`
 * writes them: each an object of JSON and LF (docs/FORMATS.md). A trace has some 200 bytes an event, and more where files are long. */
uint32_t xvsh_trace(const xvsh_task *task, uint64_t turns, uint32_t order, uint64_t number, xvsh_answer *answer);

/* Runs the script as xvsh_run does, and gives what that gives, but for events a page of HTML that draws the run, as `xvsh draw` writes it of
 * the run's trace: it needs nothing from elsewhere. */
uint32_t xvsh_draw(const xvsh_task *task, uint64_t turns, uint32_t order, uint64_t number, xvsh_answer *answer);

/* Runs the script by the events of two schedules, each as xvsh_replay does, and gives what that gives of the first, but for events a page of
 * HTML that draws both runs, as `xvsh draw` writes it of their two traces: where they part, and once what both begin with. A fault is of the
 * first schedule, or where that can be replayed of the other. */
uint32_t xvsh_draw_two(const xvsh_task *task, xvsh_bytes schedule, xvsh_bytes other, xvsh_answer *answer);

/* Runs the script as xvsh_run does, and gives what that gives, but for events the picture of the run alone, in SVG, as `xvsh draw --svg` writes it
 * of the run's trace: a document that stands alone, in UTF-8, 1,376 pixels wide, in light colours or where the reader prefers them in dark ones. */
uint32_t xvsh_draw_svg(const xvsh_task *task, uint64_t turns, uint32_t order, uint64_t number, xvsh_answer *answer);

/* Runs the script by the events of two schedules as xvsh_draw_two does, with the same faults, and gives for events the picture of both runs. */
uint32_t xvsh_draw_two_svg(const xvsh_task *task, xvsh_bytes schedule, xvsh_bytes other, xvsh_answer *answer);

/* Tells how a run stands after the events of a schedule, which need not be those of a whole run: a session is such a schedule, which
 * grows. Gives as json an object of `stands`, which is "runnable", "finished", or "stuck" where the run isn't finished and nobody can
 * take a turn, and of `ps`, `pipes`, `files` and `out`, each the object that `xvsh step --json` answers to that command; and fine where
 * the run is finished. A process that is running on a hart, which hasn't made its call yet, is told as runnable. */
uint32_t xvsh_look(const xvsh_task *task, xvsh_bytes schedule, xvsh_answer *answer);

#ifdef __cplusplus
}
#endif
#endif
