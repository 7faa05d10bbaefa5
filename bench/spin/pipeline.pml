/* `echo a | cat | .. | cat` of so many stages, as init, the shell, echo and cat run it (crates/sh_machine/specs/Turn.antt and
   crates/user_progs/specs/Turn.antt): spin -a -o1 -o2 -o3 -DSTAGES=3 pipeline.pml. */

#ifndef STAGES
#define STAGES 2
#endif
#define PIPES  (STAGES - 1)
#define SLOTS  (2 * STAGES + 1)     /* init, the top shell, the one of the line, and two for each pipe */

#include "kernel.pml"

/* `a` and the line's end are bits, since they stand in this order wherever they are. */
#define A       1
#define LF      2

/* What a shell is to run: so many stages, all of them `cat` but in the whole line, or `echo a` alone. */
#define ECHO_A  100
#define LINE    (STAGES == 1 -> ECHO_A : STAGES)
#define LEFT    (what == STAGES -> ECHO_A : 1)
#define RIGHT   (what - 1)
#define IS_PIPE (what > 1 && what != ECHO_A)

mtype:place = {line, left, right};                 /* where a child begins */
mtype:ended = {shell_ended, echo_ended, cat_ended};

byte out;

inline makes_pipe() {
  d_step {
    IS_PIPE;
    fd[3] = READ_END(STAGES - what); held[fd[3]] = 1;
    fd[4] = WRITE_END(STAGES - what); held[fd[4]] = 1
  }
}

inline close(n, then) { d_step { true; lets_go(n); what = then } }

inline dup(n) { d_step { true; lowest_free(); fd[d] = fd[n]; held[fd[d]]++ } }

inline read() {
  d_step {
    content[PIPE(fd[0])] != 0 || held[fd[0] + 1] == 0;
    what = content[PIPE(fd[0])];
    content[PIPE(fd[0])] = 0
  }
}

inline write(guard, text) {
  d_step {
    guard;
    if
    :: fd[1] == OUT -> out = out | text
    :: else -> assert(held[fd[1] - 1] != 0); content[PIPE(fd[1])] = content[PIPE(fd[1])] | text
    fi;
    what = 0
  }
}

active proctype init_process() {
  wait();
  do
  :: wait()
  :: d_step { used == BIT(0); assert(out == (A | LF)) } -> break
  od;
  do :: used == BIT(0) od                                    /* its wait is refused for ever: the end of every run */
}

active proctype top_shell() {
  byte fd[5] = STANDARD;
  byte what = LINE;
  fork(line);
  wait();
  exit(true, shell_ended);
end:
  reaped ? eval(_pid), what
}

active [SLOTS - 2] proctype process() {
  byte fd[5], what;
end_free:
  if
  :: forked ? eval(_pid), line, what, FDS -> goto runs
  :: forked ? eval(_pid), left, what, FDS -> goto left_side
  :: forked ? eval(_pid), right, what, FDS -> goto right_side
  fi;
left_side:
  close(1, LEFT);
  dup(4);
  goto side;
right_side:
  close(0, RIGHT);
  dup(3);
side:
  close(3, what);
  close(4, what);
runs:
  if
  :: makes_pipe() -> goto pipes
  :: exec(what == ECHO_A, 0) -> goto echo
  :: exec(what == 1, 0) -> goto cat
  fi;
pipes:
  fork(left);
  fork(right);
  close(3, 0);
  close(4, 0);
  wait();
  wait();
  exit(true, shell_ended);
  goto end_zombie;
echo:
  write(true, A);
  write(true, LF);
  exit(true, echo_ended);
  goto end_zombie;
cat:
  read();
  do
  :: write(what != 0, what); read()
  :: exit(what == 0, cat_ended); break
  od;
end_zombie:
  reaped ? eval(_pid), what;
  goto end_free
}
