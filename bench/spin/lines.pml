/* So many lines `echo X &`, each with a letter of its own, as init, the shell and echo run them (crates/sh_machine/specs/Turn.antt and
   crates/user_progs/specs/Turn.antt): spin -a -o1 -o2 -o3 -DLINES=2 lines.pml. */

#ifndef LINES
#define LINES 2
#endif
#define PIPES  0
#define SLOTS  (LINES + 3)          /* init, the top shell, an echo for each line, and the shell of the line that is waited for */

#include "kernel.pml"

#define LF  255

mtype:place = {line, body};         /* where a child begins */
mtype:ended = {shell_ended, echo_ended};

byte out[2 * LINES], written;

/* The number of its line, from 1, stands for a letter. */
inline write(text) {
  d_step { true; out[written] = text; written++; what = 0 }
}

active proctype init_process() {
  wait();
  do
  :: wait()
  :: d_step { used == BIT(0); assert(out[2 * LINES - 1] == LF) } -> break
  od;
  do :: used == BIT(0) od           /* its wait is refused for ever: the end of every run */
}

active proctype top_shell() {
  byte fd[5] = STANDARD;
  byte what;
  do
  :: atomic { what < LINES; what++; fork(line) }; wait()
  :: exit(what == LINES, shell_ended); break
  od;
end:
  reaped ? eval(_pid), what
}

active [SLOTS - 2] proctype process() {
  byte fd[5], what;
end_free:
  if
  :: forked ? eval(_pid), line, what, FDS -> goto runs
  :: forked ? eval(_pid), body, what, FDS -> goto becomes_echo
  fi;
runs:
  fork(body);
  exit(true, shell_ended);
  goto end_zombie;
becomes_echo:
  exec(true, what);
  write(what);
  write(LF);
  exit(true, echo_ended);
end_zombie:
  reaped ? eval(_pid), what;
  goto end_free
}
