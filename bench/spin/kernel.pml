/* A kernel as this repository defines it (crates/kernel_model/specs): its state, and its system calls, each of them one step. The programs
   that make these calls are in pipeline.pml and lines.pml, and bench/explore counts their states, which are those of explore --full.
   SPIN has to be told -o1 -o2 -o3: else it drops what is only written, as the output, and makes one step of two.

   A slot of the table of processes is a Promela process, whose _pid is the slot's number. Where it stands in its program is what it did last
   and how that was answered, so two such places are kept apart even if the next call is the same, as they are where explore keeps states.
   A free slot waits to be forked, and a zombie to be reaped, each at a label that begins with `end`. A call that would sleep can't be made: it
   waits until it can, and so a state in which all sleep is an invalid end state. Other than in the definitions
   - there are no harts, no code between two calls, and nobody is woken: who sleeps is seen from what there is to read or to reap;
   - an entry is named by what it has open, so no two states differ in the numbers of entries alone; explore renumbers entries;
   - nothing is ever full: there are as many slots, entries and descriptors as the script needs, and no pipe holds more than a line. */

/* What descriptors can have open. Of the pipes, counted from 0, each has two ends, one after the other. */
#define CLOSED        0
#define INPUT         1
#define OUT           2
#define DIAG          3
#define READ_END(n)   (4 + 2 * (n))
#define WRITE_END(n)  (5 + 2 * (n))
#define PIPE(entry)   ((entry) / 2 - 2)

#define BIT(slot)     (1 << (slot))

short used = BIT(0) | BIT(1);                            /* the slots that aren't free: at first those of init and the top shell */
byte parent[SLOTS];                                      /* init is the parent of the top shell */
short dead[SLOTS];                                       /* which children of each process are zombies */
byte held[READ_END(PIPES) + 1] = {0, 1, 1, 1, 0};        /* how many descriptors have it open: at first the top shell's three */
byte content[PIPES + 1];                                 /* what is in each pipe, as the script's programs write it */

chan forked = [0] of {byte, byte, byte, byte, byte, byte, byte, byte};    /* to this slot: where it begins, `what`, and its descriptors */
chan reaped = [0] of {byte, byte};                                        /* to this slot: 0 for `what` */
hidden byte slot, d;                                     /* used inside of a step only */

/* Each process has five descriptors, `fd`, and `what` its program keeps from one call to the next. */
#define FDS       fd[0], fd[1], fd[2], fd[3], fd[4]
#define STANDARD  {INPUT, OUT, DIAG, CLOSED, CLOSED}

inline lowest_free() {
  d = 0;
  do :: fd[d] != CLOSED -> d++ :: else -> break od
}

inline lets_go(n) {
  if :: fd[n] != CLOSED -> held[fd[n]]--; fd[n] = CLOSED :: else fi
}

/* The calls. What the caller keeps after a call is `then`. */

inline fork(begin) {
  atomic {
    d_step {
      slot = 0;
      do :: used & BIT(slot) -> slot++ :: else -> break od;
      used = used | BIT(slot);
      parent[slot] = _pid;
      d = 0;
      do :: d < 5 -> if :: fd[d] != CLOSED -> held[fd[d]]++ :: else fi; d++ :: else -> break od
    };
    forked ! slot, begin, what, FDS
  }
}

inline wait() {
  atomic {
    dead[_pid] != 0;
    d_step {
      slot = 0;
      do :: dead[_pid] & BIT(slot) -> break :: else -> slot++ od;
      dead[_pid] = dead[_pid] & ~BIT(slot);
      used = used & ~BIT(slot);
      parent[slot] = 0
    };
    reaped ! slot, 0
  }
}

/* Where a program begins is where the caller goes on. */
inline exec(guard, then) { d_step { guard; what = then } }

/* A zombie is still told apart by its program, here by `last`. */
inline exit(guard, last) {
  d_step {
    guard;
    d = 0;
    do :: d < 5 -> lets_go(d); d++ :: else -> break od;
    slot = 0;
    do :: slot < SLOTS -> if :: parent[slot] == _pid -> parent[slot] = 0 :: else fi; slot++ :: else -> break od;
    dead[0] = dead[0] | dead[_pid];
    dead[_pid] = 0;
    dead[parent[_pid]] = dead[parent[_pid]] | BIT(_pid);
    what = last
  }
}
