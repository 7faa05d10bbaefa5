//! xv6's shell, its processes and six programs in this process: what the program `xvsh` does, by its library. include/xvsh.h is the manual:
//! it says what each call does, and when each fault comes.
//!
//! ```
//! let told = xvsh::Task::new(b"echo hi | wc").plain()?;
//! assert_eq!(told.out(), b"1 1 3 \n");
//! assert!(told.is_settled());
//! # Ok::<(), xvsh::Error>(())
//! ```
//!
//! A task is lent what it is about; an answer owns its bytes. Both may go to another thread, and any number of calls may run at once: the
//! library has no state. A call needs a stack of 1 MiB at most.
mod answers;
mod border;
mod fault;

pub use answers::{File, Full, Plain, Run, Told};
pub use fault::{Error, Fault, GradeError};

use border::view;
use std::any::Any;
use std::os::raw::c_void;
use std::panic::{self, AssertUnwindSafe};

/// Which process takes the next turn of a run.
#[derive(Clone, Copy, Debug, PartialEq, Eq, Hash)]
pub enum Order {
    /// The one that the kernel chooses.
    Kernel,
    /// Any, drawn by a generator of this seed: one seed, one order, on every machine.
    Drawn(u64),
    /// The one in the lowest slot.
    Lowest,
    /// The one in the highest slot.
    Highest,
    /// The lowest but the one in this slot, from 0 to 63, which waits until no other can run.
    Starving(u64),
    /// The one that took the last turn, as long as it can.
    Eager,
}

impl Order {
    // Its number in xvsh.h, and the number that goes with it.
    fn numbers(self) -> (u32, u64) {
        match self {
            Order::Kernel => (0, 0),
            Order::Drawn(seed) => (1, seed),
            Order::Lowest => (2, 0),
            Order::Highest => (3, 0),
            Order::Starving(slot) => (4, slot),
            Order::Eager => (5, 0),
        }
    }
}

/// What a call is about: a script, its standard input, and its files, no two of one name.
#[derive(Clone, Debug, Default, PartialEq, Eq)]
pub struct Task<'a> {
    script: &'a [u8],
    input: &'a [u8],
    files: Vec<(&'a [u8], &'a [u8])>,
    budget: u64,
    appends: bool,
}

impl<'a> Task<'a> {
    /// A task of a script, with no input and no file.
    pub fn new<S: AsRef<[u8]> + ?Sized>(script: &'a S) -> Task<'a> {
        Task { script: script.as_ref(), ..Task::default() }
    }

    /// With this standard input.
    pub fn input<S: AsRef<[u8]> + ?Sized>(mut self, input: &'a S) -> Task<'a> {
        self.input = input.as_ref();
        self
    }

    /// With this file, too.
    pub fn file<N: AsRef<[u8]> + ?Sized, S: AsRef<[u8]> + ?Sized>(mut self, name: &'a N, bytes: &'a S) -> Task<'a> {
        self.files.push((name.as_ref(), bytes.as_ref()));
        self
    }

    /// With so many bytes of memory at most that the run of `plain` may ask for in all; 0: no bound.
    pub fn budget(mut self, bytes: u64) -> Task<'a> {
        self.budget = bytes;
        self
    }

    /// Where `>>` appends; else it writes over a file from its beginning, as xv6's does.
    pub fn appending(mut self) -> Task<'a> {
        self.appends = true;
        self
    }

    // Hands the task to a call, and returns its status and what it left in an answer.
    fn hand(&self, call: impl FnOnce(*const border::Task, *mut border::Answer) -> u32) -> (u32, border::Answer) {
        let rows: Vec<border::File> = self.files.iter().map(|it| border::File { name: view(it.0), bytes: view(it.1) }).collect();
        let task = border::Task {
            script: view(self.script),
            input: view(self.input),
            files: rows.as_ptr(),
            count: rows.len(),
            budget: self.budget,
            appends: self.appends.into(),
        };
        let mut answer = border::Answer::new();
        (call(&task, &mut answer), answer)
    }

    // Hands it so, and returns the answer, or the fault.
    fn ask(&self, call: impl FnOnce(*const border::Task, *mut border::Answer) -> u32) -> Result<border::Answer, Error> {
        match self.hand(call) {
            (0, answer) => Ok(answer),
            (status, answer) => Err(Error { fault: Fault::of(status), place: answer.place }),
        }
    }

    /// Runs the script by its meaning: each pipe's left side to its end before its right side starts.
    pub fn plain(&self) -> Result<Plain, Error> {
        self.ask(|task, answer| unsafe { border::xvsh_plain(task, answer) }).map(Plain)
    }

    /// Runs it by its processes on one hart, in at most so many events, from 1 to 1,000,000,000, and in this order.
    pub fn run(&self, turns: u64, order: Order) -> Result<Run, Error> {
        let (order, number) = order.numbers();
        self.ask(|task, answer| unsafe { border::xvsh_run(task, turns, order, number, answer) }).map(Run)
    }

    /// Runs it so, and gives for its events the lines of its trace.
    pub fn trace(&self, turns: u64, order: Order) -> Result<Run, Error> {
        let (order, number) = order.numbers();
        self.ask(|task, answer| unsafe { border::xvsh_trace(task, turns, order, number, answer) }).map(Run)
    }

    /// Runs it so, and gives for its events a page of HTML that draws the run.
    pub fn draw(&self, turns: u64, order: Order) -> Result<Run, Error> {
        let (order, number) = order.numbers();
        self.ask(|task, answer| unsafe { border::xvsh_draw(task, turns, order, number, answer) }).map(Run)
    }

    /// Runs it by the events of two schedules, and gives what the first run leaves, and for its events a page of HTML that draws both runs.
    pub fn draw_two(&self, schedule: &[u8], other: &[u8]) -> Result<Run, Error> {
        self.ask(|task, answer| unsafe { border::xvsh_draw_two(task, view(schedule), view(other), answer) }).map(Run)
    }

    /// Runs it as `run` does, and gives for its events the picture of the run alone, in SVG.
    pub fn draw_svg(&self, turns: u64, order: Order) -> Result<Run, Error> {
        let (order, number) = order.numbers();
        self.ask(|task, answer| unsafe { border::xvsh_draw_svg(task, turns, order, number, answer) }).map(Run)
    }

    /// Runs it by the events of two schedules, and gives what the first run leaves, and for its events the picture of both runs, in SVG.
    pub fn draw_two_svg(&self, schedule: &[u8], other: &[u8]) -> Result<Run, Error> {
        self.ask(|task, answer| unsafe { border::xvsh_draw_two_svg(task, view(schedule), view(other), answer) }).map(Run)
    }

    /// Runs it by the events of a schedule of one to eight harts: a run's, or any other.
    pub fn replay(&self, schedule: &[u8]) -> Result<Run, Error> {
        self.ask(|task, answer| unsafe { border::xvsh_replay(task, view(schedule), answer) }).map(Run)
    }

    /// Checks the lines of the script, strictly or not.
    pub fn check(&self, is_strict: bool) -> Result<Told, Error> {
        self.ask(|task, answer| unsafe { border::xvsh_check(task, is_strict.into(), answer) }).map(Told)
    }

    /// Checks them, and tells in how many turns a run is finished, whatever the order of its processes.
    pub fn check_turns(&self, is_strict: bool) -> Result<Told, Error> {
        self.ask(|task, answer| unsafe { border::xvsh_check_turns(task, is_strict.into(), answer) }).map(Told)
    }

    /// Checks them, and tells how much of xv6's tables a run may need at most, whatever the order of its processes.
    pub fn check_room(&self, is_strict: bool) -> Result<Told, Error> {
        self.ask(|task, answer| unsafe { border::xvsh_check_room(task, is_strict.into(), answer) }).map(Told)
    }

    /// Tells in sentences what is wrong or unexpected in the lines of the script.
    pub fn explain(&self) -> Result<Told, Error> {
        self.ask(|task, answer| unsafe { border::xvsh_explain(task, answer) }).map(Told)
    }

    /// Tells that, which names no file has, and why the script isn't settled on its files and its input.
    pub fn explain_why(&self) -> Result<Told, Error> {
        self.ask(|task, answer| unsafe { border::xvsh_explain_why(task, answer) }).map(Told)
    }

    /// Tries every order of the script's processes, of at most so many states of the kernel, from 1 to 10,000,000; thoroughly that of a
    /// settled script too.
    pub fn explore(&self, states: u64, is_thorough: bool) -> Result<Told, Error> {
        self.ask(|task, answer| unsafe { border::xvsh_explore(task, states, is_thorough.into(), answer) }).map(Told)
    }

    /// Explores so, and asks meanwhile, every 1,024 requests for memory and with the number of these so far, whether to go on. Where the answer
    /// is false, the call is given up, and its fault is `GivenUp`; where asking panics, the call is given up first.
    pub fn explore_watched<F: FnMut(u64) -> bool>(&self, states: u64, is_thorough: bool, goes_on: F) -> Result<Told, Error> {
        let mut asked = Asked { goes_on, panicked: None };
        let watch = border::Watch { goes_on: ask_to_go_on::<F>, context: (&mut asked as *mut Asked<F>).cast() };
        let told = self.ask(|task, answer| unsafe { border::xvsh_explore_watched(task, states, is_thorough.into(), &watch, answer) });
        if let Some(panicked) = asked.panicked {
            panic::resume_unwind(panicked);
        }
        told.map(Told)
    }

    /// Grades the script by the tests of a suite, a text of TOML that names the task's files by its paths, as `xvsh grade --json`. Each test
    /// tries orders through at most so many states, where these are not 0. Alone, each test of the suite has a script of its own, and the
    /// task's isn't looked at. Neither are its input and whether `>>` appends.
    pub fn grade<S: AsRef<[u8]> + ?Sized>(&self, suite: &S, states: u64, is_alone: bool) -> Result<Told, GradeError> {
        match self.hand(|task, answer| unsafe { border::xvsh_grade(task, view(suite.as_ref()), states, is_alone.into(), answer) }) {
            (0, answer) => Ok(Told(answer)),
            (status, answer) => Err(GradeError {
                error: Error { fault: Fault::of(status), place: answer.place },
                said: String::from_utf8_lossy(unsafe { answer.diag.bytes() }).into_owned(),
            }),
        }
    }

    /// Tells how a run stands after the events of a schedule, which need not be those of a whole run.
    pub fn look(&self, schedule: &[u8]) -> Result<Told, Error> {
        self.ask(|task, answer| unsafe { border::xvsh_look(task, view(schedule), answer) }).map(Told)
    }
}

// Who is asked, and what it panicked with.
struct Asked<F> {
    goes_on: F,
    panicked: Option<Box<dyn Any + Send>>,
}

// Asks whether to go on. No panic passes the library.
unsafe extern "C" fn ask_to_go_on<F: FnMut(u64) -> bool>(context: *mut c_void, requests: u64) -> u32 {
    // the context of a call is lent to nobody else while it runs
    let asked = &mut *context.cast::<Asked<F>>();
    match panic::catch_unwind(AssertUnwindSafe(|| (asked.goes_on)(requests))) {
        Ok(goes_on) => goes_on.into(),
        Err(panicked) => {
            asked.panicked = Some(panicked);
            0
        }
    }
}

/// The version of the library: 1,000,000 times the first number, 1,000 times the second, and the third.
pub fn version_number() -> u32 {
    unsafe { border::xvsh_version_number() }
}
