//! The structs and the functions of include/xvsh.h, as they are.
use std::os::raw::c_void;
use std::slice;

#[repr(C)]
#[derive(Clone, Copy)]
pub(crate) struct Bytes {
    pub(crate) at: *const u8,
    pub(crate) length: usize,
}

#[repr(C)]
pub(crate) struct File {
    pub(crate) name: Bytes,
    pub(crate) bytes: Bytes,
}

#[repr(C)]
pub(crate) struct Task {
    pub(crate) script: Bytes,
    pub(crate) input: Bytes,
    pub(crate) files: *const File,
    pub(crate) count: usize,
    pub(crate) budget: u64,
    pub(crate) appends: u32,
}

#[repr(C)]
pub(crate) struct Sizes {
    pub(crate) name: usize,
    pub(crate) bytes: usize,
    pub(crate) soft: u32,
}

#[repr(C)]
pub(crate) struct Answer {
    pub(crate) out: Bytes,
    pub(crate) diag: Bytes,
    pub(crate) events: Bytes,
    pub(crate) json: Bytes,
    pub(crate) block: Bytes,
    pub(crate) sizes: *const Sizes,
    pub(crate) count: usize,
    pub(crate) place: u64,
    pub(crate) status: u32,
    pub(crate) full: u32,
    pub(crate) fine: u32,
    pub(crate) whole: u32,
}

#[repr(C)]
pub(crate) struct Watch {
    pub(crate) goes_on: unsafe extern "C" fn(*mut c_void, u64) -> u32,
    pub(crate) context: *mut c_void,
}

extern "C" {
    pub(crate) fn xvsh_explore_watched(task: *const Task, states: u64, thorough: u32, watch: *const Watch, answer: *mut Answer) -> u32;
    pub(crate) fn xvsh_grade(task: *const Task, suite: Bytes, states: u64, alone: u32, answer: *mut Answer) -> u32;
    pub(crate) fn xvsh_version_number() -> u32;
    pub(crate) fn xvsh_fault_name(number: u32) -> Bytes;
    pub(crate) fn xvsh_fault_text(number: u32) -> Bytes;
    pub(crate) fn xvsh_answer_free(answer: *mut Answer);
    pub(crate) fn xvsh_plain(task: *const Task, answer: *mut Answer) -> u32;
    pub(crate) fn xvsh_run(task: *const Task, turns: u64, order: u32, number: u64, answer: *mut Answer) -> u32;
    pub(crate) fn xvsh_trace(task: *const Task, turns: u64, order: u32, number: u64, answer: *mut Answer) -> u32;
    pub(crate) fn xvsh_draw(task: *const Task, turns: u64, order: u32, number: u64, answer: *mut Answer) -> u32;
    pub(crate) fn xvsh_draw_two(task: *const Task, schedule: Bytes, other: Bytes, answer: *mut Answer) -> u32;
    pub(crate) fn xvsh_draw_svg(task: *const Task, turns: u64, order: u32, number: u64, answer: *mut Answer) -> u32;
    pub(crate) fn xvsh_draw_two_svg(task: *const Task, schedule: Bytes, other: Bytes, answer: *mut Answer) -> u32;
    pub(crate) fn xvsh_replay(task: *const Task, schedule: Bytes, answer: *mut Answer) -> u32;
    pub(crate) fn xvsh_look(task: *const Task, schedule: Bytes, answer: *mut Answer) -> u32;
    pub(crate) fn xvsh_check(task: *const Task, strict: u32, answer: *mut Answer) -> u32;
    pub(crate) fn xvsh_check_turns(task: *const Task, strict: u32, answer: *mut Answer) -> u32;
    pub(crate) fn xvsh_check_room(task: *const Task, strict: u32, answer: *mut Answer) -> u32;
    pub(crate) fn xvsh_explain(task: *const Task, answer: *mut Answer) -> u32;
    pub(crate) fn xvsh_explain_why(task: *const Task, answer: *mut Answer) -> u32;
    pub(crate) fn xvsh_explore(task: *const Task, states: u64, thorough: u32, answer: *mut Answer) -> u32;
}

/// Bytes that are lent to a call.
pub(crate) fn view(bytes: &[u8]) -> Bytes {
    Bytes { at: bytes.as_ptr(), length: bytes.len() }
}

impl Bytes {
    /// The bytes that lie there.
    ///
    /// # Safety
    /// They are the library's, and stay what they are for so long.
    pub(crate) unsafe fn bytes<'a>(self) -> &'a [u8] {
        if self.length == 0 {
            return &[];
        }
        slice::from_raw_parts(self.at, self.length)
    }
}

impl Answer {
    /// An answer that holds nothing.
    pub(crate) fn new() -> Answer {
        let none = Bytes { at: std::ptr::null(), length: 0 };
        Answer {
            out: none,
            diag: none,
            events: none,
            json: none,
            block: none,
            sizes: std::ptr::null(),
            count: 0,
            place: 0,
            status: 0,
            full: 0,
            fine: 0,
            whole: 0,
        }
    }
}

impl Drop for Answer {
    fn drop(&mut self) {
        // it holds what the library left there, or nothing
        unsafe { xvsh_answer_free(self) }
    }
}

// What an answer holds is memory of malloc that is its own: nothing ties it to a thread, and nothing is written but by `&mut`.
unsafe impl Send for Answer {}
unsafe impl Sync for Answer {}
