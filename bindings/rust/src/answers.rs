//! What calls give. Each answer owns its bytes, and frees them where it is dropped.
use crate::border;
use std::fmt;
use std::slice;

/// A file at the end of a run; of a run by meaning `is_soft` where the left side of a pipe writes it whose right side may stop before it has
/// read all: of a settled script no other file depends on the order of processes, and of one that isn't settled every file may.
#[derive(Clone, Copy, Debug, PartialEq, Eq)]
pub struct File<'a> {
    pub name: &'a [u8],
    pub bytes: &'a [u8],
    pub is_soft: bool,
}

/// What was full first in a run.
#[derive(Clone, Copy, Debug, PartialEq, Eq, Hash)]
#[non_exhaustive]
pub enum Full {
    Processes,
    OpenFiles,
    Descriptors,
    Files,
    Size,
    Memory,
    /// What a newer library has, by its number.
    Other(u32),
}

// The files of an answer, in byte order of their names.
fn files_of(answer: &border::Answer) -> Vec<File<'_>> {
    let table = if answer.count == 0 { &[] } else { unsafe { slice::from_raw_parts(answer.sizes, answer.count) } };
    let mut rest = unsafe { answer.block.bytes() };
    let mut files = Vec::with_capacity(table.len());
    for sizes in table {
        let (name, after) = rest.split_at(sizes.name);
        let (bytes, after) = after.split_at(sizes.bytes);
        files.push(File { name, bytes, is_soft: sizes.soft != 0 });
        rest = after;
    }
    files
}

fn full_of(answer: &border::Answer) -> Option<Full> {
    match answer.full {
        0 => None,
        1 => Some(Full::Processes),
        2 => Some(Full::OpenFiles),
        3 => Some(Full::Descriptors),
        4 => Some(Full::Files),
        5 => Some(Full::Size),
        6 => Some(Full::Memory),
        other => Some(Full::Other(other)),
    }
}

// Shows bytes as text, of which what is no UTF-8 is replaced.
fn shown(bytes: &[u8]) -> String {
    String::from_utf8_lossy(bytes).into_owned()
}

/// What a script gives by its meaning.
pub struct Plain(pub(crate) border::Answer);

impl Plain {
    /// The standard output.
    pub fn out(&self) -> &[u8] {
        unsafe { self.0.out.bytes() }
    }

    /// The files at the end, in byte order of their names.
    pub fn files(&self) -> Vec<File<'_>> {
        files_of(&self.0)
    }

    /// Whether no order of its processes changes any of it, soft files left out.
    pub fn is_settled(&self) -> bool {
        self.0.fine != 0
    }
}

impl fmt::Debug for Plain {
    fn fmt(&self, f: &mut fmt::Formatter<'_>) -> fmt::Result {
        f.debug_struct("Plain").field("out", &shown(self.out())).field("is_settled", &self.is_settled()).finish_non_exhaustive()
    }
}

/// A finished run by processes.
pub struct Run(pub(crate) border::Answer);

impl Run {
    /// The standard output.
    pub fn out(&self) -> &[u8] {
        unsafe { self.0.out.bytes() }
    }

    /// The diagnostics.
    pub fn diag(&self) -> &[u8] {
        unsafe { self.0.diag.bytes() }
    }

    /// The files at the end, in byte order of their names.
    pub fn files(&self) -> Vec<File<'_>> {
        files_of(&self.0)
    }

    /// Its schedule: a line an event, `D HART PROCESS` or `T HART PROCESS`. Of a run that was traced the lines of its trace, each an object of
    /// JSON (docs/FORMATS.md), and of one that was drawn the page or the picture.
    pub fn events(&self) -> &[u8] {
        unsafe { self.0.events.bytes() }
    }

    /// What was full first, if anything was.
    pub fn full(&self) -> Option<Full> {
        full_of(&self.0)
    }
}

impl fmt::Debug for Run {
    fn fmt(&self, f: &mut fmt::Formatter<'_>) -> fmt::Result {
        f.debug_struct("Run").field("out", &shown(self.out())).field("diag", &shown(self.diag())).field("full", &self.full()).finish_non_exhaustive()
    }
}

/// What is told of a script, as an object of JSON of docs/FORMATS.md.
pub struct Told(pub(crate) border::Answer);

impl Told {
    /// The object, and LF.
    pub fn json(&self) -> &[u8] {
        unsafe { self.0.json.bytes() }
    }

    /// Of a check whether no line holds a `&` or a clash, or strictly is no command, and of one of the room whether moreover there is room for it;
    /// of an explanation whether there is nothing to tell; of an exploration whether all outcomes that were found have one output
    /// and one set of files; of a look whether the run is finished; of a grading whether every test was passed.
    pub fn is_fine(&self) -> bool {
        self.0.fine != 0
    }

    /// Of an exploration whether every order was tried, or what it leaves is known without; else false.
    pub fn is_whole(&self) -> bool {
        self.0.whole != 0
    }
}

impl fmt::Debug for Told {
    fn fmt(&self, f: &mut fmt::Formatter<'_>) -> fmt::Result {
        f.debug_struct("Told").field("json", &shown(self.json())).field("is_fine", &self.is_fine()).field("is_whole", &self.is_whole()).finish()
    }
}
