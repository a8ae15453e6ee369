//! One description given to the port, and what is seen afterwards held against
//! the oracle's outcome.

#[cfg(valgrind)]
use crate::memcheck;
use crate::port;
use oracle::generate::random::Random;
use oracle::index::{Entry, entries};
use oracle::lookup::lookup;
use oracle::model::split_field;
use oracle::run::{Outcome, Refusal};
use std::cell::RefCell;
use std::panic::{AssertUnwindSafe, catch_unwind};

thread_local! {
    static PANIC: RefCell<String> = const { RefCell::new(String::new()) };
}
/// Panics are kept and shown with the difference.
pub fn keep_panics() {
    std::panic::set_hook(Box::new(|info| PANIC.set(info.to_string().replace('\n', " "))));
}

/// Runs `work`; a panic is an error with its text.
pub fn guarded<T>(work: impl FnOnce() -> T) -> Result<T, String> {
    catch_unwind(AssertUnwindSafe(work)).map_err(|_| format!("panic: {}", PANIC.take()))
}

/// Buffers that are used again and again, with some room behind each that
/// nothing may touch. Under valgrind each is new, with nothing behind it, and
/// what is lent of it counts as never written.
#[derive(Default)]
pub struct Buffers {
    workspace: Vec<u32>,
    report: Vec<u8>,
    index: Vec<u8>,
}

impl Buffers {
    fn prepare(&mut self, bounds: &Bounds, start: u32) {
        let Bounds { words, report_len, index_len, .. } = *bounds;
        if cfg!(valgrind) {
            *self = Buffers::default();
            self.workspace.reserve_exact(words);
            self.report.reserve_exact(report_len);
            self.index.reserve_exact(index_len);
        }
        self.workspace.resize(words + BEHIND, 0);
        self.report.resize(report_len + BEHIND, 0);
        self.index.resize(index_len + BEHIND, 0);
        self.workspace.iter_mut().enumerate().for_each(|(at, word)| *word = word_before(start, at));
        self.report.iter_mut().enumerate().for_each(|(at, byte)| *byte = byte_before(start, at));
        self.index.iter_mut().enumerate().for_each(|(at, byte)| *byte = byte_before(start ^ OTHER, at));
    }

    /// What is lent of them: workspace, report buffer, index buffer.
    fn lent(&mut self, bounds: &Bounds) -> (&mut [u32], &mut [u8], &mut [u8]) {
        let Bounds { words, report_len, index_len, .. } = *bounds;
        #[cfg(valgrind)]
        {
            memcheck::never_written(&mut self.workspace);
            memcheck::never_written(&mut self.report);
            memcheck::never_written(&mut self.index);
        }
        (&mut self.workspace[..words], &mut self.report[..report_len], &mut self.index[..index_len])
    }

    /// What a call that came out so has to leave as it was may be read again.
    #[cfg(valgrind)]
    fn left(&self, report: &[u8], index: &[u8], number: u8) {
        memcheck::written(&self.report[report.len()..]);
        memcheck::written(&self.index[index.len()..]);
        if (1..=5).contains(&number) {
            memcheck::written(&self.workspace);
        }
    }

    /// None where a call that came out so, with such an index, has left in them
    /// what it should.
    fn differ(&self, bounds: &Bounds, expected: &Outcome, index: &[u8], start: u32) -> Option<String> {
        let report: &[u8] = match expected {
            Outcome::Accepted { report, .. } => report,
            Outcome::Refused(_) => &[],
        };
        #[cfg(valgrind)]
        self.left(report, index, expected.number());
        if let Some((at, byte, wanted)) = wrong_byte(&self.report, report, start) {
            let part = part_of("report", at, report.len(), bounds.report_len);
            return Some(format!("byte {at} {part} is {byte}, not {wanted}: {}", field_at(report, at)));
        }
        if let Some((at, byte, wanted)) = wrong_byte(&self.index, index, start ^ OTHER) {
            let part = part_of("index", at, index.len(), bounds.index_len);
            return Some(format!("byte {at} {part} is {byte}, not {wanted}"));
        }
        let (at, word, wanted) = self.wrong_word(bounds.words, expected.number(), start)?;
        let part = if at >= bounds.words { "behind" } else { "of" };
        Some(format!("word {at} {part} the workspace is {word}, not {wanted}"))
    }

    /// The workspace: as before after 1 to 5, else zero; as before behind it.
    /// Place, word and wanted word of the first that is not.
    fn wrong_word(&self, words: usize, number: u8, start: u32) -> Option<(usize, u32, u32)> {
        let cleared = if (1..=5).contains(&number) { 0 } else { words };
        let clean = self.workspace[..cleared].iter().all(|word| *word == 0)
            && self.workspace.iter().enumerate().skip(cleared).all(|(at, word)| *word == word_before(start, at));
        if clean {
            return None;
        }
        let wanted = |at: usize| if at < cleared { 0 } else { word_before(start, at) };
        let all = self.workspace.iter().enumerate();
        all.map(|(at, word)| (at, *word, wanted(at))).find(|(_, word, wanted)| word != wanted)
    }
}
const BEHIND: usize = if cfg!(valgrind) { 0 } else { 8 };
/// What an index buffer begins with is other than what a report buffer does.
const OTHER: u32 = 0x5a5a_5a5a;

/// What a word or byte of a buffer is before the call; a word is never 0.
fn word_before(start: u32, at: usize) -> u32 {
    start.wrapping_add((at as u32).wrapping_mul(0x9e37_79b9)) | 1
}
fn byte_before(start: u32, at: usize) -> u8 {
    (word_before(!start, at) >> 23) as u8
}

/// Place, byte and wanted byte of the first that is neither as written nor,
/// past that, as before.
fn wrong_byte(buffer: &[u8], written: &[u8], start: u32) -> Option<(usize, u8, u8)> {
    let same = buffer.starts_with(written)
        && buffer.iter().enumerate().skip(written.len()).all(|(at, byte)| *byte == byte_before(start, at));
    if same {
        return None;
    }
    let wanted = |at: usize| written.get(at).copied().unwrap_or(byte_before(start, at));
    let all = buffer.iter().enumerate();
    all.map(|(at, byte)| (at, *byte, wanted(at))).find(|(_, byte, wanted)| byte != wanted)
}

/// Where a byte of a buffer stands, of which so many are written and lent.
fn part_of(name: &str, at: usize, written: usize, lent: usize) -> String {
    if at >= lent {
        format!("behind the {name} buffer")
    } else if at >= written {
        format!("past the {name}")
    } else {
        format!("of the {name}")
    }
}

pub struct Bounds {
    pub words: usize,
    pub report_len: usize,
    /// Of the call with an index; 0 of the other.
    pub index_len: usize,
    pub limit: u32,
}

/// None where the port does as the oracle says; else what differs.
pub fn differs(bytes: &[u8], bounds: &Bounds, expected: &Outcome, start: u32, b: &mut Buffers) -> Option<String> {
    let own: Box<[u8]> = bytes.into();
    b.prepare(bounds, start);
    let (workspace, report, _) = b.lent(bounds);
    let answered = match guarded(|| port::check(&own, workspace, report, bounds.limit)) {
        Ok(answer) => answer_shown(answer),
        Err(panic) => return Some(panic),
    };
    if answered != shown(expected) {
        return Some(answered);
    }
    b.differ(bounds, expected, &[], start).map(|what| format!("{answered}, but {what}"))
}

/// The same of the call with an index, which has these bytes.
pub fn differs_indexed(
    bytes: &[u8],
    bounds: &Bounds,
    (expected, index): (&Outcome, &[u8]),
    start: u32,
    b: &mut Buffers,
) -> Option<String> {
    let own: Box<[u8]> = bytes.into();
    b.prepare(bounds, start);
    let (workspace, report, room) = b.lent(bounds);
    let with = format!("with {} bytes for an index", room.len());
    let (answer, length) = match guarded(|| port::check_indexed(&own, workspace, report, room, bounds.limit)) {
        Ok(answer) => answer,
        Err(panic) => return Some(format!("{with}: {panic}")),
    };
    let answered = format!("{with}: {}, index {length}", answer_shown(answer));
    let wanted = format!("{with}: {}, index {}", shown(expected), index.len());
    if answered != wanted {
        return Some(format!("{answered}; not {wanted}"));
    }
    b.differ(bounds, expected, index, start).map(|what| format!("{answered}, but {what}"))
}

fn answer_shown(answer: port::Answer) -> String {
    match answer {
        port::Answer::Accepted { length, steps } => format!("accepted, length {length}, steps {steps}"),
        port::Answer::Refused { number, chunk, instruction, steps } => {
            shown(&Outcome::Refused(Refusal { number, chunk, instruction, steps }))
        }
    }
}

pub fn shown(outcome: &Outcome) -> String {
    match outcome {
        Outcome::Accepted { report, steps } => format!("accepted, length {}, steps {steps}", report.len()),
        Outcome::Refused(r) => {
            format!("refused {}, chunk {}, instruction {}, steps {}", r.number, r.chunk, r.instruction, r.steps)
        }
    }
}

/// Which field of the report a byte stands in.
fn field_at(report: &[u8], at: usize) -> String {
    let mut start = 0;
    while let Some((tag, contents, _)) = split_field(report.get(start..).unwrap_or(&[])) {
        let end = start + 3 + contents.len();
        if at < end {
            let named = if tag >= 17 && contents.len() >= 4 { format!(" {:?}", &contents[..4]) } else { String::new() };
            return format!("byte {} of a field of tag {tag}{named}", at - start);
        }
        start = end;
    }
    "in no field".into()
}

/// The sizes of a description: the least workspace, or the refusal's number;
/// and a length that its report, of so many bytes, must not pass.
pub fn sizes_differ(bytes: &[u8], expected: Result<u64, u8>, length: usize) -> Option<String> {
    let own: Box<[u8]> = bytes.into();
    match guarded(|| port::sizes(&own)) {
        Ok(answer) if answer.map(|sizes| sizes.0) != expected => Some(format!("words {answer:?}, not {expected:?}")),
        Ok(Ok((_, most))) if most < length as u64 => Some(format!("a report of {length} bytes, not {most} at most")),
        Ok(_) => None,
        Err(panic) => Some(format!("sizes: {panic}")),
    }
}

/// Chunk and instruction of a record, where there is one, or any.
pub fn pair(of_record: bool, recorded: &[Entry], r: &mut Random) -> (u16, u16) {
    if of_record && !recorded.is_empty() {
        return r.pick(recorded).place();
    }
    let place = |r: &mut Random| r.pick(&[0, 0, 0, 1, 2, 3, 5, 8, 13, 30, 256, 65535]) as u16;
    (place(r), place(r))
}

/// Looks some places up, in the bytes as they are.
pub fn lookup_differs(report: &[u8], r: &mut Random) -> Option<String> {
    let own: Box<[u8]> = report.into();
    let report = &own[..];
    let recorded = entries(report);
    for turn in 0..4 {
        let (chunk, instruction) = pair(turn < 2, &recorded, r);
        let expected = lookup(report, chunk, instruction);
        let answer = match guarded(|| port::lookup(report, chunk, instruction)) {
            Ok(answer) => answer,
            Err(panic) => return Some(format!("lookup {chunk} {instruction}: {panic}")),
        };
        if (answer.as_ptr(), answer.len()) != (expected.as_ptr(), expected.len()) {
            let at = |part: &[u8]| (part.as_ptr() as usize).wrapping_sub(report.as_ptr() as usize);
            return Some(format!(
                "lookup {chunk} {instruction} answers {} bytes at {}, not {} bytes at {}, in {} bytes: {:02x?}",
                answer.len(), at(answer), expected.len(), at(expected), report.len(), &report[..report.len().min(400)]
            ));
        }
    }
    None
}

/// A report with some bytes changed, or bytes at random that look like one.
pub fn odd_report(report: &[u8], r: &mut Random) -> Vec<u8> {
    if r.often(600) && !report.is_empty() {
        let mut out = report.to_vec();
        for _ in 0..r.between(1, 4) {
            let at = r.below(out.len());
            out[at] = r.pick(&[0, 1, 2, 4, 19, 49, 255]);
        }
        out.truncate(r.between(out.len() / 2, out.len()));
        return out;
    }
    let mut out = Vec::new();
    for _ in 0..r.below(8) {
        let length = r.below(8);
        out.extend([r.pick(&[16, 17, 19, 19, 19, 20]), length as u8, u8::from(r.often(50))]);
        out.extend((0..length).map(|k| if k % 2 == 0 { r.pick(&[0, 0, 0, 1, 2]) } else { 0 }));
    }
    let drop = r.below(4).min(out.len());
    out.truncate(out.len() - drop);
    out
}
