//! A port that asks the oracle. The variable WRONG makes it wrong in one way,
//! to see that the comparison notices.

use oracle::index::{self, ENTRY, Entry};
use oracle::judged::{Text, next_branches, text_of};
use oracle::model::{Description, at16, split_field};
use oracle::report::GUARDS_AT;
use oracle::run::Outcome;

pub struct Refusal {
    pub number: u8,
    pub chunk: u16,
    pub instruction: u16,
    pub steps: u32,
}
pub struct Accepted {
    pub length: usize,
    pub steps: u32,
}
pub struct AcceptedIndexed {
    pub length: usize,
    pub steps: u32,
    pub index: usize,
}
pub enum Turn {
    Paused { steps: u32 },
    Refused(Refusal),
    Accepted { length: usize, steps: u32, index: usize },
}
pub struct Part {
    pub first: usize,
    pub size: usize,
}

pub struct Room {
    pub words: u64,
    pub report: u64,
}

fn wrong(how: &str) -> bool {
    static WRONG: std::sync::OnceLock<String> = std::sync::OnceLock::new();
    WRONG.get_or_init(|| std::env::var("WRONG").unwrap_or_default()) == how
}

/// The guards of each record, from the last place down.
fn turn_guards(report: &mut [u8]) {
    let mut at = 0;
    while let Some((tag, contents, _)) = split_field(&report[at..]) {
        let guards = if tag == 19 { 4 * usize::from(at16(contents, GUARDS_AT)) } else { 0 };
        at += 3 + contents.len();
        let turned: Vec<u8> = report[at - guards..at].chunks(4).rev().flatten().copied().collect();
        report[at - guards..at].copy_from_slice(&turned);
    }
}

/// What the text that judges the description answers, or one with fewer changes.
fn outcome(description: &[u8], words: u64, report_len: usize, limit: u32) -> Outcome {
    let mut text = Description::decode(description).map_or(Text::TYPES, |d| text_of(&d));
    text.handle_4 &= !wrong("handle of eight");
    text.next_branch &= !wrong("narrowed to the next");
    let mut outcome = oracle::run::check_by(text, description, words, report_len, limit);
    if wrong("next not listed")
        && let Outcome::Accepted { report, .. } = &mut outcome
        && let Some(d) = Description::decode(description)
    {
        *report = without_next_branches(&d, report);
    }
    outcome
}

/// The report without the known branches that go to the next instruction.
fn without_next_branches(d: &Description, report: &[u8]) -> Vec<u8> {
    let (mut kept, mut rest) = (Vec::new(), report);
    while let Some((tag, contents, after)) = split_field(rest) {
        let place = |at: usize| usize::from(at16(contents, at));
        if tag != 21 || next_branches(d).all(|branch| branch != (place(0), place(2))) {
            kept.extend_from_slice(&rest[..rest.len() - after.len()]);
        }
        rest = after;
    }
    kept
}

/// W, asked with no workspace at all; a bound that no report passes, or one that every report does.
pub fn sizes(description: &[u8]) -> Result<Room, Refusal> {
    let measured = oracle::run::measure(description, 0, 0, 0);
    match (measured.least_words, measured.outcome) {
        (None, Outcome::Refused(r)) => Err(Refusal {
            number: r.number ^ u8::from(wrong("sizes refused")),
            chunk: r.chunk,
            instruction: r.instruction,
            steps: r.steps,
        }),
        (least, _) => Ok(Room {
            words: least.expect("W") + 1 + u64::from(wrong("least workspace")),
            report: if wrong("most bytes") { 6 } else { u64::MAX },
        }),
    }
}

pub fn check(description: &[u8], workspace: &mut [u32], report: &mut [u8], limit: u32) -> Result<Accepted, Refusal> {
    match outcome(description, workspace.len() as u64, report.len(), limit) {
        Outcome::Accepted { report: bytes, steps } => {
            let length = bytes.len();
            report[..length].copy_from_slice(&bytes);
            workspace.fill(0);
            if wrong("last byte") {
                report[length - 1] ^= 1;
            }
            if wrong("guards turned") {
                turn_guards(&mut report[..length]);
            }
            if wrong("past the report") && length < report.len() {
                report[length] ^= 1;
            }
            if wrong("word left") {
                workspace[0] = 1;
            }
            if wrong("panic") && length % 7 == 0 {
                panic!("seven");
            }
            let length = length + usize::from(wrong("length"));
            Ok(Accepted { length, steps: steps + u32::from(wrong("steps")) })
        }
        Outcome::Refused(r) => {
            if r.number > 5 || wrong("workspace cleared") {
                workspace.fill(0);
            }
            if wrong("report touched") && !report.is_empty() {
                report[0] ^= 1;
            }
            Err(Refusal {
                number: if wrong("number") && r.number == 16 { 17 } else { r.number },
                chunk: r.chunk & if wrong("chunk") { 255 } else { 65535 },
                instruction: r.instruction ^ u16::from(wrong("instruction") && r.number == 8),
                steps: r.steps + u32::from(wrong("refusal's steps") && r.number == 15),
            })
        }
    }
}

pub fn lookup(report: &[u8], chunk: u16, instruction: u16) -> &[u8] {
    let part = oracle::lookup::lookup(report, chunk, instruction);
    if part.is_empty() && wrong("empty part") {
        return &report[..0];
    }
    if !part.is_empty() && wrong("record") {
        return &part[3..];
    }
    part
}

/// The index of a report.
fn index_of(report: &[u8]) -> Vec<u8> {
    let mut entries = index::entries(report);
    if wrong("contents") {
        entries.iter_mut().for_each(|entry| entry.first += 3);
    }
    if wrong("without the head") {
        entries.iter_mut().for_each(|entry| entry.length -= 3);
    }
    if wrong("falling") {
        entries.reverse();
    }
    index::bytes(&entries)
}

pub fn check_indexed(
    description: &[u8],
    workspace: &mut [u32],
    report: &mut [u8],
    index: &mut [u8],
    limit: u32,
) -> Result<AcceptedIndexed, Refusal> {
    match oracle::run::check(description, workspace.len() as u64, report.len(), limit) {
        Outcome::Accepted { report: bytes, steps } => {
            workspace.fill(0);
            deliver(&bytes, steps, workspace, report, index)
        }
        Outcome::Refused(r) => {
            if r.number > 5 {
                workspace.fill(0);
            }
            if wrong("index touched") && !index.is_empty() {
                index[0] ^= 1;
            }
            let number = if wrong("19 before 6") && r.number == 6 && index.is_empty() { 19 } else { r.number };
            Err(Refusal { number, chunk: r.chunk, instruction: r.instruction, steps: r.steps })
        }
    }
}

/// Report and index into their buffers, or 19.
fn deliver(
    bytes: &[u8],
    steps: u32,
    workspace: &mut [u32],
    report: &mut [u8],
    index: &mut [u8],
) -> Result<AcceptedIndexed, Refusal> {
    let own = index_of(bytes);
    let short = own.len() > index.len();
    if !short || wrong("19's report") {
        report[..bytes.len()].copy_from_slice(bytes);
    }
    if short || wrong("19 for its length") && own.len() == index.len() {
        if wrong("19's index") {
            index.copy_from_slice(&own[..index.len()]);
        }
        if wrong("19's workspace") {
            workspace[0] = 1;
        }
        let steps = if wrong("19's steps") { 0 } else { steps };
        return Err(Refusal { number: 19, chunk: 65535, instruction: 65535, steps });
    }
    index[..own.len()].copy_from_slice(&own);
    if wrong("past the index") && own.len() < index.len() {
        index[own.len()] ^= 1;
    }
    let length = own.len() + ENTRY * usize::from(wrong("index's length"));
    Ok(AcceptedIndexed { length: bytes.len(), steps: steps + u32::from(wrong("steps with index")), index: length })
}

/// Whether the entries rise, strictly.
fn rise(entries: &[Entry]) -> bool {
    let equal = wrong("equal places");
    entries.windows(2).all(|two| two[0].place() < two[1].place() || equal && two[0].place() == two[1].place())
}

fn agrees(report: &[u8], index: &[u8], place: (u16, u16)) -> bool {
    let left_over = if wrong("left over") { index.len() % ENTRY } else { 0 };
    let Some(mut listed) = index::read(&index[..index.len() - left_over]) else { return false };
    let mut recorded = index::entries(report);
    if wrong("up to the place")
        && let Some(found) = recorded.iter().position(|entry| entry.place() == place)
    {
        recorded.truncate(found + 1);
        listed.truncate(found + 1);
    }
    if wrong("entry more") {
        listed.retain(|entry| recorded.contains(entry));
    }
    if wrong("entry less") {
        recorded.retain(|entry| listed.contains(entry));
    }
    if !wrong("without rising") && !rise(&listed) {
        return false;
    }
    if !wrong("in the walk's order") {
        recorded.sort();
        listed.sort();
    }
    recorded == listed || wrong("any index")
}

pub fn lookup_indexed(report: &[u8], index: &[u8], chunk: u16, instruction: u16) -> Result<Part, Refusal> {
    if !agrees(report, index, (chunk, instruction)) {
        let steps = u32::from(wrong("20's steps"));
        return Err(Refusal { number: 20, chunk: 65535, instruction: 65535, steps });
    }
    let part = oracle::lookup::lookup(report, chunk, instruction);
    if part.is_empty() && wrong("20 for none") {
        return Err(Refusal { number: 20, chunk: 65535, instruction: 65535, steps: 0 });
    }
    let first = part.as_ptr() as usize - report.as_ptr() as usize;
    Ok(Part { first, size: part.len() })
}

/// The words of a paused run: the steps told, those taken, and the mark.
const TOLD: usize = 19;
const TAKEN: usize = 20;
const MARK: usize = 24;
/// What all words sum to.
const THE_MARK: u32 = 1_346_458_195;

fn sum(words: &[u32]) -> u32 {
    let last = words.len() - usize::from(wrong("mark without the last"));
    words[..last].iter().fold(0, |sum, word| sum.wrapping_add(*word))
}

/// A run that stands after so many steps, told as so many, goes on: what is asked is the whole call again.
fn go_on(
    description: &[u8],
    (workspace, report, index): (&mut [u32], &mut [u8], &mut [u8]),
    indexed: bool,
    (told, taken): (u32, u32),
    allowance: u32,
) -> Turn {
    let most = u32::MAX - u32::from(wrong("largest total"));
    let more = allowance.min(most.saturating_sub(told));
    let limit = taken.saturating_add(more);
    let limit = limit.saturating_add(u32::from(wrong("pause late"))).saturating_sub(u32::from(wrong("pause early")));
    let before = workspace.to_vec();
    let words = workspace.len() as u64;
    let paused = matches!(outcome(description, words, report.len(), limit), Outcome::Refused(r) if r.number == 7);
    if paused && told + more < u32::MAX && !wrong("7 for a pause") {
        if wrong("pause touches") && !report.is_empty() {
            report[0] ^= 1;
        }
        (workspace[TOLD], workspace[TAKEN]) = (told + more, taken.saturating_add(more));
        workspace[MARK] = 0;
        workspace[MARK] = THE_MARK.wrapping_sub(sum(workspace));
        return Turn::Paused { steps: if wrong("steps of one turn") { more } else { told + more } };
    }
    // The call that can't pause has no mark to put.
    let answer = if indexed || wrong("index unasked") {
        check_indexed(description, workspace, report, index, limit)
    } else {
        check(description, workspace, report, limit)
            .map(|Accepted { length, steps }| AcceptedIndexed { length, steps, index: 0 })
    };
    if wrong("left at the end") {
        workspace.copy_from_slice(&before);
    }
    let steps = |steps: u32| (u64::from(steps) + u64::from(told)).saturating_sub(u64::from(taken)) as u32;
    match answer {
        Ok(AcceptedIndexed { length, steps: all, index }) => Turn::Accepted { length, steps: steps(all), index },
        Err(r) => Turn::Refused(Refusal { steps: steps(r.steps), ..r }),
    }
}

pub fn start_run(
    description: &[u8],
    workspace: &mut [u32],
    report: &mut [u8],
    index: &mut [u8],
    indexed: bool,
    allowance: u32,
) -> Turn {
    go_on(description, (workspace, report, index), indexed, (0, 0), allowance)
}

pub fn resume_run(
    description: &[u8],
    workspace: &mut [u32],
    report: &mut [u8],
    index: &mut [u8],
    indexed: bool,
    allowance: u32,
) -> Turn {
    let first = oracle::run::check(description, workspace.len() as u64, report.len(), 0);
    if let Outcome::Refused(r) = first
        && r.number <= 5
        && !wrong("21 before 5")
    {
        let oracle::run::Refusal { number, chunk, instruction, steps } = r;
        return Turn::Refused(Refusal { number, chunk, instruction, steps });
    }
    if sum(workspace) != THE_MARK && !wrong("any mark") && !(wrong("zeros marked") && sum(workspace) == 0) {
        if wrong("21 clears") {
            workspace.fill(0);
        }
        let steps = u32::from(wrong("21's steps"));
        return Turn::Refused(Refusal { number: 21, chunk: 65535, instruction: 65535, steps });
    }
    // A run that ends before it has taken so many steps is begun afresh.
    let stood = outcome(description, workspace.len() as u64, report.len(), workspace[TAKEN]);
    let goes_on = matches!(stood, Outcome::Refused(r) if r.number == 7) && !wrong("begun afresh");
    let stands = if goes_on { (workspace[TOLD], workspace[TAKEN]) } else { (0, 0) };
    go_on(description, (workspace, report, index), indexed, stands, allowance)
}
