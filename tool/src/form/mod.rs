//! The form of a description, walked as the library walks it, with the cause of the first fault.
//!
//! Faults count in byte order, within a field the lowest number; two looks come after all fields. The library
//! answers the number and the place; the walk here says which byte, which part and which rule. A test holds both
//! against each other, and where they still disagreed the library's answer is the one that is said (`explain`).

mod contents;
mod fields;

use contents::{Contents, HEAD, Note, Part, number};

/// The first fault of a description.
#[derive(Debug, Clone, PartialEq, Eq)]
pub struct Fault {
    /// The refusal, 1 to 4.
    pub number: u8,
    /// The chunk that the refusal names.
    pub chunk: Option<u16>,
    /// The instruction that it names.
    pub instruction: Option<u16>,
    /// The first byte of what is wrong.
    pub at: usize,
    /// How many bytes are wrong; 0 where something is missing there.
    pub size: usize,
    /// The field, and where it begins.
    pub field: Option<(Field, usize)>,
    /// What is wrong.
    pub part: &'static str,
    /// The rule that it breaks.
    pub rule: String,
}

/// A field of a description and the chunk and instruction that it belongs to.
#[derive(Debug, Clone, Copy, PartialEq, Eq)]
pub struct Field {
    /// Its tag.
    pub tag: u8,
    /// Its chunk, for fields 2 to 4.
    pub chunk: Option<u16>,
    /// Its instruction, for fields 3 and 4.
    pub instruction: Option<u16>,
}

/// What later fields are held against.
#[derive(Default)]
struct Seen {
    chunks: usize,
    signatures: usize,
    layout: bool,
    /// Parameter shapes of each chunk so far.
    params: Vec<usize>,
    locals: u32,
    instructions: usize,
    /// How many fields of the tags 5 to 8.
    counts: [usize; 4],
    late: Vec<Late>,
}

/// An instruction that is looked at again after all fields.
struct Late {
    field: usize,
    chunk: u16,
    instruction: u16,
    look: Look,
}

enum Look {
    Call { taken: Part, callee: usize },
    Yield { site: bool },
}

impl Late {
    fn new(seen: &Seen, field: usize, look: Look) -> Late {
        let Seen { params, instructions, .. } = seen;
        Late { field, chunk: (params.len() - 1) as u16, instruction: (instructions - 1) as u16, look }
    }

    fn call(seen: &Seen, field: usize, taken: Part, callee: usize) -> Late {
        Late::new(seen, field, Look::Call { taken, callee })
    }

    fn yielding(seen: &Seen, field: usize) -> Late {
        Late::new(seen, field, Look::Yield { site: false })
    }

    /// What this look finds, if anything.
    fn fault(&self, params: &[usize]) -> Option<Note> {
        const REFERENCE: u8 = 3;
        match self.look {
            Look::Call { taken, callee } if taken.value as usize > params[callee] => {
                let rule = format!(
                    "a call takes no more than its callee has parameter shapes; chunk {callee} has {}",
                    params[callee]
                );
                Some(Note { number: REFERENCE, at: taken.at, size: taken.size, part: taken.name, rule })
            }
            Look::Yield { site: false } => {
                let rule = "a field 4 with the yielded shape and the reply's follows a Yield".to_string();
                Some(Note { number: REFERENCE, at: self.field, size: 1, part: "a Yield without its site", rule })
            }
            _ => None,
        }
    }
}

impl Seen {
    /// A site belongs to the instruction before it.
    fn site(&mut self) {
        let place = (self.params.len() - 1, self.instructions - 1);
        let last = self.late.last_mut().filter(|late| (late.chunk.into(), late.instruction.into()) == place);
        if let Some(Late { look: Look::Yield { site }, .. }) = last {
            *site = true;
        }
    }

    fn field(&self, tag: u8) -> Field {
        let last = |count: usize| count.checked_sub(1).and_then(|value| u16::try_from(value).ok());
        Field {
            tag,
            chunk: last(self.params.len()).filter(|_| (2..=4).contains(&tag)),
            instruction: last(self.instructions).filter(|_| (3..=4).contains(&tag)),
        }
    }
}

/// The first fault of a description, if it has one.
pub fn first_fault(bytes: &[u8]) -> Option<Fault> {
    if bytes.len() > genduvo::LONGEST {
        let rule = format!("a description has at most {} bytes", genduvo::LONGEST);
        return Some(nowhere(2, genduvo::LONGEST, "this byte", 1, rule));
    }
    let mut seen = Seen::default();
    let (mut at, mut last) = (0, 0);
    while at < bytes.len() {
        match field(bytes, at, last, &mut seen) {
            Ok(next) => (last, at) = (bytes[at], next),
            Err(fault) => return Some(fault),
        }
    }
    end_fault(bytes, last, &seen).or_else(|| late_fault(&seen))
}

fn nowhere(number: u8, at: usize, part: &'static str, size: usize, rule: String) -> Fault {
    Fault { number, chunk: None, instruction: None, at, size, field: None, part, rule }
}

/// One field: the place after it, or its fault.
fn field(bytes: &[u8], at: usize, last: u8, seen: &mut Seen) -> Result<usize, Fault> {
    let left = bytes.len() - at;
    if left < HEAD {
        let rule = "a field begins with its tag and two bytes of length".to_string();
        return Err(nowhere(1, at, "what is left at the end", left, rule));
    }
    let length = number(&bytes[at + 1..at + HEAD]) as usize;
    if length > left - HEAD {
        let rule = format!("as many bytes follow as it says; here {} follow", left - HEAD);
        return Err(nowhere(1, at + 1, "the length of a field", 2, rule));
    }
    let tag = bytes[at];
    if let Some(rule) = out_of_order(tag, last, seen) {
        return Err(nowhere(1, at, "the tag of a field", 1, rule));
    }
    let end = at + HEAD + length;
    let mut contents = Contents::new(bytes, at, end);
    // Where the contents end too early, that is a note among the others.
    let _ = match tag {
        1 => fields::header(&mut contents, seen),
        2 => fields::chunk(&mut contents, seen),
        3 => fields::instruction(&mut contents, seen),
        _ => fields::other(&mut contents, seen),
    };
    contents.worst().map_or(Ok(end), |note| Err(noted(note, seen.field(tag), at)))
}

/// Which chunk and instruction a refusal names depends on its number and field.
fn noted(note: Note, field: Field, first: usize) -> Fault {
    let Note { number, at, size, part, rule } = note;
    let placed = number > 2;
    Fault {
        number,
        chunk: field.chunk.filter(|_| placed),
        instruction: field.instruction.filter(|_| placed),
        at,
        size,
        field: Some((field, first)),
        part,
        rule,
    }
}

/// Why a field may not stand behind the last one; None where it may.
fn out_of_order(tag: u8, last: u8, seen: &Seen) -> Option<String> {
    let after = format!("after a field {last}");
    let rule = match tag {
        0 | 9.. => "the tags of a description are 1 to 8".to_string(),
        1 if last != 0 => format!("field 1 comes once, first; here it comes {after}"),
        2.. if last == 0 => "a description begins with field 1".to_string(),
        2 if last > 4 => format!("the chunks come before fields 5 to 8; here one comes {after}"),
        2 if seen.params.len() >= seen.chunks => {
            format!("field 1 says {} chunks, and this is one more", seen.chunks)
        }
        3 if !(2..=4).contains(&last) => {
            format!("an instruction comes after its chunk, another instruction or a site; here it comes {after}")
        }
        4 if last != 3 => format!("a site comes once, right after its instruction; here it comes {after}"),
        5 if last > 5 => format!("the natives come before fields 6 to 8; here one comes {after}"),
        6..=8 if !seen.layout => "fields 6 to 8 want a data layout, and field 1 says there is none".to_string(),
        6..=8 if last > tag => format!("fields 5 to 8 come in the order of their tags; here it comes {after}"),
        _ => return None,
    };
    Some(rule)
}

/// What is missing at the end.
fn end_fault(bytes: &[u8], last: u8, seen: &Seen) -> Option<Fault> {
    let end = bytes.len();
    if last == 0 {
        return Some(nowhere(1, end, "the end of the description", 0, "a description has a field 1".to_string()));
    }
    let (there, wanted) = (seen.params.len(), seen.chunks);
    (there != wanted).then(|| {
        let rule = format!("field 1 says {wanted} chunks, and there are {there}");
        nowhere(1, end, "the end of the description", 0, rule)
    })
}

fn late_fault(seen: &Seen) -> Option<Fault> {
    seen.late.iter().find_map(|late| {
        let note = late.fault(&seen.params)?;
        let field = Field { tag: 3, chunk: Some(late.chunk), instruction: Some(late.instruction) };
        Some(noted(note, field, late.field))
    })
}

/// What stands in the bytes that are wrong, where they are a number.
pub fn value(bytes: &[u8], fault: &Fault) -> Option<u32> {
    let found = bytes.get(fault.at..fault.at.checked_add(fault.size)?)?;
    (1..=4).contains(&found.len()).then(|| number(found))
}
