//! Why a call is refused, and by whose doing.

use core::fmt;

/// By whose doing a call is refused.
#[derive(Debug, Clone, Copy, PartialEq, Eq, Hash)]
pub enum By {
    /// Who wrote the description.
    Exporter,
    /// Who lends the memory, sets the limit and keeps report and index together.
    Host,
    /// Who wrote the script.
    Author,
}

impl fmt::Display for By {
    fn fmt(&self, f: &mut fmt::Formatter<'_>) -> fmt::Result {
        f.write_str(match self {
            By::Exporter => "exporter",
            By::Host => "host",
            By::Author => "script author",
        })
    }
}

/// Makes the enum of the refusals, each with its number, by whose doing it comes and what it means.
macro_rules! reasons {
    ($($name:ident = $number:literal, $by:ident, $meaning:literal;)*) => {
        /// Why a call is refused, by the numbers of include/facts.h.
        #[non_exhaustive]
        #[repr(u8)]
        #[derive(Debug, Clone, Copy, PartialEq, Eq, Hash)]
        pub enum Reason {
            $(
                #[doc = concat!(stringify!($number), ": ", $meaning, ".")]
                $name = $number,
            )*
        }

        impl Reason {
            /// All of them, rising.
            pub const ALL: [Reason; 20] = [$(Reason::$name),*];

            /// By whose doing it comes.
            pub fn by(self) -> By {
                match self {
                    $(Reason::$name => By::$by,)*
                }
            }

            /// What it means, in the words of include/facts.h.
            pub fn meaning(self) -> &'static str {
                match self {
                    $(Reason::$name => $meaning,)*
                }
            }
        }
    };
}

reasons! {
    BadForm = 1, Exporter, "bad tag, order or length, a flag not 0 or 1, a handle size not 4 or 8, an enum place or \
        operand with no meaning";
    TooLarge = 2, Exporter, "over a largest value";
    BadReference = 3, Exporter, "entry or callee without signature, local not below L, more parameters than L, an \
        indexed access of 0 slots without layout, a call taking more than its callee's parameters, or a Yield without \
        site";
    BadEffect = 4, Exporter, "taken or given unfit for the instruction";
    WorkspaceTooSmall = 5, Host, "workspace too small: lend at least as many words as facts_sizes says, and some more";
    ReportTooLong = 6, Host, "report too long for its buffer: lend as many bytes as facts_sizes says";
    LimitUsedUp = 7, Host, "an entry due with the step limit used up: allow more steps";
    QueueFull = 8, Host, "queue full: lend a larger workspace, each word more is room for one more entry";
    IncompleteSignatures = 9, Author, "incomplete signatures or no instructions";
    ParameterDisagrees = 10, Author, "parameter disagrees with its declared kind";
    ReplyUnbounded = 11, Author, "reply unbounded";
    InitializerPastSlots = 12, Author, "initializer past the slots";
    KindsNotProven = 13, Author, "kinds not proven";
    PlacementsCrossed = 14, Author, "private placements crossed";
    NoPackedExtent = 15, Author, "no packed extent";
    NoDiscriminant = 16, Author, "no discriminant";
    MixedReceiver = 17, Author, "mixed receiver";
    UnequalHeights = 18, Author, "unequal stack heights meeting, or a height above D";
    IndexTooShort = 19, Host, "index buffer too short: lend as many bytes as for the report";
    IndexDisagrees = 20, Host, "index and report disagree: look the record up without the index, or analyse again";
}

impl Reason {
    /// Its number, from 1 to 20.
    pub fn number(self) -> u8 {
        self as u8
    }

    /// The reason of this number; 0 is no refusal.
    pub fn from_number(number: u32) -> Option<Reason> {
        let place = usize::try_from(number).ok()?.checked_sub(1)?;
        Reason::ALL.get(place).copied()
    }
}

impl fmt::Display for Reason {
    fn fmt(&self, f: &mut fmt::Formatter<'_>) -> fmt::Result {
        write!(f, "{} ({}): {}", self.number(), self.by(), self.meaning())
    }
}

impl core::error::Error for Reason {}
