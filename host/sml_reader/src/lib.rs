//! A reader of Standard ML's tokens: nodes, findings and fixities out of a text
//! and its token records.
//!
//! The reader itself is written and proved in Rattle; this crate is a safe way
//! to call its archive, `libsml_parse.a`. What goes in and what comes out is
//! document 01's, to the last byte.
//!
//! ```
//! use sml_reader::{STANDARD, Settings, Step, read};
//!
//! // `1 + 2`: three records, each of kind, start (2 bytes) and length (2 bytes)
//! let records = [63, 0, 0, 1, 0, 61, 2, 0, 1, 0, 63, 4, 0, 1, 0];
//! let file = read(b"1 + 2", &records, STANDARD, Settings::default())?;
//! let open = file.nodes().filter_map(|step| match step {
//!     Step::Open(kind) => kind.name(),
//!     _ => None,
//! });
//! assert!(open.eq(["Root", "Dec", "DecWithTail", "DecInSeq", "ExpDec", "InfixExp", "SConExp", "SConExp", "DecWithTail"]));
//! assert_eq!(file.findings().count(), 0);
//! assert_eq!(file.environment().count(), 18);
//! # Ok::<(), sml_reader::Refusal>(())
//! ```
//!
//! [`read`] sizes its buffers itself and runs on a thread of its own, since the
//! reader's calls nest with the text. Many calls share one thread by
//! [`with_stack`]; [`Stack::read_into`] takes buffers that the caller lends.

mod kinds;
mod lent;
mod outcome;
pub mod raw;
mod refusal;
mod sizes;
pub mod stack;

pub use kinds::{NodeKind, TokenKind};
pub use lent::{Call, Room, Used};
pub use outcome::{Entry, Finding, Read, Step};
pub use refusal::Refusal;
pub use stack::{Stack, with_stack};

/// The archive that was linked, on the machine that built this: for tests.
#[doc(hidden)]
pub const ARCHIVE: &str = env!("SML_PARSE_LINKED");

/// The bytes of the standard environment: eighteen names, sorted, each with its
/// length before it and its precedence and association behind it.
pub const STANDARD: &[u8] = b"\
    \x01*\x07\x00\x00\
    \x01+\x06\x00\x00\
    \x01-\x06\x00\x00\
    \x01/\x07\x00\x00\
    \x02::\x05\x00\x01\
    \x02:=\x03\x00\x00\
    \x01<\x04\x00\x00\
    \x02<=\x04\x00\x00\
    \x02<>\x04\x00\x00\
    \x01=\x04\x00\x00\
    \x01>\x04\x00\x00\
    \x02>=\x04\x00\x00\
    \x01@\x05\x00\x01\
    \x01^\x06\x00\x00\
    \x06before\x00\x00\x00\
    \x03div\x07\x00\x00\
    \x03mod\x07\x00\x00\
    \x01o\x03\x00\x00\
";

/// How a text is read.
#[derive(Debug, Clone, Copy, PartialEq, Eq, Hash, PartialOrd, Ord)]
#[repr(u64)]
pub enum Mode {
    /// As the source reads.
    Plain = 1,
    /// The same, but a fixity number over 9 gives finding 10.
    Strict = 2,
}

/// The settings of a call.
#[derive(Debug, Clone, Copy, PartialEq, Eq, Hash)]
pub struct Settings {
    /// How many marks may be open at one time, 1 to 1,000.
    pub depth: u64,
    pub mode: Mode,
}

impl Default for Settings {
    /// The largest depth, plain.
    fn default() -> Self {
        Self {
            depth: 1000,
            mode: Mode::Plain,
        }
    }
}

/// Reads the tokens of a text from a starting environment.
///
/// # Errors
///
/// Document 01's answers, but for those that say a buffer is too small.
///
/// # Panics
///
/// If the system has no thread to give.
pub fn read(
    text: &[u8],
    records: &[u8],
    environment: &[u8],
    settings: Settings,
) -> Result<Read, Refusal> {
    let call = Call {
        text,
        records,
        environment,
        depth: settings.depth,
        mode: settings.mode as u64,
    };
    with_stack(|stack| stack.read(&call))
}
