//! What is printed of a record: its sheet, its trace, its field list; or what
//! both programs of the desk print, the trace and directly behind it the list.

use crate::listing::fields;
use crate::sheet::sheet;
use crate::trace::trace;

/// What is printed.
#[derive(Clone, Copy, Debug, PartialEq)]
pub enum What {
    Sheet,
    Trace,
    Fields,
    Desk,
}

impl What {
    pub const ALL: [What; 4] = [What::Sheet, What::Trace, What::Fields, What::Desk];

    /// The word for it in a command.
    pub fn word(self) -> &'static str {
        match self {
            What::Sheet => "sheet",
            What::Trace => "trace",
            What::Fields => "fields",
            What::Desk => "desk",
        }
    }

    /// What the word means.
    pub fn meant(word: &str) -> Option<What> {
        What::ALL.into_iter().find(|what| what.word() == word)
    }

    /// The text of a record.
    pub fn of(self, record: &[u8]) -> String {
        match self {
            What::Sheet => sheet(record),
            What::Trace => trace(record),
            What::Fields => fields(record),
            What::Desk => trace(record) + &fields(record),
        }
    }
}
