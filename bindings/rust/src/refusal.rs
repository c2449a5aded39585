//! Why bytes are refused: the table of numbers.

use std::error::Error;
use std::fmt;

/// The first broken rule, and the place that goes with it.
///
/// ```
/// let refusal = cellfacet::check(&[0, 0, 0, 0, 0, 9]).unwrap_err();
/// assert_eq!((refusal.reason, refusal.place), (cellfacet::Reason::UnknownType, 2));
/// assert_eq!(refusal.to_string(), "4 at 2: type or FxID is unknown or not allowed here");
/// ```
#[derive(Clone, Copy, Debug, PartialEq, Eq, Hash)]
pub struct Refusal {
    /// The broken rule.
    pub reason: Reason,
    /// The place that goes with it: a byte offset; for [`Reason::Conflict`] the number of the
    /// slot, and for the other reasons from [`Reason::NoRoom`] on 0.
    pub place: usize,
}

impl fmt::Display for Refusal {
    fn fmt(&self, f: &mut fmt::Formatter) -> fmt::Result {
        write!(f, "{} at {}: {}", self.reason.number(), self.place, self.reason)
    }
}

impl Error for Refusal {}

/// Declares the enum with its numbers and messages.
macro_rules! reasons {
    ($($(#[$meta:meta])* $name:ident = $number:literal, $words:literal;)*) => {
        /// A rule, by its number in the table of `docs/FORMAT.md`.
        #[derive(Clone, Copy, Debug, PartialEq, Eq, PartialOrd, Ord, Hash)]
        #[non_exhaustive]
        #[repr(u32)]
        pub enum Reason {
            $($(#[$meta])* $name = $number,)*
        }

        impl Reason {
            /// Every reason, in the order of the numbers.
            pub const ALL: &'static [Reason] = &[$(Reason::$name),*];

            /// The reason with this number; none for 0, which is no refusal, and for numbers
            /// that are not in the table.
            pub const fn of_number(number: u32) -> Option<Reason> {
                match number {
                    $($number => Some(Reason::$name),)*
                    _ => None,
                }
            }

            /// What is wrong, in a few words.
            pub const fn words(self) -> &'static str {
                match self {
                    $(Reason::$name => $words,)*
                }
            }
        }
    };
}

reasons! {
    /// More than 65,536 bytes. Place: 0.
    TooLong = 1, "more than 65,536 bytes";
    /// A field is cut short: not all of its bytes are there. Place: the start of the field.
    CutShort = 2, "field is cut short";
    /// The codec is not 0. Place: 0.
    WrongCodec = 3, "codec is not 0";
    /// A type or FxID is unknown or not allowed here. Place: its start.
    UnknownType = 4, "type or FxID is unknown or not allowed here";
    /// An amount is 0. Place: the start of the amount.
    ZeroAmount = 5, "amount is 0";
    /// A list is out of order. Place: the start of the later of the two elements.
    OutOfOrder = 6, "list is out of order";
    /// A threshold is above the number of addresses, or 0 although there are addresses. Place:
    /// the start of the threshold.
    BadThreshold = 7, "threshold is above the number of addresses, or 0 although there are addresses";
    /// The length of a name, symbol, memo or payload is not allowed. Place: the start of the
    /// length.
    BadLength = 8, "length of a name, symbol, memo or payload is not allowed";
    /// A character of a name or symbol is not printable ASCII. Place: that character.
    NotPrintable = 9, "character of a name or symbol is not printable ASCII";
    /// The denomination is above 32. Place: that byte.
    BadDenomination = 10, "denomination is above 32";
    /// A required list is empty. Place: the start of its count.
    EmptyList = 11, "required list is empty";
    /// Wrong number of credentials or signatures. Place: the start of the count.
    WrongCount = 12, "wrong number of credentials or signatures";
    /// Bytes follow the end of the transaction. Place: the first of them.
    BytesAfterEnd = 13, "bytes follow the end of the transaction";
    /// No room for the result in the lent table or buffer. Place: 0.
    NoRoom = 14, "no room for the result";
    /// No such entry or slot. Place: 0.
    NoEntry = 15, "no such entry or slot";
    /// The writer's step is not due. Place: 0.
    StepNotDue = 16, "writer's step is not due";
    /// The first draft is not accepted. Place: 0.
    FirstNotAccepted = 17, "first draft is not accepted";
    /// The second draft is not accepted. Place: 0.
    SecondNotAccepted = 18, "second draft is not accepted";
    /// The drafts are of different unsigned transactions: they differ before the credential
    /// count. Place: 0.
    DraftsDiffer = 19, "drafts are of different unsigned transactions";
    /// Two different signatures in one slot. Place: the number of the first such slot.
    Conflict = 20, "two different signatures in one slot";
    /// The signature is not 65 bytes. Place: 0.
    NotASignature = 21, "signature is not 65 bytes";
}

impl Reason {
    /// The number in the table.
    pub const fn number(self) -> u32 {
        self as u32
    }
}

impl fmt::Display for Reason {
    fn fmt(&self, f: &mut fmt::Formatter) -> fmt::Result {
        f.pad(self.words())
    }
}
