//! The numbers that answer a request, by `Numbers the desk answers with`.

/// The number of a refusal. Done or accepted is 0 and never a refusal.
#[derive(Clone, Copy, Debug, PartialEq, Eq, PartialOrd, Ord)]
#[repr(u32)]
pub enum Number {
    /// Longer than 65,536 bytes.
    TooLong = 1,
    /// A field is not wholly there.
    CutShort = 2,
    /// The codec is not 0.
    Codec = 3,
    /// A type or FxID is unknown or not allowed here.
    Type = 4,
    /// An amount is 0.
    Amount = 5,
    /// A list is not in its order.
    Order = 6,
    /// A threshold is above the number of addresses, or 0 although there are addresses.
    Threshold = 7,
    /// A string's length is not allowed.
    Length = 8,
    /// A character is not printable.
    Character = 9,
    /// The denomination is above 32.
    Denomination = 10,
    /// A list is empty where an element is needed.
    EmptyList = 11,
    /// Wrong number of credentials or signatures.
    Count = 12,
    /// Bytes stand after the end.
    AfterEnd = 13,
    /// No room in the lent table or buffer.
    Room = 14,
    /// No such entry or slot.
    NoSuch = 15,
    /// The writer's step is not due.
    NotDue = 16,
    /// The first draft is not accepted.
    FirstDraft = 17,
    /// The second draft is not accepted.
    SecondDraft = 18,
    /// The drafts differ before the credential count.
    Body = 19,
    /// Two different signatures in one slot.
    Conflict = 20,
    /// A signature is not 65 bytes.
    Signature = 21,
}

/// The first broken rule, and the place it is reported at.
#[derive(Clone, Copy, Debug, PartialEq, Eq)]
pub struct Refusal {
    /// The broken rule's number.
    pub number: Number,
    /// The rule's place: of a field, a slot's number for a conflict, or 0.
    pub place: usize,
}

impl Refusal {
    /// A refusal whose rule reports no place of its own.
    pub const fn placeless(number: Number) -> Self {
        Refusal { number, place: 0 }
    }
}

/// Refuses by `number` at `place` where the rule does not hold.
#[inline(always)]
pub fn ensure(holds: bool, number: Number, place: usize) -> Result<(), Refusal> {
    if holds {
        Ok(())
    } else {
        Err(Refusal { number, place })
    }
}
