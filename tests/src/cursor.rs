//! A cursor over lent bytes: every field is taken whole or refused as cut short.

use crate::order;
use crate::refusal::{ensure, Number, Refusal};

/// An identifier, borrowed from the transaction's bytes.
pub type Id<'a> = &'a [u8; 32];

/// A counted run inside the bytes: the place of its first element, behind the count. The
/// default is a list that is not there.
#[derive(Clone, Copy, Debug, Default, PartialEq, Eq)]
pub struct List {
    /// The place of the first element.
    pub at: usize,
    /// The number of elements.
    pub count: u32,
}

/// The next field's place in a byte slice. What takes a cursor is always inlined, here and in
/// `element`, so that it stays in registers.
#[derive(Clone, Debug)]
pub struct Cursor<'a> {
    bytes: &'a [u8],
    /// What stands behind the cursor, so that a field is taken with one bounds check.
    rest: &'a [u8],
}

impl<'a> Cursor<'a> {
    /// A cursor before the byte at `place`, which is at most the slice's length.
    #[inline(always)]
    pub fn at(bytes: &'a [u8], place: usize) -> Self {
        Cursor { bytes, rest: &bytes[place..] }
    }

    /// The next field's place.
    #[inline(always)]
    pub fn place(&self) -> usize {
        self.bytes.len() - self.rest.len()
    }

    /// The bytes from `start` up to the cursor.
    #[inline(always)]
    pub fn since(&self, start: usize) -> &'a [u8] {
        &self.bytes[start..self.place()]
    }

    /// Refuses bytes that stand behind the cursor.
    #[inline(always)]
    pub fn end(&self) -> Result<usize, Refusal> {
        ensure(self.rest.is_empty(), Number::AfterEnd, self.place())?;
        Ok(self.place())
    }

    /// Takes one field of `N` bytes.
    #[inline(always)]
    pub fn field<const N: usize>(&mut self) -> Result<&'a [u8; N], Refusal> {
        let Some((field, rest)) = self.rest.split_first_chunk() else {
            return Err(self.cut_short());
        };
        self.rest = rest;
        Ok(field)
    }

    /// Takes one field of `length` bytes, such as a string's body.
    #[inline(always)]
    pub fn body(&mut self, length: usize) -> Result<&'a [u8], Refusal> {
        let Some((body, rest)) = self.rest.split_at_checked(length) else {
            return Err(self.cut_short());
        };
        self.rest = rest;
        Ok(body)
    }

    /// Takes `count` fields of `N` bytes, or as many of them as are wholly there.
    #[inline(always)]
    fn whole_fields<const N: usize>(&mut self, count: u32) -> &'a [[u8; N]] {
        let length = (count as usize).saturating_mul(N);
        let (fields, rest) = match self.rest.split_at_checked(length) {
            Some((fields, rest)) => (fields.as_chunks().0, rest),
            None => self.rest.as_chunks(),
        };
        self.rest = rest;
        fields
    }

    /// Takes `count` fields of `N` bytes.
    #[inline(always)]
    pub fn fields<const N: usize>(&mut self, count: u32) -> Result<&'a [[u8; N]], Refusal> {
        let fields = self.whole_fields(count);
        if fields.len() < count as usize {
            return Err(self.cut_short());
        }
        Ok(fields)
    }

    #[inline(always)]
    fn cut_short(&self) -> Refusal {
        Refusal { number: Number::CutShort, place: self.place() }
    }

    /// Takes a byte.
    #[inline(always)]
    pub fn number8(&mut self) -> Result<u8, Refusal> {
        Ok(self.field::<1>()?[0])
    }

    /// Takes a 16-bit number.
    #[inline(always)]
    pub fn number16(&mut self) -> Result<u16, Refusal> {
        Ok(u16::from_be_bytes(*self.field()?))
    }

    /// Takes a 32-bit number.
    #[inline(always)]
    pub fn number32(&mut self) -> Result<u32, Refusal> {
        Ok(u32::from_be_bytes(*self.field()?))
    }

    /// Takes a 64-bit number.
    #[inline(always)]
    pub fn number64(&mut self) -> Result<u64, Refusal> {
        Ok(u64::from_be_bytes(*self.field()?))
    }

    /// Takes a type or FxID, which must be one of those allowed here.
    #[inline(always)]
    pub fn one_of(&mut self, allowed: &[u32]) -> Result<u32, Refusal> {
        let place = self.place();
        let number = self.number32()?;
        ensure(allowed.contains(&number), Number::Type, place)?;
        Ok(number)
    }

    /// Takes a list's count, which must be at least `least`.
    #[inline(always)]
    pub fn list(&mut self, least: u32) -> Result<List, Refusal> {
        let place = self.place();
        let count = self.number32()?;
        ensure(count >= least, Number::EmptyList, place)?;
        Ok(List { at: self.place(), count })
    }

    /// Takes `count` elements that strictly increase, each judged when it is read.
    #[inline(always)]
    pub fn increasing<const N: usize>(&mut self, count: u32) -> Result<List, Refusal> {
        let at = self.place();
        let elements = self.whole_fields::<N>(count);
        if let Some(n) = order::not_above(elements) {
            return Err(Refusal { number: Number::Order, place: at + n * N });
        }
        if elements.len() < count as usize {
            return Err(self.cut_short());
        }
        Ok(List { at, count })
    }

    /// Takes a string with a 32-bit length of at most `most`.
    #[inline(always)]
    pub fn string(&mut self, most: u32) -> Result<&'a [u8], Refusal> {
        let place = self.place();
        let length = self.number32()?;
        ensure(length <= most, Number::Length, place)?;
        self.body(length as usize)
    }

    /// Takes 1 to `most` printable characters behind a 16-bit length. The length is
    /// judged when it is read, the characters when the whole string is there.
    #[inline(always)]
    pub fn text(&mut self, most: u16) -> Result<&'a [u8], Refusal> {
        let place = self.place();
        let length = self.number16()?;
        judge_text_length(length.into(), most, place)?;
        let start = self.place();
        let text = self.body(length.into())?;
        judge_characters(text, start)?;
        Ok(text)
    }

    /// Steps over a list of `width` bytes an element, and answers its count.
    #[inline(always)]
    pub fn skip_list(&mut self, width: usize) -> Result<u32, Refusal> {
        let count = self.number32()?;
        self.body((count as usize).saturating_mul(width))?;
        Ok(count)
    }
}

/// The rule for the length of a name or symbol.
#[inline(always)]
pub fn judge_text_length(length: usize, most: u16, place: usize) -> Result<(), Refusal> {
    ensure((1..=most.into()).contains(&length), Number::Length, place)
}

/// The rule for the characters of a name or symbol, whose first has this place.
#[inline(always)]
pub fn judge_characters(text: &[u8], place: usize) -> Result<(), Refusal> {
    match text.iter().position(|character| !(0x20..=0x7e).contains(character)) {
        Some(n) => Err(Refusal { number: Number::Character, place: place + n }),
        None => Ok(()),
    }
}
