//! Bytes under construction.

/// Collects fields; every number is big-endian.
#[derive(Clone, Default)]
pub struct Encoder(Vec<u8>);

impl Encoder {
    /// An encoder that holds nothing yet.
    pub fn new() -> Self {
        Encoder::default()
    }

    /// Adds bytes as they are.
    pub fn raw(mut self, bytes: &[u8]) -> Self {
        self.0.extend_from_slice(bytes);
        self
    }

    /// Adds a byte.
    pub fn u8(self, number: u8) -> Self {
        self.raw(&[number])
    }

    /// Adds a 16-bit number.
    pub fn u16(self, number: u16) -> Self {
        self.raw(&number.to_be_bytes())
    }

    /// Adds a 32-bit number.
    pub fn u32(self, number: u32) -> Self {
        self.raw(&number.to_be_bytes())
    }

    /// Adds a 64-bit number.
    pub fn u64(self, number: u64) -> Self {
        self.raw(&number.to_be_bytes())
    }

    /// Adds a list: its count and its elements.
    pub fn list<T: AsRef<[u8]>>(self, elements: &[T]) -> Self {
        let counted = self.u32(elements.len() as u32);
        elements.iter().fold(counted, |bytes, element| bytes.raw(element.as_ref()))
    }

    /// Adds a list of 32-bit numbers.
    pub fn numbers(self, numbers: &[u32]) -> Self {
        let counted = self.u32(numbers.len() as u32);
        numbers.iter().fold(counted, |bytes, &number| bytes.u32(number))
    }

    /// Adds a string behind its 32-bit length.
    pub fn string(self, bytes: &[u8]) -> Self {
        self.u32(bytes.len() as u32).raw(bytes)
    }

    /// Adds a string behind its 16-bit length.
    pub fn text(self, bytes: &[u8]) -> Self {
        self.u16(bytes.len() as u16).raw(bytes)
    }

    /// The bytes collected.
    pub fn done(self) -> Vec<u8> {
        self.0
    }
}

/// Puts fields one behind the other into `bytes`, which they fill. Inlined, it knows most of
/// their lengths, and stores such fields without a call.
#[inline(always)]
pub fn join(mut bytes: &mut [u8], fields: &[&[u8]]) {
    for field in fields {
        let (place, rest) = bytes.split_at_mut(field.len());
        place.copy_from_slice(field);
        bytes = rest;
    }
}
