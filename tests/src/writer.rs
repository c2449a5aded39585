//! Writing a transaction step by step into a lent buffer: `Writing`.

use crate::cursor::{judge_characters, judge_text_length, Cursor, Id, List};
use crate::element::{self, OutputOrder, SIGNATURE};
use crate::encode::join;
use crate::order;
use crate::refusal::{ensure, Number, Refusal};
use crate::transaction::{
    DueCredentials, Own, CREATE_ASSET, DENOMINATION_MOST, EXPORT, IMPORT, LIMIT, MEMO_MOST,
    NAME_MOST, OPERATION, SYMBOL_MOST, TYPES,
};

/// The count that opens a list.
const NO_ELEMENTS: [u8; 4] = [0; 4];
/// The length of an output in front of its addresses.
const OUTPUT_HEAD: usize = 60;
/// The length of an input in front of its indices.
const INPUT_HEAD: usize = 84;

/// The step that is due; a list is due until it is closed.
#[derive(Clone, Copy, Debug, Default, PartialEq, Eq)]
enum Due {
    #[default]
    Start,
    Outputs,
    Inputs,
    Memo,
    Name,
    Symbol,
    Denomination,
    States,
    Operations,
    Chain,
    Imported,
    Exported,
    Finish,
    Nothing,
}

/// What a writer knows between two steps. The buffer is lent anew at each step, and a
/// step answers with the bytes written so far; a refused step changes nothing.
#[derive(Clone, Debug, Default)]
pub struct Writer {
    due: Due,
    type_id: u32,
    written: usize,
    /// The base inputs.
    inputs: List,
    /// The list that is due, or the last one that was.
    list: List,
    /// The place of the last element of `list`.
    last: usize,
}

/// A step's answer: the bytes written so far, or a refusal with place 0.
pub type Written = Result<usize, Refusal>;

impl Writer {
    /// A writer on which only `start` is due.
    pub fn new() -> Self {
        Writer::default()
    }

    /// Writes the codec, the base part's head, and an output count of 0.
    pub fn start(
        &mut self,
        buffer: &mut [u8],
        type_id: u32,
        network: u32,
        chain: Id,
    ) -> Written {
        self.judge_due(buffer, &[Due::Start])?;
        ensure(TYPES.contains(&type_id), Number::Type, 0)?;
        let (codec, type_bytes, network) =
            (0u16.to_be_bytes(), type_id.to_be_bytes(), network.to_be_bytes());
        let head: [&[u8]; 5] = [&codec, &type_bytes, &network, chain, &NO_ELEMENTS];
        self.put_and_open(buffer, &head, Due::Outputs)?;
        self.type_id = type_id;
        Ok(self.written)
    }

    /// Adds an output of type 7. Its addresses come as one byte slice.
    #[allow(clippy::too_many_arguments)]
    pub fn output(
        &mut self,
        buffer: &mut [u8],
        asset: Id,
        amount: u64,
        locktime: u64,
        threshold: u32,
        addresses: &[u8],
    ) -> Written {
        self.judge_due(buffer, &[Due::Outputs, Due::Exported])?;
        ensure(addresses.len().is_multiple_of(20), Number::CutShort, 0)?;
        let count = (addresses.len() / 20) as u32;
        element::judge_amount(amount, 0)?;
        element::judge_threshold(threshold, count, 0)?;
        Cursor::at(addresses, 0).increasing::<20>(count).map_err(without_place)?;
        let put_head = |head: &mut [u8]| {
            let fields: [&[u8]; 6] = [
                asset,
                &element::TRANSFER_OUTPUT.to_be_bytes(),
                &amount.to_be_bytes(),
                &locktime.to_be_bytes(),
                &threshold.to_be_bytes(),
                &count.to_be_bytes(),
            ];
            join(head, &fields);
        };
        let compare = |last: &[u8]| {
            let mut head = [0; OUTPUT_HEAD];
            put_head(&mut head);
            order::compare_parts(last, &head, addresses)
        };
        self.output_order(buffer).judge_by(compare, 0)?;
        self.add(buffer, OUTPUT_HEAD + addresses.len(), |output| {
            let (head, rest) = output.split_at_mut(OUTPUT_HEAD);
            put_head(head);
            rest.copy_from_slice(addresses);
        })
    }

    /// Adds an input.
    pub fn input(
        &mut self,
        buffer: &mut [u8],
        pair: element::Pair,
        asset: Id,
        amount: u64,
        indices: &[u32],
    ) -> Written {
        self.judge_due(buffer, &[Due::Inputs, Due::Imported])?;
        let last = self.last_pair(buffer).map_err(without_place)?;
        element::judge_pair(last, pair, 0)?;
        element::judge_amount(amount, 0)?;
        ensure(order::not_above(indices).is_none(), Number::Order, 0)?;
        let count = indices.len() as u32;
        self.add(buffer, INPUT_HEAD + 4 * indices.len(), |input| {
            let (head, places) = input.split_at_mut(INPUT_HEAD);
            let fields: [&[u8]; 6] = [
                pair.0,
                &pair.1.to_be_bytes(),
                asset,
                &element::INPUT.to_be_bytes(),
                &amount.to_be_bytes(),
                &count.to_be_bytes(),
            ];
            join(head, &fields);
            for (place, index) in places.as_chunks_mut().0.iter_mut().zip(indices) {
                *place = index.to_be_bytes();
            }
        })
    }

    /// Adds an operation, given as its own bytes.
    pub fn operation(&mut self, buffer: &mut [u8], operation: &[u8]) -> Written {
        self.judge_due(buffer, &[Due::Operations])?;
        element::alone(element::Kind::TransferableOperation, operation)
            .map_err(without_place)?;
        self.add(buffer, operation.len(), |place| place.copy_from_slice(operation))
    }

    /// Adds an initial state, given as its own bytes.
    pub fn state(&mut self, buffer: &mut [u8], state: &[u8]) -> Written {
        self.judge_due(buffer, &[Due::States])?;
        self.judge_state(buffer, state).map_err(without_place)?;
        self.add(buffer, state.len(), |place| place.copy_from_slice(state))
    }

    /// Closes the list that is due.
    pub fn close(&mut self, buffer: &mut [u8]) -> Written {
        let lists = [
            Due::Outputs,
            Due::Inputs,
            Due::States,
            Due::Operations,
            Due::Imported,
            Due::Exported,
        ];
        self.judge_due(buffer, &lists)?;
        match self.due {
            Due::Outputs => return self.put_and_open(buffer, &[&NO_ELEMENTS], Due::Inputs),
            Due::Inputs => {
                self.inputs = self.list;
                self.due = Due::Memo;
            }
            _ => {
                ensure(self.list.count > 0, Number::EmptyList, 0)?;
                self.due = Due::Finish;
            }
        }
        Ok(self.written)
    }

    /// Writes the memo; what is due behind it depends on the type.
    pub fn memo(&mut self, buffer: &mut [u8], memo: &[u8]) -> Written {
        self.judge_due(buffer, &[Due::Memo])?;
        ensure(memo.len() <= MEMO_MOST as usize, Number::Length, 0)?;
        let length = (memo.len() as u32).to_be_bytes();
        let next = match self.type_id {
            CREATE_ASSET => Due::Name,
            OPERATION => {
                let memo_and_count = [&length[..], memo, &NO_ELEMENTS];
                return self.put_and_open(buffer, &memo_and_count, Due::Operations);
            }
            IMPORT | EXPORT => Due::Chain,
            _ => Due::Finish,
        };
        self.put(buffer, &[&length, memo], next)
    }

    /// Writes the asset's name.
    pub fn name(&mut self, buffer: &mut [u8], name: &[u8]) -> Written {
        self.judge_due(buffer, &[Due::Name])?;
        self.put_text(buffer, name, NAME_MOST, Due::Symbol)
    }

    /// Writes the asset's symbol.
    pub fn symbol(&mut self, buffer: &mut [u8], symbol: &[u8]) -> Written {
        self.judge_due(buffer, &[Due::Symbol])?;
        self.put_text(buffer, symbol, SYMBOL_MOST, Due::Denomination)
    }

    /// Writes the asset's denomination and a state count of 0.
    pub fn denomination(&mut self, buffer: &mut [u8], denomination: u8) -> Written {
        self.judge_due(buffer, &[Due::Denomination])?;
        ensure(denomination <= DENOMINATION_MOST, Number::Denomination, 0)?;
        self.put_and_open(buffer, &[&[denomination], &NO_ELEMENTS], Due::States)
    }

    /// Writes the source or destination chain and its list's count of 0.
    pub fn chain(&mut self, buffer: &mut [u8], chain: Id) -> Written {
        self.judge_due(buffer, &[Due::Chain])?;
        let next = if self.type_id == IMPORT { Due::Imported } else { Due::Exported };
        self.put_and_open(buffer, &[chain, &NO_ELEMENTS], next)
    }

    /// Writes the blank credentials: every signature is 65 zero bytes.
    pub fn finish(&mut self, buffer: &mut [u8]) -> Written {
        self.judge_due(buffer, &[Due::Finish])?;
        let (body, rest) = buffer.split_at_mut(self.written);
        let due = self.due_credentials(body);
        let length = blank_length(due.clone()).map_err(without_place)?;
        ensure(length <= rest.len().min(LIMIT - self.written), Number::Room, 0)?;
        let (count, mut free) = rest[..length].split_at_mut(4);
        count.copy_from_slice(&(due.len() as u32).to_be_bytes());
        for (type_id, signatures) in due.flatten() {
            let (head, behind) = free.split_at_mut(8);
            join(head, &[&type_id.to_be_bytes(), &signatures.to_be_bytes()]);
            let (blank, behind) = behind.split_at_mut(SIGNATURE * signatures as usize);
            blank.fill(0);
            free = behind;
        }
        self.written += length;
        self.due = Due::Nothing;
        Ok(self.written)
    }

    /// A step is refused first where it is not due, then where the buffer is shorter
    /// than the bytes written.
    fn judge_due(&self, buffer: &[u8], steps: &[Due]) -> Result<(), Refusal> {
        ensure(steps.contains(&self.due), Number::NotDue, 0)?;
        ensure(buffer.len() >= self.written, Number::Room, 0)
    }

    /// The list that is due holds an element already, from this place on.
    fn last(&self) -> Option<usize> {
        (self.list.count > 0).then_some(self.last)
    }

    #[inline(always)]
    fn output_order<'a>(&self, buffer: &'a [u8]) -> OutputOrder<'a> {
        self.last().map_or_else(OutputOrder::default, |last| {
            OutputOrder::after(&buffer[last..self.written])
        })
    }

    #[inline(always)]
    fn last_pair<'a>(&self, buffer: &'a [u8]) -> Result<Option<element::Pair<'a>>, Refusal> {
        let Some(last) = self.last() else {
            return Ok(None);
        };
        let mut written = Cursor::at(buffer, last);
        Ok(Some((written.field()?, written.number32()?)))
    }

    fn judge_state(&self, buffer: &[u8], state: &[u8]) -> Result<(), Refusal> {
        let last = match self.last() {
            Some(last) => Some(Cursor::at(buffer, last).number32()?),
            None => None,
        };
        let mut cursor = Cursor::at(state, 0);
        element::initial_state(&mut cursor, last, |_, _, _| ())?;
        cursor.end().map(drop)
    }

    /// Has `length` bytes written behind the bytes written, room given; then `next` is due.
    #[inline(always)]
    fn write(
        &mut self,
        buffer: &mut [u8],
        length: usize,
        next: Due,
        write: impl FnOnce(&mut [u8]),
    ) -> Written {
        let room = buffer.len().min(LIMIT) - self.written;
        ensure(length <= room, Number::Room, 0)?;
        write(&mut buffer[self.written..][..length]);
        self.written += length;
        self.due = next;
        Ok(self.written)
    }

    /// Writes fields; then `next` is due.
    #[inline(always)]
    fn put(&mut self, buffer: &mut [u8], fields: &[&[u8]], next: Due) -> Written {
        let length = fields.iter().map(|field| field.len()).sum();
        self.write(buffer, length, next, |place| join(place, fields))
    }

    /// As `put`, where the last field is a list's count of 0: the list `next` is due.
    #[inline(always)]
    fn put_and_open(&mut self, buffer: &mut [u8], fields: &[&[u8]], next: Due) -> Written {
        let at = self.put(buffer, fields, next)?;
        self.list = List { at, count: 0 };
        Ok(at)
    }

    /// Judges a name or symbol as the check does, and writes it; then `next` is due.
    fn put_text(&mut self, buffer: &mut [u8], text: &[u8], most: u16, next: Due) -> Written {
        judge_text_length(text.len(), most, 0)?;
        judge_characters(text, 0).map_err(without_place)?;
        self.put(buffer, &[&(text.len() as u16).to_be_bytes(), text], next)
    }

    /// Has an element of `length` bytes written to the list that is due, and puts the new
    /// count into its place.
    #[inline(always)]
    fn add(
        &mut self,
        buffer: &mut [u8],
        length: usize,
        write: impl FnOnce(&mut [u8]),
    ) -> Written {
        let place = self.written;
        self.write(buffer, length, self.due, write)?;
        self.last = place;
        self.list.count += 1;
        let List { at, count } = self.list;
        buffer[at - 4..at].copy_from_slice(&count.to_be_bytes());
        Ok(self.written)
    }

    fn due_credentials<'a>(&self, body: &'a [u8]) -> DueCredentials<'a> {
        let own = match self.type_id {
            OPERATION => Own::Operation { operations: self.list },
            IMPORT => Own::Import { source: &[0; 32], inputs: self.list },
            _ => Own::Base,
        };
        DueCredentials::new(body, self.inputs, own)
    }
}

/// Writer refusals report place 0.
fn without_place(refusal: Refusal) -> Refusal {
    Refusal::placeless(refusal.number)
}

/// The length of the credential count and all blank credentials.
fn blank_length(due: DueCredentials) -> Result<usize, Refusal> {
    let mut length = 4;
    for credential in due {
        let (_, signatures) = credential?;
        length += 8 + SIGNATURE * signatures as usize;
    }
    Ok(length)
}
