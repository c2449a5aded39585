//! The elements of a transaction, each read with the rules of its own: `Layout` and
//! `Rules and their moments`.

use std::cmp::Ordering;

use crate::cursor::{Cursor, Id, List};
use crate::order::{self, Element};
use crate::refusal::{ensure, Number, Refusal};

/// The type of a transferable input's input.
pub const INPUT: u32 = 5;
/// The type of an output that may mint an asset.
pub const MINT_OUTPUT: u32 = 6;
/// The type of an output that holds an amount.
pub const TRANSFER_OUTPUT: u32 = 7;
/// The type of an input's credential.
pub const CREDENTIAL: u32 = 9;
/// The type of an output that may mint an NFT.
pub const NFT_MINT_OUTPUT: u32 = 10;
/// The type of an output that holds an NFT.
pub const NFT_TRANSFER_OUTPUT: u32 = 11;
/// The type of an operation that mints NFTs.
pub const NFT_MINT_OPERATION: u32 = 12;
/// The type of an operation that hands over an NFT.
pub const NFT_TRANSFER_OPERATION: u32 = 13;
/// The type of an operation's credential.
pub const NFT_CREDENTIAL: u32 = 14;

/// The longest payload of an NFT.
pub const PAYLOAD_MOST: u32 = 1024;
/// The length of a signature.
pub const SIGNATURE: usize = 65;

/// Base and exported outputs take only this type, a rule of this house.
pub const BASE_OUTPUTS: &[u32] = &[TRANSFER_OUTPUT];
const ALL_OUTPUTS: &[u32] =
    &[MINT_OUTPUT, TRANSFER_OUTPUT, NFT_MINT_OUTPUT, NFT_TRANSFER_OUTPUT];
/// The outputs that an initial state takes, by its FxID.
const FX_OUTPUTS: [[u32; 2]; 2] =
    [[MINT_OUTPUT, TRANSFER_OUTPUT], [NFT_MINT_OUTPUT, NFT_TRANSFER_OUTPUT]];

/// Who may spend an output, and from when on.
#[derive(Clone, Copy, Debug, PartialEq, Eq)]
pub struct Owners {
    /// The output is locked until then.
    pub locktime: u64,
    /// How many of the addresses must sign.
    pub threshold: u32,
    /// The addresses, 20 bytes each.
    pub addresses: List,
}

/// An output without its asset id.
#[derive(Clone, Copy, Debug, PartialEq, Eq)]
#[allow(missing_docs)]
pub enum Output {
    Mint { owners: Owners },
    Transfer { amount: u64, owners: Owners },
    NftMint { group: u32, owners: Owners },
    NftTransfer { group: u32, payload: List, owners: Owners },
}

/// An input behind its asset id.
#[derive(Clone, Copy, Debug, PartialEq, Eq)]
pub struct Input {
    /// The amount it spends.
    pub amount: u64,
    /// The address indices, 4 bytes each.
    pub indices: List,
}

/// An input with the output it spends.
#[derive(Clone, Copy, Debug, PartialEq, Eq)]
pub struct TransferableInput<'a> {
    /// The transaction whose output is spent.
    pub txid: Id<'a>,
    /// The index of that output.
    pub index: u32,
    /// The asset.
    pub asset: Id<'a>,
    /// The input itself.
    pub input: Input,
}

/// Whom an operation's NFTs go to.
#[derive(Clone, Copy, Debug, PartialEq, Eq)]
pub enum Receivers {
    /// Type 12: a list of owners.
    Mint(List),
    /// Type 13: owners.
    Transfer(Owners),
}

/// An operation behind its pairs.
#[derive(Clone, Copy, Debug, PartialEq, Eq)]
pub struct Operation {
    /// The address indices, 4 bytes each.
    pub indices: List,
    /// The NFT's group.
    pub group: u32,
    /// The NFT's payload.
    pub payload: List,
    /// The new owners; they tell the type.
    pub receivers: Receivers,
}

/// An operation with the outputs it spends.
#[derive(Clone, Copy, Debug, PartialEq, Eq)]
pub struct TransferableOperation<'a> {
    /// The asset.
    pub asset: Id<'a>,
    /// The (transaction id, index) pairs, 36 bytes each.
    pub pairs: List,
    /// The operation itself.
    pub operation: Operation,
}

/// The signatures of one input or operation.
#[derive(Clone, Copy, Debug, PartialEq, Eq)]
pub struct Credential {
    /// 9 for an input, 14 for an operation.
    pub type_id: u32,
    /// The signatures, 65 bytes each.
    pub signatures: List,
}

/// Where an output stands: (transaction id, index).
pub type Pair<'a> = (Id<'a>, u32);

/// The amount rule.
#[inline(always)]
pub fn judge_amount(amount: u64, place: usize) -> Result<(), Refusal> {
    ensure(amount > 0, Number::Amount, place)
}

#[inline(always)]
fn amount(cursor: &mut Cursor) -> Result<u64, Refusal> {
    let place = cursor.place();
    let amount = cursor.number64()?;
    judge_amount(amount, place)?;
    Ok(amount)
}

/// The threshold rule: at most the number of addresses, and 0 exactly where there are none.
#[inline(always)]
pub fn judge_threshold(threshold: u32, addresses: u32, place: usize) -> Result<(), Refusal> {
    let allowed = threshold <= addresses && (threshold > 0 || addresses == 0);
    ensure(allowed, Number::Threshold, place)
}

/// Reads owners; the threshold is judged when the address count is read.
#[inline(always)]
pub fn owners(cursor: &mut Cursor) -> Result<Owners, Refusal> {
    let locktime = cursor.number64()?;
    let place = cursor.place();
    let threshold = cursor.number32()?;
    let count = cursor.number32()?;
    judge_threshold(threshold, count, place)?;
    let addresses = cursor.increasing::<20>(count)?;
    Ok(Owners { locktime, threshold, addresses })
}

#[inline(always)]
fn payload(cursor: &mut Cursor) -> Result<List, Refusal> {
    let at = cursor.place() + 4;
    let count = cursor.string(PAYLOAD_MOST)?.len() as u32;
    Ok(List { at, count })
}

#[inline(always)]
fn indices(cursor: &mut Cursor) -> Result<List, Refusal> {
    let count = cursor.number32()?;
    cursor.increasing::<4>(count)
}

/// Reads an output of one of the allowed types.
#[inline(always)]
pub fn output(cursor: &mut Cursor, allowed: &[u32]) -> Result<Output, Refusal> {
    let type_id = cursor.one_of(allowed)?;
    let amount = if type_id == TRANSFER_OUTPUT { amount(cursor)? } else { 0 };
    let is_nft = matches!(type_id, NFT_MINT_OUTPUT | NFT_TRANSFER_OUTPUT);
    let group = if is_nft { cursor.number32()? } else { 0 };
    let is_held = type_id == NFT_TRANSFER_OUTPUT;
    let payload = if is_held { payload(cursor)? } else { List::default() };
    let owners = owners(cursor)?;
    Ok(match type_id {
        MINT_OUTPUT => Output::Mint { owners },
        TRANSFER_OUTPUT => Output::Transfer { amount, owners },
        NFT_MINT_OUTPUT => Output::NftMint { group, owners },
        _ => Output::NftTransfer { group, payload, owners },
    })
}

/// Reads an asset id and an output.
#[inline(always)]
pub fn transferable_output<'a>(
    cursor: &mut Cursor<'a>,
    allowed: &[u32],
) -> Result<(Id<'a>, Output), Refusal> {
    Ok((cursor.field()?, output(cursor, allowed)?))
}

/// Reads a pair; it must be greater than the last one, judged when the index is read.
#[inline(always)]
fn pair<'a>(cursor: &mut Cursor<'a>, last: Option<Pair>) -> Result<Pair<'a>, Refusal> {
    let place = cursor.place();
    let pair = (cursor.field()?, cursor.number32()?);
    judge_pair(last, pair, place)?;
    Ok(pair)
}

/// The order of pairs: each is greater than the last one.
#[inline(always)]
pub fn judge_pair(last: Option<Pair>, pair: Pair, place: usize) -> Result<(), Refusal> {
    let above = match last {
        Some(last) => last.0.compare(pair.0).then(last.1.cmp(&pair.1)).is_lt(),
        None => true,
    };
    ensure(above, Number::Order, place)
}

/// Reads an input behind its asset id.
#[inline(always)]
pub fn input(cursor: &mut Cursor) -> Result<Input, Refusal> {
    cursor.one_of(&[INPUT])?;
    Ok(Input { amount: amount(cursor)?, indices: indices(cursor)? })
}

/// Reads a transferable input that comes after the `last` one of its list.
#[inline(always)]
pub fn transferable_input<'a>(
    cursor: &mut Cursor<'a>,
    last: Option<Pair>,
) -> Result<TransferableInput<'a>, Refusal> {
    let (txid, index) = pair(cursor, last)?;
    let asset = cursor.field()?;
    Ok(TransferableInput { txid, index, asset, input: input(cursor)? })
}

/// Reads an operation behind its pairs.
#[inline(always)]
pub fn operation(cursor: &mut Cursor) -> Result<Operation, Refusal> {
    let type_id = cursor.one_of(&[NFT_MINT_OPERATION, NFT_TRANSFER_OPERATION])?;
    Ok(Operation {
        indices: indices(cursor)?,
        group: cursor.number32()?,
        payload: payload(cursor)?,
        receivers: receivers(cursor, type_id)?,
    })
}

/// A type 12 owner list has no order and may be empty.
#[inline(always)]
fn receivers(cursor: &mut Cursor, type_id: u32) -> Result<Receivers, Refusal> {
    if type_id == NFT_TRANSFER_OPERATION {
        return Ok(Receivers::Transfer(owners(cursor)?));
    }
    let list = cursor.list(0)?;
    for _ in 0..list.count {
        owners(cursor)?;
    }
    Ok(Receivers::Mint(list))
}

/// Reads a transferable operation.
#[inline(always)]
pub fn transferable_operation<'a>(
    cursor: &mut Cursor<'a>,
) -> Result<TransferableOperation<'a>, Refusal> {
    let asset = cursor.field()?;
    let pairs = cursor.list(0)?;
    let mut last = None;
    for _ in 0..pairs.count {
        last = Some(pair(cursor, last)?);
    }
    Ok(TransferableOperation { asset, pairs, operation: operation(cursor)? })
}

/// The order of a list of outputs: non-decreasing as byte strings, judged when each is
/// wholly read and its own rules hold. The first output is compared with nothing; with an
/// empty string in its stead the library's comparison is slow.
#[derive(Default)]
pub struct OutputOrder<'a>(Option<&'a [u8]>);

impl<'a> OutputOrder<'a> {
    /// The order behind an output that stands already.
    pub fn after(last: &'a [u8]) -> Self {
        OutputOrder(Some(last))
    }

    /// Judges the output from `start` up to the cursor.
    #[inline(always)]
    pub fn judge(&mut self, cursor: &Cursor<'a>, start: usize) -> Result<(), Refusal> {
        let output = cursor.since(start);
        self.judge_by(|last| order::compare_strings(last, output), start)?;
        self.0 = Some(output);
        Ok(())
    }

    /// Judges an output by its comparison with the last one.
    #[inline(always)]
    pub fn judge_by(
        &self,
        compare: impl FnOnce(&[u8]) -> Ordering,
        place: usize,
    ) -> Result<(), Refusal> {
        ensure(self.0.is_none_or(|last| compare(last).is_le()), Number::Order, place)
    }
}

/// Reads an initial state that comes after the `last` FxID, and hands each of its
/// outputs with its start to `each`. An unknown FxID comes before its order: of two
/// rules at one moment the lower number answers.
#[inline(always)]
pub fn initial_state(
    cursor: &mut Cursor,
    last: Option<u32>,
    mut each: impl FnMut(&Cursor, usize, Output),
) -> Result<u32, Refusal> {
    let place = cursor.place();
    let fx_id = cursor.one_of(&[0, 1])?;
    ensure(last.is_none_or(|last| last < fx_id), Number::Order, place)?;
    let outputs = cursor.list(0)?;
    let mut order = OutputOrder::default();
    for _ in 0..outputs.count {
        let start = cursor.place();
        let output = output(cursor, &FX_OUTPUTS[fx_id as usize])?;
        order.judge(cursor, start)?;
        each(cursor, start, output);
    }
    Ok(fx_id)
}

/// Reads a credential of one of the allowed types, with `due` signatures where that
/// number is known.
#[inline(always)]
pub fn credential(
    cursor: &mut Cursor,
    allowed: &[u32],
    due: Option<u32>,
) -> Result<Credential, Refusal> {
    let type_id = cursor.one_of(allowed)?;
    let place = cursor.place();
    let signatures = cursor.list(0)?;
    ensure(due.is_none_or(|due| due == signatures.count), Number::Count, place)?;
    cursor.fields::<SIGNATURE>(signatures.count)?;
    Ok(Credential { type_id, signatures })
}

/// The elements that can be read by themselves.
#[derive(Clone, Copy, Debug, PartialEq, Eq)]
#[allow(missing_docs)]
pub enum Kind {
    Output,
    TransferableOutput,
    Input,
    TransferableInput,
    Operation,
    TransferableOperation,
    InitialState,
    Credential,
}

/// Reads one element that is the whole of the bytes; answers the place where it ends,
/// and refuses bytes behind it.
pub fn alone(kind: Kind, bytes: &[u8]) -> Result<usize, Refusal> {
    let mut cursor = Cursor::at(bytes, 0);
    let c = &mut cursor;
    match kind {
        Kind::Output => output(c, ALL_OUTPUTS).map(drop),
        Kind::TransferableOutput => transferable_output(c, ALL_OUTPUTS).map(drop),
        Kind::Input => input(c).map(drop),
        Kind::TransferableInput => transferable_input(c, None).map(drop),
        Kind::Operation => operation(c).map(drop),
        Kind::TransferableOperation => transferable_operation(c).map(drop),
        Kind::InitialState => initial_state(c, None, |_, _, _| ()).map(drop),
        Kind::Credential => credential(c, &[CREDENTIAL, NFT_CREDENTIAL], None).map(drop),
    }?;
    cursor.end()
}
