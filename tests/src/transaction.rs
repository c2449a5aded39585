//! Reading a signed transaction: the first broken rule with its place, or the one
//! reading that accepted bytes have.

use crate::cursor::{Cursor, Id, List};
use crate::element::{
    self, Credential, Output, OutputOrder, Pair, TransferableInput, TransferableOperation,
};
use crate::refusal::{ensure, Number, Refusal};

/// The longest transaction.
pub const LIMIT: usize = 65_536;
/// The longest memo.
pub const MEMO_MOST: u32 = 256;
/// The longest name of an asset.
pub const NAME_MOST: u16 = 128;
/// The longest symbol of an asset.
pub const SYMBOL_MOST: u16 = 4;
/// The greatest denomination.
pub const DENOMINATION_MOST: u8 = 32;

/// The transaction types: base, create asset, operation, import, export.
pub const TYPES: &[u32] = &[BASE, CREATE_ASSET, OPERATION, IMPORT, EXPORT];
/// The type with the base part only.
pub const BASE: u32 = 0;
/// The type that creates an asset.
pub const CREATE_ASSET: u32 = 1;
/// The type with operations.
pub const OPERATION: u32 = 2;
/// The type with imported inputs.
pub const IMPORT: u32 = 3;
/// The type with exported outputs.
pub const EXPORT: u32 = 4;

/// An entry's kind, by `Entries and table`.
#[derive(Clone, Copy, Debug, PartialEq, Eq)]
#[allow(missing_docs)]
#[repr(u32)]
pub enum Kind {
    Output = 1,
    Input = 2,
    Operation = 3,
    ImportedInput = 4,
    ExportedOutput = 5,
    InitialStateOutput = 6,
    Credential = 7,
}

/// One row of the table.
#[derive(Clone, Copy, Debug, PartialEq, Eq)]
pub struct Row {
    /// The entry's kind.
    pub kind: Kind,
    /// The place of its first byte.
    pub start: usize,
    /// Its number of bytes.
    pub length: usize,
}

/// An entry's typed fields.
#[derive(Clone, Copy, Debug, PartialEq, Eq)]
pub enum Entry<'a> {
    /// Kinds 1, 5 and 6; only the first two have an asset id.
    Output(Option<Id<'a>>, Output),
    /// Kinds 2 and 4.
    Input(TransferableInput<'a>),
    /// Kind 3.
    Operation(TransferableOperation<'a>),
    /// Kind 7.
    Credential(Credential),
}

/// What a type adds to the base part.
#[derive(Clone, Copy, Debug, PartialEq, Eq)]
#[allow(missing_docs)]
pub enum Own<'a> {
    Base,
    CreateAsset { name: &'a [u8], symbol: &'a [u8], denomination: u8, states: List },
    Operation { operations: List },
    Import { source: Id<'a>, inputs: List },
    Export { destination: Id<'a>, outputs: List },
}

/// The reading of an accepted transaction; its entries are handed over one by one.
#[derive(Clone, Copy, Debug, PartialEq, Eq)]
pub struct Transaction<'a> {
    /// The number of bytes.
    pub length: usize,
    /// The type, 0 to 4.
    pub type_id: u32,
    /// The network.
    pub network: u32,
    /// The chain.
    pub chain: Id<'a>,
    /// The base outputs.
    pub outputs: List,
    /// The base inputs.
    pub inputs: List,
    /// The memo.
    pub memo: &'a [u8],
    /// The type's own part.
    pub own: Own<'a>,
    /// The place of the credential count; the bytes before it are the unsigned part.
    pub credentials_at: usize,
    /// The number of entries.
    pub rows: usize,
}

/// Checks the bytes, with no table lent.
pub fn check(bytes: &[u8]) -> Result<Transaction<'_>, Refusal> {
    read(bytes, |_, _| ())
}

/// Checks bytes whose unsigned part is that of an accepted transaction.
pub fn check_credentials(bytes: &[u8], read: &Transaction) -> Result<(), Refusal> {
    ensure(bytes.len() <= LIMIT, Number::TooLong, 0)?;
    let cursor = Cursor::at(bytes, read.credentials_at);
    Reader { bytes, cursor, entries: Entries { rows: 0, visit: |_, _| () } }
        .credentials(read.inputs, read.own)
}

/// Checks the bytes and hands each entry to `visit` as soon as it is read, so entries
/// are also handed over where a later rule is broken.
pub fn read<'a>(
    bytes: &'a [u8],
    visit: impl FnMut(Row, Entry<'a>),
) -> Result<Transaction<'a>, Refusal> {
    ensure(bytes.len() <= LIMIT, Number::TooLong, 0)?;
    let cursor = Cursor::at(bytes, 0);
    Reader { bytes, cursor, entries: Entries { rows: 0, visit } }.signed()
}

struct Entries<V> {
    rows: usize,
    visit: V,
}

impl<'a, V: FnMut(Row, Entry<'a>)> Entries<V> {
    #[inline(always)]
    fn add(&mut self, kind: Kind, start: usize, end: usize, entry: Entry<'a>) {
        self.rows += 1;
        (self.visit)(Row { kind, start, length: end - start }, entry);
    }
}

struct Reader<'a, V> {
    bytes: &'a [u8],
    cursor: Cursor<'a>,
    entries: Entries<V>,
}

impl<'a, V: FnMut(Row, Entry<'a>)> Reader<'a, V> {
    #[inline(always)]
    fn signed(mut self) -> Result<Transaction<'a>, Refusal> {
        let codec = self.cursor.number16()?;
        ensure(codec == 0, Number::Codec, 0)?;
        let type_id = self.cursor.one_of(TYPES)?;
        let network = self.cursor.number32()?;
        let chain = self.cursor.field()?;
        let outputs = self.outputs(Kind::Output, 0)?;
        let inputs = self.inputs(Kind::Input, 0)?;
        let memo = self.cursor.string(MEMO_MOST)?;
        let own = self.own(type_id)?;
        let credentials_at = self.cursor.place();
        self.credentials(inputs, own)?;
        let length = self.cursor.place();
        let rows = self.entries.rows;
        Ok(Transaction {
            length,
            type_id,
            network,
            chain,
            outputs,
            inputs,
            memo,
            own,
            credentials_at,
            rows,
        })
    }

    #[inline(always)]
    fn own(&mut self, type_id: u32) -> Result<Own<'a>, Refusal> {
        Ok(match type_id {
            CREATE_ASSET => Own::CreateAsset {
                name: self.cursor.text(NAME_MOST)?,
                symbol: self.cursor.text(SYMBOL_MOST)?,
                denomination: self.denomination()?,
                states: self.initial_states()?,
            },
            OPERATION => Own::Operation { operations: self.operations()? },
            IMPORT => Own::Import {
                source: self.cursor.field()?,
                inputs: self.inputs(Kind::ImportedInput, 1)?,
            },
            EXPORT => Own::Export {
                destination: self.cursor.field()?,
                outputs: self.outputs(Kind::ExportedOutput, 1)?,
            },
            _ => Own::Base,
        })
    }

    #[inline(always)]
    fn denomination(&mut self) -> Result<u8, Refusal> {
        let place = self.cursor.place();
        let denomination = self.cursor.number8()?;
        ensure(denomination <= DENOMINATION_MOST, Number::Denomination, place)?;
        Ok(denomination)
    }

    #[inline(always)]
    fn outputs(&mut self, kind: Kind, least: u32) -> Result<List, Refusal> {
        let list = self.cursor.list(least)?;
        let mut order = OutputOrder::default();
        for _ in 0..list.count {
            let start = self.cursor.place();
            let (asset, output) =
                element::transferable_output(&mut self.cursor, element::BASE_OUTPUTS)?;
            order.judge(&self.cursor, start)?;
            let entry = Entry::Output(Some(asset), output);
            self.entries.add(kind, start, self.cursor.place(), entry);
        }
        Ok(list)
    }

    /// Each list has an order of its own: imported inputs do not go on from the base's.
    #[inline(always)]
    fn inputs(&mut self, kind: Kind, least: u32) -> Result<List, Refusal> {
        let list = self.cursor.list(least)?;
        let mut last: Option<Pair> = None;
        for _ in 0..list.count {
            let start = self.cursor.place();
            let input = element::transferable_input(&mut self.cursor, last)?;
            last = Some((input.txid, input.index));
            self.entries.add(kind, start, self.cursor.place(), Entry::Input(input));
        }
        Ok(list)
    }

    /// Operations carry no order.
    #[inline(always)]
    fn operations(&mut self) -> Result<List, Refusal> {
        let list = self.cursor.list(1)?;
        for _ in 0..list.count {
            let start = self.cursor.place();
            let operation = element::transferable_operation(&mut self.cursor)?;
            let entry = Entry::Operation(operation);
            self.entries.add(Kind::Operation, start, self.cursor.place(), entry);
        }
        Ok(list)
    }

    #[inline(always)]
    fn initial_states(&mut self) -> Result<List, Refusal> {
        let list = self.cursor.list(1)?;
        let mut last = None;
        for _ in 0..list.count {
            let entries = &mut self.entries;
            let each = |cursor: &Cursor, start, output| {
                let entry = Entry::Output(None, output);
                entries.add(Kind::InitialStateOutput, start, cursor.place(), entry);
            };
            last = Some(element::initial_state(&mut self.cursor, last, each)?);
        }
        Ok(list)
    }

    /// Credentials end the transaction.
    #[inline(always)]
    fn credentials(&mut self, inputs: List, own: Own) -> Result<(), Refusal> {
        let due = DueCredentials::new(self.bytes, inputs, own);
        let place = self.cursor.place();
        let count = self.cursor.number32()?;
        ensure(count as usize == due.len(), Number::Count, place)?;
        for credential in due {
            let (type_id, signatures) = credential?;
            let start = self.cursor.place();
            let credential =
                element::credential(&mut self.cursor, &[type_id], Some(signatures))?;
            let entry = Entry::Credential(credential);
            self.entries.add(Kind::Credential, start, self.cursor.place(), entry);
        }
        self.cursor.end().map(drop)
    }
}

/// The credentials due, in order: one for each input, then for each operation or
/// imported input; of each its type and its number of signatures. The elements are
/// stepped over a second time, so that nothing need be kept of them.
#[derive(Clone)]
pub struct DueCredentials<'a> {
    /// The elements stepped over, and behind them those of the type's own part.
    now: DueList<'a>,
    then: DueList<'a>,
}

/// Elements of one list, which ask for credentials of one type.
#[derive(Clone)]
struct DueList<'a> {
    cursor: Cursor<'a>,
    left: u32,
    type_id: u32,
}

impl<'a> DueCredentials<'a> {
    /// The credentials due for the lists of a reading.
    #[inline(always)]
    pub fn new(bytes: &'a [u8], inputs: List, own: Own) -> Self {
        let (others, others_type) = match own {
            Own::Operation { operations } => (operations, element::NFT_CREDENTIAL),
            Own::Import { inputs, .. } => (inputs, element::CREDENTIAL),
            _ => (List::default(), element::CREDENTIAL),
        };
        let due = |list: List, type_id| DueList {
            cursor: Cursor::at(bytes, list.at),
            left: list.count,
            type_id,
        };
        DueCredentials { now: due(inputs, element::CREDENTIAL), then: due(others, others_type) }
    }
}

impl Iterator for DueCredentials<'_> {
    type Item = Result<(u32, u32), Refusal>;

    #[inline(always)]
    fn next(&mut self) -> Option<Self::Item> {
        if self.now.left == 0 {
            self.now = self.then.clone();
            self.then.left = 0;
        }
        let DueList { cursor, left, type_id } = &mut self.now;
        *left = left.checked_sub(1)?;
        let signatures = match *type_id {
            element::NFT_CREDENTIAL => step_over_operation(cursor),
            _ => step_over_input(cursor),
        };
        Some(signatures.map(|signatures| (*type_id, signatures)))
    }

    #[inline(always)]
    fn size_hint(&self) -> (usize, Option<usize>) {
        let left = self.now.left as usize + self.then.left as usize;
        (left, Some(left))
    }
}

impl ExactSizeIterator for DueCredentials<'_> {}

/// Steps over an input, and answers its number of indices.
#[inline(always)]
fn step_over_input(cursor: &mut Cursor) -> Result<u32, Refusal> {
    cursor.field::<80>()?;
    cursor.skip_list(4)
}

/// Steps over an operation, and answers its number of indices.
#[inline(always)]
fn step_over_operation(cursor: &mut Cursor) -> Result<u32, Refusal> {
    cursor.field::<32>()?;
    cursor.skip_list(36)?;
    let type_id = cursor.number32()?;
    let signatures = cursor.skip_list(4)?;
    cursor.field::<4>()?;
    cursor.skip_list(1)?;
    let owners = match type_id {
        element::NFT_MINT_OPERATION => cursor.number32()?,
        _ => 1,
    };
    for _ in 0..owners {
        cursor.field::<12>()?;
        cursor.skip_list(20)?;
    }
    Ok(signatures)
}
