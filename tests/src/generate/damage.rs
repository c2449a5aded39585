//! Breaking accepted transactions, most often at a number that a rule speaks of.

use super::Random;
use crate::cursor::{Cursor, List};
use crate::element::{self, Output, Owners, Receivers};
use crate::transaction::{read, Entry, Kind, Own, Row, Transaction};

/// What can be damaged on purpose; nothing in bytes that are refused.
#[derive(Default)]
pub struct Marks {
    /// Place and width of numbers that stand in many entries.
    numbers: Vec<(usize, usize)>,
    /// Place and width of numbers that stand once in a transaction.
    single: Vec<(usize, usize)>,
    /// Lists of fixed-width elements, with the width.
    runs: Vec<(List, usize)>,
    /// The addresses of all owners; the threshold stands 8 bytes before the first.
    addresses: Vec<List>,
    /// Place and length of texts.
    texts: Vec<(usize, usize)>,
    rows: Vec<Row>,
}

impl Marks {
    /// The marks of a transaction.
    pub fn of(bytes: &[u8]) -> Marks {
        let mut marks = Marks::default();
        let mut memo_at = 0;
        let transaction = read(bytes, |row, entry| {
            if row.kind == Kind::Input {
                memo_at = row.start + row.length;
            }
            marks.rows.push(row);
            marks.entry(bytes, row, entry);
        });
        let Ok(transaction) = transaction else {
            return Marks::default();
        };
        let counts = [transaction.outputs.at - 4, transaction.inputs.at - 4];
        marks.single.extend(counts.map(|place| (place, 4)));
        marks.single.extend([(0, 2), (2, 4), (transaction.credentials_at, 4)]);
        marks.own(bytes, &transaction, memo_at.max(transaction.inputs.at));
        marks
    }

    /// The marks of an operation given as its own bytes.
    pub fn of_operation(bytes: &[u8]) -> Marks {
        let mut marks = Marks::default();
        if let Ok(read) = element::transferable_operation(&mut Cursor::at(bytes, 0)) {
            marks.run(read.pairs, 36);
            marks.operation(bytes, read.operation);
        }
        marks
    }

    /// The marks of an initial state given as its own bytes.
    pub fn of_state(bytes: &[u8]) -> Marks {
        let mut marks = Marks::default();
        let each = |_: &Cursor, start, output| marks.output(start, output);
        match element::initial_state(&mut Cursor::at(bytes, 0), None, each) {
            Ok(_) => marks,
            Err(_) => Marks::default(),
        }
    }

    fn list(&mut self, list: List) {
        self.numbers.push((list.at - 4, 4));
    }

    fn run(&mut self, list: List, width: usize) {
        self.list(list);
        self.runs.push((list, width));
    }

    fn owners(&mut self, owners: Owners) {
        self.run(owners.addresses, 20);
        self.addresses.push(owners.addresses);
        self.numbers.push((owners.addresses.at - 8, 4));
    }

    fn entry(&mut self, bytes: &[u8], row: Row, entry: Entry) {
        match entry {
            Entry::Output(asset, output) => {
                let type_at = row.start + if asset.is_some() { 32 } else { 0 };
                self.numbers.push((type_at, 4));
                self.output(type_at, output);
            }
            Entry::Input(input) => {
                self.numbers.extend([(row.start + 32, 4), (row.start + 68, 4)]);
                self.numbers.push((row.start + 72, 8));
                self.run(input.input.indices, 4);
            }
            Entry::Operation(operation) => {
                self.run(operation.pairs, 36);
                self.operation(bytes, operation.operation);
            }
            Entry::Credential(credential) => {
                self.numbers.push((row.start, 4));
                self.list(credential.signatures);
            }
        }
    }

    fn output(&mut self, type_at: usize, output: Output) {
        match output {
            Output::Mint { owners } | Output::NftMint { owners, .. } => self.owners(owners),
            Output::Transfer { owners, .. } => {
                self.numbers.push((type_at + 4, 8));
                self.owners(owners);
            }
            Output::NftTransfer { payload, owners, .. } => {
                self.list(payload);
                self.owners(owners);
            }
        }
    }

    fn operation(&mut self, bytes: &[u8], operation: element::Operation) {
        self.numbers.push((operation.indices.at - 8, 4));
        self.run(operation.indices, 4);
        self.list(operation.payload);
        match operation.receivers {
            Receivers::Mint(list) => self.owner_list(bytes, list),
            Receivers::Transfer(owners) => self.owners(owners),
        }
    }

    fn owner_list(&mut self, bytes: &[u8], list: List) {
        self.list(list);
        let mut cursor = Cursor::at(bytes, list.at);
        for _ in 0..list.count {
            let Ok(owners) = element::owners(&mut cursor) else {
                return;
            };
            self.owners(owners);
        }
    }

    fn own(&mut self, bytes: &[u8], transaction: &Transaction, memo_at: usize) {
        self.single.push((memo_at, 4));
        match transaction.own {
            Own::Base => {}
            Own::CreateAsset { name, symbol, states, .. } => {
                let name_at = memo_at + 4 + transaction.memo.len();
                let symbol_at = name_at + 2 + name.len();
                let denomination_at = symbol_at + 2 + symbol.len();
                self.single.extend([(name_at, 2), (symbol_at, 2), (denomination_at, 1)]);
                self.texts.extend([(name_at + 2, name.len()), (symbol_at + 2, symbol.len())]);
                self.states(bytes, states);
            }
            Own::Operation { operations: list }
            | Own::Import { inputs: list, .. }
            | Own::Export { outputs: list, .. } => self.single.push((list.at - 4, 4)),
        }
    }

    fn states(&mut self, bytes: &[u8], states: List) {
        self.single.push((states.at - 4, 4));
        let mut cursor = Cursor::at(bytes, states.at);
        for _ in 0..states.count {
            self.single.extend([(cursor.place(), 4), (cursor.place() + 4, 4)]);
            if element::initial_state(&mut cursor, None, |_, _, _| ()).is_err() {
                return;
            }
        }
    }
}

/// Damages the bytes in one or two ways.
pub fn damaged(random: &mut Random, mut bytes: Vec<u8>) -> Vec<u8> {
    for _ in 0..1 + random.below(2) {
        damage(random, &mut bytes);
    }
    bytes
}

/// A threshold at the edges of what these addresses allow: 0, their number or one more. At
/// times the first two of them trade places, so that it shows which rule is judged first.
pub fn edge_threshold(random: &mut Random, addresses: &mut [u8]) -> u32 {
    let count = addresses.len() as u32 / 20;
    if count > 1 && random.once_in(4) {
        addresses[..40].rotate_left(20);
    }
    random.pick(&[0, count, count + 1])
}

/// Sets the threshold of some owners, if there are any.
pub fn set_threshold(random: &mut Random, bytes: &mut [u8], marks: &Marks) {
    if marks.addresses.is_empty() {
        return;
    }
    let List { at, count } = random.pick(&marks.addresses);
    let threshold = edge_threshold(random, &mut bytes[at..][..count as usize * 20]);
    bytes[at - 8..at - 4].copy_from_slice(&threshold.to_be_bytes());
}

fn damage(random: &mut Random, bytes: &mut Vec<u8>) {
    let marks = Marks::of(bytes);
    match random.below(14) {
        0 => flip(random, bytes),
        1 => bytes.truncate(random.below(bytes.len() + 1)),
        2 => bytes.extend([0, random.byte()].iter().take(1 + random.below(2))),
        3 | 4 => move_elements(random, bytes, &marks),
        5 => swap_rows(random, bytes, &marks),
        6 => repeat_or_drop_row(random, bytes, &marks),
        7 => break_text(random, bytes, &marks),
        8 | 9 if !marks.addresses.is_empty() => set_threshold(random, bytes, &marks),
        _ => alter_number(random, bytes, &marks),
    }
}

fn flip(random: &mut Random, bytes: &mut [u8]) {
    if !bytes.is_empty() {
        let place = random.below(bytes.len());
        bytes[place] ^= 1 << random.below(8);
    }
}

fn alter_number(random: &mut Random, bytes: &mut [u8], marks: &Marks) {
    if marks.single.is_empty() {
        return flip(random, bytes);
    }
    let single = marks.numbers.is_empty() || random.once_in(3);
    let (place, width) = random.pick(if single { &marks.single } else { &marks.numbers });
    let field = &mut bytes[place..place + width];
    let old = field.iter().fold(0, |number: u64, &byte| number << 8 | u64::from(byte));
    let new = match random.below(8) {
        _ if width == 1 => random.pick(&[0, 32, 33, 34, 255]),
        0 | 1 => 0,
        2 => old.wrapping_add(1),
        3 => old.wrapping_sub(1),
        4 => u64::MAX,
        5 => random.pick(&[4, 5, 33, 127, 128, 129, 256, 257, 1024, 1025]),
        _ => random.below(16) as u64,
    };
    field.copy_from_slice(&new.to_be_bytes()[8 - width..]);
}

/// Swaps two neighbours of a list, or makes the second equal to the first.
fn move_elements(random: &mut Random, bytes: &mut [u8], marks: &Marks) {
    let long: Vec<_> = marks.runs.iter().filter(|(list, _)| list.count > 1).collect();
    if long.is_empty() {
        return alter_number(random, bytes, marks);
    }
    let &(list, width) = random.pick(&long);
    let place = list.at + width * random.below(list.count as usize - 1);
    let (first, second) = bytes[place..place + 2 * width].split_at_mut(width);
    if random.once_in(2) {
        first.swap_with_slice(second);
    } else {
        second.copy_from_slice(first);
    }
}

/// Swaps two neighbouring rows of one kind.
fn swap_rows(random: &mut Random, bytes: &mut [u8], marks: &Marks) {
    let neighbours = marks.rows.windows(2).filter(|rows| {
        rows[0].kind == rows[1].kind && rows[0].start + rows[0].length == rows[1].start
    });
    let neighbours: Vec<_> = neighbours.collect();
    if neighbours.is_empty() {
        return move_elements(random, bytes, marks);
    }
    let rows = random.pick(&neighbours);
    bytes[rows[0].start..rows[1].start + rows[1].length].rotate_left(rows[0].length);
}

/// Repeats a row or leaves it out; most often its list's count follows.
fn repeat_or_drop_row(random: &mut Random, bytes: &mut Vec<u8>, marks: &Marks) {
    if marks.rows.is_empty() {
        return flip(random, bytes);
    }
    let row = random.pick(&marks.rows);
    let span = row.start..row.start + row.length;
    let first = marks.rows.iter().find(|other| other.kind == row.kind);
    let count_at = first.map_or(row.start, |first| first.start) - 4;
    let repeat = random.once_in(2);
    if repeat {
        let copy = bytes[span.clone()].to_vec();
        bytes.splice(span.start..span.start, copy);
    } else {
        bytes.drain(span);
    }
    if !random.once_in(4) {
        let last = &mut bytes[count_at + 3];
        *last = if repeat { last.wrapping_add(1) } else { last.wrapping_sub(1) };
    }
}

fn break_text(random: &mut Random, bytes: &mut [u8], marks: &Marks) {
    if marks.texts.is_empty() {
        return alter_number(random, bytes, marks);
    }
    let (place, length) = random.pick(&marks.texts);
    bytes[place + random.below(length)] = random.pick(&[0, 0x1f, 0x7f, 0x80, 0xff]);
}
