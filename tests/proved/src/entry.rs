//! Entry n of the proved code, from the numbers that it puts at their places.

use cellfacet_tests::lines::{Answer, EntryFields, Field};

use crate::library::{self, NUMBERS};

/// The places of number, place, kind, start and end.
const NUMBER: usize = 0;
const PLACE: usize = 1;
const KIND: usize = 2;
const START: usize = 3;
const END: usize = 4;

/// The fields' names, by their places behind those.
const NAMES: [&str; NUMBERS - 5] = [
    "type",
    "amount",
    "group",
    "payload_at",
    "payload_length",
    "locktime",
    "threshold",
    "addresses_at",
    "addresses_count",
    "index",
    "indices_at",
    "indices_count",
    "pairs_at",
    "pairs_count",
    "owners_at",
    "owners_count",
    "signatures_at",
    "signatures_count",
];

/// What was put. A place is written where both fills are gone from it.
pub struct EntryRead {
    numbers: [Option<u64>; NUMBERS],
    asset: [u8; 32],
    txid: [u8; 32],
}

impl EntryRead {
    /// Reads entry `n`, over buffers of two different fills.
    pub fn new(bytes: &[u8], n: u32) -> EntryRead {
        let (first, asset, txid) = filled(bytes, n, 0xa5);
        let (second, asset_again, txid_again) = filled(bytes, n, 0x5a);
        assert_eq!((asset, txid), (asset_again, txid_again), "identifiers are put whole");
        let numbers = std::array::from_fn(|i| (first[i] == second[i]).then_some(first[i]));
        EntryRead { numbers, asset, txid }
    }

    /// Where the entry starts and ends.
    pub fn span(&self) -> Option<(u64, u64)> {
        Some((self.numbers[START]?, self.numbers[END]?))
    }

    fn answer(&self) -> Answer {
        let number = self.numbers[NUMBER].expect("a number") as u32;
        Answer { number, place: self.numbers[PLACE].expect("a place") }
    }

    /// An identifier that the kind does not have is shown where it is not all zeros.
    fn fields(&self, kind: u32) -> Vec<(&'static str, Field)> {
        let numbers = NAMES.iter().zip(&self.numbers[END + 1..]);
        let numbers = numbers.filter_map(|(&name, &n)| Some((name, Field::Number(n?))));
        let input = matches!(kind, 2 | 4);
        let ids = [
            ("asset", self.asset, input || matches!(kind, 1 | 3 | 5)),
            ("txid", self.txid, input),
        ];
        let shown = ids.into_iter().filter(|&(_, id, has)| has || id != [0; 32]);
        numbers.chain(shown.map(|(name, id, _)| (name, Field::Id(id)))).collect()
    }
}

fn filled(bytes: &[u8], n: u32, fill: u8) -> ([u64; NUMBERS], [u8; 32], [u8; 32]) {
    let mut numbers = [u64::from_be_bytes([fill; 8]); NUMBERS];
    let (mut asset, mut txid) = ([fill; 32], [fill; 32]);
    library::entry(bytes, n.into(), &mut numbers, &mut asset, &mut txid);
    (numbers, asset, txid)
}

/// Reads entry `n` as its named fields.
pub fn read(bytes: &[u8], n: u32) -> (Answer, Option<EntryFields>) {
    let read = EntryRead::new(bytes, n);
    let kind = read.numbers[KIND].map(|kind| kind as u32);
    let entry = kind.map(|kind| EntryFields { kind, fields: read.fields(kind) });
    (read.answer(), entry)
}
