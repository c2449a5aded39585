//! Accepted transactions of every type and of given lengths.

use std::fmt;

use cellfacet_tests::element::{
    CREDENTIAL, INPUT, NFT_CREDENTIAL, NFT_TRANSFER_OPERATION, NFT_TRANSFER_OUTPUT,
    TRANSFER_OUTPUT,
};
use cellfacet_tests::encode::Encoder;
use cellfacet_tests::transaction::{BASE, CREATE_ASSET, EXPORT, IMPORT, OPERATION, TYPES};

/// How the neighbours of a list differ.
#[derive(Clone, Copy, PartialEq, Eq)]
pub enum Order {
    /// In their first bytes.
    Early,
    /// In their last bytes, or for outputs not at all.
    Late,
}

impl fmt::Display for Order {
    fn fmt(&self, f: &mut fmt::Formatter) -> fmt::Result {
        f.write_str(match self {
            Order::Early => "early difference",
            Order::Late => "long equal runs",
        })
    }
}

/// An accepted transaction.
pub struct Sample {
    /// The transaction's type.
    pub type_id: u32,
    /// How the neighbours of its lists differ.
    pub order: Order,
    /// The length that it comes close to.
    pub length: usize,
    /// The transaction.
    pub bytes: Vec<u8>,
}

impl fmt::Display for Sample {
    fn fmt(&self, f: &mut fmt::Formatter) -> fmt::Result {
        write!(f, "{} | {} | {}", self.type_id, self.bytes.len(), self.order)
    }
}

/// The length of a full transaction.
pub const FULL: usize = 65_536;

/// Every type, small, medium and as long as can be.
pub fn samples() -> Vec<Sample> {
    let mut samples = Vec::new();
    for &type_id in TYPES {
        for length in [392, 4096, FULL] {
            for order in [Order::Early, Order::Late] {
                let bytes = transaction(type_id, order, length);
                samples.push(Sample { type_id, order, length, bytes });
            }
        }
    }
    samples
}

/// An import with 200 slots, of two to an input.
pub fn with_200_slots(order: Order) -> Sample {
    let bytes = assembled(IMPORT, &parts(IMPORT, order, 100), 0);
    Sample { type_id: IMPORT, order, length: bytes.len(), bytes }
}

/// The elements of a transaction: those of the base part, those of the own part, and the
/// credentials that they want.
#[derive(Default)]
struct Parts {
    outputs: Vec<Vec<u8>>,
    inputs: Vec<Vec<u8>>,
    own: Vec<Vec<u8>>,
    credentials: Vec<Vec<u8>>,
}

/// As many elements as there is room for, and a memo for the rest, as far as one may go.
fn transaction(type_id: u32, order: Order, length: usize) -> Vec<u8> {
    let assembled = |count, memo| assembled(type_id, &parts(type_id, order, count), memo);
    let counts: Vec<u32> = (1..2000).collect();
    let count = counts.partition_point(|&count| assembled(count, 0).len() <= length) as u32;
    let rest = length - assembled(count, 0).len();
    assembled(count, rest.min(256))
}

/// So many elements; where a type takes two kinds of them, these by turns.
fn parts(type_id: u32, order: Order, count: u32) -> Parts {
    let mut parts = Parts::default();
    for n in 0..count {
        match type_id {
            BASE if n % 2 == 0 => parts.outputs.push(transferable_output(order, n)),
            BASE => {
                parts.inputs.push(input(order, n));
                parts.credentials.push(credential(CREDENTIAL));
            }
            CREATE_ASSET if n % 2 == 0 => parts.outputs.push(transfer_output(order, n)),
            CREATE_ASSET => parts.own.push(nft_output(order, n)),
            OPERATION => {
                parts.own.push(operation(order, n));
                parts.credentials.push(credential(NFT_CREDENTIAL));
            }
            IMPORT => {
                parts.own.push(input(order, n));
                parts.credentials.push(credential(CREDENTIAL));
            }
            _ => parts.own.push(transferable_output(order, n)),
        }
    }
    parts
}

fn assembled(type_id: u32, parts: &Parts, memo: usize) -> Vec<u8> {
    let Parts { outputs, inputs, own, credentials } = parts;
    let head = Encoder::new().u16(0).u32(type_id).u32(1).raw(&[0xcc; 32]);
    let memo = vec![0; memo];
    let unsigned = match type_id {
        CREATE_ASSET => {
            let base = head.u32(0).u32(0).string(&memo);
            let asset = base.text(b"a name of some length").text(b"NAME").u8(9);
            // The initial states of FxID 0 and 1.
            asset.u32(2).u32(0).list(outputs).u32(1).list(own)
        }
        OPERATION => head.u32(0).u32(0).string(&memo).list(own),
        IMPORT | EXPORT => head.u32(0).u32(0).string(&memo).raw(&[0xdd; 32]).list(own),
        _ => head.list(outputs).list(inputs).string(&memo),
    };
    unsigned.list(credentials).done()
}

/// Bytes that are above those of a lower n, from the first or by the last of them.
fn above<const N: usize>(order: Order, n: u32) -> [u8; N] {
    let mut bytes = [0x77; N];
    match order {
        Order::Early => bytes[..4].copy_from_slice(&(n << 16).to_be_bytes()),
        Order::Late => bytes[N - 4..].copy_from_slice(&n.to_be_bytes()),
    }
    bytes
}

/// An identifier above that of a lower n; the same one where lists have equal runs.
fn id(order: Order, n: u32) -> [u8; 32] {
    above(order, if order == Order::Early { n } else { 0 })
}

fn owners(order: Order, bytes: Encoder) -> Encoder {
    let addresses = [above::<20>(order, 1), above::<20>(order, 2)];
    bytes.u64(0).u32(1).list(&addresses)
}

/// An amount above that of a lower n; the same one where lists have equal runs.
fn amount(order: Order, n: u32) -> u64 {
    match order {
        Order::Early => (u64::from(n) + 1) << 48,
        Order::Late => 1,
    }
}

fn transfer_output(order: Order, n: u32) -> Vec<u8> {
    owners(order, Encoder::new().u32(TRANSFER_OUTPUT).u64(amount(order, n))).done()
}

fn transferable_output(order: Order, n: u32) -> Vec<u8> {
    Encoder::new().raw(&id(order, n)).raw(&transfer_output(order, n)).done()
}

fn nft_output(order: Order, n: u32) -> Vec<u8> {
    let group = if order == Order::Early { n << 16 } else { 0 };
    let output = Encoder::new().u32(NFT_TRANSFER_OUTPUT).u32(group).string(&[0x11; 16]);
    owners(order, output).done()
}

fn input(order: Order, n: u32) -> Vec<u8> {
    let key = Encoder::new().raw(&id(order, n)).u32(n);
    key.raw(&[0xaa; 32]).u32(INPUT).u64(1).numbers(&[3, 7]).done()
}

fn operation(order: Order, n: u32) -> Vec<u8> {
    let asset = Encoder::new().raw(&id(order, n)).u32(2);
    let pairs = asset.raw(&id(order, 1)).u32(1).raw(&id(order, 2)).u32(2);
    let nft = pairs.u32(NFT_TRANSFER_OPERATION).numbers(&[3, 7]).u32(n).string(&[0x11; 4]);
    owners(order, nft).done()
}

fn credential(type_id: u32) -> Vec<u8> {
    Encoder::new().u32(type_id).list(&[[0x55; 65]; 2]).done()
}
