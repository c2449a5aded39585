//! Data files and small builders that several tests share.
#![allow(dead_code, missing_docs)]

use std::fs;
use std::path::{Path, PathBuf};

use cellfacet_tests::encode::Encoder;
use cellfacet_tests::lines::{unhex, Answer};
use cellfacet_tests::{check, Refusal};

/// A published example: its bytes, how to read it, and its answer.
pub struct Example {
    pub bytes: Vec<u8>,
    pub read_as: String,
    pub answer: String,
}

pub fn data() -> PathBuf {
    Path::new(env!("CARGO_MANIFEST_DIR")).join("data")
}

pub fn example(path: impl AsRef<Path>) -> Example {
    let text = fs::read_to_string(data().join(path)).expect("a data file");
    let (notes, digits): (Vec<&str>, Vec<&str>) =
        text.lines().partition(|line| line.starts_with('#'));
    let note = |name: &str| {
        let found = notes.iter().find_map(|line| line.strip_prefix(name));
        found.unwrap_or_default().to_string()
    };
    let bytes = unhex(&digits.concat().replace(' ', "")).expect("hex");
    Example { bytes, read_as: note("# read as: "), answer: note("# answer: ") }
}

pub fn case_a() -> Vec<u8> {
    example("case-a.hex").bytes
}

/// Bytes with some of them replaced from a place on.
pub fn with(bytes: &[u8], place: usize, new: &[u8]) -> Vec<u8> {
    let mut changed = bytes.to_vec();
    changed[place..place + new.len()].copy_from_slice(new);
    changed
}

pub fn shown(result: Result<usize, Refusal>) -> String {
    Answer::from(result).to_string()
}

/// The check's answer with no table lent.
pub fn checked(bytes: &[u8]) -> String {
    shown(check(bytes).map(|transaction| transaction.length))
}

pub const CHAIN: [u8; 32] = [0xcc; 32];

/// Codec, type, network 1 and chain: 42 bytes.
pub fn head(type_id: u32) -> Encoder {
    Encoder::new().u16(0).u32(type_id).u32(1).raw(&CHAIN)
}

/// A base part without outputs, inputs and memo: 54 bytes.
pub fn bare(type_id: u32) -> Encoder {
    head(type_id).u32(0).u32(0).u32(0)
}

/// An asset's base part up to its denomination: 61 bytes.
pub fn asset() -> Encoder {
    bare(1).text(b"n").text(b"s").u8(0)
}

pub fn owners(locktime: u64, threshold: u32, addresses: &[[u8; 20]]) -> Vec<u8> {
    Encoder::new().u64(locktime).u32(threshold).list(addresses).done()
}

/// A transferable output of type 7.
pub fn output(asset: u8, amount: u64, owners: &[u8]) -> Vec<u8> {
    Encoder::new().raw(&[asset; 32]).u32(7).u64(amount).raw(owners).done()
}

pub fn input(txid: u8, index: u32, amount: u64, indices: &[u32]) -> Vec<u8> {
    let place = Encoder::new().raw(&[txid; 32]).u32(index).raw(&[0xaa; 32]);
    place.u32(5).u64(amount).numbers(indices).done()
}

/// An operation of type 13 without pairs, owned by nobody.
pub fn operation(indices: &[u32]) -> Vec<u8> {
    let asset = Encoder::new().raw(&[0xaa; 32]).u32(0);
    asset.u32(13).numbers(indices).u32(5).string(b"pay").raw(&owners(0, 0, &[])).done()
}

/// Operations of type 13 and 12 that name these owners, and the owners' place in each.
pub fn operations_of(owners: &[u8]) -> [(Vec<u8>, usize); 3] {
    let head = |type_id: u32| {
        let asset = Encoder::new().raw(&[0xaa; 32]).u32(0);
        asset.u32(type_id).u32(0).u32(5).u32(0)
    };
    let nobody = &self::owners(0, 0, &[])[..];
    [
        (head(13).raw(owners).done(), 52),
        (head(12).list(&[owners]).done(), 56),
        (head(12).list(&[nobody, owners, nobody]).done(), 72),
    ]
}

/// Initial states with one output of each type and these owners, and the owners' place in each.
pub fn states_of(owners: &[u8]) -> [(Vec<u8>, usize); 4] {
    let head = |fx_id: u32, type_id: u32| Encoder::new().u32(fx_id).u32(1).u32(type_id);
    [
        (head(0, 6).raw(owners).done(), 12),
        (head(0, 7).u64(1).raw(owners).done(), 20),
        (head(1, 10).u32(5).raw(owners).done(), 16),
        (head(1, 11).u32(5).string(b"x").raw(owners).done(), 21),
    ]
}

pub fn mint_output(locktime: u64) -> Vec<u8> {
    Encoder::new().u32(6).raw(&owners(locktime, 0, &[])).done()
}

pub fn credential(type_id: u32, signatures: &[[u8; 65]]) -> Vec<u8> {
    Encoder::new().u32(type_id).list(signatures).done()
}
