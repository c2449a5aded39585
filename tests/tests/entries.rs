//! Rows, table room and an entry's fields.
#![allow(missing_docs)]

mod common;

use cellfacet_tests::encode::Encoder;
use cellfacet_tests::generate::valid::many_entries;
use cellfacet_tests::generate::{Kind, Random, Requests};
use cellfacet_tests::independent::Independent;
use cellfacet_tests::lines::{answer, Hex};
use cellfacet_tests::{check, rows};
use common::{asset, bare, case_a, credential, head, input, mint_output, operation};
use common::{output, owners, shown};

fn asked(request: String) -> String {
    answer(&Independent, &request).expect("a request")
}

fn entry(bytes: &[u8], n: usize) -> String {
    asked(format!("entry {} {n}", Hex(bytes)))
}

#[test]
fn table_room_is_judged_last_and_in_numbers() {
    let a = case_a();
    for room in 0..9 {
        let mut table = vec![5; room];
        let refused = rows(&a, &mut table).map(|transaction| transaction.length);
        assert_eq!(shown(refused), "14 0");
        assert_eq!(table, vec![5; room]);
    }
    let mut table = [5; 9];
    let refused = rows(&a[..391], &mut table).map(|transaction| transaction.length);
    assert_eq!((shown(refused), table), ("2 327".into(), [5; 9]));
    let empty = bare(0).u32(0).done();
    assert_eq!(rows(&empty, &mut []).map(|transaction| transaction.rows), Ok(0));
}

#[test]
fn most_rows_that_can_stand() {
    let mut random = Random::new(3);
    let most = std::iter::repeat_with(|| many_entries(&mut random))
        .filter_map(|bytes| check(&bytes).ok().map(|transaction| transaction.rows))
        .take(100)
        .max();
    assert_eq!(most, Some(3272));
}

#[test]
fn rows_in_byte_order() {
    let base = head(3).list(&[output(1, 1, &owners(0, 0, &[]))]);
    let inputs = base.list(&[input(1, 0, 1, &[4])]).u32(0).raw(&[0; 32]);
    let imported = inputs.list(&[input(0, 0, 1, &[])]);
    let signed = imported.list(&[credential(9, &[[0; 65]]), credential(9, &[])]).done();
    let line = asked(format!("check {} 15", Hex(&signed)));
    let rows = "1 46 60 2 110 88 4 238 84 7 326 73 7 399 8";
    assert_eq!(line, format!("0 407 5 {rows} kept"));
}

#[test]
fn fields_of_case_a() {
    let a = case_a();
    let asset: String = (0..32).map(|n| format!("{n:02x}")).collect();
    assert_eq!(
        entry(&a, 0),
        format!(
            "0 392 kind=1 addresses_at=106 addresses_count=2 amount=12345 asset={asset} \
             locktime=54321 threshold=1 type=7"
        )
    );
    let txid = "f1e1d1c1b1a191817161514131211101f0e0d0c0b0a090807060504030201000";
    assert_eq!(
        entry(&a, 1),
        format!(
            "0 392 kind=2 amount=123456789 asset={asset} index=5 indices_at=234 \
             indices_count=2 txid={txid}"
        )
    );
    assert_eq!(entry(&a, 2), "0 392 kind=7 signatures_at=262 signatures_count=2 type=9");
    assert_eq!(entry(&a, 3), "15 0");
    assert_eq!(entry(&a, u32::MAX as usize), "15 0");
    assert_eq!(entry(&a[..391], 3), "2 327");
}

#[test]
fn fields_of_initial_state_outputs() {
    let nobody = owners(8, 0, &[]);
    let nft = Encoder::new().u32(10).u32(6).raw(&nobody).done();
    let payload = Encoder::new().u32(11).u32(6).string(b"abc").raw(&nobody).done();
    let secp = Encoder::new().u32(0).list(&[mint_output(8)]).done();
    let state = Encoder::new().u32(1).list(&[nft, payload]).done();
    let signed = asset().list(&[secp, state]).u32(0).done();
    assert_eq!(
        entry(&signed, 0),
        "0 160 kind=6 addresses_at=93 addresses_count=0 locktime=8 threshold=0 type=6"
    );
    assert_eq!(
        entry(&signed, 1),
        "0 160 kind=6 addresses_at=125 addresses_count=0 group=6 locktime=8 threshold=0 type=10"
    );
    assert_eq!(
        entry(&signed, 2),
        "0 160 kind=6 addresses_at=156 addresses_count=0 group=6 locktime=8 payload_at=137 \
         payload_length=3 threshold=0 type=11"
    );
}

#[test]
fn fields_of_operations() {
    let pairs = Encoder::new().raw(&[0xbb; 32]).u32(1).raw(&[0xdd; 32]).u32(2);
    let mint = pairs.u32(12).numbers(&[4]).u32(6).string(b"xy").list(&[owners(0, 0, &[])]);
    let operations = [operation(&[1, 2]), mint.done()];
    let blank = [credential(14, &[[0; 65]; 2]), credential(14, &[[0; 65]])];
    let signed = bare(2).list(&operations).list(&blank).done();
    let length = signed.len();
    let asset = "aa".repeat(32);
    assert_eq!(
        entry(&signed, 0),
        format!(
            "0 {length} kind=3 addresses_at=137 addresses_count=0 asset={asset} group=5 \
             indices_at=102 indices_count=2 locktime=0 pairs_at=94 pairs_count=0 \
             payload_at=118 payload_length=3 threshold=0 type=13"
        )
    );
    let asset = "bb".repeat(32);
    assert_eq!(
        entry(&signed, 1),
        format!(
            "0 {length} kind=3 asset={asset} group=6 indices_at=217 indices_count=1 \
             owners_at=235 owners_count=1 pairs_at=173 pairs_count=1 payload_at=229 \
             payload_length=2 type=12"
        )
    );
}

#[test]
fn rows_and_entries_agree_on_random_bytes() {
    for request in Requests::new(5, vec![Kind::Entry]).take(400) {
        let words: Vec<&str> = request.split(' ').collect();
        let table = asked(format!("check {} 9816", words[1]));
        let numbers: Vec<&str> = table.split(' ').collect();
        let n: usize = words[2].parse().expect("a number");
        let entry = asked(request.clone());
        let begins = match numbers.get(3 + 3 * n) {
            Some(kind) if *kind != "kept" => format!("0 {} kind={kind} ", numbers[1]),
            _ if numbers[0] == "0" => "15 0".into(),
            _ => format!("{} {}", numbers[0], numbers[1]),
        };
        assert!(entry.starts_with(&begins), "{entry} does not begin with {begins}");
    }
}
