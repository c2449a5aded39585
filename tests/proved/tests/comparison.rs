//! The proved code and the independent program answer alike.
#![allow(missing_docs)]

use std::collections::BTreeSet;
use std::fs;
use std::path::{Path, PathBuf};

use cellfacet_proved::compare::{self, compare, Met};
use cellfacet_proved::entry::EntryRead;
use cellfacet_proved::library;
use cellfacet_proved::Proved;
use cellfacet_tests::check;
use cellfacet_tests::encode::Encoder;
use cellfacet_tests::generate::{Kind, Requests};
use cellfacet_tests::independent::Independent;
use cellfacet_tests::lines::{answer, serve, unhex, Answers, Hex};

const SEED: u64 = 20_251_115;
const REQUESTS: usize = 400_000;
const KINDS: [Kind; 4] = [Kind::Check, Kind::CheckNone, Kind::Entry, Kind::PhoneCheck];

fn data() -> PathBuf {
    Path::new(env!("CARGO_MANIFEST_DIR")).join("../data")
}

/// The bytes of a data file in hex, without the lines of its head.
fn example(path: &Path) -> Vec<u8> {
    let text = fs::read_to_string(path).expect("a data file");
    let digits: String = text.lines().filter(|line| !line.starts_with('#')).collect();
    unhex(&digits.replace(' ', "")).expect("hex")
}

fn case_a() -> Vec<u8> {
    example(&data().join("case-a.hex"))
}

/// Checks with a lent table: of no room, of some, of all that is used and one less or more.
fn tables(bytes: &[u8]) -> Vec<String> {
    let exact = 3 * check(bytes).map_or(0, |transaction| transaction.rows);
    let rooms = BTreeSet::from([0, 3, exact.saturating_sub(1), exact, exact + 1, 9816]);
    rooms.iter().map(|room| format!("check {} {room}", Hex(bytes))).collect()
}

/// Every entry, the one behind the last, and a far one.
fn entries(bytes: &[u8]) -> impl Iterator<Item = String> + '_ {
    let count = check(bytes).map_or(0, |transaction| transaction.rows as u32);
    (0..=count).chain([u32::MAX]).map(|n| format!("entry {} {n}", Hex(bytes)))
}

/// Both ways to ask for a check with no table.
fn requests(bytes: &[u8]) -> [String; 2] {
    [format!("check {} none", Hex(bytes)), format!("phone-check {}", Hex(bytes))]
}

fn alike(requests: impl IntoIterator<Item = String>) -> Met {
    compare(requests).unwrap_or_else(|difference| panic!("\n{difference}"))
}

#[test]
fn random_requests() {
    println!("seed {SEED}, {REQUESTS} requests");
    let met = alike(Requests::new(SEED, KINDS.to_vec()).take(REQUESTS));
    assert_eq!(met.requests, REQUESTS);
    assert!(met.tables >= 60_000, "{} with a lent table", met.tables);
    // Every type is accepted at times, every number of the check is met, and no bytes are as
    // well there as more bytes than any transaction has.
    let accepted = (0..=4).map(|type_id| (0, Some(type_id)));
    let refused = (1..=14).map(|number| (number, None));
    assert_eq!(met.checks, accepted.chain(refused).collect::<BTreeSet<_>>());
    // Every kind of entry is read, and every refusal of the entry reader is met.
    assert!(met.entries >= 60_000, "{} entries", met.entries);
    let done = (1..=7).map(|kind| (0, Some(kind)));
    let refused = (1..=13).chain([15]).map(|number| (number, None));
    assert_eq!(met.kinds, done.chain(refused).collect::<BTreeSet<_>>());
    let (least, most) = met.lengths.expect("some were checked");
    assert!(least == 0 && most > 65_536, "{least} to {most} bytes");
}

#[test]
fn published_examples() {
    let mut files = 0;
    for folder in ["dijets-vm", "avm-es"] {
        for file in fs::read_dir(data().join(folder)).expect("a data folder") {
            let bytes = example(&file.expect("a file").path());
            // As it is; as an unsigned part; and with one or two credentials behind that.
            let coded = Encoder::new().u16(0).raw(&bytes);
            let blank = Encoder::new().u32(9).list(&[[0; 65]; 2]).done();
            let one = coded.clone().list(&[&blank]).done();
            let two = coded.clone().list(&[&blank, &blank]).done();
            for bytes in [bytes, coded.done(), one, two] {
                alike(requests(&bytes));
                alike(tables(&bytes));
                alike(entries(&bytes));
            }
            files += 1;
        }
    }
    assert_eq!(files, 44);
}

#[test]
fn every_byte_of_case_a_with_every_value() {
    let a = case_a();
    let changed = (0..a.len()).flat_map(|place| (0..=255).map(move |value| (place, value)));
    let met = alike(changed.flat_map(|(place, value)| {
        let mut bytes = case_a();
        bytes[place] = value;
        requests(&bytes)
    }));
    assert_eq!(met.requests, 2 * 392 * 256);
}

#[test]
fn case_a_cut_and_continued() {
    let longer = [case_a(), vec![0; 3]].concat();
    alike((0..=longer.len()).flat_map(|length| requests(&longer[..length])));
    alike((0..=longer.len()).flat_map(|length| tables(&longer[..length])));
    alike((0..=longer.len()).flat_map(|length| entries(&longer[..length])));
}

/// A type 1 whose only list is two outputs with these payloads, and the second one's place.
fn with_payloads(payloads: [&[u8]; 2]) -> (Vec<u8>, usize) {
    let [first, second] = payloads.map(|payload| {
        let output = Encoder::new().u32(11).u32(0).string(payload);
        output.u64(0).u32(1).list(&[[7; 20]]).done()
    });
    let base = Encoder::new().u16(0).u32(1).u32(1).raw(&[3; 32]).u32(0).u32(0).u32(0);
    let head = base.text(b"name").text(b"N").u8(0).u32(1).u32(1).u32(2).raw(&first).done();
    let place = head.len();
    (Encoder::new().raw(&head).raw(&second).u32(0).done(), place)
}

/// Neighbours that differ in one byte only, for every length up to more than two blocks of 64
/// bytes and every byte: the byte decides, wherever it stands.
#[test]
fn one_byte_decides_the_order() {
    for length in 0..=150 {
        let payload = vec![0x80; length];
        let (equal, _) = with_payloads([&payload, &payload]);
        assert!(check(&equal).is_ok());
        alike(requests(&equal));
        for place in 0..length {
            for value in [0, 0x7f, 0x81, 0xff] {
                let mut other = payload.clone();
                other[place] = value;
                let (bytes, second) = with_payloads([&payload, &other]);
                let number = library::check(&bytes);
                let refused = 6 << 32 | second as u64;
                assert_eq!(number, if value < 0x80 { refused } else { bytes.len() as u64 });
                alike(requests(&bytes));
            }
        }
    }
}

#[test]
fn zeros_around_the_limit() {
    alike((65_530..65_540).flat_map(|length| requests(&vec![0; length])));
}

#[test]
fn the_proved_cases() {
    let a = case_a();
    assert_eq!(answer(&Proved, &requests(&a)[0]), Some("0 392".into()));
    assert_eq!(answer(&Proved, &requests(&a)[1]), Some("392".into()));
    assert_eq!(answer(&Proved, &requests(&a[..391])[0]), Some("2 327".into()));
    let rows = "1 46 100 2 150 92 7 254 138";
    let tabled = [(8, "14 0 0 kept".into()), (9, format!("0 392 3 {rows} kept"))];
    for (room, line) in tabled {
        let request = format!("check {} {room}", Hex(&a));
        assert_eq!(answer(&Proved, &request), Some(line));
    }
    let owners = "addresses_at=106 addresses_count=2 amount=12345 asset=";
    let output = answer(&Proved, &format!("entry {} 0", Hex(&a))).expect("an answer");
    assert!(output.starts_with(&format!("0 392 kind=1 {owners}")), "{output}");
    assert_eq!(answer(&Proved, &format!("entry {} 3", Hex(&a))), Some("15 0".into()));
    let packed = (2_u64 << 32) + 327;
    assert_eq!(answer(&Proved, &requests(&a[..391])[1]), Some(packed.to_string()));
}

#[test]
fn entries_stand_at_their_rows() {
    let requests = Requests::new(SEED, vec![Kind::CheckNone]).take(3_000);
    let mut found = 0;
    for request in requests {
        let bytes = unhex(request.split(' ').nth(1).expect("bytes")).expect("hex");
        let mut table = [0; 9816];
        let (_, count) = Proved.rows(&bytes, &mut table).expect("an answer");
        let rows = table[..3 * count].chunks(3).map(|row| row.to_vec()).take(50);
        for (n, row) in rows.enumerate() {
            let end = row[1] + row[2];
            let span = Some((row[1].into(), end.into()));
            assert_eq!(EntryRead::new(&bytes, n as u32).span(), span, "entry {n} of {request}");
            found += 1;
        }
        assert_eq!(EntryRead::new(&bytes, count as u32).span(), None);
    }
    assert!(found > 3_000, "{found} entries");
}

#[test]
fn no_room_for_an_entry() {
    let mut numbers = [7; 3];
    library::entry(&case_a(), 0, &mut numbers, &mut [], &mut []);
    assert_eq!(numbers, [0, 392, 1]);
    let (mut asset, mut txid) = ([9; 40], [9; 3]);
    library::entry(&case_a(), 1, &mut [], &mut asset, &mut txid);
    let a = case_a();
    assert_eq!((&asset[..32], &asset[32..]), (&a[186..218], &[9; 8][..]));
    assert_eq!(txid, a[150..153]);
}

#[test]
fn every_call_is_answered() {
    let input = b"check - none\ncheck - 0\nentry - 0\nfill - 0 -\nmerge - - 0\n\
        write 0 finish\nupload 0 -\nfoo\n";
    let mut output = Vec::new();
    serve(&Proved, &input[..], &mut output).expect("no failing write");
    let lines = "2 0\n2 0 0 kept\n2 0\n17 0 -\n17 0 -\n16 0 -\n2 0 2 0 -\nbad request\n";
    assert_eq!(String::from_utf8(output).expect("text"), lines);
}

/// A program that has no call.
struct Nothing;

impl Answers for Nothing {
    type Writer = ();
    type Upload = ();
}

#[test]
fn a_difference_is_found_and_shown() {
    let request = "merge - - 0";
    let difference = compare::alike(&Nothing, &Independent, request).expect_err("a difference");
    let shown = "request: merge - - 0\nproved: not yet\nindependent: 17 0 -";
    assert_eq!(difference.to_string(), shown);
    let difference = compare::both("merge - -").expect_err("no request");
    let shown = "request: merge - -\nproved: bad request\nindependent: bad request";
    assert_eq!(difference.to_string(), shown);
}
