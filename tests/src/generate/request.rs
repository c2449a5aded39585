//! Request lines of each kind.

use std::collections::VecDeque;

use super::damage::{damaged, edge_threshold, set_threshold, Marks};
use super::drafts::{copies, draft, places, Grouping};
use super::uploads::{near_limit, Cutting};
use super::valid::{of_length, signature, small_transaction, transaction};
use super::Random;
use crate::draft::merge;
use crate::element::SIGNATURE;
use crate::independent::make_step;
use crate::lines::{Call, Hex, Step};
use crate::refusal::Refusal;
use crate::script::script;
use crate::transaction::{check, LIMIT};
use crate::writer::Writer;

/// A kind of request.
#[derive(Clone, Copy, Debug, PartialEq, Eq)]
#[allow(missing_docs)]
pub enum Kind {
    Check,
    CheckNone,
    Entry,
    Fill,
    Merge,
    Phone,
    PhoneCheck,
    PhoneMerge,
    Write,
    Upload,
}

impl Kind {
    /// All kinds with their names.
    pub const ALL: [(&'static str, Kind); 10] = [
        ("check", Kind::Check),
        ("check-none", Kind::CheckNone),
        ("entry", Kind::Entry),
        ("fill", Kind::Fill),
        ("merge", Kind::Merge),
        ("phone", Kind::Phone),
        ("phone-check", Kind::PhoneCheck),
        ("phone-merge", Kind::PhoneMerge),
        ("write", Kind::Write),
        ("upload", Kind::Upload),
    ];

    /// The kind of this name.
    pub fn named(name: &str) -> Option<Kind> {
        Kind::ALL.iter().find(|(known, _)| *known == name).map(|&(_, kind)| kind)
    }
}

/// An endless row of request lines.
pub struct Requests {
    random: Random,
    kinds: Vec<Kind>,
    waiting: VecDeque<String>,
}

impl Requests {
    /// Requests of some kinds, at least one.
    pub fn new(seed: u64, kinds: Vec<Kind>) -> Self {
        Requests { random: Random::new(seed), kinds, waiting: VecDeque::new() }
    }
}

impl Iterator for Requests {
    type Item = String;

    fn next(&mut self) -> Option<String> {
        while self.waiting.is_empty() {
            let random = &mut self.random;
            match random.pick(&self.kinds) {
                Kind::Merge if random.once_in(3) => self.waiting.extend(grouping(random)),
                kind => self.waiting.push_back(request(random, kind)),
            }
        }
        self.waiting.pop_front()
    }
}

/// One request of a kind.
fn request(random: &mut Random, kind: Kind) -> String {
    match kind {
        Kind::Check => check_request(random),
        Kind::CheckNone => format!("check {} none", Hex(&bytes(random))),
        Kind::Entry => entry_request(random),
        Kind::Fill => fill_request(random),
        Kind::Merge => merge_request(random, "merge"),
        Kind::Phone if random.once_in(2) => request(random, Kind::PhoneMerge),
        Kind::Phone | Kind::PhoneCheck => format!("phone-check {}", Hex(&bytes(random))),
        Kind::PhoneMerge => merge_request(random, "phone-merge"),
        Kind::Write => write_request(random),
        Kind::Upload => upload_request(random),
    }
}

/// Any bytes: accepted, damaged, too long, or no transaction at all.
fn bytes(random: &mut Random) -> Vec<u8> {
    match random.below(60) {
        0 => {
            let length = random.below(60);
            random.bytes(length)
        }
        1 => Vec::new(),
        2 if random.once_in(6) => of_length(random, LIMIT + 1),
        2 if random.once_in(3) => vec![0; LIMIT + random.below(2)],
        3..=24 => transaction(random),
        _ => {
            let accepted = transaction(random);
            damaged(random, accepted)
        }
    }
}

/// Sets a threshold of a transaction, which often breaks its rule.
fn reset_threshold(random: &mut Random, bytes: &mut [u8]) {
    let marks = Marks::of(bytes);
    set_threshold(random, bytes, &marks);
}

fn rows(bytes: &[u8]) -> usize {
    check(bytes).map_or(3, |transaction| transaction.rows)
}

fn check_request(random: &mut Random) -> String {
    let bytes = bytes(random);
    let exact = 3 * rows(&bytes);
    let room = match random.below(8) {
        0 | 1 => return format!("check {} none", Hex(&bytes)),
        2 => 0,
        3 => exact.saturating_sub(1),
        4 => random.below(exact + 1),
        5 => exact + 1 + random.below(6),
        6 if random.once_in(10) => 9816,
        _ => exact,
    };
    format!("check {} {room}", Hex(&bytes))
}

fn entry_request(random: &mut Random) -> String {
    let mut bytes = if random.once_in(3) { bytes(random) } else { transaction(random) };
    if random.once_in(12) {
        reset_threshold(random, &mut bytes);
    }
    let n = match random.below(30) {
        0 => u32::MAX as usize,
        1 | 2 => rows(&bytes),
        _ => random.below(rows(&bytes).max(1)),
    };
    format!("entry {} {n}", Hex(&bytes))
}

fn fill_request(random: &mut Random) -> String {
    let mut draft = draft(random);
    match random.below(24) {
        0 | 1 => draft = damaged(random, draft),
        2 | 3 => reset_threshold(random, &mut draft),
        _ => {}
    }
    let places = places(&draft);
    let some = random.below(places.len().max(1));
    let slot = match random.below(12) {
        0 => places.len() as u64,
        1 => random.number64(),
        // A number whose lower bits are those of a slot.
        2 => some as u64 + (1 << random.pick(&[16, 31, 32, 63])),
        _ => some as u64,
    };
    let held = places.get(some).map(|&place| draft[place..place + SIGNATURE].to_vec());
    let mut bytes = signature(random).to_vec();
    match random.below(10) {
        0 | 1 => bytes = held.unwrap_or(bytes),
        2 => bytes = vec![0; SIGNATURE],
        3 => bytes.resize(random.pick(&[0, 1, 64, 66, 130]), 0),
        _ => {}
    }
    format!("fill {} {slot} {}", Hex(&draft), Hex(&bytes))
}

fn room(random: &mut Random, length: usize) -> usize {
    match random.below(8) {
        0 => length.saturating_sub(1 + random.below(3)),
        1 => random.below(length + 1),
        2 | 3 => length + 1 + random.below(20),
        _ => length,
    }
}

fn merge_request(random: &mut Random, name: &str) -> String {
    let conflicts = random.once_in(2);
    let mut drafts = copies(random, 2, conflicts);
    match random.below(14) {
        0 => drafts[0] = draft(random),
        1 => drafts[1][9] ^= 1,
        2 | 3 => {
            let broken = random.below(2);
            drafts[broken] = damaged(random, drafts[broken].clone());
        }
        4 => drafts = drafts.into_iter().map(|draft| damaged(random, draft)).collect(),
        5 | 6 => {
            let reset = random.below(2);
            reset_threshold(random, &mut drafts[reset]);
        }
        _ => {}
    }
    let room = room(random, drafts[0].len());
    format!("{name} {} {} {room}", Hex(&drafts[0]), Hex(&drafts[1]))
}

/// The merge calls of a random grouping.
fn grouping(random: &mut Random) -> Vec<String> {
    let count = 2 + random.below(5);
    let conflicts = random.once_in(4);
    let drafts = copies(random, count, conflicts);
    let tree = Grouping::new(random, count);
    let mut calls = Vec::new();
    // How it ends is not asked for here.
    let _ = tree.run(&drafts, &mut |first, second| {
        let room = first.len() + random.pick(&[0, 0, 7]);
        calls.push(format!("merge {} {} {room}", Hex(first), Hex(second)));
        let mut output = vec![0; room];
        let length = merge(first, second, &mut output)?;
        output.truncate(length);
        Ok::<_, Refusal>(output)
    });
    calls
}

fn write_request(random: &mut Random) -> String {
    let large = random.once_in(150);
    let bytes = if large { of_length(random, LIMIT) } else { small_transaction(random) };
    let steps = script(&bytes).unwrap_or_default();
    let calls = steps.into_iter().map(|step| Call { step, lent: None });
    let mut calls: Vec<Call> = calls.collect();
    if random.once_in(12) {
        mix(random, &mut calls);
    }
    for _ in 0..random.pick(&[0, 1, 1, 2, 3]) {
        disturb(random, &mut calls);
    }
    let length = write_room(random, &calls, bytes.len());
    if random.once_in(3) {
        lend_less(random, &mut calls, length);
    }
    let calls: Vec<String> = calls.iter().map(Call::to_string).collect();
    format!("write {length} {}", calls.join(" "))
}

fn upload_request(random: &mut Random) -> String {
    let bytes = if random.once_in(150) { near_limit(random) } else { bytes(random) };
    Cutting::of(random, &bytes).to_string()
}

/// The bytes written behind each call.
fn written(calls: &[Call], length: usize) -> Vec<usize> {
    let mut buffer = vec![0; length];
    let mut writer = Writer::new();
    let mut at = 0;
    let places = calls.iter().map(|call| {
        let lent = call.lent.unwrap_or(length);
        at = make_step(&mut writer, &mut buffer[..lent], &call.step).unwrap_or(at);
        at
    });
    places.collect()
}

fn write_room(random: &mut Random, calls: &[Call], length: usize) -> usize {
    let places = written(calls, length + 4096);
    match random.below(8) {
        0 => random.pick(&places).saturating_sub(random.below(2)),
        1 => length.saturating_sub(1 + random.below(3)),
        2 => random.below(length + 1),
        3 | 4 => length,
        _ => length + random.pick(&[1, 100, 2000]),
    }
}

/// Lends some call only a front of the buffer, close to the bytes written before or
/// behind it.
fn lend_less(random: &mut Random, calls: &mut Vec<Call>, length: usize) {
    let places = written(calls, length);
    let n = random.below(calls.len());
    let before = if n == 0 { 0 } else { places[n - 1] };
    let near = random.pick(&[before, places[n]]);
    let lent = (near + random.below(3)).saturating_sub(1).min(length);
    if random.once_in(2) {
        calls.insert(n, calls[n].clone());
    }
    calls[n].lent = Some(lent);
}

/// Puts the steps of another transaction between, each somewhere.
fn mix(random: &mut Random, calls: &mut Vec<Call>) {
    for step in script(&small_transaction(random)).unwrap_or_default() {
        let n = random.below(calls.len() + 1);
        calls.insert(n, Call { step, lent: None });
    }
}

/// Puts a call out of order, leaves one out, or alters its arguments.
fn disturb(random: &mut Random, calls: &mut Vec<Call>) {
    if calls.len() < 2 {
        return;
    }
    let n = random.below(calls.len() - 1);
    match random.below(9) {
        0 => calls.swap(n, n + 1),
        1 => drop(calls.remove(n)),
        2 => calls.insert(n, calls[n].clone()),
        3 => {
            let other = calls[random.below(calls.len())].clone();
            calls.insert(n, other);
        }
        4 => {
            let owned = (0..calls.len()).filter(|&n| has_owners(&calls[n].step));
            let owned: Vec<usize> = owned.collect();
            let n = if owned.is_empty() { n } else { random.pick(&owned) };
            let other = with_threshold(random, calls[n].step.clone());
            put_altered(random, calls, n, other);
        }
        _ => {
            let other = altered(random, calls[n].step.clone());
            put_altered(random, calls, n, other);
        }
    }
}

/// Puts a step before the right one, where a refusal skips nothing; or in its stead, where
/// the later steps may no longer be due.
fn put_altered(random: &mut Random, calls: &mut Vec<Call>, n: usize, step: Step) {
    if random.once_in(3) {
        calls[n].step = step;
    } else {
        calls.insert(n, Call { step, lent: None });
    }
}

/// The step adds an element that may have owners.
fn has_owners(step: &Step) -> bool {
    matches!(step, Step::Output { .. } | Step::Operation(_) | Step::State(_))
}

/// The step with another threshold, if it has owners.
fn with_threshold(random: &mut Random, mut step: Step) -> Step {
    match &mut step {
        Step::Output { threshold, addresses, .. } => {
            *threshold = edge_threshold(random, addresses);
        }
        Step::Operation(bytes) => {
            let marks = Marks::of_operation(bytes);
            set_threshold(random, bytes, &marks);
        }
        Step::State(bytes) => {
            let marks = Marks::of_state(bytes);
            set_threshold(random, bytes, &marks);
        }
        _ => {}
    }
    step
}

fn altered(random: &mut Random, step: Step) -> Step {
    match step {
        Step::Start { network, chain, .. } => {
            Step::Start { type_id: random.below(7) as u32, network, chain }
        }
        Step::Output { .. } => altered_output(random, step),
        Step::Input { txid, index, asset, amount, mut indices } => match random.below(4) {
            0 => Step::Input { txid, index, asset, amount: 0, indices },
            1 => {
                let index = index.wrapping_sub(1);
                Step::Input { txid, index, asset, amount, indices }
            }
            _ => {
                indices.push(random.number32());
                Step::Input { txid, index, asset, amount, indices }
            }
        },
        Step::Operation(bytes) => Step::Operation(altered_bytes(random, bytes)),
        Step::State(mut bytes) if bytes.len() >= 20 && random.once_in(5) => {
            // The amount of the first output, or its payload's length behind the group.
            bytes[12..20].fill(random.pick(&[0, 0xff]));
            Step::State(bytes)
        }
        Step::State(bytes) => Step::State(altered_bytes(random, bytes)),
        Step::Memo(_) => Step::Memo(vec![0; random.pick(&[255, 256, 257, 300])]),
        Step::Name(_) => Step::Name(altered_text(random, &[0, 128, 129])),
        Step::Symbol(_) => Step::Symbol(altered_text(random, &[0, 4, 5])),
        Step::Denomination(_) => Step::Denomination(random.pick(&[0, 32, 33, 255])),
        Step::Chain(_) => Step::Chain(random.array()),
        Step::Close | Step::Finish => {
            random.pick(&[Step::Close, Step::Finish].each_ref()).clone()
        }
    }
}

fn altered_output(random: &mut Random, step: Step) -> Step {
    let Step::Output { mut asset, mut amount, locktime, mut threshold, mut addresses } = step
    else {
        return step;
    };
    match random.below(6) {
        0 => amount = 0,
        1 => threshold = edge_threshold(random, &mut addresses),
        2 => addresses.push(0),
        3 => {
            addresses.extend(random.array::<20>());
            // Not 0 with an address: the addresses' order is asked for here.
            threshold = threshold.max(1);
        }
        4 => addresses.extend(addresses.clone()),
        _ => asset[random.below(32)] = random.pick(&[0, 255]),
    }
    Step::Output { asset, amount, locktime, threshold, addresses }
}

fn altered_bytes(random: &mut Random, mut bytes: Vec<u8>) -> Vec<u8> {
    match random.below(4) {
        0 => bytes.truncate(random.below(bytes.len() + 1)),
        1 => bytes.push(random.byte()),
        _ if bytes.is_empty() => bytes.push(random.byte()),
        _ => {
            let place = random.below(bytes.len());
            bytes[place] = random.pick(&[0, 1, 7, 255]);
        }
    }
    bytes
}

fn altered_text(random: &mut Random, lengths: &[usize]) -> Vec<u8> {
    let mut text = vec![b'x'; random.pick(lengths)];
    if let Some(last) = text.last_mut().filter(|_| random.once_in(2)) {
        *last = random.pick(&[0x1f, 0x20, 0x7e, 0x7f]);
    }
    text
}
