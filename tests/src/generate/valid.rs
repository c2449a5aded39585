//! Random accepted transactions of every type.

use std::collections::{BTreeMap, BTreeSet};

use super::Random;
use crate::element::{
    CREDENTIAL, INPUT, MINT_OUTPUT, NFT_CREDENTIAL, NFT_MINT_OPERATION, NFT_MINT_OUTPUT,
    NFT_TRANSFER_OPERATION, NFT_TRANSFER_OUTPUT, PAYLOAD_MOST, SIGNATURE, TRANSFER_OUTPUT,
};
use crate::encode::Encoder;
use crate::transaction::{BASE, CREATE_ASSET, EXPORT, IMPORT, LIMIT, OPERATION};

/// The credentials due so far: type and number of signatures.
type Due = Vec<(u32, usize)>;

/// An accepted transaction; now and then one near the limits.
pub fn transaction(random: &mut Random) -> Vec<u8> {
    match random.below(400) {
        0 => of_length(random, LIMIT),
        1 => many_entries(random),
        _ => small_transaction(random),
    }
}

/// An accepted transaction of a random type and moderate length.
pub fn small_transaction(random: &mut Random) -> Vec<u8> {
    let type_id = random.pick(&[BASE, CREATE_ASSET, OPERATION, IMPORT, EXPORT]);
    let mut due = Due::new();
    let outputs = outputs(random, 0);
    let inputs = inputs(random, 0, &mut due);
    let memo = match random.below(10) {
        0 => 256,
        1..=4 => random.below(40),
        _ => 0,
    };
    let base = head(random, type_id).list(&outputs).list(&inputs).string(&random.bytes(memo));
    let unsigned = own_part(random, base, type_id, &mut due);
    let count = unsigned.u32(due.len() as u32);
    due.iter().fold(count, |bytes, &due| credential(random, bytes, due)).done()
}

fn head(random: &mut Random, type_id: u32) -> Encoder {
    let network = random.number32();
    Encoder::new().u16(0).u32(type_id).u32(network).raw(&random.array::<32>())
}

fn own_part(random: &mut Random, base: Encoder, type_id: u32, due: &mut Due) -> Encoder {
    match type_id {
        CREATE_ASSET => {
            let name = base.text(&printable(random, 128));
            let symbol = name.text(&printable(random, 4));
            let denomination = random.pick(&[0, 2, 9, 31, 32]);
            symbol.u8(denomination).list(&states(random))
        }
        OPERATION => base.list(&operations(random, due)),
        IMPORT => base.raw(&random.array::<32>()).list(&inputs(random, 1, due)),
        EXPORT => base.raw(&random.array::<32>()).list(&outputs(random, 1)),
        _ => base,
    }
}

fn printable(random: &mut Random, most: usize) -> Vec<u8> {
    let length = match random.below(4) {
        0 => most,
        1 => 1,
        _ => 1 + random.below(most),
    };
    (0..length).map(|_| 0x20 + random.below(0x5f) as u8).collect()
}

fn owners(random: &mut Random, bytes: Encoder) -> Encoder {
    let count = random.few();
    let addresses: BTreeSet<[u8; 20]> = (0..count).map(|_| random.array()).collect();
    let addresses: Vec<_> = addresses.into_iter().collect();
    let threshold = threshold(random, addresses.len());
    bytes.u64(random.number64()).u32(threshold as u32).list(&addresses)
}

/// A threshold that a number of addresses allows, often at the edges: 1 and that number.
fn threshold(random: &mut Random, addresses: usize) -> usize {
    match random.below(3) {
        _ if addresses == 0 => 0,
        0 => 1,
        1 => addresses,
        _ => 1 + random.below(addresses),
    }
}

fn payload(random: &mut Random, bytes: Encoder) -> Encoder {
    let length = match random.below(12) {
        0 => PAYLOAD_MOST as usize,
        1..=6 => random.below(30),
        _ => 0,
    };
    bytes.string(&random.bytes(length))
}

fn output(random: &mut Random, bytes: Encoder, type_id: u32) -> Encoder {
    let typed = bytes.u32(type_id);
    let fields = match type_id {
        TRANSFER_OUTPUT => typed.u64(random.number64().max(1)),
        NFT_MINT_OUTPUT => typed.u32(random.number32()),
        NFT_TRANSFER_OUTPUT => {
            let group = random.number32();
            payload(random, typed.u32(group))
        }
        _ => typed,
    };
    owners(random, fields)
}

/// Equal outputs are no fault, so some stand twice.
fn sorted(random: &mut Random, mut outputs: Vec<Vec<u8>>) -> Vec<Vec<u8>> {
    if random.once_in(5) {
        outputs.extend(outputs.first().cloned());
    }
    outputs.sort();
    outputs
}

fn outputs(random: &mut Random, least: usize) -> Vec<Vec<u8>> {
    let asset = random.array::<32>();
    let count = least + random.few();
    let outputs = (0..count).map(|_| {
        let asset = if random.once_in(2) { asset } else { random.array() };
        output(random, Encoder::new().raw(&asset), TRANSFER_OUTPUT).done()
    });
    let outputs = outputs.collect();
    sorted(random, outputs)
}

fn indices(random: &mut Random) -> Vec<u32> {
    let count = random.few();
    let indices: BTreeSet<u32> = (0..count).map(|_| random.number32()).collect();
    indices.into_iter().collect()
}

/// (Transaction id, index) pairs, in their order; some share the id.
fn pairs(random: &mut Random, count: usize) -> Vec<([u8; 32], u32)> {
    let shared = random.array::<32>();
    let pairs: BTreeSet<_> = (0..count)
        .map(|_| {
            let id = if random.once_in(2) { shared } else { random.array() };
            (id, random.number32())
        })
        .collect();
    pairs.into_iter().collect()
}

fn inputs(random: &mut Random, least: usize, due: &mut Due) -> Vec<Vec<u8>> {
    let count = least + random.few();
    let pairs = pairs(random, count);
    let inputs = pairs.into_iter().map(|(txid, index)| {
        let indices = indices(random);
        due.push((CREDENTIAL, indices.len()));
        let asset = Encoder::new().raw(&txid).u32(index).raw(&random.array::<32>());
        asset.u32(INPUT).u64(random.number64().max(1)).numbers(&indices).done()
    });
    inputs.collect()
}

fn operations(random: &mut Random, due: &mut Due) -> Vec<Vec<u8>> {
    let count = 1 + random.few();
    let operations = (0..count).map(|_| {
        let indices = indices(random);
        due.push((NFT_CREDENTIAL, indices.len()));
        operation(random, &indices)
    });
    operations.collect()
}

fn operation(random: &mut Random, indices: &[u32]) -> Vec<u8> {
    let count = random.few();
    let pairs = pairs(random, count);
    let counted = Encoder::new().raw(&random.array::<32>()).u32(pairs.len() as u32);
    let spent = pairs.iter().fold(counted, |bytes, (id, index)| bytes.raw(id).u32(*index));
    let type_id = random.pick(&[NFT_MINT_OPERATION, NFT_TRANSFER_OPERATION]);
    let group = random.number32();
    let nft = payload(random, spent.u32(type_id).numbers(indices).u32(group));
    if type_id == NFT_TRANSFER_OPERATION {
        return owners(random, nft).done();
    }
    let count = random.few();
    (0..count).fold(nft.u32(count as u32), |bytes, _| owners(random, bytes)).done()
}

fn states(random: &mut Random) -> Vec<Vec<u8>> {
    let fx_ids = random.pick(&[&[0][..], &[1], &[0, 1]]);
    fx_ids.iter().map(|&fx_id| state(random, fx_id)).collect()
}

fn state(random: &mut Random, fx_id: u32) -> Vec<u8> {
    let types = match fx_id {
        0 => [MINT_OUTPUT, TRANSFER_OUTPUT],
        _ => [NFT_MINT_OUTPUT, NFT_TRANSFER_OUTPUT],
    };
    let count = random.few();
    let outputs = (0..count).map(|_| {
        let type_id = random.pick(&types);
        output(random, Encoder::new(), type_id).done()
    });
    let outputs = outputs.collect();
    Encoder::new().u32(fx_id).list(&sorted(random, outputs)).done()
}

fn credential(random: &mut Random, bytes: Encoder, (type_id, count): (u32, usize)) -> Encoder {
    let signatures: Vec<_> = (0..count).map(|_| signature(random)).collect();
    bytes.u32(type_id).list(&signatures)
}

/// The bytes of a slot: at times empty, at times empty but for a single byte.
pub fn signature(random: &mut Random) -> [u8; SIGNATURE] {
    let mut signature = [0; SIGNATURE];
    match random.below(6) {
        0 | 1 => {}
        2 => signature[random.pick(&[0, 1, 7, 8, 32, 63, 64])] = 1 + random.byte() / 2,
        _ => signature = random.array(),
    }
    signature
}

/// An accepted transaction of type 0 that is `length` bytes long, some hundred at least.
pub fn of_length(random: &mut Random, length: usize) -> Vec<u8> {
    let rest = length - 58 - 60;
    let memo = rest % 20 + 20 * random.below(12);
    let count = (rest - memo) / 20;
    let output = Encoder::new().raw(&random.array::<32>()).u32(TRANSFER_OUTPUT);
    let output = output.u64(1 + random.below(9) as u64).u64(0).u32(1).u32(count as u32);
    let address = |n: usize| [&[0; 16][..], &(n as u32).to_be_bytes()].concat();
    let output = (0..count).fold(output, |bytes, n| bytes.raw(&address(n)));
    let base = head(random, BASE).list(&[output.done()]).u32(0);
    base.string(&random.bytes(memo)).u32(0).done()
}

/// An accepted transaction with as many entries as can stand in the limit.
pub fn many_entries(random: &mut Random) -> Vec<u8> {
    let base = head(random, CREATE_ASSET).u32(0).u32(0).u32(0);
    let asset = base.text(b"n").text(b"s").u8(0);
    let count = 3260 + random.below(13);
    let output = Encoder::new().u32(MINT_OUTPUT).u64(0).u32(0).u32(0).done();
    asset.u32(1).u32(0).list(&vec![output; count]).u32(0).done()
}

/// An accepted import with hundreds of slots, up to as many as can stand in the limit.
pub fn many_slots(random: &mut Random) -> Vec<u8> {
    let count = 200 + random.below(740);
    let indices: Vec<u32> = (0..count as u32).collect();
    let base = head(random, IMPORT).u32(0).u32(0).u32(0).raw(&random.array::<32>());
    let input = base.u32(1).raw(&random.array::<32>()).u32(0).raw(&random.array::<32>());
    let unsigned = input.u32(INPUT).u64(1).numbers(&indices);
    credential(random, unsigned.u32(1), (CREDENTIAL, count)).done()
}

/// The slots of a transaction, filled anew: each is emptied, kept or given another
/// signature of `others`, by chance.
pub fn refill(
    random: &mut Random,
    draft: &mut [u8],
    slots: &[usize],
    others: &BTreeMap<usize, [u8; SIGNATURE]>,
) {
    for &place in slots {
        let slot = &mut draft[place..place + SIGNATURE];
        match (random.below(4), others.get(&place)) {
            (0 | 1, _) => slot.fill(0),
            (2, Some(other)) => slot.copy_from_slice(other),
            _ => {}
        }
    }
}
