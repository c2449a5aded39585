//! The writer's steps that write an accepted transaction again, by its reading.

use crate::cursor::{Cursor, List};
use crate::element::{self, Output};
use crate::lines::Step;
use crate::refusal::Refusal;
use crate::transaction::{read, Entry, Kind, Own, Row, Transaction};

/// The steps from start to finish; they leave every signature blank.
pub fn script(bytes: &[u8]) -> Result<Vec<Step>, Refusal> {
    let mut elements = Vec::new();
    let transaction = read(bytes, |row, entry| elements.extend(added(bytes, row, entry)))?;
    let of_kind = |kind: Kind| {
        let listed = elements.iter().filter(move |(listed, _)| *listed == kind);
        listed.map(|(_, step)| step.clone()).chain([Step::Close])
    };
    let Transaction { type_id, network, chain, .. } = transaction;
    let mut steps = vec![Step::Start { type_id, network, chain: *chain }];
    steps.extend(of_kind(Kind::Output));
    steps.extend(of_kind(Kind::Input));
    steps.push(Step::Memo(transaction.memo.to_vec()));
    match transaction.own {
        Own::Base => {}
        Own::CreateAsset { name, symbol, denomination, states } => {
            steps.push(Step::Name(name.to_vec()));
            steps.push(Step::Symbol(symbol.to_vec()));
            steps.push(Step::Denomination(denomination));
            steps.extend(state_steps(bytes, states)?);
        }
        Own::Operation { .. } => steps.extend(of_kind(Kind::Operation)),
        Own::Import { source, .. } => {
            steps.push(Step::Chain(*source));
            steps.extend(of_kind(Kind::ImportedInput));
        }
        Own::Export { destination, .. } => {
            steps.push(Step::Chain(*destination));
            steps.extend(of_kind(Kind::ExportedOutput));
        }
    }
    steps.push(Step::Finish);
    Ok(steps)
}

/// The step that adds an entry, where there is one. An initial state's outputs come with
/// their state, and credentials with the finish.
fn added(bytes: &[u8], row: Row, entry: Entry) -> Option<(Kind, Step)> {
    let step = match entry {
        Entry::Output(Some(asset), Output::Transfer { amount, owners }) => Step::Output {
            asset: *asset,
            amount,
            locktime: owners.locktime,
            threshold: owners.threshold,
            addresses: elements(bytes, owners.addresses, 20).to_vec(),
        },
        Entry::Input(input) => Step::Input {
            txid: *input.txid,
            index: input.index,
            asset: *input.asset,
            amount: input.input.amount,
            indices: numbers(elements(bytes, input.input.indices, 4)),
        },
        Entry::Operation(_) => Step::Operation(bytes[row.start..][..row.length].to_vec()),
        _ => return None,
    };
    Some((row.kind, step))
}

fn elements(bytes: &[u8], list: List, width: usize) -> &[u8] {
    &bytes[list.at..][..list.count as usize * width]
}

fn numbers(bytes: &[u8]) -> Vec<u32> {
    let words = bytes.chunks_exact(4).filter_map(|word| word.first_chunk());
    words.map(|&word| u32::from_be_bytes(word)).collect()
}

fn state_steps(bytes: &[u8], states: List) -> Result<Vec<Step>, Refusal> {
    let mut cursor = Cursor::at(bytes, states.at);
    let mut steps = Vec::new();
    for _ in 0..states.count {
        let start = cursor.place();
        element::initial_state(&mut cursor, None, |_, _, _| ())?;
        steps.push(Step::State(cursor.since(start).to_vec()));
    }
    steps.push(Step::Close);
    Ok(steps)
}
