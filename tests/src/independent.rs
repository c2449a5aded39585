//! The independent program behind the case lines.

use crate::cursor::List;
use crate::element::{self, Credential, Output, Owners, Receivers};
use crate::lines::{Answer, Answers, EntryFields, Field, Step};
use crate::refusal::{Number, Refusal};
use crate::transaction::{check, Entry};
use crate::{draft, entries, phone, upload, writer};

/// Answers with this library.
pub struct Independent;

impl From<Result<usize, Refusal>> for Answer {
    fn from(result: Result<usize, Refusal>) -> Self {
        match result {
            Ok(place) => Answer { number: 0, place: place as u64 },
            Err(Refusal { number, place }) => {
                Answer { number: number as u32, place: place as u64 }
            }
        }
    }
}

impl Answers for Independent {
    type Writer = writer::Writer;
    type Upload = upload::Upload;

    fn check(&self, bytes: &[u8]) -> Option<Answer> {
        Some(check(bytes).map(|transaction| transaction.length).into())
    }

    fn rows(&self, bytes: &[u8], table: &mut [u32]) -> Option<(Answer, usize)> {
        let read = entries::rows(bytes, table);
        let rows = read.map_or(0, |transaction| transaction.rows);
        Some((read.map(|transaction| transaction.length).into(), rows))
    }

    fn entry(&self, bytes: &[u8], n: u32) -> Option<(Answer, Option<EntryFields>)> {
        Some(match entries::entry(bytes, n as usize) {
            Ok((transaction, row, entry)) => {
                let fields = Fields::of(entry);
                let shown = EntryFields { kind: row.kind as u32, fields };
                (Ok(transaction.length).into(), Some(shown))
            }
            Err(refusal) => (Err(refusal).into(), None),
        })
    }

    fn fill(&self, draft: &mut [u8], slot: u64, signature: &[u8]) -> Option<Answer> {
        Some(draft::fill(draft, slot as usize, signature).into())
    }

    fn merge(&self, first: &[u8], second: &[u8], output: &mut [u8]) -> Option<Answer> {
        Some(draft::merge(first, second, output).into())
    }

    fn phone_check(&self, bytes: &[u8]) -> Option<u64> {
        Some(phone::check(bytes))
    }

    fn phone_merge(&self, first: &[u8], second: &[u8], output: &mut [u8]) -> Option<u64> {
        Some(phone::merge(first, second, output))
    }

    fn step(
        &self,
        writer: &mut writer::Writer,
        buffer: &mut [u8],
        step: &Step,
    ) -> Option<Answer> {
        Some(make_step(writer, buffer, step).into())
    }

    fn piece(
        &self,
        upload: &mut upload::Upload,
        store: &mut [u8],
        piece: &[u8],
    ) -> Option<Answer> {
        // A piece that is not refused is shown as 2, need more.
        let need_more: Result<usize, Refusal> = Err(Refusal::placeless(Number::CutShort));
        Some(upload.piece(store, piece).and(need_more).into())
    }

    fn end(&self, upload: &upload::Upload, store: &[u8]) -> Option<Answer> {
        Some(upload.end(store).into())
    }
}

/// Makes one step of a writer.
pub fn make_step(
    writer: &mut writer::Writer,
    buffer: &mut [u8],
    step: &Step,
) -> Result<usize, Refusal> {
    match step {
        Step::Start { type_id, network, chain } => {
            writer.start(buffer, *type_id, *network, chain)
        }
        Step::Output { asset, amount, locktime, threshold, addresses } => {
            writer.output(buffer, asset, *amount, *locktime, *threshold, addresses)
        }
        Step::Input { txid, index, asset, amount, indices } => {
            writer.input(buffer, (txid, *index), asset, *amount, indices)
        }
        Step::Operation(operation) => writer.operation(buffer, operation),
        Step::State(state) => writer.state(buffer, state),
        Step::Close => writer.close(buffer),
        Step::Memo(memo) => writer.memo(buffer, memo),
        Step::Name(name) => writer.name(buffer, name),
        Step::Symbol(symbol) => writer.symbol(buffer, symbol),
        Step::Denomination(denomination) => writer.denomination(buffer, *denomination),
        Step::Chain(chain) => writer.chain(buffer, chain),
        Step::Finish => writer.finish(buffer),
    }
}

/// Collects an entry's fields under their names.
#[derive(Default)]
struct Fields(Vec<(&'static str, Field)>);

impl Fields {
    fn of(entry: Entry) -> Vec<(&'static str, Field)> {
        let fields = Fields::default();
        match entry {
            Entry::Output(Some(asset), output) => fields.id("asset", asset).output(output),
            Entry::Output(None, output) => fields.output(output),
            Entry::Input(input) => fields
                .id("txid", input.txid)
                .number("index", input.index)
                .id("asset", input.asset)
                .number("amount", input.input.amount)
                .list("indices_at", "indices_count", input.input.indices),
            Entry::Operation(operation) => fields
                .id("asset", operation.asset)
                .list("pairs_at", "pairs_count", operation.pairs)
                .operation(operation.operation),
            Entry::Credential(Credential { type_id, signatures }) => fields
                .number("type", type_id)
                .list("signatures_at", "signatures_count", signatures),
        }
        .0
    }

    fn id(mut self, name: &'static str, id: &[u8; 32]) -> Self {
        self.0.push((name, Field::Id(*id)));
        self
    }

    fn number(mut self, name: &'static str, number: impl Into<u64>) -> Self {
        self.0.push((name, Field::Number(number.into())));
        self
    }

    fn list(self, at: &'static str, count: &'static str, list: List) -> Self {
        self.number(at, list.at as u64).number(count, list.count)
    }

    fn payload(self, payload: List) -> Self {
        self.list("payload_at", "payload_length", payload)
    }

    fn owners(self, owners: Owners) -> Self {
        self.number("locktime", owners.locktime).number("threshold", owners.threshold).list(
            "addresses_at",
            "addresses_count",
            owners.addresses,
        )
    }

    fn output(self, output: Output) -> Self {
        match output {
            Output::Mint { owners } => self.number("type", element::MINT_OUTPUT).owners(owners),
            Output::Transfer { amount, owners } => self
                .number("type", element::TRANSFER_OUTPUT)
                .number("amount", amount)
                .owners(owners),
            Output::NftMint { group, owners } => self
                .number("type", element::NFT_MINT_OUTPUT)
                .number("group", group)
                .owners(owners),
            Output::NftTransfer { group, payload, owners } => self
                .number("type", element::NFT_TRANSFER_OUTPUT)
                .number("group", group)
                .payload(payload)
                .owners(owners),
        }
    }

    fn operation(self, operation: element::Operation) -> Self {
        let shared = self
            .list("indices_at", "indices_count", operation.indices)
            .number("group", operation.group)
            .payload(operation.payload);
        match operation.receivers {
            Receivers::Mint(owners) => shared.number("type", element::NFT_MINT_OPERATION).list(
                "owners_at",
                "owners_count",
                owners,
            ),
            Receivers::Transfer(owners) => {
                shared.number("type", element::NFT_TRANSFER_OPERATION).owners(owners)
            }
        }
    }
}
