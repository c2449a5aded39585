//! The case lines by which programs that answer the same questions are compared: a
//! request line in, an answer line out. Nothing here knows the format; whatever answers
//! stands behind the trait `Answers`.

use std::fmt::{self, Display, Write as _};
use std::io::{self, BufRead, Write};

/// A lent buffer holds this byte everywhere before the call.
const LENT: u8 = 0xa5;
/// A lent table holds this number everywhere before the call.
const LENT_NUMBER: u32 = 0xa5a5_a5a5;
/// Larger rooms are no request, so that a line cannot ask for all memory.
const ROOM_MOST: usize = 1 << 24;

/// A number and its place.
#[derive(Clone, Copy, Debug, PartialEq, Eq)]
pub struct Answer {
    /// The number of the table, 0 where it is done.
    pub number: u32,
    /// The place.
    pub place: u64,
}

/// The value of an entry's field.
#[derive(Clone, Copy, Debug, PartialEq, Eq)]
pub enum Field {
    /// Shown in decimal.
    Number(u64),
    /// Shown in hex.
    Id([u8; 32]),
}

/// An entry as its kind and its named fields, in any order.
#[derive(Clone, Debug, PartialEq, Eq)]
pub struct EntryFields {
    /// The entry's kind.
    pub kind: u32,
    /// The fields with their names.
    pub fields: Vec<(&'static str, Field)>,
}

/// A call of the writer.
#[derive(Clone, Debug, PartialEq, Eq)]
#[allow(missing_docs)]
pub enum Step {
    Start { type_id: u32, network: u32, chain: [u8; 32] },
    Output { asset: [u8; 32], amount: u64, locktime: u64, threshold: u32, addresses: Vec<u8> },
    Input { txid: [u8; 32], index: u32, asset: [u8; 32], amount: u64, indices: Vec<u32> },
    Operation(Vec<u8>),
    State(Vec<u8>),
    Close,
    Memo(Vec<u8>),
    Name(Vec<u8>),
    Symbol(Vec<u8>),
    Denomination(u8),
    Chain([u8; 32]),
    Finish,
}

/// A writer's call with the length of the buffer's lent front, all of it where none is
/// given.
#[derive(Clone, Debug, PartialEq, Eq)]
pub struct Call {
    /// The step.
    pub step: Step,
    /// The lent front's length.
    pub lent: Option<usize>,
}

/// What answers the requests. A call that it does not have answers `None`, and the line of
/// such a request is `not yet`.
#[allow(unused_variables)]
pub trait Answers {
    /// The writer's state before its first step is the default.
    type Writer: Default;
    /// The state of an upload, whose fresh start is the default.
    type Upload: Default;

    /// Checks with no table lent.
    fn check(&self, bytes: &[u8]) -> Option<Answer> {
        None
    }
    /// Checks with a lent table; answers also the number of rows.
    fn rows(&self, bytes: &[u8], table: &mut [u32]) -> Option<(Answer, usize)> {
        None
    }
    /// Reads one entry.
    fn entry(&self, bytes: &[u8], n: u32) -> Option<(Answer, Option<EntryFields>)> {
        None
    }
    /// Fills a slot of the lent draft.
    fn fill(&self, draft: &mut [u8], slot: u64, signature: &[u8]) -> Option<Answer> {
        None
    }
    /// Merges two drafts into the output buffer.
    fn merge(&self, first: &[u8], second: &[u8], output: &mut [u8]) -> Option<Answer> {
        None
    }
    /// The phone program's check.
    fn phone_check(&self, bytes: &[u8]) -> Option<u64> {
        None
    }
    /// The phone program's merge.
    fn phone_merge(&self, first: &[u8], second: &[u8], output: &mut [u8]) -> Option<u64> {
        None
    }
    /// Makes one writer's step over the lent buffer.
    fn step(
        &self,
        writer: &mut Self::Writer,
        buffer: &mut [u8],
        step: &Step,
    ) -> Option<Answer> {
        None
    }
    /// Uploads one piece into the lent store.
    fn piece(
        &self,
        upload: &mut Self::Upload,
        store: &mut [u8],
        piece: &[u8],
    ) -> Option<Answer> {
        None
    }
    /// Ends an upload over the lent store.
    fn end(&self, upload: &Self::Upload, store: &[u8]) -> Option<Answer> {
        None
    }
}

/// Answers each line of the input with one line.
pub fn serve(
    answers: &impl Answers,
    input: impl BufRead,
    mut output: impl Write,
) -> io::Result<()> {
    for line in input.split(b'\n') {
        let line = line?;
        let answer = std::str::from_utf8(&line).ok().and_then(|line| answer(answers, line));
        writeln!(output, "{}", answer.as_deref().unwrap_or("bad request"))?;
    }
    output.flush()
}

/// The line of a request whose call is not there.
pub const NOT_YET: &str = "not yet";

/// The answer to one request, or none where the line is no request.
pub fn answer<A: Answers>(answers: &A, line: &str) -> Option<String> {
    let words: Vec<&str> = line.split(' ').collect();
    match words[..] {
        ["check", bytes, "none"] => shown(answers.check(&unhex(bytes)?)),
        ["check", bytes, room] => rows_line(answers, &unhex(bytes)?, lent_room(room)?),
        ["entry", bytes, n] => entry_line(answers, &unhex(bytes)?, number(n)?),
        ["fill", draft, slot, signature] => {
            let mut draft = unhex(draft)?;
            let answer = answers.fill(&mut draft, number(slot)?, &unhex(signature)?);
            shown_with(answer, &draft)
        }
        ["merge", first, second, room] => {
            let mut output = vec![LENT; lent_room(room)?];
            let answer = answers.merge(&unhex(first)?, &unhex(second)?, &mut output);
            shown_with(answer, &output)
        }
        ["phone-check", bytes] => shown(answers.phone_check(&unhex(bytes)?)),
        ["phone-merge", first, second, room] => {
            let mut output = vec![LENT; lent_room(room)?];
            let answer = answers.phone_merge(&unhex(first)?, &unhex(second)?, &mut output);
            shown_with(answer, &output)
        }
        ["write", length, ref steps @ ..] => write_line(answers, lent_room(length)?, steps),
        ["upload", store, ref pieces @ ..] => upload_line(answers, lent_room(store)?, pieces),
        _ => None,
    }
}

fn shown(answer: Option<impl Display>) -> Option<String> {
    Some(answer.map_or(NOT_YET.into(), |answer| answer.to_string()))
}

fn shown_with(answer: Option<impl Display>, bytes: &[u8]) -> Option<String> {
    shown(answer.map(|answer| format!("{answer} {}", Hex(bytes))))
}

fn rows_line(answers: &impl Answers, bytes: &[u8], room: usize) -> Option<String> {
    let mut table = vec![LENT_NUMBER; room];
    let Some((answer, rows)) = answers.rows(bytes, &mut table) else {
        return Some(NOT_YET.into());
    };
    let (written, beyond) = table.split_at_checked(3 * rows)?;
    let mut line = format!("{answer} {rows}");
    for number in written {
        write!(line, " {number}").ok()?;
    }
    let kept = beyond.iter().all(|&number| number == LENT_NUMBER);
    Some(line + if kept { " kept" } else { " changed" })
}

fn entry_line(answers: &impl Answers, bytes: &[u8], n: u32) -> Option<String> {
    shown(answers.entry(bytes, n).map(|(answer, entry)| {
        let Some(EntryFields { kind, mut fields }) = entry else {
            return answer.to_string();
        };
        fields.sort_by_key(|&(name, _)| name);
        let fields = fields.iter().map(|(name, field)| format!(" {name}={field}"));
        format!("{answer} kind={kind}{}", fields.collect::<String>())
    }))
}

fn write_line<A: Answers>(answers: &A, length: usize, steps: &[&str]) -> Option<String> {
    let calls: Option<Vec<Call>> = steps.iter().map(|step| call(step)).collect();
    let mut buffer = vec![LENT; length];
    let mut writer = A::Writer::default();
    let mut line = String::new();
    for Call { step, lent } in calls? {
        let lent = buffer.get_mut(..lent.unwrap_or(length))?;
        let Some(answer) = answers.step(&mut writer, lent, &step) else {
            return Some(NOT_YET.into());
        };
        write!(line, "{answer} ").ok()?;
    }
    Some(format!("{line}{}", Hex(&buffer)))
}

fn upload_line<A: Answers>(answers: &A, length: usize, pieces: &[&str]) -> Option<String> {
    let pieces: Option<Vec<Vec<u8>>> = pieces.iter().map(|piece| unhex(piece)).collect();
    let mut store = vec![LENT; length];
    let mut upload = A::Upload::default();
    let mut line = String::new();
    for piece in pieces? {
        let Some(answer) = answers.piece(&mut upload, &mut store, &piece) else {
            return Some(NOT_YET.into());
        };
        write!(line, "{answer} ").ok()?;
    }
    let end = answers.end(&upload, &store);
    shown_with(end.map(|end| format!("{line}{end}")), &store)
}

/// Reads one writer's step: `CALL:ARG:ARG..`, with `@N` behind CALL where only the first
/// N bytes of the buffer are lent.
pub fn call(text: &str) -> Option<Call> {
    let words: Vec<&str> = text.split(':').collect();
    let (name, lent) = match words[0].split_once('@') {
        Some((name, lent)) => (name, Some(number(lent)?)),
        None => (words[0], None),
    };
    let step = match (name, &words[1..]) {
        ("start", &[type_id, network, chain]) => Step::Start {
            type_id: number(type_id)?,
            network: number(network)?,
            chain: id(chain)?,
        },
        ("output", &[asset, amount, locktime, threshold, addresses]) => Step::Output {
            asset: id(asset)?,
            amount: number(amount)?,
            locktime: number(locktime)?,
            threshold: number(threshold)?,
            addresses: unhex(addresses)?,
        },
        ("input", &[txid, index, asset, amount, indices]) => Step::Input {
            txid: id(txid)?,
            index: number(index)?,
            asset: id(asset)?,
            amount: number(amount)?,
            indices: numbers(indices)?,
        },
        (_, arguments) => short_step(name, arguments)?,
    };
    Some(Call { step, lent })
}

/// The steps with at most one argument.
fn short_step(name: &str, arguments: &[&str]) -> Option<Step> {
    Some(match (name, arguments) {
        ("operation", [bytes]) => Step::Operation(unhex(bytes)?),
        ("state", [bytes]) => Step::State(unhex(bytes)?),
        ("close", []) => Step::Close,
        ("memo", [bytes]) => Step::Memo(unhex(bytes)?),
        ("name", [bytes]) => Step::Name(unhex(bytes)?),
        ("symbol", [bytes]) => Step::Symbol(unhex(bytes)?),
        ("denomination", [n]) => Step::Denomination(number(n)?),
        ("chain", [chain]) => Step::Chain(id(chain)?),
        ("finish", []) => Step::Finish,
        _ => return None,
    })
}

/// Reads lowercase hex, or `-` for none.
pub fn unhex(text: &str) -> Option<Vec<u8>> {
    if text == "-" {
        return Some(Vec::new());
    }
    let digits = text.as_bytes();
    if digits.is_empty() || !digits.len().is_multiple_of(2) {
        return None;
    }
    digits.chunks(2).map(|pair| Some(digit(pair[0])? << 4 | digit(pair[1])?)).collect()
}

fn digit(character: u8) -> Option<u8> {
    match character {
        b'0'..=b'9' => Some(character - b'0'),
        b'a'..=b'f' => Some(character - b'a' + 10),
        _ => None,
    }
}

fn id(text: &str) -> Option<[u8; 32]> {
    unhex(text)?.try_into().ok()
}

/// Reads a decimal number of digits only.
fn number<T: std::str::FromStr>(text: &str) -> Option<T> {
    let digits = text.bytes().all(|character| character.is_ascii_digit());
    digits.then(|| text.parse().ok())?
}

fn numbers(text: &str) -> Option<Vec<u32>> {
    match text {
        "-" => Some(Vec::new()),
        _ => text.split(',').map(number).collect(),
    }
}

fn lent_room(text: &str) -> Option<usize> {
    number(text).filter(|&room| room <= ROOM_MOST)
}

/// Shows bytes as lowercase hex, or `-` for none.
pub struct Hex<'a>(pub &'a [u8]);

impl Display for Hex<'_> {
    fn fmt(&self, f: &mut fmt::Formatter) -> fmt::Result {
        const DIGITS: &[u8; 16] = b"0123456789abcdef";
        if self.0.is_empty() {
            return f.write_str("-");
        }
        let digits = self.0.iter().flat_map(|byte| [byte >> 4, byte & 15]);
        let text: String = digits.map(|digit| DIGITS[digit as usize] as char).collect();
        f.write_str(&text)
    }
}

impl Display for Answer {
    fn fmt(&self, f: &mut fmt::Formatter) -> fmt::Result {
        write!(f, "{} {}", self.number, self.place)
    }
}

impl Display for Field {
    fn fmt(&self, f: &mut fmt::Formatter) -> fmt::Result {
        match self {
            Field::Number(number) => write!(f, "{number}"),
            Field::Id(id) => write!(f, "{}", Hex(id)),
        }
    }
}

impl Display for Call {
    fn fmt(&self, f: &mut fmt::Formatter) -> fmt::Result {
        let text = self.step.to_string();
        let (name, arguments) = text.split_at(text.find(':').unwrap_or(text.len()));
        match self.lent {
            Some(lent) => write!(f, "{name}@{lent}{arguments}"),
            None => f.write_str(&text),
        }
    }
}

impl Display for Step {
    fn fmt(&self, f: &mut fmt::Formatter) -> fmt::Result {
        match self {
            Step::Start { type_id, network, chain } => {
                write!(f, "start:{type_id}:{network}:{}", Hex(chain))
            }
            Step::Output { asset, amount, locktime, threshold, addresses } => {
                let (asset, addresses) = (Hex(asset), Hex(addresses));
                write!(f, "output:{asset}:{amount}:{locktime}:{threshold}:{addresses}")
            }
            Step::Input { txid, index, asset, amount, indices } => {
                let (txid, asset, indices) = (Hex(txid), Hex(asset), Numbers(indices));
                write!(f, "input:{txid}:{index}:{asset}:{amount}:{indices}")
            }
            Step::Operation(bytes) => write!(f, "operation:{}", Hex(bytes)),
            Step::State(bytes) => write!(f, "state:{}", Hex(bytes)),
            Step::Close => f.write_str("close"),
            Step::Memo(bytes) => write!(f, "memo:{}", Hex(bytes)),
            Step::Name(bytes) => write!(f, "name:{}", Hex(bytes)),
            Step::Symbol(bytes) => write!(f, "symbol:{}", Hex(bytes)),
            Step::Denomination(denomination) => write!(f, "denomination:{denomination}"),
            Step::Chain(chain) => write!(f, "chain:{}", Hex(chain)),
            Step::Finish => f.write_str("finish"),
        }
    }
}

/// Shows numbers with commas between, or `-` for none.
struct Numbers<'a>(&'a [u32]);

impl Display for Numbers<'_> {
    fn fmt(&self, f: &mut fmt::Formatter) -> fmt::Result {
        if self.0.is_empty() {
            return f.write_str("-");
        }
        let numbers: Vec<String> = self.0.iter().map(u32::to_string).collect();
        f.write_str(&numbers.join(","))
    }
}
