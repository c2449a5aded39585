//! Both programs answer the same requests, and every answer must be the same.

use std::collections::BTreeSet;
use std::fmt;

use cellfacet_tests::independent::Independent;
use cellfacet_tests::lines::{answer, Answers};

use crate::Proved;

/// A request that the two answer differently. No answer is a line that is no request.
#[derive(Debug, PartialEq, Eq)]
pub struct Difference {
    /// The request line.
    pub request: String,
    /// The proved code's answer.
    pub proved: Option<String>,
    /// The independent program's answer.
    pub independent: Option<String>,
}

impl fmt::Display for Difference {
    fn fmt(&self, f: &mut fmt::Formatter) -> fmt::Result {
        let Difference { request, proved, independent } = self;
        let shown = |answer: &Option<String>| answer.clone().unwrap_or("bad request".into());
        writeln!(f, "request: {request}")?;
        writeln!(f, "proved: {}", shown(proved))?;
        write!(f, "independent: {}", shown(independent))
    }
}

/// What was asked and answered alike.
#[derive(Debug, Default)]
pub struct Met {
    /// How many requests.
    pub requests: usize,
    /// How many of them with a lent table.
    pub tables: usize,
    /// How many of them for an entry.
    pub entries: usize,
    /// The answers to `entry`: number, and the entry's kind where it is done.
    pub kinds: BTreeSet<(u32, Option<u32>)>,
    /// The answers to `check`: number, and the transaction's type where it is accepted.
    pub checks: BTreeSet<(u32, Option<u8>)>,
    /// The fewest and the most bytes checked.
    pub lengths: Option<(usize, usize)>,
}

impl Met {
    /// Asks both, and notes the answer.
    pub fn ask(&mut self, request: &str) -> Result<(), Difference> {
        let answer = both(request)?;
        self.requests += 1;
        match &request.split(' ').collect::<Vec<_>>()[..] {
            ["check", bytes, room] => {
                self.tables += usize::from(*room != "none");
                self.note(bytes, &answer);
            }
            ["entry", ..] => self.note_entry(&answer),
            _ => {}
        }
        Ok(())
    }

    fn note_entry(&mut self, answer: &str) {
        let mut words = answer.split(' ');
        let number = words.next().and_then(|number| number.parse().ok());
        let kind = words.nth(1).and_then(|kind| kind.strip_prefix("kind=")?.parse().ok());
        self.entries += 1;
        self.kinds.extend(number.map(|number| (number, kind)));
    }

    fn note(&mut self, hex: &str, answer: &str) {
        let number = answer.split(' ').next().and_then(|number| number.parse().ok());
        let Some(number) = number else {
            return;
        };
        // The last digit of the type, whose 32 bits stand behind the codec's 16.
        let type_id = hex.as_bytes().get(11).filter(|_| number == 0).map(|digit| digit - b'0');
        self.checks.insert((number, type_id));
        let length = if hex == "-" { 0 } else { hex.len() / 2 };
        let (least, most) = self.lengths.unwrap_or((length, length));
        self.lengths = Some((least.min(length), most.max(length)));
    }
}

/// The answer of both programs.
pub fn both(request: &str) -> Result<String, Difference> {
    alike(&Proved, &Independent, request)
}

/// The answer of two programs, of which the second is the reference. A line that is no request
/// is a difference too.
pub fn alike(
    proved: &impl Answers,
    independent: &impl Answers,
    request: &str,
) -> Result<String, Difference> {
    let proved = answer(proved, request);
    let independent = answer(independent, request);
    match proved {
        Some(answer) if independent.as_ref() == Some(&answer) => Ok(answer),
        _ => Err(Difference { request: request.to_string(), proved, independent }),
    }
}

/// Asks both each of the requests, up to the first difference.
pub fn compare(requests: impl IntoIterator<Item = String>) -> Result<Met, Difference> {
    let mut met = Met::default();
    for request in requests {
        met.ask(&request)?;
    }
    Ok(met)
}
