//! The answers of the second reading, a line each, to lines `DIGITS BUDGET`. Tabs part the fields of an answer.
use naplps_ref::canon::{canon, canon_form1};
use naplps_ref::codes::is_plain;
use naplps_ref::lines::line_of;
use naplps_ref::list::{Kept, ListSink};
use naplps_ref::reader::{Budget, Reader, Refusal};
use naplps_ref::Profile;
use std::io::{BufRead, BufWriter, Write};

/// The longest stream that is also read byte by byte.
const SHORT: usize = 4096;

fn main() -> std::io::Result<()> {
    let mut out = BufWriter::new(std::io::stdout().lock());
    for line in std::io::stdin().lock().lines() {
        let line = line?;
        let (digits, budget) = line.split_once(' ').expect("a line has two fields");
        let bytes: Vec<u8> = (0..digits.len() / 2)
            .map(|at| u8::from_str_radix(&digits[2 * at..2 * at + 2], 16).expect("these are digits"))
            .collect();
        let budget = Budget::new(Profile::LAST, budget.parse().expect("this is a number"));
        writeln!(out, "{}", answer(&bytes, budget.expect("this is a budget")))?;
    }
    out.flush()
}

fn answer(bytes: &[u8], budget: Budget) -> String {
    let mut reader = Reader::new(Profile::LAST, budget, ListSink::new());
    let early = reader.feed(bytes).is_err();
    let (fed, turns, charged) = (reader.fed(), reader.turns(), reader.charged());
    let (list, refusal) = ended(reader);
    let lines: Vec<String> = list.iter().map(line_of).collect();
    let (text, form1) = match refusal {
        None => (
            digits(canon(Profile::LAST, &list).ok()),
            digits(canon_form1(Profile::LAST, &list).ok()),
        ),
        Some(_) => Default::default(),
    };
    [
        refusal.map_or("accepted".to_string(), |refusal| refusal.to_string()),
        early.to_string(),
        fed.to_string(),
        turns.to_string(),
        charged.to_string(),
        is_plain(bytes).to_string(),
        places(bytes, budget),
        text,
        form1,
        lines.join(";"),
    ]
    .join("\t")
}

/// The entries, and why the stream is refused, if it is.
fn ended(reader: Reader<ListSink>) -> (Vec<Kept>, Option<Refusal>) {
    match reader.finish() {
        Ok(sink) => (sink.into_list(), None),
        Err(stopped) => (stopped.sink.into_list(), Some(stopped.refusal)),
    }
}

/// The byte with which each entry came, fed one at a time; the length for those that came at the end.
fn places(bytes: &[u8], budget: Budget) -> String {
    if bytes.len() > SHORT {
        return "-".to_string();
    }
    let mut reader = Reader::new(Profile::LAST, budget, ListSink::new());
    let mut places = Vec::new();
    for (place, byte) in bytes.iter().enumerate() {
        let refused = reader.feed(std::slice::from_ref(byte)).is_err();
        places.resize(reader.sink().list().len(), place);
        if refused {
            break;
        }
    }
    places.resize(ended(reader).0.len(), bytes.len());
    places.iter().map(usize::to_string).collect::<Vec<_>>().join(" ")
}

fn digits(bytes: Option<Vec<u8>>) -> String {
    bytes.map_or("none".to_string(), |bytes| {
        bytes.iter().map(|byte| format!("{byte:02x}")).collect()
    })
}
