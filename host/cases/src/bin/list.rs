//! Lists one token file from standard input as document 01 says, with the
//! oracle's outcome: what the listing program is held to.

use cases::tok::Laid;
use oracle::{Case, Outcome};
use sml_syntax::kind::SyntaxKind;
use std::fmt::Write as _;
use std::io::{self, Read as _};
use std::process::ExitCode;

const MOST: usize = 65_536;
const TRAILER: usize = 8;
const MARK: u8 = 77;
const NO_NAME: u16 = 65_535;

/// Takes a token file apart, if it is in the form.
fn case(file: &[u8]) -> Option<Case> {
    let (rest, trailer) = file.split_last_chunk::<TRAILER>()?;
    let &[a, b, c, d, e, f, mode, mark] = trailer;
    let text = usize::from(u16::from_le_bytes([a, b]));
    let count = usize::from(u16::from_le_bytes([c, d]));
    if file.len() > MOST || mark != MARK || rest.len() != text + 5 * count {
        return None;
    }
    let (text, records) = rest.split_at(text);
    let laid = Laid {
        text: text.to_vec(),
        records: records.to_vec(),
    };
    let mut ret = cases::standard(laid, MOST);
    ret.depth = u64::from(u16::from_le_bytes([e, f]));
    ret.mode = u64::from(mode);
    Some(ret)
}

/// The name of a token's kind: the source's, without the `Kw` of a keyword.
fn token_name(kind: u8) -> String {
    match SyntaxKind::tokens()[usize::from(kind)] {
        SyntaxKind::Other => "other".to_owned(),
        kind => kind.to_string().trim_end_matches("Kw").to_owned(),
    }
}

fn node_line(record: [u8; 4]) -> String {
    let [what, kind, low, high] = record;
    let name = || SyntaxKind::nodes()[usize::from(kind)];
    match what {
        1 => format!("open {}", name()),
        2 => {
            let index = u16::from_le_bytes([low, high]);
            format!("token {index} {}", token_name(kind))
        }
        _ => format!("close {}", name()),
    }
}

fn finding_line(record: [u8; 8]) -> String {
    let [number, detail, a, b, c, d, _, _] = record;
    let code = 3000 + u16::from(number);
    let place = u16::from_le_bytes([a, b]);
    match u16::from_le_bytes([c, d]) {
        NO_NAME => format!("error {code} {detail} {place} -"),
        name => format!("error {code} {detail} {place} {name}"),
    }
}

fn listing(outcome: &Outcome) -> String {
    let mut ret = format!("answer {}\n", outcome.answer);
    if outcome.answer != 0 {
        return ret;
    }
    let nodes = outcome.nodes.as_chunks().0;
    let finds = outcome.finds.as_chunks().0;
    let lines = nodes.iter().map(|it| node_line(*it));
    for line in lines.chain(finds.iter().map(|it| finding_line(*it))) {
        ret.push_str(&line);
        ret.push('\n');
    }
    let entries = oracle::env::entries(&outcome.env).expect("an environment in the form");
    writeln!(ret, "environment {}", entries.len()).expect("a string takes all");
    ret
}

fn main() -> ExitCode {
    let mut file = Vec::new();
    if let Err(error) = io::stdin().read_to_end(&mut file) {
        eprintln!("list: {error}");
        return ExitCode::FAILURE;
    }
    let Some(case) = case(&file) else {
        println!("bad file");
        return ExitCode::SUCCESS;
    };
    match oracle::read(&case) {
        Ok(outcome) => {
            print!("{}", listing(&outcome));
            ExitCode::SUCCESS
        }
        Err(trouble) => {
            eprintln!("list: {trouble:?}");
            ExitCode::FAILURE
        }
    }
}
