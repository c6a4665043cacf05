//! A smaller case that still differs.

use crate::call::Caller;
use crate::{Verdict, compare};
use cases::rng::Rng;
use oracle::Case;

/// The bytes of a token record.
const RECORD: usize = 5;

/// Takes token records away, many at first and one at last, as long as the two
/// still differ. The text stays: a record stands for itself.
pub fn shrink(caller: &mut Caller, case: &Case, rng: &mut Rng) -> Case {
    let mut ret = case.clone();
    let mut part = ret.records.len() / RECORD;
    while part > 0 {
        if !drop_one(caller, &mut ret, part, rng) {
            part /= 2;
        }
    }
    ret
}

/// Takes one run of so many records away, if there is one to be taken.
fn drop_one(caller: &mut Caller, case: &mut Case, part: usize, rng: &mut Rng) -> bool {
    let count = case.records.len() / RECORD;
    for start in 0..=count.saturating_sub(part) {
        let mut smaller = case.clone();
        let end = (RECORD * (start + part)).min(smaller.records.len());
        smaller.records.drain(RECORD * start..end);
        if smaller.records.len() < case.records.len()
            && matches!(compare(caller, &smaller, rng), Verdict::Differs(_))
        {
            *case = smaller;
            return true;
        }
    }
    false
}

/// The tokens of a case, and what else is set, for a report.
#[must_use]
pub fn show(case: &Case) -> String {
    let token = |it: &[u8]| {
        let [start, length] =
            [1, 3].map(|at| usize::from(u16::from_le_bytes([it[at], it[at + 1]])));
        let text = case.text.get(start..start + length).unwrap_or_default();
        format!("{}:{}", it[0], String::from_utf8_lossy(text))
    };
    let tokens: Vec<String> = case.records.chunks_exact(RECORD).map(token).collect();
    format!(
        "tokens [{}] env {:?} depth {} mode {} scratch {} nodes {} findings {} final {}",
        tokens.join(" "),
        case.env,
        case.depth,
        case.mode,
        case.scratch,
        case.nodes,
        case.finds,
        case.fin
    )
}
