//! The archive of the proved parser beside the given source: nodes, findings,
//! environment and answers, byte for byte.

pub mod call;
pub mod depth;
pub mod file;
pub mod guard;
pub mod lent;
pub mod options;
pub mod shrink;

use call::Caller;
use cases::rng::Rng;
use guard::Side;
use oracle::{Case, Outcome};

/// What a comparison came to.
#[derive(Debug, Clone, PartialEq, Eq)]
pub enum Verdict {
    /// Both gave this answer, with the same bytes.
    Same(u8),
    /// They differ, or the archive broke a promise that holds of every call.
    Differs(String),
    /// The source cannot be run on this case.
    Untried(String),
}

/// Runs both on a case, the buffers on both sides of guard pages.
pub fn compare(caller: &mut Caller, case: &Case, rng: &mut Rng) -> Verdict {
    let theirs = match oracle::read(case) {
        Ok(outcome) => outcome,
        Err(trouble) => return Verdict::Untried(format!("{trouble:?}")),
    };
    for side in [Side::Back, Side::Front] {
        match caller.call(case, side, rng) {
            Err(broken) => return Verdict::Differs(broken),
            Ok(ours) => {
                if let Some(text) = difference(&theirs, &ours) {
                    return Verdict::Differs(text);
                }
            }
        }
    }
    Verdict::Same(theirs.answer)
}

/// The first difference of two outcomes, as a line.
#[must_use]
pub fn difference(theirs: &Outcome, ours: &Outcome) -> Option<String> {
    if theirs.answer != ours.answer {
        return Some(format!("answers {} and {}", theirs.answer, ours.answer));
    }
    let parts = [
        ("nodes", &theirs.nodes, &ours.nodes),
        ("findings", &theirs.finds, &ours.finds),
        ("environment", &theirs.env, &ours.env),
    ];
    let (name, one, other) = parts.into_iter().find(|it| it.1 != it.2)?;
    let same = one.iter().zip(other).take_while(|it| it.0 == it.1).count();
    let lengths = (one.len(), other.len());
    Some(format!("{name} at byte {same}, lengths {lengths:?}"))
}
