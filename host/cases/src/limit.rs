//! Cases at their limits: what they need is measured first.

use crate::readable;
use crate::rng::Rng;
use oracle::{Case, Needs};

/// The limits, by the places in which [`set`] knows them.
const LIMITS: usize = 5;

/// One limit exactly met, all of them met, or a room with some bytes over that
/// make no whole record.
pub fn exact(tokens: usize, rng: &mut Rng) -> Case {
    let (mut ret, needs) = match measured(tokens, rng) {
        Ok(it) => it,
        Err(case) => return case,
    };
    let all = rng.one_in(3);
    let one = rng.below(LIMITS);
    let over = rng.pick(&[0, 0, 1, 7]);
    for limit in 0..LIMITS {
        if all || limit == one {
            set(&mut ret, limit, &needs, 0, over);
        }
    }
    ret
}

/// One limit missed by one, or several.
pub fn short(tokens: usize, rng: &mut Rng) -> Case {
    let (mut ret, needs) = match measured(tokens, rng) {
        Ok(it) => it,
        Err(case) => return case,
    };
    let one = rng.below(LIMITS);
    let several = rng.one_in(3);
    for limit in 0..LIMITS {
        if limit == one || (several && rng.one_in(2)) {
            set(&mut ret, limit, &needs, 1, 0);
        }
    }
    // Much too little room stops the reading at any of its calls.
    if rng.one_in(3) {
        let part = |room: usize, rng: &mut Rng| rng.below(room + 1);
        match one {
            0 => ret.depth = 1 + part(needs.depth as usize, rng) as u64,
            1 => ret.scratch = part(needs.scratch, rng),
            2 => ret.nodes = part(needs.nodes, rng),
            3 => ret.finds = part(needs.finds, rng),
            _ => ret.fin = part(needs.fin, rng),
        }
    }
    ret
}

/// A case and what it needs. One that no room would suffice for, or one that
/// needs more than a generated room, is passed over. One without an outcome is
/// the error: it is left as it is, so that its reader comes upon it too.
fn measured(tokens: usize, rng: &mut Rng) -> Result<(Case, Needs), Case> {
    loop {
        let case = readable::any(tokens, rng);
        match oracle::needs(&case) {
            Ok(Ok(needs)) if needs.scratch <= case.scratch && needs.nodes <= case.nodes => {
                return Ok((case, needs));
            }
            Ok(_) => {}
            Err(_) => return Err(case),
        }
    }
}

/// Sets a limit to what is needed, `under` less or `over` more.
fn set(case: &mut Case, limit: usize, needs: &Needs, under: usize, over: usize) {
    let room = |need: usize| need.saturating_sub(under) + over;
    match limit {
        0 => case.depth = needs.depth - under as u64,
        1 => case.scratch = room(needs.scratch),
        2 => case.nodes = room(needs.nodes),
        3 => case.finds = room(needs.finds),
        _ => case.fin = room(needs.fin),
    }
}
