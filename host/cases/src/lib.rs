//! Cases for the reader, the same for the same seed.

pub mod answers;
mod bad;
mod full;
mod grammar;
mod limit;
mod readable;
pub mod rng;
pub mod tok;

use oracle::Case;
pub use readable::roomy;
use rng::Rng;
use tok::Laid;

/// The rooms that suffice for most cases, in bytes. Only the families that come
/// when they are asked for have larger ones.
pub const ROOM: usize = 4096;

/// What a case is made to try.
#[derive(Debug, Clone, Copy, PartialEq, Eq, PartialOrd, Ord)]
pub enum Family {
    /// Tokens of any kind in any order.
    Soup,
    /// Programs by the grammar.
    Program,
    /// Programs with a few tokens taken away, doubled, swapped or replaced.
    Damaged,
    /// Lines of infix operators in odd environments.
    Infix,
    /// One or all of the limits exactly met.
    Exact,
    /// One or more limits missed by one.
    Short,
    /// Settings and lengths out of range, and just in range.
    Settings,
    /// Token records not in the form, and just in it.
    Records,
    /// Starting environments not in the form, and just in it.
    Environment,
    /// Several checks that fail at once, for their order.
    Several,
    /// Full environments and long names.
    Entries,
    /// The 1,024th and the 1,025th fixity change.
    Changes,
    /// Deep nesting, with just depth enough and one short.
    Deep,
    /// The longest texts and lists of records, and longer ones.
    Long,
}

use Family::{
    Changes, Damaged, Deep, Entries, Environment, Exact, Infix, Long, Program, Records, Settings,
    Several, Short, Soup,
};

/// All families, with their names and with their weights in a mixed run. Those
/// that need many tokens come only when they are asked for.
pub const FAMILIES: [(Family, &str, usize); 14] = [
    (Soup, "soup", 12),
    (Program, "program", 20),
    (Damaged, "damaged", 16),
    (Infix, "infix", 16),
    (Exact, "exact", 10),
    (Short, "short", 12),
    (Settings, "settings", 3),
    (Records, "records", 4),
    (Environment, "environment", 4),
    (Several, "several", 2),
    (Entries, "entries", 3),
    (Changes, "changes", 0),
    (Deep, "deep", 0),
    (Long, "long", 0),
];

/// A plain case in the standard environment, with the largest depth and so many
/// bytes of each room.
#[must_use]
pub fn standard(laid: Laid, room: usize) -> Case {
    let mut ret = roomy(laid, oracle::std_env());
    (ret.scratch, ret.nodes) = (room, room);
    (ret.finds, ret.fin) = (room, room);
    ret
}

/// The family of a name.
#[must_use]
pub fn family(name: &str) -> Option<Family> {
    let found = FAMILIES.iter().find(|it| it.1 == name);
    found.map(|it| it.0)
}

/// A family by the weights.
fn any_family(rng: &mut Rng) -> Family {
    let total: usize = FAMILIES.iter().map(|it| it.2).sum();
    let mut left = rng.below(total);
    for (family, _, weight) in FAMILIES {
        if left < weight {
            return family;
        }
        left -= weight;
    }
    unreachable!("the weights make up the total")
}

/// Makes the case of this index, of up to `tokens` tokens but in the families
/// that need more.
#[must_use]
pub fn make(seed: u64, index: u64, tokens: usize, asked: Option<Family>) -> (Family, Case) {
    let mut rng = Rng::new(seed, index);
    let family = asked.unwrap_or_else(|| any_family(&mut rng));
    let rng = &mut rng;
    let case = match family {
        Soup | Program | Damaged | Infix => readable::case(family, tokens, rng),
        Exact => limit::exact(tokens, rng),
        Short => limit::short(tokens, rng),
        Settings => bad::settings(tokens, rng),
        Records => bad::records(tokens, rng),
        Environment => bad::environment(tokens, rng),
        Several => bad::several(tokens, rng),
        Entries => full::entries(rng),
        Changes => full::changes(rng),
        Deep => full::deep(rng),
        Long => full::long(rng),
    };
    (family, case)
}
