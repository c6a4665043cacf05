//! Files for the benchmark: declarations as people write them, one after
//! another, the same for the same seed.

use cases::rng::Rng;
use cases::tok::{self, Laid, Tok};
use oracle::Case;

/// Declarations that are read without a finding.
const LINES: &[&str] = &[
    "val x = 1 + 2 * 3",
    "val ( a , b ) = ( f x , g y )",
    "fun fact n = if n = 0 then 1 else n * fact ( n - 1 )",
    "fun map f [ ] = [ ] | map f ( x :: xs ) = f x :: map f xs",
    "fun fold f b l = case l of [ ] => b | x :: xs => fold f ( f ( x , b ) ) xs",
    "datatype 'a t = E | T of 'a t * 'a * 'a t",
    "fun size E = 0 | size ( T ( l , _ , r ) ) = size l + 1 + size r",
    "type p = { a : int , b : int list -> bool }",
    "val r = { a = 1 , b = fn l => l = [ ] orelse hd l > 0 }",
    "exception Bad of string",
    "fun h x = ( g x ; f x ) handle Bad s => raise Bad ( s ^ \"h\" ) | _ => 0",
    "structure S = struct val x = 1 fun f y = x + y end",
    "structure T :> sig type t val e : t val f : t -> int end = struct type t = int val e = 0 fun f x = x end",
    "signature O = sig type t val le : t * t -> bool end",
    "functor F ( X : O ) = struct fun max ( a , b ) = if X . le ( a , b ) then b else a end",
    "val y = let val z = S . f 3 in z * z - x end",
    "val c = not ( a andalso b ) orelse x < y andalso y <= 2",
    "fun loop i = while ! i > 0 do i := ! i - 1",
    "local fun go ( 0 , a ) = a | go ( n , a ) = go ( n - 1 , a + n ) in fun sum n = go ( n , 0 ) end",
    "open S",
    "val s = \"s\" ^ Int . toString 7 ^ \"t\"",
    "infix 6 ++ fun a ++ b = a + b val q = 1 ++ 2 * 3 nonfix ++",
    "fun ( f o g ) x = f ( g x )",
    "val l = [ 1 , 2 , 3 ] @ map ( fn x => x + 1 ) [ 4 , 5 ]",
];

/// Declarations of at most so many tokens together.
fn declarations(rng: &mut Rng, tokens: usize) -> Laid {
    let mut toks = Vec::new();
    let mut next = tok::line(rng.pick(LINES));
    while toks.len() + next.len() <= tokens {
        toks.append(&mut next);
        next = tok::line(rng.pick(LINES));
    }
    let mut ret = Laid::default();
    toks.iter().for_each(|it| ret.push(it));
    ret
}

/// How many infix names a file declares at the most: an environment has 256
/// entries, the standard ones among them.
const MOST_NAMES: usize = 200;

/// How many names stand in one declaration of fixities.
const LISTED: usize = 20;

/// So many changes of fixities, the same names again and again, and behind them
/// values, made by these names (by standard ones if there are none) from names
/// that are not infix.
fn changed(rng: &mut Rng, tokens: usize, changes: usize) -> Laid {
    let infix = |place: usize| format!("i{}", place % MOST_NAMES);
    let mut words = Vec::new();
    for from in (0..changes).step_by(LISTED) {
        words.extend(["infix".to_owned(), rng.below(10).to_string()]);
        words.extend((from..changes.min(from + LISTED)).map(infix));
    }
    while words.len() + 10 <= tokens {
        words.extend(["val", "x", "="].map(str::to_owned));
        for _ in 0..3 {
            words.push(format!("p{}", rng.below(100)));
            words.push(match changes {
                0 => rng.pick(&["+", "-", "^", "<", "o"]).to_owned(),
                _ => infix(rng.below(changes.min(MOST_NAMES))),
            });
        }
        words.push(format!("p{}", rng.below(100)));
    }
    let mut ret = Laid::default();
    words.iter().for_each(|it| ret.push(&Tok::word(it)));
    ret
}

/// A file of so many tokens but for the last declaration, which is left out
/// where it doesn't fit: declarations of all kinds, or, where changes are asked
/// for, so many changes of fixities and values behind them. No blanks stand
/// between tokens: the text would be too long.
///
/// # Panics
///
/// If the source refuses the file.
#[must_use]
pub fn file(seed: u64, tokens: usize, changes: Option<usize>) -> Case {
    let rng = &mut Rng::new(seed, tokens as u64);
    let mut ret = cases::standard(
        match changes {
            None => declarations(rng, tokens),
            Some(changes) => changed(rng, tokens, changes),
        },
        0,
    );
    let needs = oracle::needs(&ret).expect("an outcome");
    let needs = needs.expect("a reading");
    (ret.scratch, ret.nodes) = (needs.scratch, needs.nodes);
    (ret.finds, ret.fin) = (needs.finds, needs.fin);
    ret
}
