//! Plausible programs from a grammar.

use crate::rng::Rng;
use crate::tok::Tok;
use std::collections::HashMap;
use std::sync::LazyLock;

/// Each rule with its ways, parted by `/`. A word with an `@` is a rule, any
/// other spells a token. The ways are those of the source, not of the
/// Definition alone: holes, or-patterns, vectors and imports are here too.
const RULES: &[(&str, &str)] = &[
    (
        "file",
        "@dec / @dec @file / @dec ; @file / @exp ; @file / @exp / ; / @dec ; ; @file",
    ),
    (
        "decs",
        "/ @dec / @dec @decs / @dec ; @decs / @exp / @spec @decs",
    ),
    (
        "dec",
        "@core / @core / @module / @fixity / @fixity / @core sharing @shares",
    ),
    (
        "core",
        "val @valbinds / val @valbinds / val @tyvars @valbinds / fun @funbinds / fun \
         @funbinds / fun @tyvars @funbinds / type @tybinds / datatype @datbinds / datatype \
         @datbinds withtype @tybinds / datatype @name = datatype @path / abstype @datbinds \
         with @decs end / exception @exbinds / open @paths / do @exp / local @decs in @decs \
         end / ... / @import",
    ),
    (
        "fixity",
        "infix @num @ops / infixr @num @ops / infix @ops / infixr @ops / nonfix @ops / local \
         infix @num @ops in end / infix @num / infixr",
    ),
    (
        "num",
        "0 / 1 / 3 / 5 / 5 / 5 / 7 / 9 / 10 / 007 / 65535 / 65536 / ~1 / int`+5 / int`+ / \
         int`- / int`-1 / int`++5 / int`0x5 / int`00000000000000000012 / \
         int`99999999999999999999 / int`٣ / int`1_0 / int`~",
    ),
    ("ops", "@op / @op @ops / @name / * / = / @name @ops"),
    (
        "op",
        "+ / - / * / :: / @ / o / div / %% / f / g / = / before / := / é",
    ),
    (
        "name",
        "x / y / f / g / int / t / S / T / F / from / a' / é",
    ),
    ("path", "@name / @name / @name . @path / * / ="),
    ("paths", "@path / @path @paths"),
    (
        "shares",
        "@path = @path / type @path = @path / @path = @shares / @path",
    ),
    (
        "module",
        "structure @strbinds / structure @strbinds / signature @sigbinds / functor @functors \
         / include @sigexp / include @sigexp @sigexp",
    ),
    (
        "spec",
        "val @name : @ty / type @name / eqtype @tyvars @name / exception @name of @ty / \
         structure @name : @sigexp / include @sigexp / datatype @datbinds / sharing type \
         @shares / val @op : @ty",
    ),
    (
        "specs",
        "/ @spec / @spec @specs / @spec ; @specs / @fixity @specs / @decs",
    ),
    (
        "strbinds",
        "@name = @strexp / @name : @sigexp = @strexp / @name :> @sigexp = @strexp / @name : \
         @sigexp / @name = @strexp and @strbinds",
    ),
    (
        "strexp",
        "struct @decs end / struct @decs end / @path / @name ( @strexp ) / @name ( @decs ) / \
         let @decs in @strexp end / @strexp : @sigexp / @strexp :> @sigexp",
    ),
    (
        "sigbinds",
        "@name = @sigexp / @name = @sigexp and @sigbinds",
    ),
    (
        "sigexp",
        "sig @specs end / sig @specs end / @name / @sigexp where type @path = @ty / @sigexp \
         where type @tyvars @path = @ty and type @path = @ty / @sigexp where @path = @path",
    ),
    (
        "functors",
        "@name ( @name : @sigexp ) = @strexp / @name ( @specs ) = @strexp / @name ( @specs ) \
         :> @sigexp = @strexp / @name ( ) = @strexp and @functors",
    ),
    (
        "import",
        "_esimport \"s\" / _esimport @name from \"s\" / _esimport { @imports } from \"s\" / \
         _esimport @name , { @imports } from \"s\" / _esimport [ @name @name ] { @imports } \
         from \"s\" / _esimport @name @name \"s\"",
    ),
    (
        "imports",
        "/ @name / \"s\" as @name / @name as @pat : @ty / @name , @imports / @name : @ty , \
         @imports",
    ),
    (
        "valbinds",
        "@pat = @exp / @pat = @exp / rec @pat = fn @match / @pat = @exp and @valbinds",
    ),
    (
        "funbinds",
        "@funcases / @funcases / | @funcases / @funcases and @funbinds",
    ),
    (
        "funcases",
        "@funhead = @exp / @funhead : @ty = @exp / @funhead = @exp | @funcases",
    ),
    (
        "funhead",
        "@name @atpat / @name @atpats / op @op @atpats / op @name @atpat / @atpat @op @atpat \
         / @atpat @op @atpat / ( @atpat @op @atpat ) / ( @atpat @op @atpat ) @atpats / @op \
         @atpat / @atpat @name @atpat / ( @pat ) @op @atpat / ( @atpat @name @atpat )",
    ),
    (
        "datbinds",
        "@name = @cons / @tyvars @name = @cons / @name = | @cons / @name = @cons and \
         @datbinds / @name",
    ),
    (
        "cons",
        "@name / @name of @ty / op @op of @ty / @name | @cons / @name of @ty | @cons / *",
    ),
    (
        "tybinds",
        "@name = @ty / @tyvars @name = @ty / @name / @name = @ty and @tybinds",
    ),
    ("tyvars", "'a / ( 'a ) / ( 'a , ''b )"),
    (
        "exbinds",
        "@name / @name of @ty / @name = @path / op @name / @name and @exbinds / @op = @path",
    ),
    (
        "exp",
        "@app / @infix / @infix / @exp : @ty / @exp andalso @exp / @exp orelse @exp / @exp \
         handle @match / raise @exp / if @exp then @exp else @exp / while @exp do @exp / case \
         @exp of @match / fn @match / @infix @op raise @exp / @app @op fn @match",
    ),
    (
        "infix",
        "@app @op @app / @app @op @infix / @app @op @infix / @infix andalso @infix / @infix : \
         @ty / @app @op if @exp then @exp else @exp / @app @op case @exp of @match / @app @op \
         while @exp do @exp / @infix handle @match / @infix orelse @infix",
    ),
    ("app", "@atexp / @atexp / @atexp @app / op @op @atexp"),
    (
        "atexp",
        "1 / @name / x / y / @lit / ( @exp ) / ( ) / ( @exp , @exp ) / ( @exp ; @exp ) / ( \
         @exp , @exp , @exp ) / [ ] / [ @exps ] / # [ @exps ] / # @name / # 1 / { } / { @rows \
         } / { @name where @rows } / let @decs in @exp end / let @decs in @exp ; @exp end / \
         ... / _ / op @op / op andalso / op orelse / @name . @name / op @name . @op / ( @exp \
         ; )",
    ),
    ("exps", "@exp / @exp , @exps / @exp ,"),
    (
        "rows",
        "@name = @exp / 1 = @exp / @name / @name = @exp , @rows / * = @exp",
    ),
    (
        "match",
        "@pat => @exp / | @pat => @exp / @pat => @exp | @match",
    ),
    ("lit", "1 / 0 / ~3 / 1.5 / 0w7 / #\"c\" / \"s\""),
    (
        "pat",
        "@atpat / @name @atpat / @atpat @op @pat / @pat : @ty / @name as @pat / @pat | @pat / \
         op @op @atpat / @name : @ty as @pat / @pat :: @pat @ @pat",
    ),
    (
        "atpat",
        "x / y / _ / @name / @lit / ( @pat ) / ( ) / ( @pat , @pat ) / [ ] / [ @pats ] / # [ \
         @pats ] / { } / { @patrows } / op @op / @name . @name / ( @pat | @pat )",
    ),
    ("atpats", "@atpat / @atpat @atpats"),
    ("pats", "@pat / @pat , @pats"),
    (
        "patrows",
        "... / @name / @name = @pat / @name : @ty / @name : @ty as @pat / 1 = @pat / @name , \
         @patrows / @name = @pat , @patrows / @name as @pat",
    ),
    (
        "ty",
        "@name / 'a / _ / ... / @ty -> @ty / @ty * @ty / @ty @name / ( @ty ) / ( @ty , @ty ) \
         @name / { } / { @tyrows } / @name . @name / @ty * @ty * @ty / ( @ty , @ty , @ty ) \
         @path",
    ),
    (
        "tyrows",
        "@name : @ty / 1 : @ty / @name : @ty , @tyrows / @name @ty",
    ),
    // Infix lines alone.
    (
        "line",
        "@line1 / @line1 / @line1 / @line1 ; @line / @fixity ; @line / val @pline = @line1",
    ),
    (
        "line1",
        "@operand @op @operand / @operand @op @line1 / @operand @op @line1 / @operand @op \
         @line1 / @op @line1 / @operand @op / @line1 andalso @line1 / @line1 handle @pline => \
         @line1",
    ),
    (
        "operand",
        "1 / x / y / x 1 / f 1 2 / ( @line1 ) / op @op / int`+ / raise @line1",
    ),
    (
        "pline",
        "@patom @op @patom / @patom @op @pline / @patom / @patom @op @pline : int",
    ),
    ("patom", "x / 1 / x y / _ / ( @pline ) / op @op x"),
];

enum Part {
    Word(Tok),
    Rule(usize),
}

struct Way {
    parts: Vec<Part>,
    /// The fewest tokens that it makes.
    least: usize,
}

struct Rule {
    ways: Vec<Way>,
    least: usize,
}

static GRAMMAR: LazyLock<Vec<Rule>> = LazyLock::new(|| {
    let mut ret: Vec<Rule> = RULES.iter().map(|(_, ways)| rule(ways)).collect();
    while settle(&mut ret) {}
    ret
});

static PLACES: LazyLock<HashMap<&str, usize>> = LazyLock::new(|| {
    let places = RULES.iter().enumerate();
    places.map(|(place, (name, _))| (*name, place)).collect()
});

/// More than any rule makes at least; it stands for what isn't known yet.
const UNKNOWN: usize = 1000;

fn rule(ways: &str) -> Rule {
    let ways = ways.split('/').map(|way| Way {
        parts: way.split_whitespace().map(part).collect(),
        least: UNKNOWN,
    });
    Rule {
        ways: ways.collect(),
        least: UNKNOWN,
    }
}

fn part(word: &str) -> Part {
    match word.strip_prefix('@') {
        // The operator of that spelling.
        None | Some("") => Part::Word(Tok::word(word)),
        Some(name) => Part::Rule(PLACES[name]),
    }
}

fn least(part: &Part, rules: &[Rule]) -> usize {
    match part {
        Part::Word(_) => 1,
        Part::Rule(place) => rules[*place].least,
    }
}

/// Takes the least counts one step further, and says whether any changed.
fn settle(rules: &mut [Rule]) -> bool {
    let mut changed = false;
    for place in 0..rules.len() {
        for way in 0..rules[place].ways.len() {
            let parts = rules[place].ways[way].parts.iter();
            let count = parts.map(|it| least(it, rules)).sum::<usize>().min(UNKNOWN);
            rules[place].ways[way].least = count;
            if count < rules[place].least {
                rules[place].least = count;
                changed = true;
            }
        }
    }
    changed
}

/// Makes a phrase of about `size` tokens and seldom more.
pub fn phrase(name: &str, size: usize, rng: &mut Rng) -> Vec<Tok> {
    let mut ret = Vec::new();
    expand(PLACES[name], size, rng, &mut ret);
    ret
}

fn expand(place: usize, size: usize, rng: &mut Rng, out: &mut Vec<Tok>) {
    let way = choose(&GRAMMAR[place], size, rng);
    let mut spare = size.saturating_sub(way.least);
    let mut rules = way
        .parts
        .iter()
        .filter(|it| matches!(it, Part::Rule(_)))
        .count();
    for part in &way.parts {
        match part {
            Part::Word(tok) => out.push(tok.clone()),
            Part::Rule(place) => {
                // The last rule takes what the ones before it left.
                let share = if rules == 1 {
                    spare
                } else {
                    rng.below(spare + 1)
                };
                rules -= 1;
                spare -= share;
                expand(*place, GRAMMAR[*place].least + share, rng, out);
            }
        }
    }
}

/// Chooses a way that fits. Of two, the one with more to it goes first as long
/// as there is much room, or else most phrases would stay small.
fn choose<'a>(rule: &'a Rule, size: usize, rng: &mut Rng) -> &'a Way {
    let size = size.max(rule.least);
    let fitting: Vec<&Way> = rule.ways.iter().filter(|it| it.least <= size).collect();
    let (one, other) = (rng.pick(&fitting), rng.pick(&fitting));
    if size > 6 && other.parts.len() > one.parts.len() {
        other
    } else {
        one
    }
}
