//! The source on the caller's thread, for measuring.

use crate::check::{self, Checked};
use crate::{Case, run};
use sml_fixity::Env;
use sml_syntax::ast::AstNode as _;
use sml_syntax::kind::SyntaxKind;
use token::Token;

/// So much that no reading is refused for it.
const AMPLE: limits::Limits = limits::Limits {
    depth: usize::MAX,
    records: usize::MAX,
    findings: usize::MAX,
    strict: false,
};

/// Reads a case from its bytes to bytes, and gives the count of bytes of the
/// nodes. The rooms are ample, and the stack must be.
#[must_use]
pub fn whole(case: &Case) -> Option<usize> {
    let checked = check::check(case).ok()?;
    let done = run::run(&checked, AMPLE).ok()?.ok()?;
    Some(done.nodes.len())
}

/// A case whose tokens and environment are made.
pub struct Ready<'a> {
    tokens: Vec<Token<'a, SyntaxKind>>,
    env: Env,
}

impl<'a> Ready<'a> {
    /// Makes the tokens of a case, if the source can be run on it.
    #[must_use]
    pub fn new(case: &'a Case) -> Option<Self> {
        let checked: Checked<'a> = check::check(case).ok()?;
        Some(Self {
            tokens: run::tokens(&checked)?,
            env: run::start(&checked)?,
        })
    }

    /// The source's `get` alone; gives the count of steps of a walk over the
    /// tree.
    #[must_use]
    pub fn get(&self) -> usize {
        let mut env = self.env.clone();
        limits::begin(AMPLE);
        let parse = sml_parse::get(&self.tokens, &mut env);
        parse.root.syntax().elements.len()
    }
}
