//! Stands in for the original's `event_parse`. Made from document 01's rules and
//! from the uses in the given source, not from the original.
//!
//! The parser keeps the limits of document 01. It also asserts the facts about
//! the source's calls that a reader by a plain array of records rests on; an
//! assertion that fails is a panic, and no answer.

pub mod rowan_sink;

use limits::Limits;
use rowan_sink::{Element, Error, Peak, RowanSink, Strict};
use token::{Kind, Token};

/// An error that can say which kind of token was wanted.
pub trait Expected<K> {
    fn expected(kind: K) -> Self;
}

/// An open mark.
#[derive(Debug)]
pub struct Entered(usize);

/// A closed node, named by the record of its mark.
#[derive(Debug)]
pub struct Exited(usize);

/// What a failed attempt goes back to.
#[derive(Debug)]
pub struct Save {
    next: usize,
    records: usize,
    findings: usize,
    reported: usize,
    open: Vec<usize>,
    changes: usize,
}

/// A scratch record.
enum Record<K> {
    Mark {
        /// None while the mark is open, and for good once it is abandoned.
        kind: Option<K>,
        /// The mark that precedes it, if any does.
        outer: Option<usize>,
    },
    Token(usize),
    Exit,
}

/// A finding that is held; one of strict mode has no error of the source.
struct Finding<E> {
    place: usize,
    error: Option<E>,
}

/// The largest number that the Definition allows as a fixity.
const LARGEST_STRICT: u16 = 9;

/// The parser.
pub struct Parser<'a, K, E> {
    tokens: &'a [Token<'a, K>],
    /// The index of the next token that isn't trivia, or the token count.
    next: usize,
    records: Vec<Record<K>>,
    findings: Vec<Finding<E>>,
    /// How many findings were ever reported, those taken back too.
    reported: usize,
    open: Vec<usize>,
    /// The node that may be preceded: the one closed last, with nothing since.
    just_exited: Option<usize>,
    limits: Limits,
    peak: Peak,
}

impl<'a, K: Kind, E> Parser<'a, K, E> {
    #[must_use]
    pub fn new(tokens: &'a [Token<'a, K>]) -> Self {
        let mut ret = Self {
            tokens,
            next: 0,
            records: Vec::new(),
            findings: Vec::new(),
            reported: 0,
            open: Vec::new(),
            just_exited: None,
            limits: limits::current(),
            peak: Peak::default(),
        };
        ret.next = ret.place(0).unwrap_or(tokens.len());
        ret
    }

    /// The index of the token that is `n` ahead, trivia not counted.
    fn place(&self, n: usize) -> Option<usize> {
        let mut ahead =
            (self.next..self.tokens.len()).filter(|&i| !self.tokens[i].kind.is_trivia());
        ahead.nth(n)
    }

    #[must_use]
    pub fn peek(&self) -> Option<Token<'a, K>> {
        self.peek_n(0)
    }

    #[must_use]
    pub fn peek_n(&self, n: usize) -> Option<Token<'a, K>> {
        self.place(n).map(|place| self.tokens[place])
    }

    #[must_use]
    pub fn at(&self, kind: K) -> bool {
        self.at_n(0, kind)
    }

    #[must_use]
    pub fn at_n(&self, n: usize, kind: K) -> bool {
        self.peek_n(n).is_some_and(|tok| tok.kind == kind)
    }

    /// Adds a record, and refuses one too many.
    fn push(&mut self, record: Record<K>) -> usize {
        if self.records.len() == self.limits.records {
            limits::refuse(5);
        }
        self.just_exited = None;
        self.records.push(record);
        self.peak.records = self.peak.records.max(self.records.len());
        self.records.len() - 1
    }

    /// Opens a mark, and refuses one too many before the record that it takes.
    #[must_use]
    pub fn enter(&mut self) -> Entered {
        if self.open.len() == self.limits.depth {
            limits::refuse(4);
        }
        let mark = self.push(Record::Mark {
            kind: None,
            outer: None,
        });
        self.open.push(mark);
        self.peak.depth = self.peak.depth.max(self.open.len());
        Entered(mark)
    }

    /// Opens a mark around a node that has just been closed.
    #[must_use]
    pub fn precede(&mut self, exited: Exited) -> Entered {
        assert_eq!(
            self.just_exited,
            Some(exited.0),
            "a precede must come right after the exit of its node"
        );
        let entered = self.enter();
        let Record::Mark { outer, .. } = &mut self.records[exited.0] else {
            unreachable!("an exited node is named by its mark");
        };
        assert!(outer.is_none(), "a node must be preceded at most once");
        *outer = Some(entered.0);
        entered
    }

    /// Takes the innermost mark off.
    fn close(&mut self, entered: &Entered) {
        let innermost = self.open.pop();
        assert_eq!(
            innermost,
            Some(entered.0),
            "marks must close last in first out"
        );
    }

    pub fn exit(&mut self, entered: Entered, kind: K) -> Exited {
        self.close(&entered);
        self.push(Record::Exit);
        let Record::Mark { kind: of_mark, .. } = &mut self.records[entered.0] else {
            unreachable!("an entered node is named by its mark");
        };
        *of_mark = Some(kind);
        self.just_exited = Some(entered.0);
        Exited(entered.0)
    }

    /// Closes a mark that was not wanted; its record stays and makes no node.
    pub fn abandon(&mut self, entered: Entered) {
        self.close(&entered);
        self.just_exited = None;
    }

    /// Holds a finding, and refuses one too many.
    fn report(&mut self, error: Option<E>) {
        if self.findings.len() == self.limits.findings {
            limits::refuse(7);
        }
        self.findings.push(Finding {
            place: self.next,
            error,
        });
        self.reported += 1;
        self.peak.findings = self.peak.findings.max(self.findings.len());
    }

    pub fn error(&mut self, error: E) {
        self.report(Some(error));
    }

    /// Reads a token. There must be one.
    pub fn bump(&mut self) -> Token<'a, K> {
        let tok = self.peek().expect("a bump must have a token");
        if self.limits.strict && self.is_large_fixity(tok) {
            self.report(None);
        }
        self.push(Record::Token(self.next));
        self.next += 1;
        self.next = self.place(0).unwrap_or(self.tokens.len());
        tok
    }

    /// Whether this next token is a fixity number that strict mode reports. The
    /// source reads `infix` and `infixr` at one place each, just before the
    /// number, so the kind of the token before tells a fixity number.
    fn is_large_fixity(&self, tok: Token<'_, K>) -> bool {
        let mut before = self.tokens[..self.next].iter().rev();
        before
            .find(|tok| !tok.kind.is_trivia())
            .is_some_and(|tok| tok.kind.is_before_fixity())
            && tok.kind.is_int()
            && tok.text.parse::<u16>().is_ok_and(|n| n > LARGEST_STRICT)
    }

    #[must_use]
    pub fn save(&mut self) -> Save {
        self.just_exited = None;
        Save {
            next: self.next,
            records: self.records.len(),
            findings: self.findings.len(),
            reported: self.reported,
            open: self.open.clone(),
            changes: limits::changes(),
        }
    }

    /// Says whether nothing was reported since the save; goes back to it if
    /// something was.
    #[must_use]
    pub fn ok_since(&mut self, save: Save) -> bool {
        assert_eq!(
            self.open, save.open,
            "the same marks must be open at a take-back as at its save"
        );
        assert_eq!(
            limits::changes(),
            save.changes,
            "no fixity may change between a save and its end"
        );
        if self.reported == save.reported {
            return true;
        }
        self.next = save.next;
        self.records.truncate(save.records);
        self.findings.truncate(save.findings);
        self.just_exited = None;
        false
    }

    /// Pours the parse into the sink.
    pub fn finish(self, sink: &mut RowanSink<K, E>) {
        assert!(self.open.is_empty(), "no mark may be open at the end");
        self.check_tokens();
        sink.node.elements = self.elements();
        sink.node.peak = self.peak;
        for (rank, finding) in self.findings.into_iter().enumerate() {
            let place = finding.place;
            match finding.error {
                Some(error) => sink.errors.push(Error::new(place, error)),
                None => sink.node.strict.push(Strict { rank, place }),
            }
        }
    }

    /// Asserts that each token but trivia was read once and in order.
    fn check_tokens(&self) {
        let read = self.records.iter().filter_map(|record| match record {
            Record::Token(place) => Some(*place),
            Record::Mark { .. } | Record::Exit => None,
        });
        let given = (0..self.tokens.len()).filter(|&i| !self.tokens[i].kind.is_trivia());
        assert!(read.eq(given), "each token must be read once and in order");
    }

    /// The walk over the finished tree.
    fn elements(&self) -> Vec<Element<K>> {
        let mut ret = Vec::new();
        let mut opened = Vec::new();
        let mut is_outer = vec![false; self.records.len()];
        for (place, record) in self.records.iter().enumerate() {
            match record {
                // It was opened where the node that it precedes begins.
                Record::Mark { .. } if is_outer[place] => {}
                Record::Mark { .. } => {
                    let kinds = self.chain(place, &mut is_outer);
                    ret.extend(kinds.iter().rev().copied().map(Element::Open));
                    opened.extend(kinds.into_iter().rev());
                }
                Record::Token(place) => ret.push(Element::Token(self.tokens[*place].kind, *place)),
                Record::Exit => {
                    let kind = opened.pop().expect("an exit must have its node");
                    ret.push(Element::Close(kind));
                }
            }
        }
        ret
    }

    /// The kinds of the nodes that begin at this mark, the innermost first.
    fn chain(&self, mark: usize, is_outer: &mut [bool]) -> Vec<K> {
        let mut ret = Vec::new();
        let mut at = Some(mark);
        while let Some(place) = at {
            let Record::Mark { kind, outer } = &self.records[place] else {
                unreachable!("only a mark precedes");
            };
            ret.extend(*kind);
            at = *outer;
            if let Some(outer) = at {
                is_outer[outer] = true;
            }
        }
        ret
    }
}

impl<'a, K: Kind, E: Expected<K>> Parser<'a, K, E> {
    /// Reads the token if it is of the wanted kind, and reports it otherwise.
    pub fn eat(&mut self, kind: K) -> Option<Token<'a, K>> {
        if self.at(kind) {
            Some(self.bump())
        } else {
            self.error(E::expected(kind));
            None
        }
    }
}
