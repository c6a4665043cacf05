//! The kinds of tokens and nodes, by document 01's numbers.

use std::fmt;

/// The names of the kinds of tokens, each at its number. Keywords are without
/// the source's `Kw`, as document 01 has them.
#[rustfmt::skip]
const TOKENS: [&str; 70] = [
    "DotDotDot", "Dot", "Bar", "LRound", "RRound", "LCurly", "RCurly", "LSquare", "RSquare",
    "Eq", "Star", "Comma", "Semicolon", "Colon", "ColonGt", "EqGt", "MinusGt", "Underscore",
    "Hash", "Val", "Rec", "And", "Fun", "Op", "Type", "Eqtype", "Datatype", "Abstype", "With",
    "End", "Exception", "Open", "Infix", "Infixr", "Nonfix", "Do", "Local", "In", "Structure",
    "Signature", "Functor", "Include", "Struct", "Let", "Sig", "Where", "Sharing", "Withtype",
    "Esimport", "Raise", "If", "Then", "Else", "While", "Case", "Of", "Fn", "Andalso", "Orelse",
    "Handle", "As", "Name", "TyVar", "IntLit", "RealLit", "WordLit", "CharLit", "StringLit",
    "trivia", "other",
];

/// The names of the kinds of nodes, each at its number.
#[rustfmt::skip]
const NODES: [&str; 129] = [
    "AbstypeDec", "AndalsoExp", "AppExp", "AppStrExp", "AppStrExpArgStrExp", "Arm", "AsPat",
    "AsPatTail", "AscriptionStrExp", "AscriptionTail", "CaseExp", "ConBind", "ConPat", "ConTy",
    "DatBind", "DatCopyDec", "DatDec", "Dec", "DecInSeq", "DecWithTail", "DoDec", "EqConBinds",
    "EqExp", "EqStrExp", "EqTy", "EsImportAttrs", "EsImportDec", "EsImportSpec",
    "EsImportSpecArg", "EsImportSpecs", "ExBind", "ExDec", "ExpArg", "ExpDec", "ExpInSeq",
    "ExpRow", "FnExp", "FnTy", "FunBind", "FunBindCase", "FunDec", "FunctorArgNameSigExp",
    "FunctorBind", "FunctorDec", "HandleExp", "HoleDec", "HoleExp", "HoleTy", "IfExp",
    "IncludeDec", "InfixDec", "InfixExp", "InfixFunBindCaseHead", "InfixPat", "InfixrDec",
    "LabAndPatPatRow", "LabPatRow", "LetExp", "LetStrExp", "ListExp", "ListPat", "LocalDec",
    "LocalDecHd", "LocalDecTl", "Matcher", "NameSigExp", "NameStarEqDot", "NonfixDec", "OfTy",
    "OneArgConTy", "OpAndalsoExp", "OpOrelseExp", "OpenDec", "OrPat", "OrelseExp", "ParenExp",
    "ParenPat", "ParenTy", "PatArg", "PatRow", "Path", "PathEq", "PathExp", "PathStrExp",
    "PrefixFunBindCaseHead", "RaiseExp", "RecordExp", "RecordPat", "RecordTy", "RecordUpdate",
    "RestPatRow", "Root", "SConExp", "SConPat", "SelectorExp", "SeqExp", "SharingTail",
    "SigBind", "SigSigExp", "SignatureDec", "StarTy", "StrBind", "StructStrExp", "StructureDec",
    "TupleExp", "TuplePat", "TupleTy", "TyAnnotation", "TyArg", "TyBind", "TyDec", "TyRow",
    "TySeq", "TyVarArg", "TyVarSeq", "TyVarTy", "TypedExp", "TypedPat", "ValBind", "ValDec",
    "VectorExp", "VectorPat", "WhereSigExp", "WhereTypeSigExp", "WhileExp", "WildcardExp",
    "WildcardPat", "WildcardTy", "WithType",
];

/// A kind of token, 0 to 69.
#[derive(Debug, Clone, Copy, PartialEq, Eq, PartialOrd, Ord, Hash)]
pub struct TokenKind(pub u8);

/// A kind of node.
#[derive(Debug, Clone, Copy, PartialEq, Eq, PartialOrd, Ord, Hash)]
pub struct NodeKind(pub u8);

impl TokenKind {
    /// The name, such as `Semicolon`; none over 69.
    #[must_use]
    pub fn name(self) -> Option<&'static str> {
        TOKENS.get(usize::from(self.0)).copied()
    }
}

impl NodeKind {
    /// The name, such as `InfixExp`.
    #[must_use]
    pub fn name(self) -> Option<&'static str> {
        NODES.get(usize::from(self.0)).copied()
    }

    /// The kind of a name.
    #[must_use]
    pub fn named(name: &str) -> Option<Self> {
        let place = NODES.iter().position(|&it| it == name)?;
        Some(Self(place as u8))
    }
}

impl fmt::Display for TokenKind {
    fn fmt(&self, f: &mut fmt::Formatter<'_>) -> fmt::Result {
        f.write_str(self.name().unwrap_or("?"))
    }
}

impl fmt::Display for NodeKind {
    fn fmt(&self, f: &mut fmt::Formatter<'_>) -> fmt::Result {
        f.write_str(self.name().unwrap_or("?"))
    }
}
