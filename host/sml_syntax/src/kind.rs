//! The kinds of tokens and nodes.

use std::fmt;

/// Makes the enum, and the list by which its names are numbered.
macro_rules! kinds {
    ($($name:ident,)*) => {
        #[derive(Debug, Clone, Copy, PartialEq, Eq, PartialOrd, Ord)]
        pub enum SyntaxKind { $($name,)* }

        const ALL: &[SyntaxKind] = &[$(SyntaxKind::$name,)*];
    };
}

// Tokens in the order of document 01, then nodes in the byte order of their
// spelling, so that both numbers follow from the place in the list.
kinds! {
    // 0 to 18
        DotDotDot, Dot, Bar, LRound, RRound, LCurly, RCurly, LSquare, RSquare, Eq, Star,
        Comma, Semicolon, Colon, ColonGt, EqGt, MinusGt, Underscore, Hash,
    // 19 to 60
        ValKw, RecKw, AndKw, FunKw, OpKw, TypeKw, EqtypeKw, DatatypeKw, AbstypeKw,
        WithKw, EndKw, ExceptionKw, OpenKw, InfixKw, InfixrKw, NonfixKw, DoKw, LocalKw,
        InKw, StructureKw, SignatureKw, FunctorKw, IncludeKw, StructKw, LetKw, SigKw,
        WhereKw, SharingKw, WithtypeKw, EsimportKw, RaiseKw, IfKw, ThenKw, ElseKw,
        WhileKw, CaseKw, OfKw, FnKw, AndalsoKw, OrelseKw, HandleKw, AsKw,
    // 61 to 69
        Name, TyVar, IntLit, RealLit, WordLit, CharLit, StringLit, Trivia, Other,
    // the nodes
        AbstypeDec, AndalsoExp, AppExp, AppStrExp, AppStrExpArgStrExp, Arm, AsPat,
        AsPatTail, AscriptionStrExp, AscriptionTail, CaseExp, ConBind, ConPat, ConTy,
        DatBind, DatCopyDec, DatDec, Dec, DecInSeq, DecWithTail, DoDec, EqConBinds,
        EqExp, EqStrExp, EqTy, EsImportAttrs, EsImportDec, EsImportSpec,
        EsImportSpecArg, EsImportSpecs, ExBind, ExDec, ExpArg, ExpDec, ExpInSeq, ExpRow,
        FnExp, FnTy, FunBind, FunBindCase, FunDec, FunctorArgNameSigExp, FunctorBind,
        FunctorDec, HandleExp, HoleDec, HoleExp, HoleTy, IfExp, IncludeDec, InfixDec,
        InfixExp, InfixFunBindCaseHead, InfixPat, InfixrDec, LabAndPatPatRow, LabPatRow,
        LetExp, LetStrExp, ListExp, ListPat, LocalDec, LocalDecHd, LocalDecTl, Matcher,
        NameSigExp, NameStarEqDot, NonfixDec, OfTy, OneArgConTy, OpAndalsoExp,
        OpOrelseExp, OpenDec, OrPat, OrelseExp, ParenExp, ParenPat, ParenTy, PatArg,
        PatRow, Path, PathEq, PathExp, PathStrExp, PrefixFunBindCaseHead, RaiseExp,
        RecordExp, RecordPat, RecordTy, RecordUpdate, RestPatRow, Root, SConExp,
        SConPat, SelectorExp, SeqExp, SharingTail, SigBind, SigSigExp, SignatureDec,
        StarTy, StrBind, StructStrExp, StructureDec, TupleExp, TuplePat, TupleTy,
        TyAnnotation, TyArg, TyBind, TyDec, TyRow, TySeq, TyVarArg, TyVarSeq, TyVarTy,
        TypedExp, TypedPat, ValBind, ValDec, VectorExp, VectorPat, WhereSigExp,
        WhereTypeSigExp, WhileExp, WildcardExp, WildcardPat, WildcardTy, WithType,
}

/// How many kinds of tokens there are.
const TOKENS: usize = 70;

impl SyntaxKind {
    /// The kinds of tokens, each at its number.
    #[must_use]
    pub fn tokens() -> &'static [SyntaxKind] {
        &ALL[..TOKENS]
    }

    /// The kinds of nodes, each at its number.
    #[must_use]
    pub fn nodes() -> &'static [SyntaxKind] {
        &ALL[TOKENS..]
    }

    /// The number of this kind among the tokens, or else among the nodes.
    #[must_use]
    pub fn number(self) -> u8 {
        let place = self as u8;
        place.checked_sub(TOKENS as u8).unwrap_or(place)
    }
}

impl fmt::Display for SyntaxKind {
    fn fmt(&self, f: &mut fmt::Formatter<'_>) -> fmt::Result {
        fmt::Debug::fmt(self, f)
    }
}

impl token::Kind for SyntaxKind {
    fn is_trivia(self) -> bool {
        self == Self::Trivia
    }

    fn is_before_fixity(self) -> bool {
        matches!(self, Self::InfixKw | Self::InfixrKw)
    }

    fn is_int(self) -> bool {
        self == Self::IntLit
    }
}
