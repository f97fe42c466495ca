//! The kinds and their numbers, and the words. Written by bindings/make.
use crate::Edition::{self, *};
use crate::kind::kinds;

kinds! {
    WHITESPACE = 0,
    COMMENT = 1,
    INNER_DOC_COMMENT = 2,
    OUTER_DOC_COMMENT = 3,
    ERROR = 4,
    IDENT = 5,
    LIFETIME_IDENT = 6,
    INT_NUMBER = 7,
    FLOAT_NUMBER = 8,
    CHAR = 9,
    BYTE = 10,
    STRING = 11,
    BYTE_STRING = 12,
    C_STRING = 13,
    SEMICOLON = 14,
    COMMA = 15,
    L_PAREN = 16,
    R_PAREN = 17,
    L_CURLY = 18,
    R_CURLY = 19,
    L_BRACK = 20,
    R_BRACK = 21,
    L_ANGLE = 22,
    R_ANGLE = 23,
    AT = 24,
    POUND = 25,
    DOLLAR = 26,
    TILDE = 27,
    QUESTION = 28,
    AMP = 29,
    PIPE = 30,
    PLUS = 31,
    STAR = 32,
    SLASH = 33,
    CARET = 34,
    PERCENT = 35,
    UNDERSCORE = 36,
    DOT = 37,
    DOT2 = 38,
    DOT3 = 39,
    DOT2EQ = 40,
    COLON = 41,
    COLON2 = 42,
    EQ = 43,
    EQ2 = 44,
    FAT_ARROW = 45,
    BANG = 46,
    NEQ = 47,
    MINUS = 48,
    THIN_ARROW = 49,
    LTEQ = 50,
    GTEQ = 51,
    PLUSEQ = 52,
    MINUSEQ = 53,
    PIPEEQ = 54,
    AMPEQ = 55,
    CARETEQ = 56,
    SLASHEQ = 57,
    STAREQ = 58,
    PERCENTEQ = 59,
    AMP2 = 60,
    PIPE2 = 61,
    SHL = 62,
    SHR = 63,
    SHLEQ = 64,
    SHREQ = 65,
    AS_KW = 66,
    ASYNC_KW = 67,
    AUTO_KW = 68,
    AWAIT_KW = 69,
    BECOME_KW = 70,
    BIKESHED_KW = 71,
    BREAK_KW = 72,
    BUILTIN_KW = 73,
    CONST_KW = 74,
    CONTINUE_KW = 75,
    CRATE_KW = 76,
    DEFAULT_KW = 77,
    DO_KW = 78,
    DYN_KW = 79,
    ELSE_KW = 80,
    ENUM_KW = 81,
    EXTERN_KW = 82,
    FALSE_KW = 83,
    FN_KW = 84,
    FOR_KW = 85,
    GEN_KW = 86,
    IF_KW = 87,
    IMPL_KW = 88,
    IN_KW = 89,
    LET_KW = 90,
    LOOP_KW = 91,
    MACRO_KW = 92,
    MACRO_RULES_KW = 93,
    MATCH_KW = 94,
    MOD_KW = 95,
    MOVE_KW = 96,
    MUT_KW = 97,
    PUB_KW = 98,
    REF_KW = 99,
    RETURN_KW = 100,
    SELF_KW = 101,
    SELF_TYPE_KW = 102,
    STATIC_KW = 103,
    STRUCT_KW = 104,
    SUPER_KW = 105,
    TRAIT_KW = 106,
    TRUE_KW = 107,
    TRY_KW = 108,
    TYPE_KW = 109,
    UNION_KW = 110,
    UNSAFE_KW = 111,
    USE_KW = 112,
    WHERE_KW = 113,
    WHILE_KW = 114,
    YEET_KW = 115,
    YIELD_KW = 116,
    ARRAY_EXPR = 117,
    ASM_EXPR = 118,
    AWAIT_EXPR = 119,
    BECOME_EXPR = 120,
    BIN_EXPR = 121,
    BLOCK_EXPR = 122,
    BREAK_EXPR = 123,
    CALL_EXPR = 124,
    CAST_EXPR = 125,
    CFG_PRED_EXPR = 126,
    CLOSURE_EXPR = 127,
    CONTINUE_EXPR = 128,
    FIELD_EXPR = 129,
    FOR_EXPR = 130,
    FORMAT_ARGS_EXPR = 131,
    IF_EXPR = 132,
    INCLUDE_BYTES_EXPR = 133,
    INDEX_EXPR = 134,
    LET_EXPR = 135,
    LITERAL = 136,
    LOOP_EXPR = 137,
    MACRO_EXPR = 138,
    MATCH_EXPR = 139,
    METHOD_CALL_EXPR = 140,
    OFFSET_OF_EXPR = 141,
    PAREN_EXPR = 142,
    PATH_EXPR = 143,
    PREFIX_EXPR = 144,
    RANGE_EXPR = 145,
    RECORD_EXPR = 146,
    REF_EXPR = 147,
    RETURN_EXPR = 148,
    TRY_EXPR = 149,
    TUPLE_EXPR = 150,
    UNDERSCORE_EXPR = 151,
    WHILE_EXPR = 152,
    YEET_EXPR = 153,
    YIELD_EXPR = 154,
    ARRAY_TYPE = 155,
    DYN_TRAIT_TYPE = 156,
    FN_PTR_TYPE = 157,
    FOR_TYPE = 158,
    IMPL_TRAIT_TYPE = 159,
    INFER_TYPE = 160,
    MACRO_TYPE = 161,
    NEVER_TYPE = 162,
    PAREN_TYPE = 163,
    PATH_TYPE = 164,
    PTR_TYPE = 165,
    REF_TYPE = 166,
    SLICE_TYPE = 167,
    TUPLE_TYPE = 168,
    BOX_PAT = 169,
    CONST_BLOCK_PAT = 170,
    IDENT_PAT = 171,
    LITERAL_PAT = 172,
    MACRO_PAT = 173,
    OR_PAT = 174,
    PAREN_PAT = 175,
    PATH_PAT = 176,
    RANGE_PAT = 177,
    RECORD_PAT = 178,
    REF_PAT = 179,
    REST_PAT = 180,
    SLICE_PAT = 181,
    TUPLE_PAT = 182,
    TUPLE_STRUCT_PAT = 183,
    WILDCARD_PAT = 184,
    CONST = 185,
    ENUM = 186,
    EXTERN_BLOCK = 187,
    EXTERN_CRATE = 188,
    FN = 189,
    IMPL = 190,
    MACRO_CALL = 191,
    MACRO_DEF = 192,
    MACRO_RULES = 193,
    MODULE = 194,
    STATIC = 195,
    STRUCT = 196,
    TRAIT = 197,
    TYPE_ALIAS = 198,
    UNION = 199,
    USE = 200,
    CFG_ATTR_META = 201,
    CFG_META = 202,
    KEY_VALUE_META = 203,
    PATH_META = 204,
    TOKEN_TREE_META = 205,
    UNSAFE_META = 206,
    LIFETIME_PARAM = 207,
    TYPE_PARAM = 208,
    CONST_PARAM = 209,
    TYPE_ARG = 210,
    ASSOC_TYPE_ARG = 211,
    LIFETIME_ARG = 212,
    CONST_ARG = 213,
    EXPR_STMT = 214,
    LET_STMT = 215,
    SOURCE_FILE = 216,
    NAME = 217,
    NAME_REF = 218,
    LIFETIME = 219,
    PATH = 220,
    PATH_SEGMENT = 221,
    TYPE_ANCHOR = 222,
    ARG_LIST = 223,
    PARAM_LIST = 224,
    PARAM = 225,
    SELF_PARAM = 226,
    RET_TYPE = 227,
    STMT_LIST = 228,
    LABEL = 229,
    TRY_BLOCK_MODIFIER = 230,
    LET_ELSE = 231,
    MATCH_ARM_LIST = 232,
    MATCH_ARM = 233,
    MATCH_GUARD = 234,
    RECORD_EXPR_FIELD = 235,
    RECORD_PAT_FIELD = 236,
    FORMAT_ARGS_ARG = 237,
    ABI = 238,
    ATTR = 239,
    DOC_COMMENT = 240,
    CFG_ATOM = 241,
    USE_TREE = 242,
    USE_TREE_LIST = 243,
    RECORD_FIELD_LIST = 244,
    RECORD_FIELD = 245,
    TUPLE_FIELD_LIST = 246,
    TUPLE_FIELD = 247,
    VARIANT = 248,
    ITEM_LIST = 249,
    ASSOC_ITEM_LIST = 250,
    EXTERN_ITEM_LIST = 251,
    TYPE_BOUND = 252,
    TYPE_BOUND_LIST = 253,
    USE_BOUND_GENERIC_ARGS = 254,
    FOR_BINDER = 255,
    GENERIC_PARAM_LIST = 256,
    GENERIC_ARG_LIST = 257,
    WHERE_CLAUSE = 258,
    WHERE_PRED = 259,
    VISIBILITY = 260,
    VISIBILITY_INNER = 261,
    TOKEN_TREE = 262,
    MACRO_STMTS = 263,
    ;
    /// A front matter at a file's start, with its fences.
    FRONTMATTER = 65536,
    /// The line `#!..` at a file's start.
    SHEBANG = 65537,
    /// The word `abstract`.
    ABSTRACT_KW = 65538,
    /// The word `box`.
    BOX_KW = 65539,
    /// The word `final`.
    FINAL_KW = 65540,
    /// The word `override`.
    OVERRIDE_KW = 65541,
    /// The word `priv`.
    PRIV_KW = 65542,
    /// The word `typeof`.
    TYPEOF_KW = 65543,
    /// The word `unsized`.
    UNSIZED_KW = 65544,
    /// The word `virtual`.
    VIRTUAL_KW = 65545,
    /// The word `asm`.
    ASM_KW = 65546,
    /// The word `att_syntax`.
    ATT_SYNTAX_KW = 65547,
    /// The word `clobber_abi`.
    CLOBBER_ABI_KW = 65548,
    /// The word `format_args`.
    FORMAT_ARGS_KW = 65549,
    /// The word `global_asm`.
    GLOBAL_ASM_KW = 65550,
    /// The word `inlateout`.
    INLATEOUT_KW = 65551,
    /// The word `inout`.
    INOUT_KW = 65552,
    /// The word `label`.
    LABEL_KW = 65553,
    /// The word `lateout`.
    LATEOUT_KW = 65554,
    /// The word `may_unwind`.
    MAY_UNWIND_KW = 65555,
    /// The word `naked_asm`.
    NAKED_ASM_KW = 65556,
    /// The word `nomem`.
    NOMEM_KW = 65557,
    /// The word `noreturn`.
    NORETURN_KW = 65558,
    /// The word `nostack`.
    NOSTACK_KW = 65559,
    /// The word `offset_of`.
    OFFSET_OF_KW = 65560,
    /// The word `options`.
    OPTIONS_KW = 65561,
    /// The word `out`.
    OUT_KW = 65562,
    /// The word `preserves_flags`.
    PRESERVES_FLAGS_KW = 65563,
    /// The word `pure`.
    PURE_KW = 65564,
    /// The word `raw`.
    RAW_KW = 65565,
    /// The word `readonly`.
    READONLY_KW = 65566,
    /// The word `safe`.
    SAFE_KW = 65567,
    /// The word `sym`.
    SYM_KW = 65568,
    /// The word `cfg`.
    CFG_KW = 65569,
    /// The word `cfg_attr`.
    CFG_ATTR_KW = 65570,
    /// The node `ASM_CLOBBER_ABI`.
    ASM_CLOBBER_ABI = 65792,
    /// The node `ASM_CONST`.
    ASM_CONST = 65793,
    /// The node `ASM_DIR_SPEC`.
    ASM_DIR_SPEC = 65794,
    /// The node `ASM_LABEL`.
    ASM_LABEL = 65795,
    /// The node `ASM_OPERAND_EXPR`.
    ASM_OPERAND_EXPR = 65796,
    /// The node `ASM_OPERAND_NAMED`.
    ASM_OPERAND_NAMED = 65797,
    /// The node `ASM_OPTION`.
    ASM_OPTION = 65798,
    /// The node `ASM_OPTIONS`.
    ASM_OPTIONS = 65799,
    /// The node `ASM_REG_OPERAND`.
    ASM_REG_OPERAND = 65800,
    /// The node `ASM_REG_SPEC`.
    ASM_REG_SPEC = 65801,
    /// The node `ASM_SYM`.
    ASM_SYM = 65802,
    /// The node `CFG_COMPOSITE`.
    CFG_COMPOSITE = 65803,
    /// The node `FORMAT_ARGS_ARG_NAME`.
    FORMAT_ARGS_ARG_NAME = 65804,
    /// The node `MACRO_ITEMS`.
    MACRO_ITEMS = 65805,
    /// The node `PARENTHESIZED_ARG_LIST`.
    PARENTHESIZED_ARG_LIST = 65806,
    /// The node `RECORD_EXPR_FIELD_LIST`.
    RECORD_EXPR_FIELD_LIST = 65807,
    /// The node `RECORD_PAT_FIELD_LIST`.
    RECORD_PAT_FIELD_LIST = 65808,
    /// The node `RENAME`.
    RENAME = 65809,
    /// The node `RETURN_TYPE_SYNTAX`.
    RETURN_TYPE_SYNTAX = 65810,
    /// The node `VARIANT_LIST`.
    VARIANT_LIST = 65811,
}

// The kinds of punctuation.
pub(crate) const PUNCTUATION: [SyntaxKind; 52] = [
    SyntaxKind::SEMICOLON,
    SyntaxKind::COMMA,
    SyntaxKind::L_PAREN,
    SyntaxKind::R_PAREN,
    SyntaxKind::L_CURLY,
    SyntaxKind::R_CURLY,
    SyntaxKind::L_BRACK,
    SyntaxKind::R_BRACK,
    SyntaxKind::L_ANGLE,
    SyntaxKind::R_ANGLE,
    SyntaxKind::AT,
    SyntaxKind::POUND,
    SyntaxKind::DOLLAR,
    SyntaxKind::TILDE,
    SyntaxKind::QUESTION,
    SyntaxKind::AMP,
    SyntaxKind::PIPE,
    SyntaxKind::PLUS,
    SyntaxKind::STAR,
    SyntaxKind::SLASH,
    SyntaxKind::CARET,
    SyntaxKind::PERCENT,
    SyntaxKind::UNDERSCORE,
    SyntaxKind::DOT,
    SyntaxKind::DOT2,
    SyntaxKind::DOT3,
    SyntaxKind::DOT2EQ,
    SyntaxKind::COLON,
    SyntaxKind::COLON2,
    SyntaxKind::EQ,
    SyntaxKind::EQ2,
    SyntaxKind::FAT_ARROW,
    SyntaxKind::BANG,
    SyntaxKind::NEQ,
    SyntaxKind::MINUS,
    SyntaxKind::THIN_ARROW,
    SyntaxKind::LTEQ,
    SyntaxKind::GTEQ,
    SyntaxKind::PLUSEQ,
    SyntaxKind::MINUSEQ,
    SyntaxKind::PIPEEQ,
    SyntaxKind::AMPEQ,
    SyntaxKind::CARETEQ,
    SyntaxKind::SLASHEQ,
    SyntaxKind::STAREQ,
    SyntaxKind::PERCENTEQ,
    SyntaxKind::AMP2,
    SyntaxKind::PIPE2,
    SyntaxKind::SHL,
    SyntaxKind::SHR,
    SyntaxKind::SHLEQ,
    SyntaxKind::SHREQ,
];

// The text of a punctuation or a word; `None` for other kinds.
pub(crate) const fn text_of(kind: SyntaxKind) -> Option<&'static str> {
    Some(match kind {
        SyntaxKind::SEMICOLON => ";",
        SyntaxKind::COMMA => ",",
        SyntaxKind::L_PAREN => "(",
        SyntaxKind::R_PAREN => ")",
        SyntaxKind::L_CURLY => "{",
        SyntaxKind::R_CURLY => "}",
        SyntaxKind::L_BRACK => "[",
        SyntaxKind::R_BRACK => "]",
        SyntaxKind::L_ANGLE => "<",
        SyntaxKind::R_ANGLE => ">",
        SyntaxKind::AT => "@",
        SyntaxKind::POUND => "#",
        SyntaxKind::DOLLAR => "$",
        SyntaxKind::TILDE => "~",
        SyntaxKind::QUESTION => "?",
        SyntaxKind::AMP => "&",
        SyntaxKind::PIPE => "|",
        SyntaxKind::PLUS => "+",
        SyntaxKind::STAR => "*",
        SyntaxKind::SLASH => "/",
        SyntaxKind::CARET => "^",
        SyntaxKind::PERCENT => "%",
        SyntaxKind::UNDERSCORE => "_",
        SyntaxKind::DOT => ".",
        SyntaxKind::DOT2 => "..",
        SyntaxKind::DOT3 => "...",
        SyntaxKind::DOT2EQ => "..=",
        SyntaxKind::COLON => ":",
        SyntaxKind::COLON2 => "::",
        SyntaxKind::EQ => "=",
        SyntaxKind::EQ2 => "==",
        SyntaxKind::FAT_ARROW => "=>",
        SyntaxKind::BANG => "!",
        SyntaxKind::NEQ => "!=",
        SyntaxKind::MINUS => "-",
        SyntaxKind::THIN_ARROW => "->",
        SyntaxKind::LTEQ => "<=",
        SyntaxKind::GTEQ => ">=",
        SyntaxKind::PLUSEQ => "+=",
        SyntaxKind::MINUSEQ => "-=",
        SyntaxKind::PIPEEQ => "|=",
        SyntaxKind::AMPEQ => "&=",
        SyntaxKind::CARETEQ => "^=",
        SyntaxKind::SLASHEQ => "/=",
        SyntaxKind::STAREQ => "*=",
        SyntaxKind::PERCENTEQ => "%=",
        SyntaxKind::AMP2 => "&&",
        SyntaxKind::PIPE2 => "||",
        SyntaxKind::SHL => "<<",
        SyntaxKind::SHR => ">>",
        SyntaxKind::SHLEQ => "<<=",
        SyntaxKind::SHREQ => ">>=",
        SyntaxKind::SELF_TYPE_KW => "Self",
        SyntaxKind::ABSTRACT_KW => "abstract",
        SyntaxKind::AS_KW => "as",
        SyntaxKind::ASYNC_KW => "async",
        SyntaxKind::AWAIT_KW => "await",
        SyntaxKind::BECOME_KW => "become",
        SyntaxKind::BOX_KW => "box",
        SyntaxKind::BREAK_KW => "break",
        SyntaxKind::CONST_KW => "const",
        SyntaxKind::CONTINUE_KW => "continue",
        SyntaxKind::CRATE_KW => "crate",
        SyntaxKind::DO_KW => "do",
        SyntaxKind::DYN_KW => "dyn",
        SyntaxKind::ELSE_KW => "else",
        SyntaxKind::ENUM_KW => "enum",
        SyntaxKind::EXTERN_KW => "extern",
        SyntaxKind::FALSE_KW => "false",
        SyntaxKind::FINAL_KW => "final",
        SyntaxKind::FN_KW => "fn",
        SyntaxKind::FOR_KW => "for",
        SyntaxKind::GEN_KW => "gen",
        SyntaxKind::IF_KW => "if",
        SyntaxKind::IMPL_KW => "impl",
        SyntaxKind::IN_KW => "in",
        SyntaxKind::LET_KW => "let",
        SyntaxKind::LOOP_KW => "loop",
        SyntaxKind::MACRO_KW => "macro",
        SyntaxKind::MATCH_KW => "match",
        SyntaxKind::MOD_KW => "mod",
        SyntaxKind::MOVE_KW => "move",
        SyntaxKind::MUT_KW => "mut",
        SyntaxKind::OVERRIDE_KW => "override",
        SyntaxKind::PRIV_KW => "priv",
        SyntaxKind::PUB_KW => "pub",
        SyntaxKind::REF_KW => "ref",
        SyntaxKind::RETURN_KW => "return",
        SyntaxKind::SELF_KW => "self",
        SyntaxKind::STATIC_KW => "static",
        SyntaxKind::STRUCT_KW => "struct",
        SyntaxKind::SUPER_KW => "super",
        SyntaxKind::TRAIT_KW => "trait",
        SyntaxKind::TRUE_KW => "true",
        SyntaxKind::TRY_KW => "try",
        SyntaxKind::TYPE_KW => "type",
        SyntaxKind::TYPEOF_KW => "typeof",
        SyntaxKind::UNSAFE_KW => "unsafe",
        SyntaxKind::UNSIZED_KW => "unsized",
        SyntaxKind::USE_KW => "use",
        SyntaxKind::VIRTUAL_KW => "virtual",
        SyntaxKind::WHERE_KW => "where",
        SyntaxKind::WHILE_KW => "while",
        SyntaxKind::YIELD_KW => "yield",
        SyntaxKind::ASM_KW => "asm",
        SyntaxKind::ATT_SYNTAX_KW => "att_syntax",
        SyntaxKind::AUTO_KW => "auto",
        SyntaxKind::BIKESHED_KW => "bikeshed",
        SyntaxKind::BUILTIN_KW => "builtin",
        SyntaxKind::CFG_KW => "cfg",
        SyntaxKind::CFG_ATTR_KW => "cfg_attr",
        SyntaxKind::CLOBBER_ABI_KW => "clobber_abi",
        SyntaxKind::DEFAULT_KW => "default",
        SyntaxKind::FORMAT_ARGS_KW => "format_args",
        SyntaxKind::GLOBAL_ASM_KW => "global_asm",
        SyntaxKind::INLATEOUT_KW => "inlateout",
        SyntaxKind::INOUT_KW => "inout",
        SyntaxKind::LABEL_KW => "label",
        SyntaxKind::LATEOUT_KW => "lateout",
        SyntaxKind::MACRO_RULES_KW => "macro_rules",
        SyntaxKind::MAY_UNWIND_KW => "may_unwind",
        SyntaxKind::NAKED_ASM_KW => "naked_asm",
        SyntaxKind::NOMEM_KW => "nomem",
        SyntaxKind::NORETURN_KW => "noreturn",
        SyntaxKind::NOSTACK_KW => "nostack",
        SyntaxKind::OFFSET_OF_KW => "offset_of",
        SyntaxKind::OPTIONS_KW => "options",
        SyntaxKind::OUT_KW => "out",
        SyntaxKind::PRESERVES_FLAGS_KW => "preserves_flags",
        SyntaxKind::PURE_KW => "pure",
        SyntaxKind::RAW_KW => "raw",
        SyntaxKind::READONLY_KW => "readonly",
        SyntaxKind::SAFE_KW => "safe",
        SyntaxKind::SYM_KW => "sym",
        SyntaxKind::UNION_KW => "union",
        SyntaxKind::YEET_KW => "yeet",
        _ => return None,
    })
}

// The words that are keywords everywhere, sorted, each with the edition since which it is one.
pub(crate) const KEYWORDS: [(&str, SyntaxKind, Edition); 52] = [
    ("Self", SyntaxKind::SELF_TYPE_KW, Edition2015),
    ("abstract", SyntaxKind::ABSTRACT_KW, Edition2015),
    ("as", SyntaxKind::AS_KW, Edition2015),
    ("async", SyntaxKind::ASYNC_KW, Edition2018),
    ("await", SyntaxKind::AWAIT_KW, Edition2018),
    ("become", SyntaxKind::BECOME_KW, Edition2015),
    ("box", SyntaxKind::BOX_KW, Edition2015),
    ("break", SyntaxKind::BREAK_KW, Edition2015),
    ("const", SyntaxKind::CONST_KW, Edition2015),
    ("continue", SyntaxKind::CONTINUE_KW, Edition2015),
    ("crate", SyntaxKind::CRATE_KW, Edition2015),
    ("do", SyntaxKind::DO_KW, Edition2015),
    ("dyn", SyntaxKind::DYN_KW, Edition2018),
    ("else", SyntaxKind::ELSE_KW, Edition2015),
    ("enum", SyntaxKind::ENUM_KW, Edition2015),
    ("extern", SyntaxKind::EXTERN_KW, Edition2015),
    ("false", SyntaxKind::FALSE_KW, Edition2015),
    ("final", SyntaxKind::FINAL_KW, Edition2015),
    ("fn", SyntaxKind::FN_KW, Edition2015),
    ("for", SyntaxKind::FOR_KW, Edition2015),
    ("gen", SyntaxKind::GEN_KW, Edition2024),
    ("if", SyntaxKind::IF_KW, Edition2015),
    ("impl", SyntaxKind::IMPL_KW, Edition2015),
    ("in", SyntaxKind::IN_KW, Edition2015),
    ("let", SyntaxKind::LET_KW, Edition2015),
    ("loop", SyntaxKind::LOOP_KW, Edition2015),
    ("macro", SyntaxKind::MACRO_KW, Edition2015),
    ("match", SyntaxKind::MATCH_KW, Edition2015),
    ("mod", SyntaxKind::MOD_KW, Edition2015),
    ("move", SyntaxKind::MOVE_KW, Edition2015),
    ("mut", SyntaxKind::MUT_KW, Edition2015),
    ("override", SyntaxKind::OVERRIDE_KW, Edition2015),
    ("priv", SyntaxKind::PRIV_KW, Edition2015),
    ("pub", SyntaxKind::PUB_KW, Edition2015),
    ("ref", SyntaxKind::REF_KW, Edition2015),
    ("return", SyntaxKind::RETURN_KW, Edition2015),
    ("self", SyntaxKind::SELF_KW, Edition2015),
    ("static", SyntaxKind::STATIC_KW, Edition2015),
    ("struct", SyntaxKind::STRUCT_KW, Edition2015),
    ("super", SyntaxKind::SUPER_KW, Edition2015),
    ("trait", SyntaxKind::TRAIT_KW, Edition2015),
    ("true", SyntaxKind::TRUE_KW, Edition2015),
    ("try", SyntaxKind::TRY_KW, Edition2018),
    ("type", SyntaxKind::TYPE_KW, Edition2015),
    ("typeof", SyntaxKind::TYPEOF_KW, Edition2015),
    ("unsafe", SyntaxKind::UNSAFE_KW, Edition2015),
    ("unsized", SyntaxKind::UNSIZED_KW, Edition2015),
    ("use", SyntaxKind::USE_KW, Edition2015),
    ("virtual", SyntaxKind::VIRTUAL_KW, Edition2015),
    ("where", SyntaxKind::WHERE_KW, Edition2015),
    ("while", SyntaxKind::WHILE_KW, Edition2015),
    ("yield", SyntaxKind::YIELD_KW, Edition2015),
];

// The words that are keywords only in some places, sorted.
pub(crate) const CONTEXTUAL: [(&str, SyntaxKind); 32] = [
    ("asm", SyntaxKind::ASM_KW),
    ("att_syntax", SyntaxKind::ATT_SYNTAX_KW),
    ("auto", SyntaxKind::AUTO_KW),
    ("bikeshed", SyntaxKind::BIKESHED_KW),
    ("builtin", SyntaxKind::BUILTIN_KW),
    ("cfg", SyntaxKind::CFG_KW),
    ("cfg_attr", SyntaxKind::CFG_ATTR_KW),
    ("clobber_abi", SyntaxKind::CLOBBER_ABI_KW),
    ("default", SyntaxKind::DEFAULT_KW),
    ("format_args", SyntaxKind::FORMAT_ARGS_KW),
    ("global_asm", SyntaxKind::GLOBAL_ASM_KW),
    ("inlateout", SyntaxKind::INLATEOUT_KW),
    ("inout", SyntaxKind::INOUT_KW),
    ("label", SyntaxKind::LABEL_KW),
    ("lateout", SyntaxKind::LATEOUT_KW),
    ("macro_rules", SyntaxKind::MACRO_RULES_KW),
    ("may_unwind", SyntaxKind::MAY_UNWIND_KW),
    ("naked_asm", SyntaxKind::NAKED_ASM_KW),
    ("nomem", SyntaxKind::NOMEM_KW),
    ("noreturn", SyntaxKind::NORETURN_KW),
    ("nostack", SyntaxKind::NOSTACK_KW),
    ("offset_of", SyntaxKind::OFFSET_OF_KW),
    ("options", SyntaxKind::OPTIONS_KW),
    ("out", SyntaxKind::OUT_KW),
    ("preserves_flags", SyntaxKind::PRESERVES_FLAGS_KW),
    ("pure", SyntaxKind::PURE_KW),
    ("raw", SyntaxKind::RAW_KW),
    ("readonly", SyntaxKind::READONLY_KW),
    ("safe", SyntaxKind::SAFE_KW),
    ("sym", SyntaxKind::SYM_KW),
    ("union", SyntaxKind::UNION_KW),
    ("yeet", SyntaxKind::YEET_KW),
];

/// The kind of a punctuation or a keyword, by its text: `T![+]` is `SyntaxKind::PLUS`, and `T!['(']` is `SyntaxKind::L_PAREN`.
/// The kinds of other tokens have their names, as `T![ident]`.
#[macro_export]
macro_rules! T {
    [;] => { $crate::SyntaxKind::SEMICOLON };
    [,] => { $crate::SyntaxKind::COMMA };
    ['('] => { $crate::SyntaxKind::L_PAREN };
    [')'] => { $crate::SyntaxKind::R_PAREN };
    ['{'] => { $crate::SyntaxKind::L_CURLY };
    ['}'] => { $crate::SyntaxKind::R_CURLY };
    ['['] => { $crate::SyntaxKind::L_BRACK };
    [']'] => { $crate::SyntaxKind::R_BRACK };
    [<] => { $crate::SyntaxKind::L_ANGLE };
    [>] => { $crate::SyntaxKind::R_ANGLE };
    [@] => { $crate::SyntaxKind::AT };
    [#] => { $crate::SyntaxKind::POUND };
    ['$'] => { $crate::SyntaxKind::DOLLAR };
    [~] => { $crate::SyntaxKind::TILDE };
    [?] => { $crate::SyntaxKind::QUESTION };
    [&] => { $crate::SyntaxKind::AMP };
    [|] => { $crate::SyntaxKind::PIPE };
    [+] => { $crate::SyntaxKind::PLUS };
    [*] => { $crate::SyntaxKind::STAR };
    [/] => { $crate::SyntaxKind::SLASH };
    [^] => { $crate::SyntaxKind::CARET };
    [%] => { $crate::SyntaxKind::PERCENT };
    [_] => { $crate::SyntaxKind::UNDERSCORE };
    [.] => { $crate::SyntaxKind::DOT };
    [..] => { $crate::SyntaxKind::DOT2 };
    [...] => { $crate::SyntaxKind::DOT3 };
    [..=] => { $crate::SyntaxKind::DOT2EQ };
    [:] => { $crate::SyntaxKind::COLON };
    [::] => { $crate::SyntaxKind::COLON2 };
    [=] => { $crate::SyntaxKind::EQ };
    [==] => { $crate::SyntaxKind::EQ2 };
    [=>] => { $crate::SyntaxKind::FAT_ARROW };
    [!] => { $crate::SyntaxKind::BANG };
    [!=] => { $crate::SyntaxKind::NEQ };
    [-] => { $crate::SyntaxKind::MINUS };
    [->] => { $crate::SyntaxKind::THIN_ARROW };
    [<=] => { $crate::SyntaxKind::LTEQ };
    [>=] => { $crate::SyntaxKind::GTEQ };
    [+=] => { $crate::SyntaxKind::PLUSEQ };
    [-=] => { $crate::SyntaxKind::MINUSEQ };
    [|=] => { $crate::SyntaxKind::PIPEEQ };
    [&=] => { $crate::SyntaxKind::AMPEQ };
    [^=] => { $crate::SyntaxKind::CARETEQ };
    [/=] => { $crate::SyntaxKind::SLASHEQ };
    [*=] => { $crate::SyntaxKind::STAREQ };
    [%=] => { $crate::SyntaxKind::PERCENTEQ };
    [&&] => { $crate::SyntaxKind::AMP2 };
    [||] => { $crate::SyntaxKind::PIPE2 };
    [<<] => { $crate::SyntaxKind::SHL };
    [>>] => { $crate::SyntaxKind::SHR };
    [<<=] => { $crate::SyntaxKind::SHLEQ };
    [>>=] => { $crate::SyntaxKind::SHREQ };
    [as] => { $crate::SyntaxKind::AS_KW };
    [async] => { $crate::SyntaxKind::ASYNC_KW };
    [auto] => { $crate::SyntaxKind::AUTO_KW };
    [await] => { $crate::SyntaxKind::AWAIT_KW };
    [become] => { $crate::SyntaxKind::BECOME_KW };
    [bikeshed] => { $crate::SyntaxKind::BIKESHED_KW };
    [break] => { $crate::SyntaxKind::BREAK_KW };
    [builtin] => { $crate::SyntaxKind::BUILTIN_KW };
    [const] => { $crate::SyntaxKind::CONST_KW };
    [continue] => { $crate::SyntaxKind::CONTINUE_KW };
    [crate] => { $crate::SyntaxKind::CRATE_KW };
    [default] => { $crate::SyntaxKind::DEFAULT_KW };
    [do] => { $crate::SyntaxKind::DO_KW };
    [dyn] => { $crate::SyntaxKind::DYN_KW };
    [else] => { $crate::SyntaxKind::ELSE_KW };
    [enum] => { $crate::SyntaxKind::ENUM_KW };
    [extern] => { $crate::SyntaxKind::EXTERN_KW };
    [false] => { $crate::SyntaxKind::FALSE_KW };
    [fn] => { $crate::SyntaxKind::FN_KW };
    [for] => { $crate::SyntaxKind::FOR_KW };
    [gen] => { $crate::SyntaxKind::GEN_KW };
    [if] => { $crate::SyntaxKind::IF_KW };
    [impl] => { $crate::SyntaxKind::IMPL_KW };
    [in] => { $crate::SyntaxKind::IN_KW };
    [let] => { $crate::SyntaxKind::LET_KW };
    [loop] => { $crate::SyntaxKind::LOOP_KW };
    [macro] => { $crate::SyntaxKind::MACRO_KW };
    [macro_rules] => { $crate::SyntaxKind::MACRO_RULES_KW };
    [match] => { $crate::SyntaxKind::MATCH_KW };
    [mod] => { $crate::SyntaxKind::MOD_KW };
    [move] => { $crate::SyntaxKind::MOVE_KW };
    [mut] => { $crate::SyntaxKind::MUT_KW };
    [pub] => { $crate::SyntaxKind::PUB_KW };
    [ref] => { $crate::SyntaxKind::REF_KW };
    [return] => { $crate::SyntaxKind::RETURN_KW };
    [self] => { $crate::SyntaxKind::SELF_KW };
    [Self] => { $crate::SyntaxKind::SELF_TYPE_KW };
    [static] => { $crate::SyntaxKind::STATIC_KW };
    [struct] => { $crate::SyntaxKind::STRUCT_KW };
    [super] => { $crate::SyntaxKind::SUPER_KW };
    [trait] => { $crate::SyntaxKind::TRAIT_KW };
    [true] => { $crate::SyntaxKind::TRUE_KW };
    [try] => { $crate::SyntaxKind::TRY_KW };
    [type] => { $crate::SyntaxKind::TYPE_KW };
    [union] => { $crate::SyntaxKind::UNION_KW };
    [unsafe] => { $crate::SyntaxKind::UNSAFE_KW };
    [use] => { $crate::SyntaxKind::USE_KW };
    [where] => { $crate::SyntaxKind::WHERE_KW };
    [while] => { $crate::SyntaxKind::WHILE_KW };
    [yeet] => { $crate::SyntaxKind::YEET_KW };
    [yield] => { $crate::SyntaxKind::YIELD_KW };
    [$] => { $crate::SyntaxKind::DOLLAR };
    [abstract] => { $crate::SyntaxKind::ABSTRACT_KW };
    [box] => { $crate::SyntaxKind::BOX_KW };
    [final] => { $crate::SyntaxKind::FINAL_KW };
    [override] => { $crate::SyntaxKind::OVERRIDE_KW };
    [priv] => { $crate::SyntaxKind::PRIV_KW };
    [typeof] => { $crate::SyntaxKind::TYPEOF_KW };
    [unsized] => { $crate::SyntaxKind::UNSIZED_KW };
    [virtual] => { $crate::SyntaxKind::VIRTUAL_KW };
    [asm] => { $crate::SyntaxKind::ASM_KW };
    [att_syntax] => { $crate::SyntaxKind::ATT_SYNTAX_KW };
    [cfg] => { $crate::SyntaxKind::CFG_KW };
    [cfg_attr] => { $crate::SyntaxKind::CFG_ATTR_KW };
    [clobber_abi] => { $crate::SyntaxKind::CLOBBER_ABI_KW };
    [format_args] => { $crate::SyntaxKind::FORMAT_ARGS_KW };
    [global_asm] => { $crate::SyntaxKind::GLOBAL_ASM_KW };
    [inlateout] => { $crate::SyntaxKind::INLATEOUT_KW };
    [inout] => { $crate::SyntaxKind::INOUT_KW };
    [label] => { $crate::SyntaxKind::LABEL_KW };
    [lateout] => { $crate::SyntaxKind::LATEOUT_KW };
    [may_unwind] => { $crate::SyntaxKind::MAY_UNWIND_KW };
    [naked_asm] => { $crate::SyntaxKind::NAKED_ASM_KW };
    [nomem] => { $crate::SyntaxKind::NOMEM_KW };
    [noreturn] => { $crate::SyntaxKind::NORETURN_KW };
    [nostack] => { $crate::SyntaxKind::NOSTACK_KW };
    [offset_of] => { $crate::SyntaxKind::OFFSET_OF_KW };
    [options] => { $crate::SyntaxKind::OPTIONS_KW };
    [out] => { $crate::SyntaxKind::OUT_KW };
    [preserves_flags] => { $crate::SyntaxKind::PRESERVES_FLAGS_KW };
    [pure] => { $crate::SyntaxKind::PURE_KW };
    [raw] => { $crate::SyntaxKind::RAW_KW };
    [readonly] => { $crate::SyntaxKind::READONLY_KW };
    [safe] => { $crate::SyntaxKind::SAFE_KW };
    [sym] => { $crate::SyntaxKind::SYM_KW };
    [whitespace] => { $crate::SyntaxKind::WHITESPACE };
    [comment] => { $crate::SyntaxKind::COMMENT };
    [inner_doc_comment] => { $crate::SyntaxKind::INNER_DOC_COMMENT };
    [outer_doc_comment] => { $crate::SyntaxKind::OUTER_DOC_COMMENT };
    [ident] => { $crate::SyntaxKind::IDENT };
    [lifetime_ident] => { $crate::SyntaxKind::LIFETIME_IDENT };
    [int_number] => { $crate::SyntaxKind::INT_NUMBER };
    [float_number] => { $crate::SyntaxKind::FLOAT_NUMBER };
    [char] => { $crate::SyntaxKind::CHAR };
    [byte] => { $crate::SyntaxKind::BYTE };
    [string] => { $crate::SyntaxKind::STRING };
    [byte_string] => { $crate::SyntaxKind::BYTE_STRING };
    [c_string] => { $crate::SyntaxKind::C_STRING };
    [frontmatter] => { $crate::SyntaxKind::FRONTMATTER };
    [shebang] => { $crate::SyntaxKind::SHEBANG };
}
