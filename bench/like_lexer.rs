//! The lexer of `front_like`: kinds, tokens, and what is wrong with some.

macro_rules! kinds {
    ($($name:ident)*) => {
        #[allow(non_camel_case_types, clippy::upper_case_acronyms)]
        #[derive(Clone, Copy, PartialEq, Eq, Debug)]
        pub enum Kind { $($name),* }
    };
}

kinds! {
    WHITESPACE COMMENT IDENT UNDERSCORE INT_NUMBER STRING ERROR
    FN_KW LET_KW MUT_KW TRUE_KW FALSE_KW AS_KW CRATE_KW SELF_KW SUPER_KW SELF_TYPE_KW AWAIT_KW
    SEMICOLON COMMA L_PAREN R_PAREN L_CURLY R_CURLY L_BRACK R_BRACK AT POUND DOLLAR TILDE QUESTION COLON COLON2
    MINUS THIN_ARROW MINUSEQ EQ EQ2 FAT_ARROW BANG NEQ DOT DOT2 DOT3 DOT2EQ L_ANGLE LTEQ SHL SHLEQ R_ANGLE GTEQ SHR SHREQ
    AMP AMP2 AMPEQ PIPE PIPE2 PIPEEQ PLUS PLUSEQ STAR STAREQ SLASH SLASHEQ CARET CARETEQ PERCENT PERCENTEQ END
    SOURCE_FILE FN NAME PARAM_LIST RET_TYPE PATH_TYPE PATH PATH_SEGMENT NAME_REF BLOCK_EXPR STMT_LIST LET_STMT IDENT_PAT
    EXPR_STMT BIN_EXPR PREFIX_EXPR REF_EXPR LITERAL PATH_EXPR PAREN_EXPR TRY_EXPR AWAIT_EXPR FIELD_EXPR METHOD_CALL_EXPR
    CALL_EXPR ARG_LIST INDEX_EXPR RANGE_EXPR CAST_EXPR
}
pub use Kind::*;

#[derive(Clone)]
pub struct Problem {
    pub start: u32,
    pub end: u32,
    pub message: &'static str,
}

fn begins_name(c: char) -> bool {
    c == '_' || c.is_alphabetic()
}

fn is_name(c: char) -> bool {
    c == '_' || c.is_alphanumeric()
}

// The length of the characters at the front of which the test holds.
fn run(text: &str, test: impl Fn(char) -> bool) -> usize {
    text.find(|c| !test(c)).unwrap_or(text.len())
}

fn word(text: &str) -> Kind {
    match text {
        "_" => UNDERSCORE,
        "fn" => FN_KW,
        "let" => LET_KW,
        "mut" => MUT_KW,
        "true" => TRUE_KW,
        "false" => FALSE_KW,
        "as" => AS_KW,
        "crate" => CRATE_KW,
        "self" => SELF_KW,
        "super" => SUPER_KW,
        "Self" => SELF_TYPE_KW,
        "await" => AWAIT_KW,
        _ => IDENT,
    }
}

// What stands alone, whatever follows.
fn single(byte: u8) -> Option<Kind> {
    Some(match byte {
        b';' => SEMICOLON,
        b',' => COMMA,
        b'(' => L_PAREN,
        b')' => R_PAREN,
        b'{' => L_CURLY,
        b'}' => R_CURLY,
        b'[' => L_BRACK,
        b']' => R_BRACK,
        b'@' => AT,
        b'#' => POUND,
        b'$' => DOLLAR,
        b'~' => TILDE,
        b'?' => QUESTION,
        _ => return None,
    })
}

fn punctuation(bytes: &[u8]) -> Option<(Kind, usize)> {
    if let Some(kind) = single(bytes[0]) {
        return Some((kind, 1));
    }
    let second = bytes.get(1).copied().unwrap_or(0);
    let third = bytes.get(2).copied().unwrap_or(0);
    let with_eq = |plain, eq| if second == b'=' { (eq, 2) } else { (plain, 1) };
    Some(match bytes[0] {
        b':' => if second == b':' { (COLON2, 2) } else { (COLON, 1) },
        b'-' => if second == b'>' { (THIN_ARROW, 2) } else { with_eq(MINUS, MINUSEQ) },
        b'=' => if second == b'>' { (FAT_ARROW, 2) } else { with_eq(EQ, EQ2) },
        b'!' => with_eq(BANG, NEQ),
        b'.' => match (second, third) {
            (b'.', b'.') => (DOT3, 3),
            (b'.', b'=') => (DOT2EQ, 3),
            (b'.', _) => (DOT2, 2),
            _ => (DOT, 1),
        },
        b'<' => match (second, third) {
            (b'<', b'=') => (SHLEQ, 3),
            (b'<', _) => (SHL, 2),
            _ => with_eq(L_ANGLE, LTEQ),
        },
        b'>' => match (second, third) {
            (b'>', b'=') => (SHREQ, 3),
            (b'>', _) => (SHR, 2),
            _ => with_eq(R_ANGLE, GTEQ),
        },
        b'&' => if second == b'&' { (AMP2, 2) } else { with_eq(AMP, AMPEQ) },
        b'|' => if second == b'|' { (PIPE2, 2) } else { with_eq(PIPE, PIPEEQ) },
        b'+' => with_eq(PLUS, PLUSEQ),
        b'*' => with_eq(STAR, STAREQ),
        b'/' => with_eq(SLASH, SLASHEQ),
        b'^' => with_eq(CARET, CARETEQ),
        b'%' => with_eq(PERCENT, PERCENTEQ),
        _ => return None,
    })
}

// The first token of a text that is not empty, and what is wrong with it.
pub fn token(text: &str) -> (Kind, usize, Option<&'static str>) {
    let bytes = text.as_bytes();
    match bytes[0] {
        b' ' | b'\n' | b'\t' | b'\r' => (WHITESPACE, run(text, |c| matches!(c, ' ' | '\n' | '\t' | '\r')), None),
        b'0'..=b'9' => (INT_NUMBER, run(text, is_name), None),
        b'"' => {
            let mut at = 1;
            while at < bytes.len() {
                match bytes[at] {
                    b'"' => return (STRING, at + 1, None),
                    b'\\' => at += 1 + text[at + 1..].chars().next().map_or(0, char::len_utf8),
                    _ => at += 1,
                }
            }
            (STRING, bytes.len(), Some("unterminated string"))
        }
        b'/' if bytes.get(1) == Some(&b'/') => (COMMENT, run(text, |c| c != '\n'), None),
        b'/' if bytes.get(1) == Some(&b'*') => match text[2..].find("*/") {
            Some(at) => (COMMENT, at + 4, None),
            None => (COMMENT, text.len(), Some("unterminated comment")),
        },
        _ => {
            let c = text.chars().next().unwrap();
            if begins_name(c) {
                let len = run(text, is_name);
                return (word(&text[..len]), len, None);
            }
            match punctuation(bytes) {
                Some((kind, len)) => (kind, len, None),
                None => (ERROR, c.len_utf8(), Some("unexpected character")),
            }
        }
    }
}

pub fn lex(text: &str) -> (Vec<(Kind, u32)>, Vec<Problem>) {
    let (mut tokens, mut problems) = (Vec::new(), Vec::new());
    let mut at = 0;
    while at < text.len() {
        let (kind, len, wrong) = token(&text[at..]);
        tokens.push((kind, len as u32));
        if let Some(message) = wrong {
            problems.push(Problem { start: at as u32, end: (at + len) as u32, message });
        }
        at += len;
    }
    (tokens, problems)
}
