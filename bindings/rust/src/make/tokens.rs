//! Tokens, which a [`SyntaxEditor`](crate::syntax_editor::SyntaxEditor) puts between others: each the only token of a tree of its own.
use super::{MakeError, node};
use crate::ast;
use crate::{Edition, SyntaxKind, SyntaxToken, SyntaxTreeBuilder, Tree};

// The token of a tree that has no other.
pub(super) fn only(kind: SyntaxKind, text: &str) -> SyntaxToken {
    let mut builder = SyntaxTreeBuilder::default();
    builder.start_node(SyntaxKind::SOURCE_FILE);
    builder.token(kind, text);
    builder.finish_node();
    builder.finish().syntax_node().first_token().expect("a token was put in")
}

/// White space of any length but none. Another text is refused.
pub fn whitespace(text: &str) -> Result<SyntaxToken, MakeError> {
    let is_blank = |it| matches!(it, '\t'..='\r' | ' ' | '\u{85}' | '\u{200E}' | '\u{200F}' | '\u{2028}' | '\u{2029}');
    if text.is_empty() || !text.chars().all(is_blank) {
        return Err(MakeError::NotOne);
    }
    if u32::try_from(text.len()).is_err() { Err(MakeError::TooLong) } else { Ok(only(SyntaxKind::WHITESPACE, text)) }
}

/// One blank.
pub fn single_space() -> SyntaxToken {
    only(SyntaxKind::WHITESPACE, " ")
}

/// The end of a line.
pub fn single_newline() -> SyntaxToken {
    only(SyntaxKind::WHITESPACE, "\n")
}

/// The end of a line, and an empty line.
pub fn blank_line() -> SyntaxToken {
    only(SyntaxKind::WHITESPACE, "\n\n")
}

/// The token of a literal: `1`, `"a"`, `true`.
pub fn literal(text: &str) -> Result<SyntaxToken, MakeError> {
    Ok(node::<ast::Literal>(text)?.token())
}

/// An identifier: `a`, `r#fn`.
pub fn ident(text: &str) -> Result<SyntaxToken, MakeError> {
    node::<ast::Name>(text)?.ident_token().ok_or(MakeError::NotOne)
}

/// A doc comment: `/// a`, `//! a`, `/** a */`. Another text is refused, also with a newline behind it.
pub fn doc_comment(text: &str) -> Result<SyntaxToken, MakeError> {
    let tree = Tree::parse([text, "\nstruct S;"].concat(), Edition::CURRENT)?;
    if let Some(error) = tree.errors().first() {
        return Err(MakeError::Syntax(error.clone()));
    }
    let first = tree.root().first_token().filter(|it| it.text() == text).ok_or(MakeError::NotOne)?;
    match first.kind() {
        kind @ (SyntaxKind::OUTER_DOC_COMMENT | SyntaxKind::INNER_DOC_COMMENT) => Ok(only(kind, text)),
        _ => Err(MakeError::NotOne),
    }
}
