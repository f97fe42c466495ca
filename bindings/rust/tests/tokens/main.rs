//! Typed tokens: each method on texts for which it has a result, and on texts for which it has none. Written by bindings/make from
//! crates/typed_vectors/src/tokens, whose rows the library's proved methods are tested by.
mod comments;
mod numbers;
mod quotes;
mod units;

use ras::ast::AstToken;
use ras::{SyntaxKind, SyntaxTreeBuilder, TextRange, TextSize};

type Fail = Box<dyn std::error::Error>;

// The token of a literal, after four spaces, as a `T`.
fn typed<T: AstToken>(kind: SyntaxKind, text: &str) -> Result<T, Fail> {
    let mut builder = SyntaxTreeBuilder::default();
    builder.start_node(SyntaxKind::LITERAL);
    builder.token(SyntaxKind::WHITESPACE, "    ");
    builder.token(kind, text);
    builder.finish_node();
    let token = builder.finish().syntax_node().last_token().ok_or("no token")?;
    Ok(T::cast(token).ok_or("the token is of another kind")?)
}

// The range with a start and a length.
fn range(start: u32, len: u32) -> TextRange {
    TextRange::at(TextSize::new(start), TextSize::new(len))
}
