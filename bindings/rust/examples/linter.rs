//! A linter: functions that do nothing, `unwrap` calls, conditions in parentheses, comparisons with `true`, and variants without docs.
//!
//! Over rust-analyzer's crate it is the same text with `ra_ap_syntax` in place of `ras` in the two `use` lines.
//!
//! usage: cargo run --example linter -- FILE..
use ras::ast::{self, AstNode, BinaryOp, CmpOp, HasAttrs, HasName, HasVisibility, LiteralKind};
use ras::{Edition, SourceFile, SyntaxNode, TextRange, match_ast};
use std::{env, fs, io};

fn is_true(expr: ast::Expr) -> bool {
    matches!(expr, ast::Expr::Literal(it) if matches!(it.kind(), LiteralKind::Bool(true)))
}

fn finding(node: &SyntaxNode) -> Option<(TextRange, String)> {
    let (at, told) = match_ast! {
        match node {
            ast::Fn(it) if it.body()?.stmt_list()?.statements().next().is_none() && it.body()?.tail_expr().is_none() => {
                (it.name()?.syntax().text_range(), format!("{} does nothing", it.name()?.text()))
            },
            ast::MethodCallExpr(it) if it.name_ref()?.text() == "unwrap" => {
                (it.name_ref()?.syntax().text_range(), format!("{} may panic", it.syntax()))
            },
            ast::IfExpr(it) => match it.condition()? {
                ast::Expr::ParenExpr(it) => (it.syntax().text_range(), format!("{it} needs no parentheses")),
                _ => return None,
            },
            ast::BinExpr(it) if it.op_kind() == Some(BinaryOp::CmpOp(CmpOp::Eq { negated: false })) && is_true(it.rhs()?) => {
                (it.op_token()?.text_range(), format!("{} is enough", it.lhs()?))
            },
            ast::Variant(it) if it.parent_enum().visibility().is_some() && it.doc_comments().next().is_none() => {
                (it.name()?.syntax().text_range(), format!("{} is not documented", it.name()?.text()))
            },
            _ => return None,
        }
    };
    Some((at, told))
}

fn main() -> io::Result<()> {
    for name in env::args().skip(1) {
        let text = fs::read_to_string(&name)?;
        let parse = SourceFile::parse(&text, Edition::CURRENT);
        for (at, told) in parse.tree().syntax().descendants().filter_map(|node| finding(&node)) {
            println!("{name}:{}: {told}", text[..at.start().into()].matches('\n').count() + 1);
        }
    }
    Ok(())
}
