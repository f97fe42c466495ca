//! A codemod: `x == None` becomes `x.is_none()`, and `x != None` becomes `x.is_some()`. Reads a file and prints the new text:
//! `cargo run --example codemod FILE`.
use ras::ast::{self, AstNode, BinaryOp, CmpOp};
use ras::syntax_editor::{ChangeError, SyntaxEditor};
use ras::{Edition, SourceFile, SyntaxKind, make};
use std::error::Error;

// The call in the place of a comparison with `None`. One with a comment beside its operator stays: the comment would be lost.
fn call_for(comparison: &ast::BinExpr) -> Result<Option<ast::MethodCallExpr>, make::MakeError> {
    let is_none = comparison.rhs().is_some_and(|it| it.syntax().text() == "None");
    let has_comment = comparison.syntax().children_with_tokens().any(|it| it.kind() == SyntaxKind::COMMENT);
    let method = match comparison.op_kind() {
        Some(BinaryOp::CmpOp(CmpOp::Eq { negated })) if is_none && !has_comment => if negated { "is_some" } else { "is_none" },
        _ => return Ok(None),
    };
    let Some(operand) = comparison.lhs() else { return Ok(None) };
    make::expr_method_call(&operand, &make::name_ref(method)?, &make::arg_list(&[])?).map(Some)
}

fn main() -> Result<(), Box<dyn Error>> {
    let path = std::env::args().nth(1).ok_or("a file is wanted")?;
    let root = SourceFile::parse(&std::fs::read_to_string(path)?, Edition::CURRENT).syntax_node();
    let mut editor = SyntaxEditor::new(&root);
    for comparison in root.descendants().filter_map(ast::BinExpr::cast) {
        let Some(call) = call_for(&comparison)? else { continue };
        match editor.replace(comparison.syntax(), call.syntax()) {
            // One inside a comparison that is replaced stays: a second run changes it.
            Ok(()) | Err(ChangeError::InReplaced) => {}
            Err(error) => return Err(error.into()),
        }
    }
    print!("{}", editor.finish()?.new_root());
    Ok(())
}
