//! Calls that always return a part, on broken texts: in a tree that was parsed each part is there.
use ras::ast::{self, AstNode};
use ras::{Edition, SourceFile, SyntaxNode, match_ast};

const TEXTS: [&str; 4] = [
    "/// a\n#[b] pub enum E { /** c */ A { f: u8 }, B(i8) = 1, }",
    "use a::{b::{c, d as e}, self, *}; use {f, <g>::h};",
    "fn f() { match a::<u8> { S { b, c: ref d, .. } if 'x' == b => (1.5, b\"s\"), -1..=2 | \"t\" => true, _ => {} } }",
    "fn g() -> a::B { //! d\n let x = S { a: 1, b, ..c'\\0' }; x.0.y(0xf, r#\"z\"#); #[e] 7 }",
];

const PIECES: [&str; 16] = ["", "{", "}", "(", ")", "<", ",", ";", "\"", "'", "/*", "///", "enum ", "match ", "use ", "S { "];

// Calls each of them, and counts the calls.
fn calls(node: &SyntaxNode) -> usize {
    match_ast! {
        match node {
            ast::Literal(it) => usize::from(format!("{:?}{:?}", it.kind(), it.token()).is_empty()) + 2,
            ast::DocComment(it) => usize::from(it.token().text() != it.text()) + usize::from(it.shape().is_line()) + 2,
            ast::MatchArm(it) => usize::from(it.parent_match().match_arm_list().is_some()),
            ast::PathSegment(it) => usize::from(it.parent_path().segment() == Some(it)),
            ast::RecordExprField(it) => usize::from(it.parent_record_lit().record_expr_field_list().is_some()),
            ast::RecordPatField(it) => usize::from(it.parent_record_pat().record_pat_field_list().is_some()),
            ast::UseTreeList(it) => usize::from(it.parent_use_tree().use_tree_list() == Some(it)),
            ast::Variant(it) => usize::from(it.parent_enum().variant_list().is_some()),
            _ => 0,
        }
    }
}

#[test]
fn parts_are_there_in_broken_texts() {
    let mut count = 0;
    for text in TEXTS {
        for (start, _) in text.char_indices() {
            for piece in PIECES {
                for len in [0, 1, 6] {
                    let end = text[start..].char_indices().nth(len).map_or(text.len(), |it| start + it.0);
                    let broken = [&text[..start], piece, &text[end..]].concat();
                    let parse = SourceFile::parse(&broken, Edition::CURRENT);
                    count += parse.syntax_node().descendants().map(|it| calls(&it)).sum::<usize>();
                }
            }
        }
    }
    assert!(count > 100_000, "{count}");
}
