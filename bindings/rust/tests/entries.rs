//! Texts that are read as types, patterns and other parts of a file, also broken ones.
use ras::ast::{self, AstNode};
use ras::{Edition, Entry, Errors, SyntaxKind, Tree};

// A text for each entry, and the kind of its root.
const PARTS: [(Entry, &str, SyntaxKind); 7] = [
    (Entry::SourceFile, "fn f() { a + b } use c;", SyntaxKind::SOURCE_FILE),
    (Entry::Expr, "a + f(b, |c| c.d)?", SyntaxKind::BIN_EXPR),
    (Entry::Type, "Vec<&'a (dyn A + B)>", SyntaxKind::PATH_TYPE),
    (Entry::Pattern, "A { b, .. } | Some(1..=2)", SyntaxKind::OR_PAT),
    (Entry::MacroStmts, "let a = 1; f(); fn g() {} a", SyntaxKind::MACRO_STMTS),
    (Entry::MacroItems, "use a::b; impl C for D {}", SyntaxKind::MACRO_ITEMS),
    (Entry::MetaItem, "cfg(all(a, b = \"c\"))", SyntaxKind::CFG_META),
];

// Whether the root of a text by an entry may be of the kind.
fn may_be_root(entry: Entry, kind: SyntaxKind) -> bool {
    let is_part = match entry {
        Entry::SourceFile => return kind == SyntaxKind::SOURCE_FILE,
        Entry::MacroStmts => return kind == SyntaxKind::MACRO_STMTS,
        Entry::MacroItems => return kind == SyntaxKind::MACRO_ITEMS,
        Entry::Expr => ast::Expr::can_cast(kind),
        Entry::Type => ast::Type::can_cast(kind),
        Entry::Pattern => ast::Pat::can_cast(kind),
        Entry::MetaItem => ast::Meta::can_cast(kind),
    };
    is_part || kind == SyntaxKind::ERROR
}

#[test]
fn parts_of_files_are_read_by_their_entries() {
    for (entry, text, kind) in PARTS {
        let tree = Tree::parse_as(text, Edition::CURRENT, entry, Errors::All).unwrap();
        assert_eq!((tree.root().kind(), tree.errors()), (kind, &[][..]), "{text}");
        assert_eq!(tree.text(), text);
    }
}

#[test]
fn broken_parts_of_files_have_one_root_over_their_text() {
    for (entry, ..) in PARTS {
        for (_, text, _) in PARTS {
            for end in 0..=text.len() {
                let broken = &text[..end];
                let tree = Tree::parse_as(broken, Edition::CURRENT, entry, Errors::All).unwrap();
                let root = tree.root();
                assert!(may_be_root(entry, root.kind()), "{broken:?} as {entry:?}: {:?}", root.kind());
                assert_eq!(usize::from(root.text_range().len()), broken.len());
                assert_eq!(root.tokens().map(|it| it.text()).collect::<String>(), broken);
            }
        }
    }
}

#[test]
fn a_part_that_ends_before_the_text_is_no_part() {
    // The parser makes no error of it: the root alone says so.
    let parse = ast::Type::parse("A B", Edition::CURRENT);
    assert_eq!((parse.syntax_node().kind(), parse.errors().len()), (SyntaxKind::ERROR, 0));
    assert_eq!(parse.ok(), Err(Vec::new()));
    assert_eq!(ast::Pat::parse("a if b", Edition::CURRENT).ok(), Err(Vec::new()));
    assert!(ast::Meta::parse("a b", Edition::CURRENT).ok().is_err());
    // Rust-analyzer's parser panics at this one.
    assert!(ast::Type::parse("unsafe extern", Edition::CURRENT).ok().is_err());
    assert!(ast::Type::parse("unsafe extern fn()", Edition::CURRENT).ok().is_ok());
}
