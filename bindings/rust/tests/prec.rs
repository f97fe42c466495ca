//! The test of parentheses, against the parser: an expression that needs none in a place reads there as itself.
use ras::ast::{self, AstNode, BinaryOp, CmpOp};
use ras::{Edition, SourceFile, SyntaxNode, make};

// Expressions of each level, with the places in which each expression is put: the names `x`.
const EXPRS: [&str; 28] = [
    "a", "1", "f(a)", "a.b", "a.b()", "a[0]", "a?", "a.await", "-a", "!a", "*a", "&a", "&mut a", "a as T", "a * b", "a + b", "a << b", "a & b", "a ^ b", "a | b",
    "a == b", "a < b", "a && b", "a || b", "a..b", "a = b", "a += b", "(a)",
];
const PLACES: [&str; 34] = [
    "x(b)", "x.b", "x.b()", "x[0]", "b[x]", "f(x, y)", "x?", "x.await", "-x", "!x", "*x", "&x", "x as T", "x * y", "y * x", "x + y", "y + x", "x << y", "y << x", "x & y", "y & x",
    "x == y", "y == x", "x < y", "y < x", "x && y", "y && x", "x || y", "x..y", "y..x", "x = y", "y = x", "x += y", "(x)",
];
const CONTEXTS: [&str; 6] = ["if x {}", "match x {}", "while x {}", "for p in x {}", "return x", "[x, y]"];

fn root(expr: &str) -> SyntaxNode {
    SourceFile::parse(&format!("fn f() {{ let v = {expr}; }}"), Edition::CURRENT).syntax_node()
}

fn place(root: &SyntaxNode) -> SyntaxNode {
    root.descendants().find(|it| it.text() == "x" && ast::Expr::can_cast(it.kind())).unwrap()
}

fn dump(node: &SyntaxNode) -> String {
    format!("{node:#?}")
}

// Whether the tests ask for a pair, and whether the text without one reads as meant.
fn answers(own: &str, place_text: &str) -> (bool, bool) {
    let own: ast::Expr = make::node(own).or_else(|_| make::node::<ast::LetExpr>(own).map(ast::Expr::LetExpr)).unwrap();
    let root = root(place_text);
    let place = place(&root);
    let needed = own.needs_parens_in_place_of(&place.parent().unwrap(), &place);
    let meant = place.replace_with(own.syntax()).unwrap();
    let parse = SourceFile::parse(meant.text(), Edition::CURRENT);
    (needed, dump(&parse.syntax_node()) == dump(&meant) && parse.errors().is_empty())
}

// Comparisons and ranges do not chain in Rust, though the parser reads `a == b == c`.
fn is_chain(own: &str, place_text: &str) -> bool {
    let level = |text: &str| match make::node::<ast::Expr>(text) {
        Ok(ast::Expr::RangeExpr(_)) => 1,
        Ok(ast::Expr::BinExpr(it)) => match it.op_kind() {
            Some(BinaryOp::CmpOp(CmpOp::Eq { .. } | CmpOp::Ord { .. })) => 2,
            _ => 0,
        },
        _ => 0,
    };
    level(own) != 0 && level(own) == level(place_text)
}

#[test]
fn operators_are_asked_exactly() {
    let mut needed_in_all = 0;
    for own in EXPRS {
        for place_text in PLACES {
            let (needed, reads) = answers(own, place_text);
            needed_in_all += usize::from(needed);
            let is_exact = needed != reads || (needed && is_chain(own, place_text));
            assert!(is_exact, "{own} in {place_text}: needed {needed}, reads as meant {reads}");
        }
    }
    assert!(needed_in_all > 300, "{needed_in_all}");
}

#[test]
fn what_needs_no_pair_reads_as_itself() {
    for own in EXPRS {
        for place_text in CONTEXTS {
            let (needed, reads) = answers(own, place_text);
            assert!(needed || reads, "{own} in {place_text}");
        }
    }
}

#[test]
fn other_expressions_are_asked_by_rules() {
    let rows = [
        ("S { a }", "if x {}", true),
        ("S { a }", "[x, y]", false),
        ("S { a }.b == c", "while x {}", true),
        ("return", "x.b()", false),
        ("return", "match x {}", true),
        ("return a", "x && y", true),
        ("|a| b", "x(b)", true),
        ("|a| b", "f(x, y)", false),
        ("a.b", "x(b)", true),
        ("a as T", "x < y", true),
        ("a as T", "y < x", false),
        ("let p = a", "if x && y {}", false),
    ];
    for (own, place_text, needed) in rows {
        assert_eq!(answers(own, place_text).0, needed, "{own} in {place_text}");
    }
}
