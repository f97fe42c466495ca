//! Trees of texts: what a tree owes whatever the text is, and dumps that were read.
use ras::ast::{self, AstNode, AstToken, HasName};
use ras::{Direction, Edition, EscapeError, NodeOrToken, SourceFile, SyntaxKind, SyntaxNode, SyntaxNodePtr, SyntaxToken, T, TextRange, TokenAtOffset, Tree, WalkEvent, algo};

const TEXTS: [&str; 8] = [
    "",
    "fn main() {}\n",
    "struct S { a: u8, b: [u8; 3] }\nimpl S { fn f(&self) -> u8 { self.a + 1 } }\n",
    "fn broken( { let = ; } }} 'a \"",
    "match x { _ if (a) => (b) + c, }",
    "// a comment\n\n/* and /* another */ */ mod m { use a::{b, c as d}; }",
    "fn ü() { \"ä\\q\"; 1.5e3; 'x' }",
    "macro_rules! m { ($($x:expr),*) => { [$($x),*] } }",
];

fn tree(text: &str) -> Tree {
    Tree::parse(text, Edition::CURRENT).expect("a short text has a tree")
}

#[test]
fn each_byte_stands_in_one_token() {
    for text in TEXTS {
        let tree = tree(text);
        let joined: String = tree.root().tokens().map(|it| it.text()).collect();
        assert_eq!(joined, text);
        assert_eq!(tree.root().text(), text);
        assert_eq!(tree.root().kind(), SyntaxKind::SOURCE_FILE);
    }
}

#[test]
fn steps_lead_there_and_back() {
    for text in TEXTS {
        let tree = tree(text);
        for node in tree.root().descendants() {
            let children: Vec<_> = node.children_with_tokens().collect();
            assert_eq!(node.first_child_or_token(), children.first().copied());
            assert_eq!(node.last_child_or_token(), children.last().copied());
            for pair in children.windows(2) {
                assert_eq!(pair[0].next_sibling_or_token(), Some(pair[1]));
                assert_eq!(pair[1].prev_sibling_or_token(), Some(pair[0]));
                assert_eq!(pair[0].text_range().end(), pair[1].text_range().start());
            }
            for child in &children {
                assert_eq!(child.parent(), Some(node));
                assert!(node.text_range().contains_range(child.text_range()));
            }
            let below = 1 + children.iter().map(|it| it.as_node().map_or(1, |it| it.descendants_with_tokens().len())).sum::<usize>();
            assert_eq!(node.descendants_with_tokens().len(), below);
            assert_eq!(node.ancestors().last(), Some(tree.root()));
        }
        assert_eq!(tree.root().parent(), None);
        assert_eq!(tree.root().next_sibling_or_token(), None);
    }
}

#[test]
fn tokens_follow_one_another() {
    for text in TEXTS {
        let tree = tree(text);
        let tokens: Vec<_> = tree.root().tokens().collect();
        assert_eq!(tree.root().first_token(), tokens.first().copied());
        assert_eq!(tree.root().last_token(), tokens.last().copied());
        for pair in tokens.windows(2) {
            assert_eq!(pair[0].next_token(), Some(pair[1]));
            assert_eq!(pair[1].prev_token(), Some(pair[0]));
        }
    }
}

#[test]
fn offsets_find_the_tokens_that_touch_them() {
    for text in TEXTS {
        let tree = tree(text);
        for offset in 0..=text.len() as u32 + 1 {
            let touching: Vec<_> = tree
                .root()
                .tokens()
                .filter(|it| !it.text_range().is_empty() && it.text_range().contains_inclusive(offset.into()))
                .collect();
            let found: Vec<_> = tree.token_at_offset(offset.into()).collect();
            let wanted = if offset as usize > text.len() { vec![] } else { touching };
            assert_eq!(found, wanted, "{text:?} at {offset}");
        }
    }
    let tree = tree("a+b");
    assert!(matches!(tree.token_at_offset(1.into()), TokenAtOffset::Between(..)));
}

#[test]
fn a_dump_is_read() {
    let tree = tree("fn foo() { 1 + }\n");
    let wanted = "SOURCE_FILE@0..17\n  FN@0..16\n    FN_KW@0..2 \"fn\"\n    WHITESPACE@2..3 \" \"\n    NAME@3..6\n      IDENT@3..6 \"foo\"\n    PARAM_LIST@6..8\n      L_PAREN@6..7 \"(\"\n      R_PAREN@7..8 \")\"\n    WHITESPACE@8..9 \" \"\n    BLOCK_EXPR@9..16\n      STMT_LIST@9..16\n        L_CURLY@9..10 \"{\"\n        WHITESPACE@10..11 \" \"\n        BIN_EXPR@11..14\n          LITERAL@11..12\n            INT_NUMBER@11..12 \"1\"\n          WHITESPACE@12..13 \" \"\n          PLUS@13..14 \"+\"\n        WHITESPACE@14..15 \" \"\n        R_CURLY@15..16 \"}\"\n  WHITESPACE@16..17 \"\\n\"\n";
    assert_eq!(format!("{tree:?}"), wanted);
    let told: Vec<_> = tree.errors().iter().map(|it| format!("{}: {it}", it.range())).collect();
    assert_eq!(told, ["14..14: expected expression"]);
    assert!(!tree.errors()[0].is_violation());
}

#[test]
fn violations_come_last() {
    let tree = tree("fn f() { \"\\q\"; 1 + }");
    let flags: Vec<_> = tree.errors().iter().map(|it| it.is_violation()).collect();
    assert!(flags.is_sorted(), "{:?}", tree.errors());
}

// A parse without errors is told in parts of some thousand rows, and one with errors as a whole.
#[test]
fn parts_of_the_rows_have_the_violations_of_the_whole() {
    let text = "fn f() { a.0x1; b..= } impl T for S { pub fn g() { let x = (let b = c); } } const mut C: u8 = 1;\n".repeat(700);
    let (parts, whole) = (tree(&text), tree(&format!("{text}fn h() {{ 1 + }}\n")));
    let told = |it: &ras::SyntaxError| format!("{}: {it}", it.range());
    let wanted: Vec<_> = whole.errors().iter().filter(|it| it.is_violation()).map(told).collect();
    assert_eq!((whole.errors().len(), wanted.len() % 700, wanted.len() / 700), (wanted.len() + 1, 0, 5));
    assert!(parts.rows().len() > 20_000 && parts.errors().iter().all(|it| it.is_violation()));
    assert_eq!(parts.errors().iter().map(told).collect::<Vec<_>>(), wanted);
    let bare = Tree::parse_as(&*text, Edition::CURRENT, ras::Entry::SourceFile, ras::Errors::Nothing).unwrap();
    assert_eq!(format!("{parts:?}"), format!("{bare:?}"));
}

#[test]
fn editions_have_their_words() {
    let kind = |edition| {
        let tree = Tree::parse("fn f() { async }", edition).unwrap();
        tree.root().tokens().find(|it| it.text() == "async").unwrap().kind()
    };
    assert_eq!(kind(Edition::Edition2015), SyntaxKind::IDENT);
    assert_eq!(kind(Edition::Edition2021), T![async]);
}

#[test]
fn kinds_have_names() {
    for kind in [SyntaxKind::FN, SyntaxKind::WHITESPACE, SyntaxKind::VARIANT_LIST, T![=>], T!['(']] {
        assert_eq!(SyntaxKind::from_name(kind.name()), Some(kind));
        assert_eq!(SyntaxKind::from_number(kind.number()), Some(kind));
    }
    assert_eq!(SyntaxKind::from_number(300), None);
    assert_eq!(SyntaxKind::from_name("NO_SUCH_KIND"), None);
}

#[test]
fn needless_pairs_are_found() {
    let tree = tree("fn f() { (a * b) + c; (a + b) * c; g((x)) }");
    let found: Vec<_> = tree.needless_parens().unwrap().iter().map(|it| it.text()).collect();
    assert_eq!(found, ["(a * b)", "(x)"]);
    let tree = self::tree("fn f((a): u8) { let (b) = (c); let (A | B) = d; }");
    let found: Vec<_> = tree.needless_parens().unwrap().iter().map(|it| it.text()).collect();
    assert_eq!(found, ["(a)", "(b)", "(c)"]);
}

// Without the pairs these texts have errors or mean something else.
const STAY: [&str; 14] = [
    "fn f() { if let x = (a && b) {} }",
    "fn f() { if (S {} == x) {} }",
    "fn f() { for x in (S {}.f()) {} }",
    "fn f() { match (a..{ 0 }) {} }",
    "fn f() { ({ 0 } + 1); }",
    "fn f() { let x = (a && b) else { return }; }",
    "fn f() { let x = &(S {}) else { return }; }",
    "fn f() { while (S {}.x) {} }",
    "fn f() { for _ in (0..{3}) {} }",
    "fn f() { (m! {}); }",
    "fn f() { (continue) as u8; }",
    "fn f() { match (|| S {}) { _ => {} } }",
    "fn f((A | B): T) { let &(mut x) = y; }",
    "fn f() { let &(1..=2) = x else { return }; }",
];

#[test]
fn needed_pairs_stay() {
    for text in STAY {
        let tree = tree(text);
        assert_eq!(tree.needless_parens().unwrap(), [], "{text}");
    }
}

#[test]
fn pairs_can_be_removed_together() {
    let text = format!("fn f() {{ {} }}", "((a)) + (b * c); x = (continue); ".repeat(100));
    let tree = tree(&text);
    let pairs = tree.needless_parens().unwrap();
    assert_eq!(pairs.len(), 400);
    let mut bytes = text.clone().into_bytes();
    for pair in &pairs {
        let range = pair.text_range();
        for at in [usize::from(range.start()), usize::from(range.end()) - 1] {
            assert!(matches!(bytes[at], b'(' | b')'));
            bytes[at] = b' ';
        }
    }
    let without = Tree::parse(String::from_utf8(bytes).unwrap(), Edition::CURRENT).unwrap();
    assert!(without.errors().is_empty());
    assert_eq!(without.needless_parens().unwrap(), []);
    assert!(without.root().descendants().all(|it| it.kind() != SyntaxKind::PAREN_EXPR));
}

// The first token of a view in `const A: T = TEXT;`.
fn token<V: AstToken<SyntaxToken>>(text: &str) -> V {
    let file = SourceFile::parse(&format!("const A: T = {text};"), Edition::CURRENT).tree();
    file.syntax().descendants_with_tokens().filter_map(|it| V::cast(it.into_token()?)).next().unwrap()
}

#[test]
fn literals_have_values() {
    use std::borrow::Cow;
    assert!(matches!(token::<ast::String>("\"a b\"").value(), Ok(Cow::Borrowed("a b"))));
    assert!(matches!(token::<ast::String>("r#\"\\n\"#").value(), Ok(Cow::Borrowed("\\n"))));
    assert_eq!(token::<ast::String>("\"a\\n\\u{e9}\"").value().unwrap(), "a\né");
    assert_eq!(token::<ast::String>("\"\\q\\xff\"").value(), Err(EscapeError::OutOfRangeHexEscape));
    assert_eq!(token::<ast::ByteString>("b\"\\xff\"").value().unwrap()[..], [255]);
    assert_eq!(token::<ast::ByteString>("b\"é\"").value(), Err(EscapeError::NonAsciiCharInByte));
    assert_eq!(token::<ast::CString>("c\"é\\xff\"").value().unwrap()[..], [0xc3, 0xa9, 0xff]);
    assert_eq!(token::<ast::CString>("c\"\\0\"").value(), Err(EscapeError::NulInCStr));
    assert_eq!(token::<ast::Char>("'\\u{1F600}'").value(), Ok('\u{1F600}'));
    assert_eq!(token::<ast::Char>("'ab'").value(), Err(EscapeError::MoreThanOneChar));
    assert_eq!(token::<ast::Byte>("b'\\xfe'").value(), Ok(254));
    assert_eq!(token::<ast::Byte>("b''").value(), Err(EscapeError::ZeroChars));
    assert_eq!(EscapeError::InvalidEscape.to_string(), "Invalid escape");
}

#[test]
fn a_long_token_is_cut() {
    let shown = |text: &str| {
        let tree = Tree::parse(format!("// {text}"), Edition::CURRENT).unwrap();
        format!("{:?}", tree.root().first_token().unwrap())
    };
    assert_eq!(shown(&"a".repeat(21)), format!("COMMENT@0..24 {:?}", "// aaaaaaaaaaaaaaaaaaaaa"));
    assert_eq!(shown(&"a".repeat(22)), format!("COMMENT@0..25 {:?}", "// aaaaaaaaaaaaaaaaaa ..."));
    assert_eq!(shown(&format!("{}ßß", "a".repeat(17))), format!("COMMENT@0..24 {:?}", "// aaaaaaaaaaaaaaaaaßß"));
    assert_eq!(shown(&format!("{}ßßß", "a".repeat(17))), format!("COMMENT@0..26 {:?}", "// aaaaaaaaaaaaaaaaaß ..."));
}

#[test]
fn a_covering_element_is_the_smallest() {
    let tree = tree("fn f() { a + b }");
    let at = |start: u32, end: u32| tree.root().covering_element(TextRange::new(start.into(), end.into()));
    assert_eq!(at(9, 14).kind(), SyntaxKind::BIN_EXPR);
    assert_eq!(at(9, 10).text(), "a");
    assert!(matches!(at(9, 10), NodeOrToken::Token(_)));
}

#[test]
fn views_have_their_parts() {
    let tree = tree("impl S { fn f(&self) { g(1, 2) } }");
    let function = tree.syntax_node().descendants().find_map(ast::Fn::cast).unwrap();
    let borrowed = tree.root().descendants().find_map(ast::borrowed::Fn::cast).unwrap();
    assert_eq!(borrowed.name().unwrap().text(), "f");
    assert_eq!(borrowed.syntax().owned(), *function.syntax());
    assert_eq!(function.name().unwrap().to_string(), "f");
    let body = function.body().and_then(|it| it.stmt_list()).and_then(|it| it.tail_expr());
    let Some(ast::Expr::CallExpr(call)) = body else { panic!("the body ends in a call") };
    assert_eq!(ast::HasArgList::arg_list(&call).unwrap().args().count(), 2);
    let siblings = function.syntax().siblings_with_tokens(Direction::Prev).count();
    assert_eq!(siblings, 3);
}

#[test]
fn trees_go_between_threads() {
    let tree = tree(TEXTS[2]);
    let count = std::thread::scope(|scope| scope.spawn(|| tree.root().descendants().count()).join().unwrap());
    assert_eq!(count, std::thread::spawn(move || tree.root().descendants().count()).join().unwrap());
}

#[test]
fn long_texts_have_room() {
    let text = "fn f() { (((((((((1))))))))) }\n".repeat(2000) + &"\"\\q\"; ".repeat(3000);
    let tree = tree(&text);
    assert_eq!(tree.root().text().len(), text.len());
    assert!(tree.errors().len() >= 3000);
    assert!(tree.errors().iter().all(|it| !it.message().is_empty()));
}

#[test]
fn owned_and_borrowed_nodes_agree() {
    for text in TEXTS {
        let tree = tree(text);
        let owned: Vec<_> = tree.syntax_node().descendants_with_tokens().collect();
        let borrowed: Vec<_> = tree.root().descendants_with_tokens().collect();
        assert_eq!(owned.len(), borrowed.len());
        for (one, other) in owned.iter().zip(&borrowed) {
            assert_eq!((one.kind(), one.text_range(), one.text()), (other.kind(), other.text_range(), other.text()));
            let (one, other) = (one.next_sibling_or_token(), other.next_sibling_or_token());
            assert_eq!(one.map(|it| it.text_range()), other.map(|it| it.text_range()));
        }
    }
}

#[test]
fn nodes_outlive_what_they_were_made_from() {
    let name = {
        let file = SourceFile::parse("mod m { fn f() {} }", Edition::CURRENT).tree();
        file.syntax().descendants().find_map(ast::Fn::cast).unwrap().name().unwrap()
    };
    assert_eq!(name.text(), "f");
    let above = std::thread::spawn(move || name.syntax().ancestors().map(|it| it.kind()).collect::<Vec<_>>()).join().unwrap();
    assert_eq!(above, [SyntaxKind::NAME, SyntaxKind::FN, SyntaxKind::ITEM_LIST, SyntaxKind::MODULE, SyntaxKind::SOURCE_FILE]);
}

#[test]
fn walks_enter_and_leave() {
    for text in TEXTS {
        let root = tree(text).syntax_node();
        let mut open = Vec::new();
        let mut entered = Vec::new();
        for step in root.preorder_with_tokens() {
            match step {
                WalkEvent::Enter(it) => {
                    open.push(it.clone());
                    entered.push(it);
                }
                WalkEvent::Leave(it) => assert_eq!(open.pop(), Some(it)),
            }
        }
        assert!(open.is_empty());
        assert_eq!(entered, root.descendants_with_tokens().collect::<Vec<_>>());
        let nodes: Vec<_> = root.preorder().filter_map(|it| if let WalkEvent::Enter(it) = it { Some(it) } else { None }).collect();
        assert_eq!(nodes, root.descendants().collect::<Vec<_>>());
        // Passing over each node's subtree leaves the root and its children.
        let mut walk = root.preorder();
        let mut outer = Vec::new();
        while let Some(step) = walk.next() {
            if let WalkEvent::Enter(node) = step {
                if node != root {
                    walk.skip_subtree();
                }
                outer.push(node);
            }
        }
        assert_eq!(outer, std::iter::once(root.clone()).chain(root.children()).collect::<Vec<_>>());
    }
}

#[test]
fn nodes_are_found_again() {
    for text in TEXTS {
        let (root, again) = (tree(text).syntax_node(), tree(text).syntax_node());
        for node in root.descendants() {
            let found = SyntaxNodePtr::new(&node).to_node(&again);
            assert_eq!((found.kind(), found.text_range()), (node.kind(), node.text_range()));
        }
    }
    let pointer = SyntaxNodePtr::new(&tree("fn f() {}").syntax_node().first_child().unwrap());
    assert_eq!(pointer.try_to_node(&tree("struct S;").syntax_node()), None);
}

fn above(node: &SyntaxNode, other: &SyntaxNode) -> SyntaxNode {
    node.ancestors().find(|it| other.ancestors().any(|other| other == *it)).unwrap()
}

#[test]
fn searches_equal_their_definitions() {
    for text in TEXTS {
        let root = tree(text).syntax_node();
        let nodes: Vec<_> = root.descendants().collect();
        for node in &nodes {
            for other in &nodes {
                assert_eq!(algo::least_common_ancestor(node, other), Some(above(node, other)));
            }
            let first = node.first_token().and_then(|it| it.prev_token());
            let earlier = std::iter::successors(first, |it| it.prev_token()).find(|it| !it.kind().is_trivia());
            assert_eq!(algo::previous_non_trivia_token(node.clone()), earlier);
            let siblings: Vec<_> = node.siblings(Direction::Next).skip(1).filter(|it| it.kind() == node.kind()).collect();
            let neighbor = ast::Expr::cast(node.clone()).and_then(|it| algo::neighbor(&it, Direction::Next));
            if let Some(neighbor) = neighbor {
                assert!(siblings.is_empty() || neighbor.syntax().text_range().start() <= siblings[0].text_range().start());
            }
        }
        for offset in 0..=text.len() as u32 {
            let found: Vec<_> = algo::ancestors_at_offset(&root, offset.into()).collect();
            let mut wanted: Vec<_> = root.token_at_offset(offset.into()).flat_map(|it| it.parent_ancestors().collect::<Vec<_>>()).collect();
            wanted.sort_by_key(|it| it.text_range().len());
            assert_eq!(found, wanted, "{text:?} at {offset}");
        }
    }
    let other = tree(TEXTS[1]).syntax_node();
    assert_eq!(algo::least_common_ancestor(&other, &tree(TEXTS[1]).syntax_node()), None);
}

#[test]
fn words_are_keywords_by_edition() {
    use SyntaxKind::*;
    for (text, edition, kind) in [("fn", Edition::Edition2015, Some(FN_KW)), ("async", Edition::Edition2015, None), ("async", Edition::Edition2018, Some(ASYNC_KW)), ("union", Edition::CURRENT, None)] {
        assert_eq!(SyntaxKind::from_keyword(text, edition), kind);
    }
    assert_eq!(SyntaxKind::from_contextual_keyword("union", Edition::CURRENT), Some(UNION_KW));
    assert!(DYN_KW.is_contextual_keyword(Edition::Edition2015) && !DYN_KW.is_contextual_keyword(Edition::CURRENT));
    assert!(T![+].is_punct() && !T![fn].is_punct() && INT_NUMBER.is_literal() && IDENT.is_any_identifier());
    for sign in "$;,(){}[]<>@#~?&|+*/^%_.:=!-".chars() {
        assert!(SyntaxKind::from_char(sign).is_some_and(|it| it.is_punct()), "{sign}");
    }
}
