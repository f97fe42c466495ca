//! What breaks rules beyond the grammar, after an edit that left all of a tree but one node or token as it was.
//!
//! The library lists the violations of a tree in preorder of the nodes that they are at, and gives those at the nodes of one subtree alone,
//! which stand together in that list (`violations_stand_together`, a law of the crate `ras_validation`, for each row of a tree). After an
//! edit it is asked for those of one part, and the others are as they were. That this is so rests on three things, which are read off the
//! rules and tested, but not proved:
//!
//! - There is no rule at a node around the part: these nodes are of the kinds in [`AROUND_ITEMS`] alone. So all other violations are at
//!   nodes before the part or behind it, of which none has a token in the part.
//! - The range of a violation is in that of its node, and does not start at its end. So it starts before the part, in it or behind it as
//!   its node does.
//! - Outside of its node a rule looks at kinds and at their order alone: at those of the nodes around, of the children of these, and of the
//!   tokens beside. An edit changes none outside of the part, nor the kind of the part, nor those of its first and last token: what was
//!   read again is a token that keeps its kind, or a node that keeps its kind and its two braces.
use crate::SyntaxKind;
use crate::iter::rows_of_children;
use crate::range::TextRange;
use crate::tree::{SyntaxError, Tree};
use std::iter::successors;

// Kinds of nodes that have no rule: there may be many items in one, and of these only one is looked at again. With a kind less the part is
// larger.
const AROUND_ITEMS: [SyntaxKind; 6] = [
    SyntaxKind::ASSOC_ITEM_LIST,
    SyntaxKind::IMPL,
    SyntaxKind::ITEM_LIST,
    SyntaxKind::MODULE,
    SyntaxKind::SOURCE_FILE,
    SyntaxKind::TRAIT,
];

// The row of the part after a node was read again, or one of its tokens: the outermost node that is not of these kinds, and otherwise what
// was read again. It has the same row in the new tree. The block in `static A: A = { b }.0x1;` is too little: the violation at the
// `FIELD_EXPR` around it is behind it in the text, but in the list before those in it.
fn changed_part(tree: &Tree, node: u32, was: TextRange) -> u32 {
    let around = successors(Some(node), |it| tree.parent_of(*it));
    // No node is in it that has its range, so a child that has the range is a token.
    let read_again = || rows_of_children(tree, node).find(|it| tree.range_of(*it) == was).unwrap_or(node);
    around.filter(|it| !AROUND_ITEMS.contains(&tree.kind_of(*it))).last().unwrap_or_else(read_again)
}

/// The violations of a tree after an edit, without those in the part that the edit may have changed.
pub(crate) struct Violations {
    before: Vec<SyntaxError>,
    // The row of the part, unless it is a token: no violation is at one.
    part: Option<u32>,
    behind: Vec<SyntaxError>,
}

impl Violations {
    /// Those of a tree, of which one node or token was read again: that of a row, or a token that is a child of it. It was at a range of
    /// the text, and now is at another.
    pub(crate) fn of(tree: &Tree, node: u32, was: TextRange, is: TextRange) -> Violations {
        let part = changed_part(tree, node, was);
        let range = tree.range_of(part);
        let place = |at| at - was.len() + is.len();
        let moved = |it: &SyntaxError| it.clone().with_range(TextRange::new(place(it.range().start()), place(it.range().end())));
        let told = || tree.errors().iter().filter(|it| it.is_violation());
        Violations {
            before: told().filter(|it| it.range().start() < range.start()).cloned().collect(),
            part: (!tree.is_token(part)).then_some(part),
            behind: told().filter(|it| it.range().start() >= range.end()).map(moved).collect(),
        }
    }

    /// All of those of the new tree, by a call that gives those at the node of a row and at the nodes in it.
    pub(crate) fn with_part<E>(self, call: impl FnOnce(u32) -> Result<Box<[SyntaxError]>, E>) -> Result<Vec<SyntaxError>, E> {
        let mut all = self.before;
        if let Some(part) = self.part {
            all.extend(call(part)?);
        }
        all.extend(self.behind);
        Ok(all)
    }
}

#[test]
fn the_part_is_an_item_or_what_was_read_again() {
    use crate::Edition;
    // In each text what is edited is between two `|`.
    let texts = [
        ("use a;\nfn f() { g(|b|); { c } }\nfn h() {}", "fn f() { g(b); { c } }"),
        ("mod m { mod n { const A: u8 = |1|; } }", "const A: u8 = 1;"),
        ("mod m { impl T for S { fn f() { |'a'| } fn g() {} } }", "fn f() { 'a' }"),
        ("mod m { trait T { fn f() { |\"a\"| } fn g() {} } }", "fn f() { \"a\" }"),
        ("mod m { trait T { fn f() {}| |fn g() {} } }", " "),
        ("impl S {| |fn f() {} fn g() {} }", " "),
        ("fn f() {}|\n|fn g() {}", "\n"),
        ("mod m {| |fn f() {} }", " "),
        ("mod m |{ fn f() {} }|", "{ fn f() {} }"),
        ("trait T |{ fn f(); }|", "{ fn f(); }"),
        ("impl T| |for S {}", " "),
        ("impl T for &|S| {}", "&S"),
        ("pub(in |a|) mod m {}", "pub(in a)"),
    ];
    for (text, part) in texts {
        let parts: Vec<&str> = text.split('|').collect();
        let start = parts[0].len() as u32;
        let was = TextRange::at(start.into(), (parts[1].len() as u32).into());
        let tree = Tree::parse(parts.concat(), Edition::CURRENT).unwrap();
        let node = tree.read_again(was).expect("it is a node or a token");
        assert_eq!(tree.text_of(changed_part(&tree, node, was)), part, "{text}");
    }
}
