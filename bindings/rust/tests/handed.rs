//! Trees whose text and rows the library hands over: they stand by themselves, on any thread.
use ras::{Edition, Entry, Errors, Live, SyntaxKind, TextRange, Tree};
use std::fmt::Write;
use std::thread;

type Fail = Box<dyn std::error::Error>;

fn parse(text: &str) -> Tree {
    Tree::parse(text, Edition::CURRENT).expect("there is memory")
}

// Functions with some expressions, in so many bytes.
fn long_text(bytes: usize) -> String {
    let mut text = String::new();
    while text.len() < bytes {
        write!(text, "/// Äh.\npub fn f{}(a: &[u8]) -> Option<u8> {{ a.iter().map(|b| (b + 1) * 2).max() }}\n", text.len()).unwrap();
    }
    text
}

// The tree of a text as `Live` gives it, by a copy of the rows.
fn copied(text: &str) -> Tree {
    Live::parse(text, Edition::CURRENT).and_then(|it| it.tree()).expect("there is memory")
}

#[test]
fn a_tree_has_the_text_and_the_rows_of_its_parse() {
    let texts = ["", " ", "\u{feff}", "fn f() {}", "fn f(", "fn f() { \"\\q\" }", "impl T for S { pub fn g() {} } //", "fn ü() { 'a }", "#!/a\n"];
    for text in texts {
        let tree = parse(text);
        assert_eq!(tree.text(), text);
        assert_eq!(tree, copied(text), "{text}");
        assert_eq!(tree.rows(), copied(text).rows());
        assert_eq!(tree.root().kind(), SyntaxKind::SOURCE_FILE);
        let read: String = tree.root().tokens().map(|it| it.text()).collect();
        assert_eq!(read, text);
    }
}

#[test]
fn each_choice_of_errors_has_the_same_rows() -> Result<(), Fail> {
    for text in ["fn f() { 1 + 2 }", "fn f() { \"\\q\" }", "fn f() { 1 + } impl T for S { pub fn g() {} }"] {
        let all = parse(text);
        for errors in [Errors::Nothing, Errors::Parse, Errors::Violations, Errors::All] {
            let tree = Tree::parse_as(text, Edition::CURRENT, Entry::SourceFile, errors)?;
            assert_eq!((tree.text(), tree.rows()), (text, all.rows()));
            assert_eq!(tree.errors(), Live::parse(text, Edition::CURRENT)?.tree_with(errors)?.errors());
        }
    }
    Ok(())
}

#[test]
fn the_empty_text_has_a_tree() {
    let tree = parse("");
    assert_eq!((tree.text(), tree.rows().len(), tree.errors().len()), ("", 1, 0));
    assert!(tree.clone().root().text().is_empty());
    assert_eq!(tree.root().text_range(), TextRange::default());
}

#[test]
fn a_long_text_has_a_tree() {
    let text = long_text(1_600_000);
    let tree = parse(&text);
    assert!(tree.text() == text && tree.errors().is_empty());
    assert!(tree.rows() == copied(&text).rows());
    let last = tree.root().last_token().expect("it has tokens");
    assert_eq!(usize::from(last.text_range().end()), text.len());
}

// A node keeps a share of the tree, of which the parse and the first owner are gone.
#[test]
fn a_tree_outlives_all_that_made_it() {
    let node = {
        let tree = parse(&long_text(1000));
        tree.syntax_node().descendants().find(|it| it.kind() == SyntaxKind::CLOSURE_EXPR).expect("there is a closure")
    };
    assert_eq!(node.text(), "|b| (b + 1) * 2");
}

#[test]
fn a_tree_is_read_and_dropped_by_other_threads() {
    let tree = parse(&long_text(20_000));
    let count = tree.root().tokens().count();
    let readers: Vec<_> = (0..4)
        .map(|_| {
            let tree = tree.clone();
            thread::spawn(move || tree.root().tokens().count())
        })
        .collect();
    // The last share goes where it is dropped last: in a thread, or here.
    drop(tree);
    for reader in readers {
        assert_eq!(reader.join().expect("it ends"), count);
    }
    let alone = parse("fn f() {}");
    thread::spawn(move || drop(alone)).join().expect("it ends");
    let made = thread::spawn(|| parse("fn g() {}")).join().expect("it ends");
    assert_eq!(made.text(), "fn g() {}");
}

// What an edit makes of a tree does not touch one that was handed over, and may be moved out of one of its own.
#[test]
fn edits_leave_a_tree_as_it_was() -> Result<(), Fail> {
    let text = "fn f() { g(1) } fn h() {}";
    let (tree, mut live) = (parse(text), Live::parse(text, Edition::CURRENT)?);
    assert_eq!(live.tree()?, tree);
    live.edit(TextRange::new(11.into(), 12.into()), "2 + 3")?;
    let edited = live.tree()?;
    assert_eq!(edited, parse("fn f() { g(2 + 3) } fn h() {}"));
    live.edit(TextRange::new(3.into(), 4.into()), "ff")?;
    assert_eq!(live.tree()?, parse("fn ff() { g(2 + 3) } fn h() {}"));
    assert_eq!((edited.text(), tree.text()), ("fn f() { g(2 + 3) } fn h() {}", text));
    Ok(())
}
