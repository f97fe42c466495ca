//! Texts that are edited: after each edit the tree is that of the edited text.
use ras::{EditError, Edition, Entry, Errors, Indel, Live, SourceFile, SyntaxKind, T, TextEdit, TextRange, Tree};

const TEXT: &str = "\
//! A file.
use a::{b, c};

/// A point.
struct Point { x: u32, y: u32 }

impl Point {
    // The sum.
    fn sum(&self, by: u32) -> u32 {
        let first = self.x + 1;
        if first > by { return \"small\".len(); }
        match by { 0 => { first }, _ => self.y * (2 + by) }
    }
}

mod inner { fn f() { g(1, [2, 3]); } /* nothing */ }
";

// Numbers that are the same in each run.
struct Random(u64);

impl Random {
    fn below(&mut self, end: usize) -> usize {
        self.0 = self.0.wrapping_mul(6_364_136_223_846_793_005).wrapping_add(1_442_695_040_888_963_407);
        (self.0 >> 33) as usize % end
    }

    fn of<T: Copy>(&mut self, items: &[T]) -> T {
        items[self.below(items.len())]
    }
}

fn live(text: &str) -> Live {
    Live::parse(text, Edition::CURRENT).expect("a short text has a parse")
}

fn range(start: usize, end: usize) -> TextRange {
    TextRange::new((start as u32).into(), (end as u32).into())
}

// The ranges of the tokens and nodes of these kinds.
fn places(tree: &Tree, kinds: &[SyntaxKind]) -> Vec<TextRange> {
    tree.root().descendants_with_tokens().filter(|it| kinds.contains(&it.kind())).map(|it| it.text_range()).collect()
}

// Where an edit of the kind that a number names may be, and what may be put there. Such an edit leaves a correct file correct.
fn edits(tree: &Tree, which: usize) -> (Vec<TextRange>, &'static [&'static str]) {
    type Kind = SyntaxKind;
    let behind = |it: TextRange| range(it.end().into(), it.end().into());
    let inside = |it: TextRange| range(usize::from(it.start()) + 4, usize::from(it.start()) + 4);
    let at = |kinds: &[SyntaxKind]| places(tree, kinds);
    match which {
        0 => (at(&[Kind::IDENT]), &["x", "value", "größe", "f2"]),
        1 => (at(&[Kind::INT_NUMBER]), &["7", "0x1f", "1_000"]),
        2 => (at(&[Kind::STRING]), &["\"\"", "\"a\\n\"", "\"{}\""]),
        3 => (at(&[Kind::COMMENT]).into_iter().map(inside).collect(), &["so ", "ß"]),
        4 => (at(&[Kind::WHITESPACE]).into_iter().map(behind).collect(), &[" ", "\t "]),
        5 => (at(&[Kind::LET_STMT, Kind::EXPR_STMT]), &["", "let a = b;", "h(a, { 1 });"]),
        6 => (at(&[Kind::LET_STMT, Kind::EXPR_STMT]).into_iter().map(behind).collect(), &[" let a = |c| c + 1;", " { a }", " loop { break; }"]),
        _ => (at(&[Kind::FN]).into_iter().map(behind).collect(), &[" fn more() -> u8 { let a = 1; a }", "\nfn one() {}"]),
    }
}

#[test]
fn each_edit_gives_the_tree_of_the_edited_text() {
    let mut random = Random(1);
    let mut text = String::new();
    let mut edited = live("");
    let mut done = 0;
    while done < 400 {
        if text.is_empty() || text.len() > 2000 {
            text = TEXT.to_string();
            edited = live(TEXT);
        }
        let (places, inserts) = edits(&edited.tree().unwrap(), random.below(8));
        if places.is_empty() {
            continue;
        }
        let (delete, insert) = (random.of(&places), random.of(inserts));
        edited.edit(delete, insert).unwrap();
        text.replace_range(std::ops::Range::<usize>::from(delete), insert);
        assert_eq!(edited.text(), text);
        let parse = SourceFile::parse(&text, Edition::CURRENT);
        assert!(parse.errors().is_empty(), "{:?}\n{text}", parse.errors());
        assert_eq!(edited.tree().unwrap(), parse.into_tree(), "{delete} {insert:?}\n{text}");
        done += 1;
    }
}

// What is put in at random places: what keeps a file correct in some of them, and what breaks it, or heals it.
const INSERTS: [&str; 34] = [
    "", "", "", "", "x", "1", " ", "\n", "y + ", "z;", "()", "é", "{", "}", "{}", "(", ")", "\"", "/*", "*/", "//", "fn f", "'", "let ", "\n\n",
    " + 1", "a;", "r#", "b'\\q'", "if a { b }", " /* c */ ", "{ 1 }", "#!", "_1: u8,",
];

// A text is edited at random places, more and more broken for some edits, and then anew; after each edit, or after some of them, its tree is
// that which a new parse of the text gives, with the same errors.
fn edited_at_random(text: &str, number: usize, seed: u64) {
    let mut random = Random(seed);
    let mut edited = live(text);
    let mut near = 0;
    // A tree that stays in use during the next edits, and what it has to stay.
    let mut kept: Option<(Tree, Tree)> = None;
    for done in 0..number {
        if done % 16 == 0 {
            edited.edit(range(0, edited.text().len()), text).unwrap();
        }
        let now = edited.text().to_owned();
        let boundary = |at: usize| (at.min(now.len())..).find(|it| now.is_char_boundary(*it)).expect("the end is one");
        // Most edits are near the one before, and short.
        let start = if random.below(3) == 0 { random.below(now.len() + 1) } else { near + random.below(12) };
        let start = boundary(start);
        let end = boundary(start + random.of(&[0, 0, 0, 1, 1, 2, 6, 40]));
        let insert = random.of(&INSERTS);
        edited.edit(range(start, end), insert).unwrap();
        near = start.saturating_sub(4);
        assert_eq!(edited.text(), [&now[..start], insert, &now[end..]].concat());
        if random.below(4) > 0 {
            let errors = random.of(&[Errors::All, Errors::All, Errors::All, Errors::Parse, Errors::Nothing, Errors::Violations]);
            let whole = Tree::parse_as(edited.text(), Edition::CURRENT, Entry::SourceFile, errors).unwrap();
            let tree = edited.tree_with(errors).unwrap();
            assert_eq!(tree.errors(), whole.errors(), "{start}..{end} {insert:?} in\n{now}");
            assert!(tree.rows() == whole.rows(), "{start}..{end} {insert:?} in\n{now}");
            assert_eq!(tree, whole);
            assert!(edited.tree_with(errors).unwrap().is_same(&tree));
            if let Some((tree, whole)) = kept.take() {
                assert_eq!(tree, whole);
            }
            kept = (random.below(2) == 0).then_some((tree, whole));
        }
    }
}

#[test]
fn edits_of_small_texts_give_the_trees_of_the_new_texts() {
    const TEXTS: [&str; 12] = [
        "",
        "fn f() { a }",
        "{ a }",
        "fn f() { { a } { b; { c } } }",
        "mod m { fn f() { 1 } struct S { a: u8, b: [u8; { 2 }] } }",
        "impl T for S { /* a */ fn f(&self) -> u8 { match self { _ => {} } } /* b */ }",
        "use a::{b, c::{d, e}};",
        "enum E { A { b: u8 }, C }\nm! { a { b } c }\nm!({ a });",
        "fn f() { \"a{\"; '}'; // {\n /* } */ }",
        "fn f() { let a = S { b: 1, ..c }; g(|d| { e }, async { f }); unsafe { h } }",
        "#![a]\n//! b\nunion U { a: u8 }\nextern \"C\" { fn f(); }\ntrait T { const A: u8 = { 1 }; }",
        TEXT,
    ];
    for (n, text) in TEXTS.iter().enumerate() {
        edited_at_random(text, 600, n as u64 + 3);
    }
}

#[test]
fn edits_of_a_file_give_the_trees_of_the_new_files() {
    edited_at_random(include_str!("../src/live.rs"), 1500, 20);
    edited_at_random(include_str!("../src/tree.rs"), 1500, 21);
}

// Edits in one function after the other, and in one place, without a tree between them.
#[test]
fn some_edits_go_between_two_trees() {
    let text = "fn f() { a }\nfn g() { b + { c } }\nfn h() { d }";
    for edits in [
        [(9, 10, "x"), (9, 10, "y")],
        [(9, 10, "long"), (26, 27, "x")],
        [(28, 29, "c + d"), (22, 23, "longer")],
        [(22, 23, "longer"), (33, 34, "{ }")],
        [(28, 29, "{ x }"), (30, 31, "yy")],
        [(9, 10, ""), (0, 0, "// a\n")],
        [(43, 44, "1"), (43, 44, "{}")],
    ] {
        let mut edited = live(text);
        let before = edited.tree().unwrap();
        for (start, end, insert) in edits {
            edited.edit(range(start, end), insert).unwrap();
        }
        assert_eq!(edited.tree().unwrap(), Tree::parse(edited.text(), Edition::CURRENT).unwrap(), "{edits:?}");
        assert_eq!(before, Tree::parse(text, Edition::CURRENT).unwrap());
    }
}

#[test]
fn a_refused_edit_leaves_all_as_it_was() {
    let text = "fn ü() { 1 }";
    let mut edited = live(text);
    let before = edited.tree().unwrap();
    for delete in [range(4, 5), range(3, 4), range(0, 14), range(14, 14)] {
        assert_eq!(edited.edit(delete, "x"), Err(EditError::NoPlace), "{delete}");
        assert_eq!((edited.text(), edited.tree().unwrap()), (text, before.clone()));
    }
    edited.edit(range(13, 13), " fn g() {}").unwrap();
    assert_eq!(edited.tree().unwrap().root().children().count(), 2);
    assert_eq!(before.root().text(), text);
}

#[test]
fn edits_are_made_together() {
    let mut random = Random(29);
    let mut edited = live(TEXT);
    for _ in 0..200 {
        let names = places(&edited.tree().unwrap(), &[T![ident], SyntaxKind::INT_NUMBER]);
        let mut edit = TextEdit::default();
        for _ in 0..random.below(4) {
            // A range that is taken is left out.
            let _ = edit.add(Indel::replace(random.of(&names), random.of(&["a", "b2", "größe", "7", "x.y", "{ z }"])));
        }
        let new = edit.apply(edited.text()).unwrap();
        let again = edited.edits(&edit).unwrap();
        // Each has what was put in.
        let mut moved = 0;
        assert_eq!(again.len(), edit.iter().count());
        for (range, it) in again.iter().zip(edit.iter()) {
            let start = (usize::from(it.delete.start()) as isize + moved) as usize;
            assert!(usize::from(range.start()) <= start && start + it.insert.len() <= usize::from(range.end()));
            assert!(usize::from(range.end()) <= new.len());
            moved += it.insert.len() as isize - usize::from(it.delete.len()) as isize;
        }
        assert_eq!((edited.text(), edited.tree().unwrap()), (&*new, Tree::parse(&*new, Edition::CURRENT).unwrap()));
        if new.len() > 2 * TEXT.len() {
            edited = live(TEXT);
        }
    }
    let before = edited.text().to_owned();
    let mut wrong = TextEdit::insert(0.into(), "a");
    wrong.add(Indel::delete(range(before.len(), before.len() + 1))).unwrap();
    assert_eq!(edited.edits(&wrong), Err(EditError::NoPlace));
    assert_eq!((edited.text(), edited.tree().unwrap()), (&*before, Tree::parse(&*before, Edition::CURRENT).unwrap()));
}

#[test]
fn an_edition_stays() {
    let mut edited = Live::parse("fn f() { a }", Edition::Edition2015).unwrap();
    edited.edit(range(9, 10), "async").unwrap();
    let tree = edited.tree().unwrap();
    assert_eq!(tree.edition(), Edition::Edition2015);
    assert!(tree.root().tokens().all(|it| it.kind() != T![async]));
    assert_eq!(tree, Tree::parse("fn f() { async }", Edition::Edition2015).unwrap());
}

#[test]
fn trees_outlive_their_text() {
    let tree = live(TEXT).tree().unwrap();
    assert_eq!(std::thread::spawn(move || tree.root().text().len()).join().unwrap(), TEXT.len());
}

#[test]
fn many_errors_have_room() {
    let mut edited = live("fn f() { }");
    edited.edit(range(8, 8), &" \"\\q\";".repeat(3000)).unwrap();
    let tree = edited.tree().unwrap();
    assert!(tree.errors().len() >= 3000);
    assert!(tree.errors().iter().all(|it| !it.message().is_empty()));
}

// Each text goes round some threads, which edit it by turns while the others edit theirs; at last all of it is as one thread would leave it.
#[test]
fn texts_go_from_thread_to_thread() {
    const THREADS: usize = 4;
    let (ends, mut starts): (Vec<_>, Vec<_>) = (0..THREADS).map(|_| std::sync::mpsc::channel::<(usize, Live)>()).unzip();
    let (done, finished) = std::sync::mpsc::channel();
    for text in 0..3 * THREADS {
        ends[text % THREADS].send((0, live(TEXT))).unwrap();
    }
    std::thread::scope(|scope| {
        for (n, start) in starts.drain(..).enumerate() {
            let (next, done) = (ends[(n + 1) % THREADS].clone(), done.clone());
            scope.spawn(move || {
                for _ in 0..3 * 10 {
                    let (turn, mut edited) = start.recv().unwrap();
                    edited.edit(range(16, 17), if turn % 2 == 0 { "größe" } else { "x" }).unwrap();
                    let tree = edited.tree().unwrap();
                    assert_eq!(tree.text(), edited.text());
                    if turn + 1 == 10 { done.send(edited).unwrap() } else { next.send((turn + 1, edited)).unwrap() }
                }
            });
        }
    });
    drop(done);
    let mut alone = live(TEXT);
    for turn in 0..10 {
        alone.edit(range(16, 17), if turn % 2 == 0 { "größe" } else { "x" }).unwrap();
    }
    let all: Vec<Live> = finished.iter().collect();
    assert_eq!(all.len(), 3 * THREADS);
    assert!(all.iter().all(|it| it.tree().unwrap() == alone.tree().unwrap()));
}
