//! Edits of texts and of trees: sessions against a plain model of nested lists, and each refusal.
use ras::ast::{self, AstNode, HasName};
use ras::syntax_editor::{ChangeError, Position, SyntaxAnnotation, SyntaxEdit, SyntaxEditor};
use ras::{ApplyError, Edition, Indel, NodeOrToken, OverlapError, SourceFile, SyntaxElement, SyntaxNode, TextEdit, TextRange, Tree, make};
use std::error::Error;

type Done = Result<(), Box<dyn Error>>;

fn range(start: u32, end: u32) -> TextRange {
    TextRange::new(start.into(), end.into())
}

fn root(text: &str) -> SyntaxNode {
    SourceFile::parse(text, Edition::CURRENT).syntax_node()
}

// A tree as nested lists.
#[derive(Clone, Debug, PartialEq)]
enum Plain {
    Node(String, Vec<Plain>),
    Token(String, String),
}

fn plain(element: &SyntaxElement) -> Plain {
    match element {
        NodeOrToken::Node(node) => Plain::Node(node.kind().to_string(), node.children_with_tokens().map(|it| plain(&it)).collect()),
        NodeOrToken::Token(token) => Plain::Token(token.kind().to_string(), token.text().to_owned()),
    }
}

// What is done at one element of the old tree.
#[derive(Clone, Default)]
struct Change {
    before: Vec<Plain>,
    instead: Option<Vec<Plain>>,
    first: Vec<Plain>,
    last: Vec<Plain>,
    after: Vec<Plain>,
}

impl Change {
    fn is_some(&self) -> bool {
        self.instead.is_some() || [&self.before, &self.first, &self.last, &self.after].iter().any(|it| !it.is_empty())
    }
}

fn changed(element: &SyntaxElement, elements: &[SyntaxElement], changes: &[Change]) -> Vec<Plain> {
    let number = elements.iter().position(|it| it == element).unwrap();
    let change = &changes[number];
    let itself = || match element {
        NodeOrToken::Token(_) => plain(element),
        NodeOrToken::Node(node) => {
            let inside = node.children_with_tokens().flat_map(|it| changed(&it, elements, changes));
            let children = change.first.iter().cloned().chain(inside).chain(change.last.iter().cloned());
            Plain::Node(node.kind().to_string(), children.collect())
        }
    };
    let middle = change.instead.clone().unwrap_or_else(|| vec![itself()]);
    [change.before.clone(), middle, change.after.clone()].concat()
}

fn is_above(outer: &SyntaxElement, inner: &SyntaxElement) -> bool {
    outer != inner && outer.as_node().is_some_and(|outer| inner.ancestors().any(|it| it == *outer))
}

// Why the model refuses a change, if it does.
fn refused(number: usize, slot: u32, elements: &[SyntaxElement], changes: &[Change]) -> Option<ChangeError> {
    let (here, is_inside, is_instead) = (&elements[number], slot == 2 || slot == 3, slot == 1);
    let others = || elements.iter().zip(changes);
    if number == 0 && !is_inside {
        return Some(ChangeError::Root);
    }
    if (is_inside || is_instead) && changes[number].instead.is_some() {
        return Some(ChangeError::Replaced);
    }
    if others().any(|(it, change)| is_above(it, here) && change.instead.is_some()) {
        return Some(ChangeError::InReplaced);
    }
    let has_child = !changes[number].first.is_empty() || !changes[number].last.is_empty();
    let is_over = has_child || others().any(|(it, change)| is_above(here, it) && change.is_some());
    (is_instead && is_over).then_some(ChangeError::ChangedInside)
}

struct Chance(u64);

impl Chance {
    fn below(&mut self, limit: usize) -> usize {
        self.0 = self.0.wrapping_mul(6364136223846793005).wrapping_add(1442695040888963407);
        ((self.0 >> 33) as usize) % limit
    }
}

// Whether the rows of a tree are those of one tree over its text.
fn is_well_formed(tree: &Tree) -> bool {
    let rows = tree.rows();
    let of_root = rows[0].parent == 0 && rows[0].start == 0 && rows[0].subtree_end as usize == rows.len();
    of_root
        && (1..rows.len()).all(|at| {
            let (row, parent) = (&rows[at], &rows[rows[at].parent as usize]);
            (row.parent as usize) < at && row.subtree_end <= parent.subtree_end && at < row.subtree_end as usize && rows[at - 1].start <= row.start
        })
}

fn check(edit: &SyntaxEdit, old: &SyntaxNode, elements: &[SyntaxElement], changes: &[Change], notes: &[(usize, SyntaxAnnotation)]) {
    let meant = changed(&elements[0], elements, changes);
    let new = edit.new_root();
    assert_eq!(vec![plain(&new.clone().into())], meant);
    assert!(is_well_formed(new.tree()));
    assert_eq!(edit.old_root(), old);
    let text_edit = edit.text_edit();
    assert_eq!(text_edit.apply(old.text()).unwrap(), new.text());
    assert_eq!(text_edit.invert(old.text()).unwrap().apply(new.text()).unwrap(), old.text());
    assert!(text_edit.iter().all(|it| !it.is_empty()));
    let mut kept = 0;
    for (element, change) in elements.iter().zip(changes) {
        let is_gone = change.instead.is_some() || elements.iter().zip(changes).any(|(it, c)| is_above(it, element) && c.instead.is_some());
        match edit.old_to_new(element) {
            None => assert!(is_gone),
            Some(found) => {
                assert!(!is_gone);
                kept += 1;
                assert_eq!(found.kind(), element.kind());
                let inside = Change { before: vec![], instead: None, after: vec![], ..change.clone() };
                let mut changes = changes.to_vec();
                changes[elements.iter().position(|it| it == element).unwrap()] = inside;
                assert_eq!(vec![plain(&found)], changed(element, elements, &changes));
            }
        }
    }
    assert!(kept > 0);
    for (number, note) in notes {
        let found = edit.find_annotation(*note);
        assert_eq!(found, edit.old_to_new(&elements[*number]).into_iter().collect::<Vec<_>>());
    }
}

#[test]
fn sessions_are_those_of_a_plain_model() -> Done {
    let texts = ["fn f() { a + b }", "struct S { a: A, b: B }\n\n// c\nfn g(x: X) -> Y { x.h(1, 2)? }", "", "fn f( { ) } match", "use a::{b, c};"];
    let pieces: [SyntaxElement; 3] = [make::node::<ast::Expr>("x + y")?.syntax().clone().into(), make::name("n")?.syntax().clone().into(), root("/* c */ mod m {}").into()];
    let mut chance = Chance(7);
    let mut counts = [0; 2];
    for session in 0..400 {
        let old = root(texts[session % texts.len()]);
        let elements: Vec<SyntaxElement> = old.descendants_with_tokens().collect();
        let mut changes = vec![Change::default(); elements.len()];
        let mut editor = SyntaxEditor::new(&old);
        let mut notes = Vec::new();
        for _ in 0..1 + chance.below(20) {
            let (number, slot) = (chance.below(elements.len()), chance.below(5) as u32);
            let here = &elements[number];
            let Some(node) = here.as_node().cloned().or((slot != 2 && slot != 3).then(|| old.clone())) else { continue };
            let new: Vec<SyntaxElement> = (0..chance.below(3)).map(|_| pieces[chance.below(pieces.len())].clone()).collect();
            let done = match slot {
                0 => editor.insert_all(Position::before(here), new.clone()),
                1 if new.is_empty() => editor.delete(here),
                1 => editor.replace_with_many(here, new.clone()),
                2 => editor.insert_all(Position::first_child_of(&node), new.clone()),
                3 => editor.insert_all(Position::last_child_of(&node), new.clone()),
                _ => editor.insert_all(Position::after(here), new.clone()),
            };
            let expected = refused(number, slot, &elements, &changes);
            assert_eq!(done.err(), expected);
            counts[usize::from(expected.is_some())] += 1;
            if expected.is_some() {
                continue;
            }
            let new = new.iter().map(plain);
            let change = &mut changes[number];
            match slot {
                0 => change.before.extend(new),
                1 => change.instead = Some(new.collect()),
                2 => change.first.extend(new),
                3 => change.last.extend(new),
                _ => change.after.extend(new),
            }
            if chance.below(3) == 0 {
                let (note, number) = (SyntaxAnnotation::new(), chance.below(elements.len()));
                editor.add_annotation(&elements[number], note)?;
                notes.push((number, note));
            }
        }
        check(&editor.finish()?, &old, &elements, &changes, &notes);
    }
    assert!(counts[0] > 800 && counts[1] > 250, "{counts:?}");
    Ok(())
}

#[test]
fn runs_of_siblings() -> Done {
    let old = root("fn f() { a; b; c }");
    let list = old.descendants().find_map(ast::StmtList::cast).unwrap();
    let parts: Vec<SyntaxElement> = list.syntax().children_with_tokens().collect();
    let mut editor = SyntaxEditor::new(&old);
    assert_eq!(editor.replace_all(parts[4].clone()..=parts[2].clone(), vec![]), Err(ChangeError::NotSiblings));
    editor.replace_all(parts[2].clone()..=parts[4].clone(), vec![make::node::<ast::Stmt>("d;")?.syntax().clone().into()])?;
    assert_eq!(editor.delete_all(parts[3].clone()..=parts[5].clone()), Err(ChangeError::Replaced));
    assert_eq!(editor.finish()?.new_root().text(), "fn f() { d; c }");
    Ok(())
}

#[test]
fn trees_are_compared() -> Done {
    let (old, equal, other) = (root("fn f() {}"), root("fn f() {}"), root("fn g() {}"));
    let mut editor = SyntaxEditor::new(&old);
    let name = |root: &SyntaxNode| root.descendants().find_map(ast::Fn::cast).unwrap().name().unwrap().syntax().clone();
    assert_eq!(editor.delete(name(&other)), Err(ChangeError::OtherTree));
    assert_eq!(editor.add_annotation(name(&other), SyntaxAnnotation::new()), Err(ChangeError::OtherTree));
    editor.replace(name(&equal), name(&other))?;
    let edit = editor.finish()?;
    assert_eq!(edit.new_root().text(), "fn g() {}");
    assert_eq!(edit.old_to_new(name(&other)), None);
    assert_eq!(edit.old_to_new(&equal), Some(edit.new_root().clone().into()));
    assert!(edit.new_root().tree().errors().is_empty());
    Ok(())
}

#[test]
fn subtrees_are_trees() -> Done {
    let old = root("fn f() { g(a + 1) }");
    let sum = old.descendants().find_map(ast::BinExpr::cast).unwrap();
    let copy = sum.syntax().clone_subtree();
    assert_eq!((copy.text(), copy.parent(), copy.descendants().count()), ("a + 1", None, sum.syntax().descendants().count()));
    assert!(is_well_formed(copy.tree()));
    let product = make::node::<ast::Expr>("b * c")?;
    let new = sum.syntax().replace_with(product.syntax())?;
    assert_eq!(new.text(), "fn f() { g(b * c) }");
    assert_eq!(plain(&new.clone().into()), plain(&root(new.text()).into()));
    Ok(())
}

#[test]
fn edits_of_texts() -> Done {
    let mut edit = TextEdit::default();
    edit.add(Indel::replace(range(2, 4), "xy"))?;
    edit.add(Indel::insert(4.into(), "z"))?;
    edit.add(Indel::insert(4.into(), "w"))?;
    edit.add(Indel::insert(2.into(), "<"))?;
    assert_eq!(edit.add(Indel::delete(range(3, 5))), Err(OverlapError));
    assert_eq!(edit.apply("abcdef")?, "ab<xyzwef");
    assert_eq!((edit.apply_to_offset(2.into()), edit.apply_to_offset(3.into()), edit.apply_to_offset(5.into())), (Some(2.into()), None, Some(8.into())));
    let mut other = TextEdit::delete(range(0, 1));
    assert_eq!(other.union(TextEdit::replace(range(0, 2), "")), Err(OverlapError));
    other.union(edit.clone())?;
    assert_eq!(other.apply("abcdef")?, "b<xyzwef");
    assert_eq!(edit.apply("abc"), Err(ApplyError::PastEnd));
    assert_eq!(edit.apply("aüdef"), Err(ApplyError::InsideCharacter));
    assert_eq!(TextEdit::try_from(vec![Indel::insert(4.into(), "z"), Indel::replace(range(2, 4), "xy")])?.apply("abcdef")?, "abxyzef");
    Ok(())
}
