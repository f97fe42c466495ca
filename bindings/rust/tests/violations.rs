//! What breaks rules beyond the grammar, in texts that are edited: a tree has the violations that a new parse of its text finds.
use ras::{Edition, Entry, Errors, Live, SyntaxKind, TextRange, Tree};

// Each rule, kept and broken, in places where what breaks it is before, in or behind what is edited.
const TEXTS: [&str; 16] = [
    "static S: &str = \"\\q\";\nstatic T: T = (1, \"\\q\", b\"\\q\", c\"\\q\", 'ab', b'\\q', a.0x1, [\"\\z\"].0x2);\nstatic U: U = \"\\q\".1_0;",
    "static A: A = { fn g() { \"\\q\" } b }.0x1;\nfn f() { { fn g() { 'ab' } b }.1_0; S { 0x1: { fn h() { \"\\q\" } 1 } } }",
    "static A: fn([u8; { fn g() { \"\\q\" } 1 }]) -> dyn A + B = C;\n#[a = { fn g() { 'ab' } }] pub macro_rules! m { }\nconst mut B: [u8; { fn g() { \"\\q\" } 1 }] = C;",
    "fn f() { g(\"\\q\", b\"\\q\", c\"\\q\", '\\q', b'\\q', b\"é\", \"a\\n\", r\"\\q\", 'ab', \"\\u{110000}\"); h(\"\\z\\y\") }\nfn g() { \"\\q\" }",
    "#[a = \"\\q\"] const mut X: u8 = { \"\\q\"; 1 };\nconst Y: &str = \"\\q\";\nimpl S { const mut Z: [u8; { 'ab'; 1 }] = [1]; }",
    "fn f() { let x = { #![a = \"\\q\"] #![b] #![c(\"\\q\")] \"\\q\"; 1 }; let y = { #![d] { #![e] 2 } }; if x { #![f] y } else { 'ab' } }",
    "fn f() { a.0x1; g(\"\\q\").0u8; { \"\\q\"; b }.1_0; (|| { a.0x1; 'ab' }).0x2.3; S { 0x1: \"\\q\", #[a = \"\\q\"] 1_0: a.0b1, c: 2 } }",
    "pub(x) fn f() { \"\\q\" }\npub(in x) struct S(pub(y) u8);\nimpl T for S { pub fn g() { \"\\q\" } pub const A: u8 = { 'ab'; 1 }; fn h() {} pub type B = u8; }",
    "#[a]\nimpl T for S { #![b] pub fn g() { pub(z) fn h() {} } }\nimpl S { pub fn i() { a..=; { \"\\q\" }..=; (..=, ..=\"\\q\", 1..=) } }",
    "fn f() { a::self::b; a::crate::b::<{ \"\\q\"; 1 }>::self::c; <a::self::b as c>::crate::d; crate::a; self::b::self }\nuse a::{self, crate::b, c::{crate, self::d}};\nuse {crate::e, f};",
    "fn f(a: &dyn A + B, b: &'static mut dyn A + B, c: *const dyn A + B) -> fn([u8; { \"\\q\"; 1 }], &dyn C + D) -> dyn A + B { \"\\q\" }",
    "type A = Box<dyn 'static>;\ntype B = &'a dyn A + 'b;\nfn f(a: impl 'a + 'b, b: &(dyn A + B), c: &mut impl A + B + Fn(&dyn C + D) -> [u8; { \"\\q\"; 0 }]) {}",
    "#[a = \"\\q\"] pub macro_rules! m { (\"\\q\") => { \"\\q\" } }\nmod b { pub(x) macro_rules! n { } fn f() { \"\\q\" } }\nm! { \"\\q\" 0x1 }",
    "fn f() { (let x = \"\\q\"); if a && let x = { let y = (let z = 'ab'); \"\\q\" } && (b || let c = d) {} while let e = (f) {} }",
    "fn f() { match a { x if let y = { (let z = 1); \"\\q\" } => { let w = let v = 2; }, _ => b.0x1..= } }\nmod m { fn g() { { { \"\\q\" } } } }",
    "mod a {\n    mod b {\n        /// A \"\\q\".\n        pub fn c() -> u8 { 'ab'; 1 } // \"\\q\"\n    }\n    \"\\q\"\n}\nfn d() { e(\"\\q\" f }\nimpl T for { pub fn g() { \"\\q } }",
];

// What is put in: what breaks a rule, what keeps it, and what breaks the grammar, or heals it.
const INSERTS: [&str; 48] = [
    "", "", "", "", " ", "\n", "x", "\"\\q\";", "'ab';", "b'é'", "\\q", "\\n", "\"", "'", "0x1", "_", "u8", ".0x1", ".1", "#![z]", "#[z = \"\\q\"]", "!", "pub ",
    "pub(x) ", "(in x)", "mut ", "const ", "..=", "..=1", "self::", "crate::", "::self", "::crate::y", "dyn ", "&dyn A + B", " + C", "'a + 'b", "fn(A) -> ",
    "let y = 1", "(let y = 1);", "&& let y = z", "||", "if a { \"\\q\" }", "{ #![z] }", "{", "}", "/* \"\\q\" */", "for S ",
];

// Numbers that are the same in each run.
struct Random(u64);

impl Random {
    fn below(&mut self, end: usize) -> usize {
        self.0 = self.0.wrapping_mul(6_364_136_223_846_793_005).wrapping_add(1_442_695_040_888_963_407);
        (self.0 >> 33) as usize % end
    }

    fn of<T: Copy>(&mut self, items: &[T]) -> T {
        items[self.below(items.len())]
    }
}

fn range(start: usize, end: usize) -> TextRange {
    TextRange::new((start as u32).into(), (end as u32).into())
}

// Other texts of a token, most of the same kind.
fn texts_of(kind: SyntaxKind) -> &'static [&'static str] {
    type Kind = SyntaxKind;
    match kind {
        Kind::STRING => &["\"\"", "\"a\"", "\"\\q\"", "\"\\q\\z \\u{}\"", "r\"\\q\"", "\"größe\\x\""],
        Kind::BYTE_STRING => &["b\"\"", "b\"\\q\"", "b\"é\\z\""],
        Kind::C_STRING => &["c\"\"", "c\"\\0\"", "c\"\\q\\q\""],
        Kind::CHAR => &["'a'", "'ab'", "'\\q'", "'\\u{1'"],
        Kind::BYTE => &["b'a'", "b'\\q'", "b'é'"],
        Kind::INT_NUMBER => &["0", "0x1", "1_0", "12u8", "1.5"],
        Kind::WHITESPACE => &[" ", "\n    ", "  ", ""],
        Kind::COMMENT => &["// c", "/* \"\\q\" */", "/// d", "/* größe */"],
        _ => &["a", "größe", "self", "crate", "mut", "x1", "(", "pub"],
    }
}

// The place of an edit and what is put there: another text in the place of a token, something between two tokens, or anywhere.
fn edit(random: &mut Random, tree: &Tree, near: usize) -> (TextRange, &'static str) {
    let tokens: Vec<_> = tree.root().tokens().collect();
    let which = random.below(8);
    if tokens.is_empty() || which == 7 {
        let boundary = |at: usize| (at.min(tree.text().len())..).find(|it| tree.text().is_char_boundary(*it)).expect("the end is one");
        let start = boundary(if random.below(2) == 0 { near + random.below(12) } else { random.below(tree.text().len() + 1) });
        return (range(start, boundary(start + random.of(&[0, 0, 1, 2, 6]))), random.of(&INSERTS));
    }
    let token = tokens[random.below(tokens.len())];
    let end = usize::from(token.text_range().end());
    match which {
        0..=3 => (token.text_range(), random.of(texts_of(token.kind()))),
        4 => (token.text_range(), random.of(&INSERTS)),
        _ => (range(end, end), random.of(&INSERTS)),
    }
}

// A text is edited, and after some edits anew; its trees are those of new parses, with the same errors in the same order.
fn edited_at_random(text: &str, number: usize, seed: u64) -> usize {
    let mut random = Random(seed);
    let mut edited = Live::parse(text, Edition::CURRENT).unwrap();
    let (mut near, mut violations) = (0, 0);
    // A tree that stays in use during the next edits, and what it has to stay.
    let mut kept: Option<(Tree, Tree)> = None;
    for done in 0..number {
        if done % 12 == 0 {
            edited.edit(range(0, edited.text().len()), text).unwrap();
            edited.tree().unwrap();
        }
        let now = Tree::parse_as(edited.text(), Edition::CURRENT, Entry::SourceFile, Errors::Nothing).unwrap();
        let (delete, insert) = edit(&mut random, &now, near);
        edited.edit(delete, insert).unwrap();
        near = usize::from(delete.start()).saturating_sub(6);
        if random.below(5) > 0 {
            let errors = random.of(&[Errors::All, Errors::All, Errors::All, Errors::All, Errors::Violations, Errors::Parse]);
            let whole = Tree::parse_as(edited.text(), Edition::CURRENT, Entry::SourceFile, errors).unwrap();
            let tree = edited.tree_with(errors).unwrap();
            assert_eq!(tree.errors(), whole.errors(), "{delete} {insert:?} in\n{}", now.text());
            assert_eq!(tree, whole, "{delete} {insert:?} in\n{}", now.text());
            violations += tree.errors().iter().filter(|it| it.is_violation()).count();
            if let Some((tree, whole)) = kept.take() {
                assert_eq!(tree, whole);
            }
            kept = (random.below(2) == 0).then_some((tree, whole));
        }
    }
    violations
}

#[test]
fn edits_give_the_violations_of_the_new_texts() {
    let violations: usize = TEXTS.iter().zip(1..).map(|(text, seed)| edited_at_random(text, 750, seed)).sum();
    assert!(violations > 25_000, "{violations}");
}

// Texts with places `@`, and what may be there: of each rule what keeps it and what breaks it. In most texts a rule is broken before the
// place, around it and behind it. No literal is broken behind it: that is an error of the lexer too, and with one behind an edit the library
// reads the whole text again.
struct Group {
    texts: &'static [&'static str],
    parts: &'static [&'static str],
}

const BLOCKS: Group = Group {
    texts: &[
        "static S: &str = \"\\q\";fn f() { @ }pub(x) fn g() { b.0x1 }",
        "fn f() { g('ab'); { @ } b.0x1 }",
        "fn f() { let x = { @ }; let y = || { #![a] { @ } }; [b].0x1 }",
        "fn f() { { @ }.0x1.0x2; b.0x1 }",
        "fn f() { g({ @ }).0x1; { @ }.a.0x1.b.0x2 }",
        "static A: A = { @ }.0x1;\nstatic B: A = [b].0x1;",
        "const mut A: u8 = { @ };",
        "const mut A: [u8; { @ }] = 1.0x1;",
        "#[a = { @ }] const mut A: u8 = [b].0x1;",
        "fn f() { g('ab') }pub(in a::<{ @ }>) const mut A: u8 = [b].0x1;",
        "#[a = { 'ab' }] const mut A: u8 = { @ };",
        "fn f() { #[a = { @ }] const mut A: u8 = [b].0x1; }",
        "impl T for S { pub const mut A: u8 = { @ }; pub fn g() { b.0x1 } }",
        "#[a = { @ }] impl T for S { pub fn g() { pub(z) fn h() {} } }",
        "pub(x) impl<const N: u8 = { @ }> T for &dyn A + B{ pub fn g() {} }",
        "impl T<{ @ }> for S { pub fn g() {} pub type A = [u8; { b.0x1 }]; }",
        "impl fn([u8; { @ }]) -> dyn A + B { pub fn g() {} pub(x) fn h() {} }",
        "impl T for *const dyn A<{ @ }> + B{ pub fn g() {} fn h() { [b].0x1 } }",
        "impl T for S where [u8; { @ }]: U { pub fn g() {} }",
        "static A: fn([u8; { @ }]) -> dyn A + B = C;",
        "static A: fn([u8; { 'ab' }], &dyn A + B) -> dyn A<{ @ }> + B = C;",
        "static A: &'static dyn A<{ @ }> + B = [b].0x1;",
        "static A: *const dyn A<{ @ }> + B = [b].0x1;",
        "#[a = { @ }] pub macro_rules! m { }\nfn f() { b.0x1 }",
        "fn f() { #[a = { @ }] pub macro_rules! m { } }",
        "static A: &str = #[a = { @ }] \"a\";",
        "static A: T = (\"\\q\", #[a = { @ }] b.0x1, #[a = { b.0x1 }] c..=);",
        "fn f() { a::crate::<{ @ }>::self::b; a::<[u8; { @ }]>::crate }",
        "static A: A = a::<{ @ }>::self::b::crate;",
        "static A: A = crate::<{ @ }>::b::self::crate::<{ b.0x1 }>;",
        "fn f(a: <[u8; { @ }] as self::crate>::self::A) {}",
        "static A: S = S { 0x1: { @ }, 1_0: b.0x1 };",
        "static A: S = S { #[a = { @ }] 0x1: 1, #[a = { b.0x1 }] 0: 1, ..={ @ } };",
        "static A: A = { #![a = { @ }] #![b] 1 };",
        "static A: A = { #![a = { 'ab' }] #![b] @ };",
        "fn f() { let x = { #![a = \"\\q\"] { @ } }; let y = if x { #![a] @ } else { #![b] b.0x1 }; }",
        "fn f() { match { #![a] @ } { x if { #![b] b.0x1 } => { #![c] 1 } } }",
        "pub(in x) fn f() { @ } #[a = { @ }] pub(x) fn g() {} pub(y) struct S(pub(z) [u8; { @ }], pub(w) u8);",
        "pub(x) mod m { pub(x) trait T { fn f() { @ } pub(x) fn g() { b.0x1 } }pub(x) mod n { pub(y) fn f() {} } }",
        "mod m {pub(x) fn f() {}\n#[a = { 'ab' }] pub(y) const mut A: [u8; { @ }] = [1]; }pub(x) mod n;",
        "static A: A = { @ }..=;\nstatic B: B = ..={ @ };",
        "fn f() { (a[{ @ }]..=, ..=, { b.0x1 }..=) }",
        "static A: bool = (let x = { @ });",
        "fn f() { if a && let x = { @ } && (b || let y = { @ }) {} while let x = { b.0x1 } || let y = b {} }",
        "static A: A = let x = { @ } && let y = { b.0x1 };",
        "fn f(a: dyn 'a, b: [u8; { @ }]) -> impl 'a + 'b { b.0x1 }",
        "extern \"C\" { pub(x) fn f(a: [u8; { @ }]) -> &dyn A + B; static A: fn() -> dyn A + B; }",
        "enum E { A = { @ }, B(pub(x) u8, &'a dyn A + B), C = b.0x1 }",
        "union U { pub(x) a: [u8; { @ }], pub(y) b: &dyn A + B }",
        "type A<const N: u8 = { @ }> = &'a dyn A + B;pub(x) use a::{self, crate::b};",
        "fn f() { m! { \"\\q\" } @ m!(b.0x1) }",
        "fn f( { 'ab' }\nfn g() { { @ } b.0x1 }",
        "mod m { fn f() { @ } } } pub(x) fn g() { b.0x1 }",
    ],
    parts: &[
        "",
        "1",
        "a + \"\\q\"",
        "let größe = \"größe\"; 'ab'; b\"\\q\" /* c */",
        "a; b; c\"\\q\\z\"; b'\\q'",
        "\"a\"; 'a'; b'a'; b\"a\"; c\"a\"; r\"\\q\"",
        "a.0x1.0x2",
        "a.0.1.2; a.1_0",
        "a; b + [\"\\z\"].0x1",
        "a; b + { 'ab' }.1_0",
        "S { 0: 1, 0x1: \"\\q\", #[a = 'ab'] 1_0: b }",
        "S { 0: { 'ab' }.0x1 }.0x2",
        "#![a] #![b = \"\\q\"] 1",
        "let x = { #![a] #![b] 1 };",
        "loop { #![a] } g({ #![a] 'ab' })",
        "const mut A: u8 = 1; const B: u8 = { \"\\q\" };",
        "fn g(a: &dyn A + B, b: *const dyn 'a) -> fn() -> dyn A + B { a }",
        "fn g(a: &(dyn A + B), b: &impl A) -> impl A + 'a { a }",
        "pub(x) fn g() {} pub(in x) fn h() {}",
        "impl T for S { pub fn g() {} pub const A: u8 = 1; }",
        "a::self::b; crate::a::crate; self::b",
        "use a::{crate, self::b}; use crate::a;",
        "pub macro_rules! m { } macro_rules! n { }",
        "x = a..=; (a..=b, ..=)",
        "if let x = (let y = 1) {} let z = let w = 1;",
        "if let x = a && (let y = b) {}",
        "match a { b if let c = d => { #![a] 1 }, 'ab' => \"\\q\" }",
    ],
};

const LISTS: [Group; 9] = [
    Group {
        texts: &[
            "mod m { @ }\npub(x) fn f() { b.0x1 }",
            "fn f() { 'ab' }pub(x) mod m { mod n { @ }pub(y) mod o { pub(z) fn f() {} } }",
            "fn f() { mod m { @ } { #![a] 1 }; }",
            "static A: A = { mod m { @ } 1 }.0x1;",
        ],
        parts: &[
            "",
            "#![a = \"\\q\"]",
            "pub(x) fn f() { 'ab' }",
            "fn f() {}pub(y) fn g() {}",
            "const mut A: u8 = 1.0x1;",
            "#[a = 'ab'] const mut A: u8 = 1; const A: u8 = 1;",
            "#[a = 'ab'] pub macro_rules! m { }",
            "use a::{crate::b, self}; pub(x) use crate::a;",
            "impl T for &dyn A + B{ pub fn f() {} }",
            "trait T { pub fn f() { 'ab' } const mut A: u8; }",
            "type A = fn() -> dyn A + B; type B = dyn 'a;",
        ],
    },
    Group {
        texts: &[
            "static A: A = 'ab';impl T for S { @ }pub(x) fn g() {}",
            "pub(x) impl T for &dyn A + B{ @ }\nfn f() { b.0x1 }",
            "#[a = 'ab'] impl T for S { @ } pub(x) mod m;",
            "impl dyn 'a{ @ }fn f() { b.0x1 }",
            "pub(in x) impl T for dyn 'a + 'b { @ }fn f() { b.0x1 }",
            "pub(x) trait T: A<{ 'ab' }> { @ }pub(x) fn g() {}",
            "fn f() { impl T for S { @ } b.0x1 }",
            "static A: A = { impl T for S { pub fn f() {} @ } 1 }.0x1;",
        ],
        parts: &[
            "",
            "fn f() {}",
            "pub fn f() {} pub(x) fn g() { 'ab' }",
            "pub const mut A: u8 = { \"\\q\" };",
            "const A: u8 = 1.0x1; pub type A = &dyn A + B;",
            "#[a = 'ab'] pub type A; fn f(a: &dyn A + B) {}",
            "pub unsafe fn f() { { #![a] 1 }..= }",
        ],
    },
    Group {
        texts: &[
            "use a::{@};pub(x) use crate::{@, crate};",
            "fn f() { 'ab' } use a::{b::{c, @}, crate}; use {self::crate};",
            "fn f() { { use a::{@}; b.0x1 } use crate::{crate::a}; }",
        ],
        parts: &["", "b", "crate", "self, crate::c", "a::{crate::b, self::crate}", "self::b::self, a::crate"],
    },
    Group {
        texts: &[
            "static A: S = S { @ };\nstatic B: u8 = b.0x1;",
            "static A: A = S { 0x2: 'ab', @ }.0x1;",
            "fn f() { let x = S { @ }; S { 0x1: S { @ }, 1_0: 1 } }",
            "static A: S = S { #[a = S { @ }] 0x1: b.0x1 }.0x2.0x3;",
        ],
        parts: &["", "0: 1", "0x1: 'ab'", "a, 0: 1, 0x1: 1, #[a = 'ab'] 1_0: b", "0: a.0x1, b: { #![a] 1 }", "a: S { 0x1: 1 }.0x2"],
    },
    Group {
        texts: &[
            "static A: A = match a { @ };\nfn f() { b.0x1 }",
            "static A: A = match { 'ab' } { @ }.0x1;",
            "fn f() { match a { @ } b.0x1 }",
            "static A: A = match 'ab' { @ }..=;",
        ],
        parts: &["", "a => 1", "'ab' => \"\\q\"", "a if let b = c => a.0x1, #[a = 'ab'] _ => let x = 1", "1..= => { #![a] 1 }, a => a::self::b"],
    },
    Group {
        texts: &["struct S { @ }pub(x) struct T { @ }", "fn f() { 'ab' } pub(x) struct S { pub(z) c: u8, @ }", "fn f() { struct S { @ } b.0x1 }"],
        parts: &["", "a: u8", "pub(x) b: &dyn A + B", "#[a = 'ab'] pub(y) c: [u8; { 'ab' }], d: dyn 'a", "e: fn() -> dyn A + B"],
    },
    Group {
        texts: &["enum E { @ }pub(x) enum F { @ }", "fn f() { 'ab' } pub(x) enum E { Z = a.0x1, @ }", "fn f() { enum E { @ } b.0x1 }"],
        parts: &["", "A", "B = 'ab'", "#[a = 'ab'] C(pub(x) u8), D { pub(x) a: u8 }", "E(&dyn A + B) = a.0x1"],
    },
    Group {
        texts: &["extern \"C\" { @ }pub(x) fn f() { b.0x1 }", "fn f() { 'ab' }\npub(x) extern \"C\" { pub(x) fn g(); @ }", "fn f() { extern { @ } b.0x1 }"],
        parts: &["", "fn a();", "pub(x) static A: &dyn A + B;", "#[a = 'ab'] pub(y) fn b(c: [u8; { 'ab' }]) -> fn() -> dyn A + B; type D;"],
    },
    Group {
        texts: &["m! { @ }pub(x) fn f() { b.0x1 }", "fn f() { 'ab'; m! { @ } b.0x1 }", "static A: A = m! { @ }.0x1.0x2;", "#[a { @ }] const mut A: u8 = 1;"],
        parts: &["", "a", "'ab' \"\\q\" 0x1", "a { b } (c) [\"\\q\"]"],
    },
];

// The range of the new text that the library reads again.
fn read_again(text: &str, delete: TextRange, insert: &str) -> TextRange {
    let mut handle = ras_sys::Handle { full: false, at: std::ptr::null_mut() };
    let mut again = ras_sys::Range { start: 0, end: 0 };
    let (start, end, year) = (delete.start().into(), delete.end().into(), Edition::CURRENT.number() as u32);
    // SAFETY: both texts are borrowed for the calls, with their lengths; the handle is one without a parse, and is freed once.
    let statuses = unsafe {
        let parsed = ras_sys::ras_c_parse(text.as_ptr(), text.len(), year, &mut handle);
        let edited = ras_sys::ras_c_edit_told(&mut handle, year, start, end, insert.as_ptr(), insert.len(), &mut again);
        ras_sys::ras_c_free(&mut handle);
        [parsed, edited]
    };
    assert_eq!(statuses, [ras_sys::OK; 2]);
    range(again.start as usize, again.end as usize)
}

// What edits there were: all, those after which a part of the tree alone was read again, and those of these that left a violation.
#[derive(Clone, Copy, Debug, Default)]
struct Edits {
    all: usize,
    of_parts: usize,
    with_violations: usize,
}

impl Edits {
    // An edit of a new parse: what was kept of that gives the tree of the new text.
    fn make(&mut self, text: &str, delete: TextRange, insert: &str) {
        let mut edited = Live::parse(text, Edition::CURRENT).unwrap();
        edited.tree().unwrap();
        edited.edit(delete, insert).unwrap();
        let (tree, whole) = (edited.tree().unwrap(), Tree::parse(edited.text(), Edition::CURRENT).unwrap());
        assert_eq!(tree.errors(), whole.errors(), "{delete} {insert:?} in\n{text}");
        assert_eq!(tree, whole, "{delete} {insert:?} in\n{text}");
        self.all += 1;
        if read_again(text, delete, insert) != range(0, edited.text().len()) {
            self.of_parts += 1;
            self.with_violations += usize::from(tree.errors().iter().any(|it| it.is_violation()));
        }
    }

    // At each place of a text another part is put in the place of one.
    fn of_group(&mut self, group: &Group, steps: &[usize]) {
        for text in group.texts {
            for (at, part) in group.parts.iter().enumerate() {
                let whole = text.replace('@', part);
                for (before, (place, _)) in text.match_indices('@').enumerate() {
                    let start = place + before * part.len() - before;
                    for step in steps {
                        let other = group.parts[(at + step) % group.parts.len()];
                        self.make(&whole, range(start, start + part.len()), other);
                    }
                }
            }
        }
    }

    // Each token of a text gets another text, something is put behind each `{`, and each statement, member and the like is removed.
    fn of_tokens(&mut self, text: &str, turn: usize) {
        let tree = Tree::parse(text, Edition::CURRENT).unwrap();
        for (token, number) in tree.root().tokens().zip(turn..) {
            let texts = tokens_of(token.kind());
            // There is so much white space that a part of it is enough.
            if !texts.is_empty() && (token.kind() != SyntaxKind::WHITESPACE || number % 4 == 0) {
                self.make(text, token.text_range(), texts[number % texts.len()]);
            }
            if token.kind() == SyntaxKind::L_CURLY {
                let end = usize::from(token.text_range().end());
                self.make(text, range(end, end), ["#![z = \"\\q\"]", "", "\"\\q\";", "#![z]", "fn z() { 'ab' }"][number % 5]);
            }
        }
        for node in tree.root().descendants() {
            if OPTIONAL.contains(&node.kind()) {
                self.make(text, node.text_range(), "");
            }
        }
    }
}

// Nodes that a text may do without.
const OPTIONAL: [SyntaxKind; 10] = [
    SyntaxKind::ATTR,
    SyntaxKind::CONST,
    SyntaxKind::EXPR_STMT,
    SyntaxKind::FN,
    SyntaxKind::LET_STMT,
    SyntaxKind::MACRO_RULES,
    SyntaxKind::MATCH_ARM,
    SyntaxKind::RECORD_EXPR_FIELD,
    SyntaxKind::TYPE_ALIAS,
    SyntaxKind::VISIBILITY,
];

// Other texts of a token of the same kind.
fn tokens_of(kind: SyntaxKind) -> &'static [&'static str] {
    match kind {
        SyntaxKind::IDENT => &["größe", "z"],
        SyntaxKind::LIFETIME_IDENT => &["'größe"],
        SyntaxKind::WHITESPACE => &["\n", "   ", "\t\n "],
        SyntaxKind::COMMENT => &["/* größe */"],
        SyntaxKind::INT_NUMBER => &["12", "0x1f", "7"],
        SyntaxKind::CHAR => &["'abc'", "'é'", "'\\q'"],
        SyntaxKind::BYTE => &["b'b'", "b'ab'"],
        SyntaxKind::STRING => &["\"\"", "\"\\z \\q\"", "r\"\\q\""],
        SyntaxKind::BYTE_STRING => &["b\"\"", "b\"\\z \\q\""],
        SyntaxKind::C_STRING => &["c\"\"", "c\"\\z \\q\"", "c\"\\0\""],
        _ => &[],
    }
}

#[test]
fn parts_of_blocks_give_the_violations_of_the_new_texts() {
    let mut edits = Edits::default();
    edits.of_group(&BLOCKS, &[1, 2, 5, 11]);
    assert!(edits.of_parts * 10 > edits.all * 9 && edits.with_violations * 10 > edits.all * 8, "{edits:?}");
}

#[test]
fn parts_of_lists_give_the_violations_of_the_new_texts() {
    let mut edits = Edits::default();
    LISTS.iter().for_each(|it| edits.of_group(it, &[1, 2, 3, 4]));
    assert!(edits.of_parts * 10 > edits.all * 9 && edits.with_violations * 10 > edits.all * 8, "{edits:?}");
}

#[test]
fn tokens_give_the_violations_of_the_new_texts() {
    let mut edits = Edits::default();
    for group in LISTS.iter().chain([&BLOCKS]) {
        for (text, at) in group.texts.iter().zip(0..) {
            // No text has a broken literal behind its place if this is empty.
            for part in [""].iter().chain(group.parts.iter().skip(at % 7).step_by(7)) {
                edits.of_tokens(&text.replace('@', part), at);
            }
        }
    }
    assert!(edits.of_parts * 4 > edits.all * 3 && edits.with_violations * 4 > edits.all * 3, "{edits:?}");
}
