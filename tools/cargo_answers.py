"""Runs the calls of the program `answers_views` on the cargo crate too, and compares the results.

The sources of `answers_views` name each accessor once. They are read as Rust over the crate `ras`, with a sheet of its own; what differs
is what memory makes differ: no `alloc`, no `Drop`, no `Result`. A line of output that one of both has alone is a difference.
"""
import glob
import os
import re

from views_table import RUST_TABLE, Table

TOP = os.path.dirname(os.path.dirname(os.path.abspath(__file__)))
SOURCES = os.path.join(TOP, "crates", "answers_views", "src")
# Calls that the cargo crate does not have: the static library exports them for whole files.
RULES = "reads_back needless_parens".split()
# Calls that always return a part in the cargo crate, as in rust-analyzer's, and panic where the library's return none.
TOTAL = (
    "DocComment.shape DocComment.token Literal.token MatchArm.parent_match PathSegment.parent_path RecordExprField.parent_record_lit "
    "RecordPatField.parent_record_pat UseTreeList.parent_use_tree Variant.parent_enum"
).split()

SHEET = '''\
pub use std::string::String;
use ras::ast::{AstNode, AstToken};
use ras::{NodeOrToken, SyntaxKind, SyntaxNode, SyntaxToken};
use std::fmt::{Debug, Display};

#[derive(Debug)]
pub struct AllocError;
type Done = Result<(), AllocError>;

pub fn cast_ref<A: AstNode>(node: &SyntaxNode) -> Option<A> {
    A::cast(node.clone())
}

pub trait Text {
    fn text(&self) -> Option<&str>;
}
impl Text for &str {
    fn text(&self) -> Option<&str> { Some(self) }
}
impl Text for Option<&str> {
    fn text(&self) -> Option<&str> { *self }
}

#[derive(Default)]
pub struct Sheet {
    // How often each call returned a value and was made, if the answers are only counted.
    pub counts: Option<std::collections::BTreeMap<&'static str, (u64, u64)>>,
}

fn node_of(node: &SyntaxNode) -> String {
    format!("{node:?} \\"{node}\\"")
}

impl Sheet {
    pub fn head(&mut self, node: &SyntaxNode) {
        if self.counts.is_none() { println!("{node:?}"); }
    }
    // A value is no `-`, no `false` and no empty list.
    fn told(&mut self, call: &'static str, is_value: bool, shown: impl FnOnce() -> String) -> Done {
        if let Some(counts) = &mut self.counts {
            let count = counts.entry(call).or_default();
            *count = (count.0 + u64::from(is_value), count.1 + 1);
        } else {
            println!("  {call} = {}", shown());
        }
        Ok(())
    }
    fn found<T>(&mut self, call: &'static str, found: Option<T>, shown: impl FnOnce(T) -> String) -> Done {
        let is_value = found.is_some();
        self.told(call, is_value, || found.map_or("-".into(), shown))
    }
    pub fn alloc(&self) {}
    pub fn refused(&mut self, call: &'static str) -> Done { self.word(call, "out of memory") }
    pub fn word(&mut self, call: &'static str, word: &str) -> Done { self.told(call, word != "-", || word.into()) }
    pub fn flag(&mut self, call: &'static str, holds: bool) -> Done { self.told(call, holds, || holds.to_string()) }
    pub fn kind(&mut self, call: &'static str, kind: SyntaxKind) -> Done { self.told(call, true, || kind.to_string()) }
    pub fn value<D: Debug>(&mut self, call: &'static str, found: Option<D>) -> Done { self.found(call, found, |it| format!("{it:?}")) }
    pub fn shown<D: Display>(&mut self, call: &'static str, answer: D) -> Done { self.told(call, true, || format!("\\"{answer}\\"")) }
    pub fn text<T: Text>(&mut self, call: &'static str, found: T) -> Done { self.found(call, found.text(), |it| format!("\\"{it}\\"")) }
    pub fn string<S: AsRef<str>>(&mut self, call: &'static str, found: Option<S>) -> Done { self.text(call, found.as_ref().map(AsRef::as_ref)) }
    pub fn asked<S: AsRef<str>>(&mut self, call: &'static str, answer: Option<S>) -> Done { self.string(call, answer) }
    pub fn token(&mut self, call: &'static str, found: Option<SyntaxToken>) -> Done { self.found(call, found, |it| format!("{it:?}")) }
    pub fn typed_token<T: AstToken>(&mut self, call: &'static str, found: Option<T>) -> Done { self.found(call, found, |it| format!("{:?}", it.syntax())) }
    pub fn node<N: AstNode>(&mut self, call: &'static str, found: Option<N>) -> Done { self.found(call, found, |it| node_of(it.syntax())) }
    pub fn borrowed<N: AstNode>(&mut self, call: &'static str, found: Option<&N>) -> Done { self.found(call, found, |it| node_of(it.syntax())) }
    pub fn plain(&mut self, call: &'static str, found: Option<SyntaxNode>) -> Done { self.found(call, found, |it| node_of(&it)) }
    fn all<T>(&mut self, call: &'static str, parts: impl Iterator<Item = T>, shown: impl Fn(T) -> String) -> Done {
        let mut parts = parts.peekable();
        let is_value = parts.peek().is_some();
        self.told(call, is_value, || format!("[ {}]", parts.map(|it| shown(it) + " ").collect::<String>()))
    }
    pub fn nodes<N: AstNode, I: Iterator<Item = N>>(&mut self, call: &'static str, found: I) -> Done { self.all(call, found, |it| node_of(it.syntax())) }
    pub fn slice<N: AstNode>(&mut self, call: &'static str, found: &[N]) -> Done { self.all(call, found.iter(), |it| node_of(it.syntax())) }
    pub fn asked_slice<N: AstNode>(&mut self, call: &'static str, found: Vec<N>) -> Done { self.slice(call, &found) }
    pub fn tokens<I: Iterator<Item = SyntaxToken>>(&mut self, call: &'static str, found: I) -> Done { self.all(call, found, |it| format!("{it:?}")) }
    pub fn gaps<N: AstNode, I: Iterator<Item = Option<N>>>(&mut self, call: &'static str, found: I) -> Done {
        self.all(call, found, |it| it.map_or("-".into(), |it| node_of(it.syntax())))
    }
    pub fn parts<N: AstNode, I: Iterator<Item = NodeOrToken<N, SyntaxToken>>>(&mut self, call: &'static str, found: I) -> Done {
        self.all(call, found, |it| match it {
            NodeOrToken::Node(it) => node_of(it.syntax()),
            NodeOrToken::Token(it) => format!("{it:?}"),
        })
    }
}
'''

MAIN = '''\
#![allow(unused, clippy::all)]
mod attrs;
mod exprs;
mod items;
mod lookups;
mod loops;
mod paths;
mod rules;
mod sheet;

use ras::{Edition, SyntaxNode, Tree};
use sheet::Sheet;

fn answers(sheet: &mut Sheet, root: &SyntaxNode) -> u64 {
    let mut nodes = 0;
    for node in &mut root.descendants() {
        nodes += 1;
        sheet.head(&node);
        exprs::answers(sheet, &node).unwrap();
        items::answers(sheet, &node).unwrap();
        paths::answers(sheet, &node).unwrap();
        attrs::answers(sheet, &node).unwrap();
        loops::answers(sheet, &node).unwrap();
        lookups::answers(sheet, &node).unwrap();
        rules::answers(sheet, &node).unwrap();
    }
    nodes
}

fn edition_of(word: &str) -> Edition {
    match word {
        "2015" => Edition::Edition2015,
        "2018" => Edition::Edition2018,
        "2021" => Edition::Edition2021,
        _ => Edition::Edition2024,
    }
}

// Reads texts, a line each, and prints the answers; or, with the argument `count`, names of files, of which the answers are counted.
fn main() {
    let mut sheet = Sheet::default();
    let is_count = std::env::args().nth(1).as_deref() == Some("count");
    if is_count {
        sheet.counts = Some(Default::default());
    }
    let (mut files, mut nodes) = (0, 0);
    for line in std::io::stdin().lines() {
        let line = line.unwrap();
        if is_count {
            let (edition, path) = line.split_once('\\t').unwrap_or(("2024", &line));
            let Ok(text) = std::fs::read_to_string(path) else { continue };
            files += 1;
            nodes += answers(&mut sheet, &Tree::parse(text, edition_of(edition)).unwrap().syntax_node());
        } else {
            println!("{line}");
            answers(&mut sheet, &Tree::parse(line.replace("\\\\n", "\\n"), Edition::CURRENT).unwrap().syntax_node());
        }
    }
    for (call, (answered, made)) in sheet.counts.into_iter().flatten() {
        println!("{call} {answered} {made}");
    }
    if is_count {
        println!("files {files}\\nnodes {nodes}");
    }
}
'''


def translated(text):
    """A file of answers_views as Rust over `ras`."""
    text = re.sub(r"^ghost use .*\n", "", text, flags=re.M)
    text = text.replace("use std::alloc::AllocError;", "use crate::sheet::{AllocError, cast_ref};")
    names = lambda found: ", ".join(it for it in (part.strip() for part in found[2].replace("\n", " ").split(",")) if it and it != "cast_ref" and not it.endswith("Ext"))
    text = re.sub(r"use (ra_ap_syntax::ast|rust_views)::\{(.*?)\};", lambda found: f"use ras::ast::{{{names(found)}}};", text, flags=re.S)
    text = re.sub(r"use rust_views::(\w+);", lambda found: "" if found[1].endswith("Ext") else f"use ras::ast::{found[1]};", text)
    text = text.replace("ra_ap_syntax", "ras").replace(" + Drop", "").replace("rust_views::", "ras::ast::")
    text = text.replace("let answer = it.as_simple_call(alloc);", "let answer = Ok(it.as_simple_call().map(|it| (it.0.into(), it.1)));")
    text = text.replace("it.components(sheet.alloc())", "Ok::<_, AllocError>(it.components())").replace("(alloc)", "()")
    text = text.replace("PathSegmentKind::Ty {", "PathSegmentKind::Type {")
    text = re.sub(rf'("(?:{"|".join(TOTAL)})", )(it\.\w+\(\))', r"\1Some(\2)", text).replace("literal_kind(sheet, it.kind())", "literal_kind(sheet, Some(it.kind()))")
    # The names of calls are the keys of their numbers.
    text = re.sub(r"(\w+): &str\b", r"\1: &'static str", text)
    return re.sub(r"\n(ghost |    requires ).*", "", text)


def without_rules(text):
    """The calls of rules without those of RULES, and without the violations, which are errors of a tree here."""
    text = re.sub(r"\n    needless\(sheet, it\)\?;", "", text).replace('?;\n    sheet.value("reads_back", prec::reads_back(it))', "")
    return re.sub(r"\nfn needless\(.*?\n}\n|\n/// The rules that a tree breaks\.\n.*", "", text, flags=re.S)


def write_crate(folder, ras):
    """A cargo crate with the calls of answers_views over the crate `ras` at a path."""
    os.makedirs(os.path.join(folder, "src", "lookups"))
    for path in glob.glob(os.path.join(SOURCES, "**", "*.rt"), recursive=True):
        name = os.path.relpath(path, SOURCES)[: -len(".rt")]
        if name not in ("main", "sheet", "texts"):
            text = translated(open(path, encoding="utf-8").read())
            with open(os.path.join(folder, "src", f"{name}.rs"), "w", encoding="utf-8") as file:
                file.write(without_rules(text) if name == "rules" else text)
    with open(os.path.join(folder, "src", "sheet.rs"), "w", encoding="utf-8") as file:
        file.write(SHEET)
    with open(os.path.join(folder, "src", "main.rs"), "w", encoding="utf-8") as file:
        file.write(MAIN)
    with open(os.path.join(folder, "Cargo.toml"), "w", encoding="utf-8") as file:
        file.write(f'[package]\nname = "answers"\nversion = "0.0.0"\nedition = "2024"\n\n[dependencies]\nras = {{ path = "{ras}" }}\n\n[workspace]\n')


def texts():
    """The texts that are asked, a line each: the files of the examples of all lookups, whole and with a part left out."""
    table = Table()
    rust = Table(RUST_TABLE, table)
    views = [*table.kinds.values(), *table.enums.values(), *rust.kinds.values(), *rust.added.values()]
    files = sorted({it.example.file for view in views for it in view.lookups if it.example})
    cut = [text[: n * len(text) // 4] + text[n * len(text) // 4 + 1 + len(text) // 9 :] for text in files for n in range(4)]
    return [text.replace("\n", "\\n") for text in [*files, *cut] if "\\n" not in text and "\r" not in text]


def other_kinds():
    """The names of the kinds without a constant of their own, by how `SyntaxKind` prints them."""
    text = open(os.path.join(TOP, "crates", "rust_kinds", "specs", "Names.antt"), encoding="utf-8").read()
    return {f"OTHER({number})": name for number, name in re.findall(r'if n == (\d+) then codes "(\w+)"', text)}


def named(output):
    """The output with the names of the kinds that have no constant of their own."""
    others = other_kinds()
    return re.sub(r"OTHER\(\d+\)", lambda found: others[found[0]], output)


def lines_of(output):
    """The lines of each node, sorted, after the line of the node."""
    parts, part = [], []
    for line in named(output).split("\n"):
        if line.startswith("  "):
            if line[2:].partition(" = ")[0] not in RULES:
                part.append(line)
        else:
            parts += [*sorted(part), line]
            part = []
    return parts + sorted(part)


def differences(ours, theirs, most=20):
    """The first lines that differ."""
    found = [(n, a, b) for n, (a, b) in enumerate(zip(ours, theirs)) if a != b][:most]
    told = [f"{n}: the library: {a}\n{n}: cargo:       {b}" for n, a, b in found]
    return told + [f"{len(ours)} lines, and {len(theirs)} of cargo"] * (len(ours) != len(theirs))
