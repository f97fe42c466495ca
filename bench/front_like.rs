//! The opponent of `benches fronts`: a lexer and a parser of the language of `tiny_front`, in plain Rust and std alone, as they
//! would be written by hand. The parser goes down by recursion, and builds a tree of the kind that `rowan` keeps: green nodes
//! and tokens that are shared by `Rc`. An edit parses one token or one block again, by the same conditions, or all; a new tree
//! shares what did not change. With `dump` it prints the tree of its input as `run dump` does, so that the two can be compared;
//! with `keep BYTES COUNT` it reads a text of so many bytes as often as is said, for others to see how much memory that takes.

mod like_lexer;

use like_lexer::*;
use std::hint::black_box;
use std::io::Read;
use std::rc::Rc;
use std::time::Instant;

// ---- the tree

#[derive(Clone)]
struct GreenNode {
    kind: Kind,
    text_len: u32,
    // The offset of each child in the node, and the child.
    children: Rc<[(u32, Green)]>,
}

#[derive(Clone)]
enum Green {
    Node(GreenNode),
    Token(Kind, Rc<str>),
}

impl Green {
    fn text_len(&self) -> u32 {
        match self {
            Green::Node(node) => node.text_len,
            Green::Token(_, text) => text.len() as u32,
        }
    }

    fn kind(&self) -> Kind {
        match self {
            Green::Node(node) => node.kind,
            Green::Token(kind, _) => *kind,
        }
    }
}

impl GreenNode {
    fn new(kind: Kind, children: impl ExactSizeIterator<Item = Green>) -> GreenNode {
        let mut text_len = 0;
        let children = children
            .map(|child| {
                let offset = text_len;
                text_len += child.text_len();
                (offset, child)
            })
            .collect();
        GreenNode { kind, text_len, children }
    }

    // The same node with another child.
    fn with_child(&self, index: usize, new: Green) -> GreenNode {
        let children = self.children.iter().enumerate();
        GreenNode::new(self.kind, children.map(|(i, (_, child))| if i == index { new.clone() } else { child.clone() }))
    }

    fn push_text(&self, out: &mut String) {
        for (_, child) in self.children.iter() {
            match child {
                Green::Node(node) => node.push_text(out),
                Green::Token(_, text) => out.push_str(text),
            }
        }
    }
}

// ---- the parser

struct Parser<'a> {
    text: &'a str,
    tokens: &'a [(Kind, u32)],
    // the next token, its position, and the next one that is no trivia
    at: usize,
    position: u32,
    next: usize,
    // the position of `next`
    next_position: u32,
    open: Vec<(Kind, usize)>,
    children: Vec<Green>,
    errors: Vec<Problem>,
    after_type: bool,
}

// A part is lacking: those around end, up to the statements or the file.
struct Lacking;
type Parsed = Result<(), Lacking>;

impl<'a> Parser<'a> {
    fn new(text: &'a str, tokens: &'a [(Kind, u32)]) -> Parser<'a> {
        let mut parser = Parser {
            text, tokens, at: 0, position: 0, next: 0, next_position: 0, open: Vec::new(), children: Vec::new(),
            errors: Vec::new(), after_type: false,
        };
        parser.find_next();
        parser
    }

    fn find_next(&mut self) {
        while let Some((WHITESPACE | COMMENT, len)) = self.tokens.get(self.next) {
            self.next_position += len;
            self.next += 1;
        }
    }

    fn peek(&self) -> Kind {
        self.tokens.get(self.next).map_or(END, |token| token.0)
    }

    fn push_token(&mut self) {
        let (kind, len) = self.tokens[self.at];
        let end = self.position + len;
        let text = self.text[self.position as usize..end as usize].into();
        self.children.push(Green::Token(kind, text));
        self.at += 1;
        self.position = end;
    }

    fn trivia(&mut self) {
        while self.at < self.next {
            self.push_token();
        }
    }

    fn bump(&mut self) {
        self.trivia();
        self.push_token();
        self.next = self.at;
        self.next_position = self.position;
        self.find_next();
        self.after_type = false;
    }

    fn here(&mut self) -> usize {
        self.trivia();
        self.children.len()
    }

    fn start(&mut self, kind: Kind) {
        let first = self.here();
        self.open.push((kind, first));
    }

    fn finish(&mut self) {
        let (kind, first) = self.open.pop().unwrap();
        self.wrap(kind, first);
    }

    // A node over the children from a place on.
    fn wrap(&mut self, kind: Kind, first: usize) {
        let node = GreenNode::new(kind, self.children.drain(first..));
        self.children.push(Green::Node(node));
    }

    fn error(&mut self, message: &'static str) {
        let position = self.next_position;
        self.errors.push(Problem { start: position, end: position, message });
    }

    fn lacks(&mut self, message: &'static str) -> Parsed {
        self.error(message);
        Err(Lacking)
    }

    fn file(&mut self) {
        self.open.push((SOURCE_FILE, 0));
        loop {
            match self.peek() {
                END => break,
                FN_KW => {
                    self.start(FN);
                    let _lacking = self.function();
                    self.finish();
                }
                _ => {
                    self.error("expected an item");
                    self.start(ERROR);
                    while !matches!(self.peek(), END | FN_KW) {
                        self.bump();
                    }
                    self.finish();
                }
            }
        }
        self.trivia();
        self.finish();
    }

    fn named(&mut self, kind: Kind) -> Parsed {
        if self.peek() != IDENT {
            return self.lacks("expected a name");
        }
        self.start(kind);
        self.bump();
        self.finish();
        Ok(())
    }

    fn function(&mut self) -> Parsed {
        self.bump();
        self.named(NAME)?;
        if self.peek() != L_PAREN {
            return self.lacks("expected parameters");
        }
        self.start(PARAM_LIST);
        self.bump();
        let closes = self.peek() == R_PAREN;
        if closes {
            self.bump();
        } else {
            self.error("expected )");
        }
        self.finish();
        if !closes {
            return Err(Lacking);
        }
        if self.peek() == THIN_ARROW {
            self.start(RET_TYPE);
            self.bump();
            let parsed = self.type_name();
            self.finish();
            parsed?;
        }
        if self.peek() != L_CURLY {
            return self.lacks("expected a block");
        }
        self.start(BLOCK_EXPR);
        self.start(STMT_LIST);
        self.statements();
        self.finish();
        self.finish();
        Ok(())
    }

    fn path(&mut self, kind: Kind) {
        let first = self.here();
        self.bump();
        self.wrap(NAME_REF, first);
        self.wrap(PATH_SEGMENT, first);
        self.wrap(PATH, first);
        self.wrap(kind, first);
    }

    fn type_name(&mut self) -> Parsed {
        if self.peek() != IDENT {
            return self.lacks("expected a type");
        }
        self.path(PATH_TYPE);
        self.after_type = true;
        Ok(())
    }

    fn statements(&mut self) {
        self.bump();
        loop {
            match self.peek() {
                END => return self.error("expected }"),
                R_CURLY => return self.bump(),
                SEMICOLON => self.bump(),
                LET_KW => {
                    self.start(LET_STMT);
                    let _lacking = self.binding();
                    self.finish();
                }
                kind if begins(kind, 0) => {
                    let first = self.here();
                    if self.expression(0).is_ok() {
                        match self.peek() {
                            END | R_CURLY => {}
                            SEMICOLON => {
                                self.bump();
                                self.wrap(EXPR_STMT, first);
                            }
                            _ => self.error("expected ;"),
                        }
                    }
                }
                _ => self.error_statement(),
            }
        }
    }

    fn error_statement(&mut self) {
        self.error("expected a statement");
        self.start(ERROR);
        let mut depth = 0;
        loop {
            match self.peek() {
                END => break,
                SEMICOLON | R_CURLY | LET_KW if depth == 0 => break,
                L_CURLY => depth += 1,
                R_CURLY => depth -= 1,
                _ => {}
            }
            self.bump();
        }
        self.finish();
    }

    fn binding(&mut self) -> Parsed {
        self.bump();
        if self.peek() == MUT_KW {
            self.start(IDENT_PAT);
            self.bump();
            let named = self.named(NAME);
            self.finish();
            named?;
        } else {
            let first = self.here();
            self.named(NAME)?;
            self.wrap(IDENT_PAT, first);
        }
        if self.peek() == EQ {
            self.bump();
            self.operand(0)?;
        }
        if self.peek() != SEMICOLON {
            return self.lacks("expected ;");
        }
        self.bump();
        Ok(())
    }

    fn operand(&mut self, demand: u8) -> Parsed {
        if begins(self.peek(), demand) { self.expression(demand) } else { self.lacks("expected an expression") }
    }

    fn range_end(&mut self, first: usize, inclusive: bool) -> Parsed {
        self.bump();
        let parsed = if inclusive || begins(self.peek(), 2) { self.operand(2) } else { Ok(()) };
        self.wrap(RANGE_EXPR, first);
        parsed
    }

    fn expression(&mut self, demand: u8) -> Parsed {
        let first = self.here();
        let mut level = 12;
        if matches!(self.peek(), DOT2 | DOT2EQ) {
            self.range_end(first, self.peek() == DOT2EQ)?;
            level = 1;
        } else {
            self.unary()?;
        }
        loop {
            let kind = self.peek();
            match kind {
                AS_KW if demand <= 11 && 11 <= level => {
                    self.bump();
                    let parsed = self.type_name();
                    self.wrap(CAST_EXPR, first);
                    // what wraps takes no token
                    parsed?;
                    level = 11;
                }
                DOT2 | DOT2EQ if demand <= 1 && 2 <= level => {
                    self.range_end(first, kind == DOT2EQ)?;
                    level = 1;
                }
                L_ANGLE | SHL if self.after_type => return Ok(()),
                _ => match binary(kind) {
                    Some((own, left, right)) if demand <= own && left <= level => {
                        self.bump();
                        let parsed = self.operand(right);
                        self.wrap(BIN_EXPR, first);
                        parsed?;
                        level = own;
                    }
                    _ => return Ok(()),
                },
            }
        }
    }

    fn unary(&mut self) -> Parsed {
        let first = self.here();
        match self.peek() {
            MINUS | STAR | BANG => {
                self.bump();
                self.prefixed(PREFIX_EXPR, first)
            }
            AMP => {
                self.bump();
                if self.peek() == MUT_KW {
                    self.bump();
                }
                self.prefixed(REF_EXPR, first)
            }
            L_PAREN => {
                self.enclosed(PAREN_EXPR, first, R_PAREN, "expected )")?;
                self.postfix(first)
            }
            IDENT => {
                self.path(PATH_EXPR);
                self.postfix(first)
            }
            _ => {
                self.bump();
                self.wrap(LITERAL, first);
                self.postfix(first)
            }
        }
    }

    // The operand of a prefix, and the node of both.
    fn prefixed(&mut self, node: Kind, first: usize) -> Parsed {
        let parsed = self.operand(12);
        self.wrap(node, first);
        parsed
    }

    // An expression between two brackets.
    fn enclosed(&mut self, node: Kind, first: usize, end: Kind, message: &'static str) -> Parsed {
        self.bump();
        let parsed = self.operand(0).and_then(|()| self.close(end, message));
        self.wrap(node, first);
        parsed
    }

    fn close(&mut self, kind: Kind, message: &'static str) -> Parsed {
        if self.peek() != kind {
            return self.lacks(message);
        }
        self.bump();
        Ok(())
    }

    fn postfix(&mut self, first: usize) -> Parsed {
        loop {
            match self.peek() {
                QUESTION => {
                    self.bump();
                    self.wrap(TRY_EXPR, first);
                }
                DOT => {
                    self.bump();
                    match self.peek() {
                        AWAIT_KW => {
                            self.bump();
                            self.wrap(AWAIT_EXPR, first);
                        }
                        IDENT => {
                            let _named = self.named(NAME_REF);
                            if self.peek() == L_PAREN {
                                let parsed = self.arguments();
                                self.wrap(METHOD_CALL_EXPR, first);
                                parsed?;
                            } else {
                                self.wrap(FIELD_EXPR, first);
                            }
                        }
                        _ => {
                            self.error("expected a name");
                            self.wrap(FIELD_EXPR, first);
                            return Err(Lacking);
                        }
                    }
                }
                L_PAREN => {
                    let parsed = self.arguments();
                    self.wrap(CALL_EXPR, first);
                    parsed?;
                }
                L_BRACK => self.enclosed(INDEX_EXPR, first, R_BRACK, "expected ]")?,
                _ => return Ok(()),
            }
        }
    }

    fn arguments(&mut self) -> Parsed {
        let first = self.here();
        self.bump();
        let parsed = self.argument_list();
        self.wrap(ARG_LIST, first);
        parsed
    }

    fn argument_list(&mut self) -> Parsed {
        loop {
            if self.peek() == R_PAREN {
                self.bump();
                return Ok(());
            }
            if !begins(self.peek(), 0) {
                return self.lacks("expected )");
            }
            self.expression(0)?;
            if self.peek() == COMMA {
                self.bump();
            } else {
                return self.close(R_PAREN, "expected )");
            }
        }
    }
}

fn begins(kind: Kind, demand: u8) -> bool {
    match kind {
        INT_NUMBER | STRING | TRUE_KW | FALSE_KW | IDENT | L_PAREN | MINUS | STAR | BANG | AMP => true,
        DOT2 | DOT2EQ => demand <= 1,
        _ => false,
    }
}

// An operator's level, the least one of its left operand, and the right one's demand.
fn binary(kind: Kind) -> Option<(u8, u8, u8)> {
    Some(match kind {
        EQ | PLUSEQ | MINUSEQ | PIPEEQ | AMPEQ | CARETEQ | SLASHEQ | STAREQ | PERCENTEQ | SHLEQ | SHREQ => (0, 1, 0),
        PIPE2 => (2, 2, 3),
        AMP2 => (3, 3, 4),
        L_ANGLE | EQ2 | NEQ | R_ANGLE | LTEQ | GTEQ => (4, 5, 5),
        PIPE => (5, 5, 6),
        CARET => (6, 6, 7),
        AMP => (7, 7, 8),
        SHL | SHR => (8, 8, 9),
        PLUS | MINUS => (9, 9, 10),
        STAR | SLASH | PERCENT => (10, 10, 11),
        _ => return None,
    })
}

// ---- parses and edits

struct File {
    text: String,
    root: GreenNode,
    errors: Vec<Problem>,
}

fn root_of(parser: &mut Parser) -> GreenNode {
    match parser.children.pop() {
        Some(Green::Node(root)) => root,
        _ => panic!("no root"),
    }
}

fn parse(text: &str) -> File {
    let (tokens, problems) = lex(text);
    let mut parser = Parser::new(text, &tokens);
    parser.file();
    let root = root_of(&mut parser);
    let mut errors = parser.errors;
    errors.extend(problems);
    File { text: text.to_owned(), root, errors }
}

// A block read by itself, where its braces balance.
fn parse_block(text: &str) -> Option<(GreenNode, Vec<Problem>)> {
    let (tokens, problems) = lex(text);
    if tokens.first()?.0 != L_CURLY || tokens.last()?.0 != R_CURLY {
        return None;
    }
    let mut depth = 0;
    for (kind, _) in &tokens[1..tokens.len() - 1] {
        match kind {
            L_CURLY => depth += 1,
            R_CURLY => depth -= 1,
            _ => {}
        }
        if depth < 0 {
            return None;
        }
    }
    if depth != 0 {
        return None;
    }
    let mut parser = Parser::new(text, &tokens);
    parser.open.push((BLOCK_EXPR, 0));
    parser.start(STMT_LIST);
    parser.statements();
    parser.finish();
    while parser.at < tokens.len() {
        parser.push_token();
    }
    parser.finish();
    let root = root_of(&mut parser);
    let mut errors = parser.errors;
    errors.extend(problems);
    Some((root, errors))
}

// The way down to what covers a range: each node, its offset, and which child was taken.
fn covering(root: &GreenNode, from: u32, to: u32) -> (Vec<(GreenNode, u32, usize)>, Green, u32) {
    let (mut way, mut here, mut offset) = (Vec::new(), Green::Node(root.clone()), 0);
    loop {
        let Green::Node(node) = &here else { return (way, here, offset) };
        let children = &node.children;
        let last = children.partition_point(|(start, _)| offset + start <= from);
        // An empty range between two children goes to the first that holds it.
        let holds = |i: usize| {
            let (start, child) = &children[i];
            offset + start <= from && to <= offset + start + child.text_len()
        };
        let index = if last >= 2 && holds(last - 2) { last - 2 } else if last >= 1 && holds(last - 1) { last - 1 } else { return (way, here, offset) };
        let (start, child) = children[index].clone();
        way.push((node.clone(), offset, index));
        offset += start;
        here = child;
    }
}

fn replaced(way: &[(GreenNode, u32, usize)], new: Green) -> GreenNode {
    let mut new = new;
    for (node, _, index) in way.iter().rev() {
        new = Green::Node(node.with_child(*index, new));
    }
    match new {
        Green::Node(root) => root,
        Green::Token(..) => panic!("no root"),
    }
}

fn merged(old: &[Problem], new: Vec<Problem>, start: u32, end: u32, grows: i64) -> Vec<Problem> {
    let moved = |at: u32| (at as i64 + grows) as u32;
    let mut errors = Vec::new();
    for error in old {
        if error.end <= start {
            errors.push(error.clone());
        } else if end <= error.start {
            errors.push(Problem { start: moved(error.start), end: moved(error.end), message: error.message });
        }
    }
    errors.extend(new.into_iter().map(|e| Problem { start: e.start + start, end: e.end + start, message: e.message }));
    errors
}

// The file after an edit: as a tree and its errors; its text is in the tree. Says whether a piece was parsed again.
fn edit(old: &File, from: u32, to: u32, insert: &str) -> (GreenNode, Vec<Problem>, bool) {
    let (mut way, mut here, mut offset) = covering(&old.root, from, to);
    let grows = insert.len() as i64 - (to - from) as i64;
    if let Green::Token(kind, text) = &here {
        let deleted = &text[(from - offset) as usize..(to - offset) as usize];
        let may = matches!(kind, WHITESPACE | COMMENT | IDENT | STRING)
            && !(matches!(kind, WHITESPACE | COMMENT) && deleted.contains('\n'));
        if may {
            let mut new = format!("{}{insert}{}", &text[..(from - offset) as usize], &text[(to - offset) as usize..]);
            let single = |text: &str| if text.is_empty() { None } else { Some(token(text)).filter(|t| t.1 == text.len()) };
            if let Some((found, _, wrong)) = single(&new) {
                let end = offset + text.len() as u32;
                let next = old.text[end as usize..].chars().next();
                let len = new.len();
                let one = next.is_none_or(|c| {
                    new.push(c);
                    single(&new).is_none()
                });
                new.truncate(len);
                if found == *kind && one && !matches!(new.as_str(), "auto" | "default" | "union") {
                    let errors = wrong.map(|message| Problem { start: 0, end: len as u32, message }).into_iter().collect();
                    let root = replaced(&way, Green::Token(*kind, new.as_str().into()));
                    return (root, merged(&old.errors, errors, offset, end, grows), true);
                }
            }
        }
    }
    while here.kind() != BLOCK_EXPR {
        match way.pop() {
            Some((node, start, _)) => (here, offset) = (Green::Node(node), start),
            None => return anew(old, from, to, insert),
        }
    }
    let end = offset + here.text_len();
    let text = &old.text[offset as usize..end as usize];
    let new = format!("{}{insert}{}", &text[..(from - offset) as usize], &text[(to - offset) as usize..]);
    match parse_block(&new) {
        Some((block, errors)) => {
            let root = replaced(&way, Green::Node(block));
            (root, merged(&old.errors, errors, offset, end, grows), true)
        }
        None => anew(old, from, to, insert),
    }
}

fn anew(old: &File, from: u32, to: u32, insert: &str) -> (GreenNode, Vec<Problem>, bool) {
    let new = parse(&format!("{}{insert}{}", &old.text[..from as usize], &old.text[to as usize..]));
    (new.root, new.errors, false)
}

fn push_dump(out: &mut String, node: &Green, offset: u32, level: usize) {
    use std::fmt::Write;
    for _ in 0..level {
        out.push_str("  ");
    }
    write!(out, "{:?}@{offset}..{}", node.kind(), offset + node.text_len()).unwrap();
    match node {
        Green::Token(_, text) => {
            out.push(' ');
            push_quoted(out, text);
            out.push('\n');
        }
        Green::Node(node) => {
            out.push('\n');
            for (start, child) in node.children.iter() {
                push_dump(out, child, offset + start, level + 1);
            }
        }
    }
}

fn push_quoted(out: &mut String, text: &str) {
    use std::fmt::Write;
    if text.len() < 25 {
        write!(out, "{text:?}").unwrap();
    } else {
        let end = (21..25).find(|at| text.is_char_boundary(*at)).unwrap();
        write!(out, "{:?}", format!("{} ...", &text[..end])).unwrap();
    }
}

fn dump(file: &File) -> String {
    use std::fmt::Write;
    let mut out = String::new();
    push_dump(&mut out, &Green::Node(file.root.clone()), 0, 0);
    for error in &file.errors {
        writeln!(out, "error {}..{}: {}", error.start, error.end, error.message).unwrap();
    }
    out
}

const FUNCTION: &str = "fn name() {\n    let mut sum = a + b * (c - 1);\n    f(sum, 2)[0].g()?;\n}\n";
const LINE: &str = "    sum = f(sum, 2)[0].g()?;\n";

// The least nanoseconds of a few runs.
fn measure<T>(name: &str, input: &str, bytes: usize, runs: u32, mut run: impl FnMut() -> T) {
    let mut best = u128::MAX;
    for _ in 0..runs {
        let start = Instant::now();
        let made = black_box(run());
        best = best.min(start.elapsed().as_nanos());
        drop(made);
    }
    println!("{name} {input} {bytes} {best}");
}

fn time_parse(input: &str, text: &str, runs: u32) {
    let file = parse(text);
    measure("lex", input, text.len(), runs, || lex(text));
    measure("parse", input, text.len(), runs, || parse(text));
    measure("dump", input, text.len(), runs, || dump(&file));
}

// One token, one block and all parsed again, at a place where a function begins.
fn time_edits(input: &str, text: &str, function: usize, runs: u32) {
    let file = parse(text);
    let name = function as u32 + 3;
    let block = (function + text[function..].find(';').unwrap()) as u32;
    let pieces = [("token", name, name + 1, "x"), ("block", block, block, " + 1"), ("whole", function as u32, function as u32, "fn g() {} ")];
    for (kind, from, to, insert) in pieces {
        assert_eq!(edit(&file, from, to, insert).2, kind != "whole", "{kind} {input}");
        measure(kind, input, text.len(), runs, || edit(&file, from, to, insert));
    }
    let mut copied = String::new();
    file.root.push_text(&mut copied);
    assert_eq!(copied, text);
}

// Functions with a block of 1,000 bytes and more.
fn wide(bytes: usize) -> String {
    let function = format!("fn name() {{\n{}}}\n", LINE.repeat(34));
    function.repeat((bytes / function.len()).max(1))
}

fn at(text: &str, part: usize) -> usize {
    let from = text.len() * part / 2;
    if part == 2 { text.rfind("fn ").unwrap() } else { from + text[from..].find("fn ").unwrap() }
}

fn time_all() {
    for (bytes, runs) in [(10_000, 50), (100_000, 20), (1_000_000, 5), (10_000_000, 3)] {
        time_parse(&format!("flat-{bytes}"), &FUNCTION.repeat(bytes / FUNCTION.len()), runs);
    }
    for (bytes, runs) in [(1_000, 50), (10_000, 50), (100_000, 20), (1_000_000, 5), (10_000_000, 3)] {
        let text = wide(bytes);
        for (part, name) in [(0, "start"), (1, "middle"), (2, "end")] {
            time_edits(&format!("{name}-{bytes}"), &text, if bytes == 1_000 { 0 } else { at(&text, part) }, runs);
        }
    }
    let many = FUNCTION.repeat(10_000);
    time_edits("functions-10000", &many, at(&many, 1), 20);
    let deep = format!("fn name() {{ {}a{}; }}\n", "f(".repeat(1_000), ")".repeat(1_000));
    time_edits("nested-1000", &deep, 0, 20);
}

// Reads a text as often as is said, and keeps all trees.
fn keep(bytes: usize, count: usize) {
    let text = FUNCTION.repeat(bytes / FUNCTION.len());
    let files: Vec<File> = (0..count).map(|_| parse(&text)).collect();
    println!("keep {} {}", text.len(), black_box(files).len());
    // The system takes the memory back.
    std::process::exit(0);
}

fn main() {
    let number = |word: usize| std::env::args().nth(word).and_then(|text| text.parse().ok()).unwrap_or(0);
    let all = move || match std::env::args().nth(1).as_deref() {
        Some("keep") => keep(number(2), number(3)),
        Some("dump") => {
            let mut text = String::new();
            std::io::stdin().read_to_string(&mut text).unwrap();
            print!("{}", dump(&parse(&text)));
        }
        _ => time_all(),
    };
    // The parser goes as deep as its input.
    std::thread::Builder::new().stack_size(1 << 30).spawn(all).unwrap().join().unwrap();
}
