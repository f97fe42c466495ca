//! The opponent of `benches trees`: a syntax tree of the kind that `rowan` keeps, in plain Rust and std alone. Green nodes and
//! tokens are shared by `Rc`, one block each, and a node has the offset of each of its children; a cursor is an `Rc` of its
//! own with its parent, its index there and its offset. It runs the same operations over the same trees as `benches trees` and
//! prints the same lines.

use std::hint::black_box;
use std::rc::Rc;
use std::time::Instant;

const NODE: u16 = 1;
const NAME: u16 = 2;
const TOKEN: u16 = 3;
const BLANK: u16 = 4;

// ---- green

#[derive(Clone)]
struct GreenToken {
    // A tree has kinds; nothing that is measured reads them.
    #[allow(dead_code)]
    kind: u16,
    text: Rc<str>,
}

#[derive(Clone)]
struct GreenNode {
    #[allow(dead_code)]
    kind: u16,
    text_len: u32,
    // The offset of each child in the node, and the child.
    children: Rc<[(u32, Green)]>,
}

#[derive(Clone)]
enum Green {
    Node(GreenNode),
    Token(GreenToken),
}

impl Green {
    fn text_len(&self) -> u32 {
        match self {
            Green::Node(node) => node.text_len,
            Green::Token(token) => token.text.len() as u32,
        }
    }
}

#[derive(Default)]
struct Builder {
    // The kind of each open node and where its children begin.
    open: Vec<(u16, usize)>,
    children: Vec<Green>,
}

impl Builder {
    fn start_node(&mut self, kind: u16) {
        self.open.push((kind, self.children.len()));
    }

    fn token(&mut self, kind: u16, text: &str) {
        let text = text.into();
        self.children.push(Green::Token(GreenToken { kind, text }));
    }

    fn finish_node(&mut self) {
        let (kind, first) = self.open.pop().unwrap();
        let mut text_len = 0;
        let children = self
            .children
            .drain(first..)
            .map(|child| {
                let offset = text_len;
                text_len += child.text_len();
                (offset, child)
            })
            .collect();
        self.children.push(Green::Node(GreenNode { kind, text_len, children }));
    }

    fn finish(mut self) -> Node {
        match self.children.pop() {
            Some(Green::Node(green)) => Node(Rc::new(NodeData { green, parent: None, index: 0, offset: 0 })),
            _ => panic!("no root"),
        }
    }
}

// ---- red

struct NodeData {
    green: GreenNode,
    parent: Option<Node>,
    index: u32,
    offset: u32,
}

#[derive(Clone)]
struct Node(Rc<NodeData>);

struct TokenData {
    green: GreenToken,
    parent: Node,
    index: u32,
    offset: u32,
}

#[derive(Clone)]
struct Token(Rc<TokenData>);

#[derive(Clone)]
enum Element {
    Node(Node),
    Token(Token),
}

enum WalkEvent<T> {
    Enter(T),
    Leave(T),
}

impl Node {
    fn child(&self, index: usize) -> Option<Element> {
        let (relative, green) = self.0.green.children.get(index)?;
        let offset = self.0.offset + relative;
        let (parent, index) = (self.clone(), index as u32);
        Some(match green {
            Green::Node(green) => {
                let green = green.clone();
                Element::Node(Node(Rc::new(NodeData { green, parent: Some(parent), index, offset })))
            }
            Green::Token(green) => Element::Token(Token(Rc::new(TokenData { green: green.clone(), parent, index, offset }))),
        })
    }

    fn child_node_from(&self, from: usize) -> Option<Node> {
        let later = self.0.green.children.get(from..)?;
        let index = from + later.iter().position(|(_, child)| matches!(child, Green::Node(_)))?;
        match self.child(index) {
            Some(Element::Node(node)) => Some(node),
            _ => None,
        }
    }

    fn parent(&self) -> Option<Node> {
        self.0.parent.clone()
    }

    fn first_child_or_token(&self) -> Option<Element> {
        self.child(0)
    }

    fn next_sibling_or_token(&self) -> Option<Element> {
        self.0.parent.as_ref()?.child(self.0.index as usize + 1)
    }

    fn first_child(&self) -> Option<Node> {
        self.child_node_from(0)
    }

    fn next_sibling(&self) -> Option<Node> {
        self.0.parent.as_ref()?.child_node_from(self.0.index as usize + 1)
    }

    fn first_token(&self) -> Option<Token> {
        let mut index = 0;
        while let Some(child) = self.child(index) {
            match child {
                Element::Token(token) => return Some(token),
                Element::Node(node) => {
                    if let Some(token) = node.first_token() {
                        return Some(token);
                    }
                }
            }
            index += 1;
        }
        None
    }

    fn start(&self) -> u32 {
        self.0.offset
    }

    fn end(&self) -> u32 {
        self.0.offset + self.0.green.text_len
    }

    // The child that holds the range, by halves.
    fn child_at(&self, from: u32, to: u32) -> Option<Element> {
        let children = &self.0.green.children;
        let (from, to) = (from - self.0.offset, to - self.0.offset);
        let index = children.partition_point(|(start, _)| *start <= from).checked_sub(1)?;
        let (start, child) = &children[index];
        if to <= start + child.text_len() {
            self.child(index)
        } else {
            None
        }
    }

    // The token that holds the byte before or after the offset.
    fn token_at_offset(&self, offset: u32) -> Option<Token> {
        let mut node = self.clone();
        loop {
            let from = if offset == node.end() { offset - 1 } else { offset };
            match node.child_at(from, from + 1)? {
                Element::Token(token) => return Some(token),
                Element::Node(next) => node = next,
            }
        }
    }

    fn covering_element(&self, from: u32, to: u32) -> Element {
        let mut node = self.clone();
        loop {
            match node.child_at(from, to) {
                Some(Element::Node(next)) => node = next,
                Some(token) => return token,
                None => return Element::Node(node),
            }
        }
    }
}

impl Token {
    fn text(&self) -> &str {
        &self.0.green.text
    }

    fn next_token(&self) -> Option<Token> {
        let mut next = self.0.parent.child(self.0.index as usize + 1);
        let mut up = Some(self.0.parent.clone());
        loop {
            match next {
                Some(Element::Token(token)) => return Some(token),
                Some(Element::Node(node)) => {
                    if let Some(token) = node.first_token() {
                        return Some(token);
                    }
                    next = node.next_sibling_or_token();
                }
                None => {
                    let node = up?;
                    next = node.next_sibling_or_token();
                    up = node.parent();
                }
            }
        }
    }
}

impl Element {
    fn next_sibling_or_token(&self) -> Option<Element> {
        match self {
            Element::Node(node) => node.next_sibling_or_token(),
            Element::Token(token) => token.0.parent.child(token.0.index as usize + 1),
        }
    }

    fn start(&self) -> u32 {
        match self {
            Element::Node(node) => node.0.offset,
            Element::Token(token) => token.0.offset,
        }
    }
}

struct Preorder {
    start: Node,
    next: Option<WalkEvent<Element>>,
}

impl Iterator for Preorder {
    type Item = WalkEvent<Element>;

    fn next(&mut self) -> Option<WalkEvent<Element>> {
        let event = self.next.take()?;
        self.next = match &event {
            WalkEvent::Enter(Element::Node(node)) => Some(match node.first_child_or_token() {
                Some(child) => WalkEvent::Enter(child),
                None => WalkEvent::Leave(Element::Node(node.clone())),
            }),
            WalkEvent::Enter(token) => Some(WalkEvent::Leave(token.clone())),
            WalkEvent::Leave(Element::Node(node)) if Rc::ptr_eq(&node.0, &self.start.0) => None,
            WalkEvent::Leave(element) => Some(match element.next_sibling_or_token() {
                Some(next) => WalkEvent::Enter(next),
                None => WalkEvent::Leave(Element::Node(match element {
                    Element::Node(node) => node.parent().unwrap(),
                    Element::Token(token) => token.0.parent.clone(),
                })),
            }),
        };
        Some(event)
    }
}

struct Descendants {
    start: Node,
    next: Option<WalkEvent<Node>>,
}

impl Iterator for Descendants {
    type Item = Node;

    fn next(&mut self) -> Option<Node> {
        loop {
            let event = self.next.take()?;
            self.next = match &event {
                WalkEvent::Enter(node) => Some(match node.first_child() {
                    Some(child) => WalkEvent::Enter(child),
                    None => WalkEvent::Leave(node.clone()),
                }),
                WalkEvent::Leave(node) if Rc::ptr_eq(&node.0, &self.start.0) => None,
                WalkEvent::Leave(node) => Some(match node.next_sibling() {
                    Some(next) => WalkEvent::Enter(next),
                    None => WalkEvent::Leave(node.parent().unwrap()),
                }),
            };
            if let WalkEvent::Enter(node) = event {
                return Some(node);
            }
        }
    }
}

impl Node {
    fn preorder_with_tokens(&self) -> Preorder {
        Preorder { start: self.clone(), next: Some(WalkEvent::Enter(Element::Node(self.clone()))) }
    }

    fn descendants(&self) -> Descendants {
        Descendants { start: self.clone(), next: Some(WalkEvent::Enter(self.clone())) }
    }

    fn deepest(&self) -> Node {
        let mut node = self.clone();
        while let Some(child) = node.first_child() {
            node = child;
        }
        node
    }
}

// ---- the trees

// Four children a node; 4^depth tokens of two bytes.
fn balanced(depth: u32) -> Node {
    let mut builder = Builder::default();
    for leaf in 0..4_u64.pow(depth) {
        for level in 1..=depth {
            if leaf % 4_u64.pow(level) == 0 {
                builder.start_node(NODE);
            }
        }
        builder.token(TOKEN, "ab");
        for level in 1..=depth {
            if (leaf + 1) % 4_u64.pow(level) == 0 {
                builder.finish_node();
            }
        }
    }
    builder.finish()
}

// One node with as many children: a node with one token, a blank, and so on.
fn wide(children: u64) -> Node {
    let mut builder = Builder::default();
    builder.start_node(NODE);
    for _ in 0..children / 2 {
        builder.start_node(NAME);
        builder.token(TOKEN, "ab");
        builder.finish_node();
        builder.token(BLANK, " ");
    }
    builder.finish_node();
    builder.finish()
}

// As many nodes, each in the one before, and a token in the last.
fn chain(depth: u64) -> Node {
    let mut builder = Builder::default();
    for _ in 0..depth {
        builder.start_node(NODE);
    }
    builder.token(TOKEN, "ab");
    for _ in 0..depth {
        builder.finish_node();
    }
    builder.finish()
}

// ---- measuring

// The least nanoseconds of a few runs; a run gives how many elements it saw and a sum over them.
fn measure(operation: &str, tree: &str, runs: u32, mut run: impl FnMut() -> (u64, u64)) {
    let mut best = u128::MAX;
    let mut seen = (0, 0);
    for _ in 0..runs {
        let start = Instant::now();
        seen = black_box(run());
        best = best.min(start.elapsed().as_nanos());
    }
    println!("{operation} {tree} {} {best} {}", seen.0, seen.1);
}

// Ten thousand offsets, spread over a text of so many bytes, and never the last three.
fn spread(len: u32) -> impl Iterator<Item = u32> {
    let mut offset: u32 = 7;
    (0..10_000).map(move |_| {
        offset = offset.wrapping_mul(1_664_525).wrapping_add(1_013_904_223);
        ((offset as u64 * (len - 4) as u64) >> 32) as u32
    })
}

// What is measured over each tree; it is given back.
fn time_tree(name: &str, runs: u32, build: impl Fn() -> Node) -> Node {
    let places = build().preorder_with_tokens().count() as u64 / 2;
    measure("build", name, runs, || (places, black_box(build()).end() as u64));
    let mut best = u128::MAX;
    for _ in 0..runs {
        let root = build();
        let start = Instant::now();
        drop(black_box(root));
        best = best.min(start.elapsed().as_nanos());
    }
    println!("drop {name} {places} {best} 0");
    let root = build();
    measure("preorder_with_tokens", name, runs, || {
        let (mut count, mut sum) = (0, 0);
        for event in root.preorder_with_tokens() {
            if let WalkEvent::Enter(element) = event {
                count += 1;
                sum += element.start() as u64;
            }
        }
        (count, sum)
    });
    measure("descendants", name, runs, || {
        let (mut count, mut sum) = (0, 0);
        for node in root.descendants() {
            count += 1;
            sum += node.start() as u64;
        }
        (count, sum)
    });
    // Each clone is dropped as the next is made.
    measure("clone", name, runs, || {
        let (mut count, mut sum) = (0, 0);
        let mut here = root.clone();
        for _ in 0..10_000 {
            here = black_box(here.clone());
            count += 1;
            sum += here.start() as u64;
        }
        (count, sum)
    });
    root
}

// What is measured over a tree of many tokens.
fn time_tokens(name: &str, runs: u32, root: &Node) {
    measure("next_token", name, runs, || {
        let (mut count, mut sum) = (0, 0);
        let mut token = root.first_token();
        while let Some(here) = token {
            count += 1;
            sum += here.0.offset as u64;
            token = here.next_token();
        }
        (count, sum)
    });
    measure("text", name, runs, || {
        let (mut count, mut sum) = (0, 0);
        let mut token = root.first_token();
        while let Some(here) = token {
            count += 1;
            sum += here.text().as_bytes()[0] as u64;
            token = here.next_token();
        }
        (count, sum)
    });
    measure("token_at_offset", name, runs, || {
        let (mut count, mut sum) = (0, 0);
        for offset in spread(root.end()) {
            count += 1;
            sum += root.token_at_offset(offset).map_or(0, |token| token.0.offset as u64);
        }
        (count, sum)
    });
    measure("covering_element", name, runs, || {
        let (mut count, mut sum) = (0, 0);
        for offset in spread(root.end()) {
            count += 1;
            let element = root.covering_element(offset, offset + 3);
            sum += element.start() as u64;
        }
        (count, sum)
    });
}

// The child nodes one after another; a cursor of this kind has no faster way.
fn child_nodes(root: &Node) -> (u64, u64) {
    let (mut count, mut sum) = (0, 0);
    let mut child = root.first_child();
    while let Some(node) = child {
        count += 1;
        sum += node.start() as u64;
        child = node.next_sibling();
    }
    (count, sum)
}

// What is measured over a node with many children.
fn time_children(name: &str, runs: u32, root: &Node) {
    measure("children", name, runs, || child_nodes(root));
    measure("next_sibling", name, runs, || child_nodes(root));
    measure("next_sibling_or_token", name, runs, || {
        let (mut count, mut sum) = (0, 0);
        let mut child = root.first_child_or_token();
        while let Some(element) = child {
            count += 1;
            sum += element.start() as u64;
            child = element.next_sibling_or_token();
        }
        (count, sum)
    });
}

// What is measured over a deep tree.
fn time_ancestors(name: &str, runs: u32, root: &Node) {
    let deepest = root.deepest();
    measure("ancestors", name, runs, || {
        let (mut count, mut sum) = (0, 0);
        let mut node = Some(deepest.clone());
        while let Some(here) = node {
            count += 1;
            sum += here.end() as u64;
            node = here.parent();
        }
        (count, sum)
    });
}

fn main() {
    for (depth, runs) in [(5, 50), (7, 20), (8, 10), (10, 3)] {
        let name = format!("balanced-4^{depth}");
        let root = time_tree(&name, runs, || balanced(depth));
        time_tokens(&name, runs, &root);
    }
    let root = time_tree("wide-100000", 10, || wide(100_000));
    time_tokens("wide-100000", 10, &root);
    time_children("wide-100000", 10, &root);
    let root = time_tree("chain-10000", 20, || chain(10_000));
    time_ancestors("chain-10000", 20, &root);
}
