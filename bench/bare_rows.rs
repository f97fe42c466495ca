//! What `preorder_with_tokens` has to do at the least: a plain Rust loop over rows of 16 bytes and a column of parents, as
//! `lossless_tree` keeps them, that enters and leaves each row. It makes no cursors and hands nothing out. Asked for `counted`, it
//! hands out a cursor at each step that is counted up and down again, where a full count stays full, as owners of a tree are in
//! `shared_pointer`. Asked for `one-edit`, `column` or `ten-edits`, it looks the starts up as after edits that are not copied into the
//! rows: past one edited token, the same with the starts in a column of their own, and in a list of ten edits. It goes over the same trees as `benches trees` and prints the same lines for that one operation.

use std::cell::Cell;
use std::hint::black_box;
use std::time::Instant;

#[derive(Clone, Copy)]
struct Row {
    // A tree has kinds; nothing that is measured reads them.
    #[allow(dead_code)]
    kind: u16,
    start: u32,
    // The number of the first row after the subtree.
    behind: u64,
}

#[derive(Default)]
struct Rows {
    rows: Vec<Row>,
    parents: Vec<u64>,
    open: Vec<usize>,
    at: u32,
}

impl Rows {
    fn push(&mut self) -> usize {
        let number = self.rows.len();
        self.parents.push(*self.open.last().unwrap_or(&number) as u64);
        self.rows.push(Row { kind: 1, start: self.at, behind: number as u64 + 1 });
        number
    }

    fn start_node(&mut self) {
        let number = self.push();
        self.open.push(number);
    }

    fn token(&mut self, len: u32) {
        self.push();
        self.at += len;
    }

    fn finish_node(&mut self) {
        let node = self.open.pop().unwrap();
        self.rows[node].behind = self.rows.len() as u64;
    }

    // How many rows are entered, and the sum of their starts, which `start` looks up.
    #[inline(always)]
    fn walk(&self, start: impl Fn(usize) -> u32) -> (u64, u64) {
        let (mut count, mut sum) = (1, start(0) as u64);
        let (mut next, mut innermost) = (1, 0);
        loop {
            if next < self.rows[innermost].behind as usize {
                count += 1;
                sum += start(next) as u64;
                innermost = next;
                next += 1;
            } else if innermost == 0 {
                return (count, sum);
            } else {
                innermost = self.parents[innermost] as usize;
            }
        }
    }
}

// A cursor, which counts as an owner of the rows while it is there.
struct Cursor<'r> {
    rows: &'r Rows,
    owners: &'r Cell<usize>,
    row: usize,
}

impl<'r> Cursor<'r> {
    fn new(rows: &'r Rows, owners: &'r Cell<usize>, row: usize) -> Cursor<'r> {
        if owners.get() != usize::MAX {
            owners.set(owners.get() + 1);
        }
        Cursor { rows, owners, row }
    }
}

impl Drop for Cursor<'_> {
    fn drop(&mut self) {
        if self.owners.get() != usize::MAX {
            self.owners.set(self.owners.get() - 1);
        }
    }
}

// The walk, whose steps enter (true) or leave a cursor.
struct Walk<'r> {
    rows: &'r Rows,
    owners: &'r Cell<usize>,
    next: usize,
    innermost: Option<usize>,
}

impl<'r> Iterator for Walk<'r> {
    type Item = (bool, Cursor<'r>);

    fn next(&mut self) -> Option<(bool, Cursor<'r>)> {
        let (enters, row) = match self.innermost {
            None if self.next != 0 => return None,
            None => (true, 0),
            Some(inner) if self.next < self.rows.rows[inner].behind as usize => (true, self.next),
            Some(inner) => (false, inner),
        };
        if enters {
            self.next += 1;
            self.innermost = Some(row);
        } else {
            self.innermost = if row == 0 { None } else { Some(self.rows.parents[row] as usize) };
        }
        Some((enters, Cursor::new(self.rows, self.owners, row)))
    }
}

// How many rows are entered, and the sum of their starts, by cursors.
fn walk_counted(rows: &Rows, owners: &Cell<usize>) -> (u64, u64) {
    let (mut count, mut sum) = (0, 0);
    for (enters, cursor) in (Walk { rows, owners, next: 0, innermost: None }) {
        if enters {
            count += 1;
            sum += cursor.rows.rows[cursor.row].start as u64;
        }
    }
    (count, sum)
}

fn add_balanced(rows: &mut Rows, depth: u32) {
    if depth == 0 {
        rows.token(2);
        return;
    }
    rows.start_node();
    for _ in 0..4 {
        add_balanced(rows, depth - 1);
    }
    rows.finish_node();
}

fn balanced(depth: u32) -> Rows {
    let mut rows = Rows::default();
    add_balanced(&mut rows, depth);
    rows
}

fn wide(children: u64) -> Rows {
    let mut rows = Rows::default();
    rows.start_node();
    for _ in 0..children / 2 {
        rows.start_node();
        rows.token(2);
        rows.finish_node();
        rows.token(1);
    }
    rows.finish_node();
    rows
}

fn chain(depth: u64) -> Rows {
    let mut rows = Rows::default();
    for _ in 0..depth {
        rows.start_node();
    }
    rows.token(2);
    for _ in 0..depth {
        rows.finish_node();
    }
    rows
}

// Ways to keep the starts after edits that are not copied into the rows: one edited token, and the starts in a column of their own;
// or a list of ten edited tokens, searched for each start. Each edit is by 0 bytes, so that the sums stay the same.
#[derive(Clone, Copy)]
enum Way {
    Rows,
    Counted,
    OneEdit,
    Column,
    TenEdits,
}

fn walk_by(way: Way, rows: &Rows, starts: &[u32], edits: &[(usize, u32)], owners: &Cell<usize>) -> (u64, u64) {
    let (at, by) = edits[edits.len() / 2];
    match way {
        Way::Rows => rows.walk(|row| rows.rows[row].start),
        Way::Counted => walk_counted(rows, owners),
        Way::OneEdit => rows.walk(|row| rows.rows[row].start + if row > at { by } else { 0 }),
        Way::Column => rows.walk(|row| starts[row] + if row > at { by } else { 0 }),
        Way::TenEdits => rows.walk(|row| match edits.partition_point(|edit| edit.0 < row) {
            0 => rows.rows[row].start,
            passed => rows.rows[row].start + edits[passed - 1].1,
        }),
    }
}

fn time(way: Way, name: &str, runs: u32, rows: Rows) {
    let owners = Cell::new(1);
    let starts: Vec<u32> = rows.rows.iter().map(|row| row.start).collect();
    let edits: Vec<(usize, u32)> = (1..=10).map(|edit| (rows.rows.len() * edit / 11, 0)).collect();
    let mut best = u128::MAX;
    let mut seen = (0, 0);
    for _ in 0..runs {
        let start = Instant::now();
        seen = walk_by(black_box(way), black_box(&rows), black_box(&starts), black_box(&edits), black_box(&owners));
        black_box(seen);
        best = best.min(start.elapsed().as_nanos());
    }
    println!("preorder_with_tokens {name} {} {best} {}", seen.0, seen.1);
}

fn main() {
    let way = match std::env::args().nth(1).as_deref() {
        Some("counted") => Way::Counted,
        Some("one-edit") => Way::OneEdit,
        Some("column") => Way::Column,
        Some("ten-edits") => Way::TenEdits,
        _ => Way::Rows,
    };
    for (depth, runs) in [(5, 50), (7, 20), (8, 10), (10, 3)] {
        time(way, &format!("balanced-4^{depth}"), runs, balanced(depth));
    }
    time(way, "wide-100000", 10, wide(100_000));
    time(way, "chain-10000", 20, chain(10_000));
}
