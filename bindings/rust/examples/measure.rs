//! Times the library: the least processor time of some rounds of reading a file, of walks over all nodes and tokens of its tree, which
//! borrow it or own a share of it, of an edit of the name in its middle, and of such an edit with the tree after it. What a round makes is
//! dropped behind the clock.
//!
//! With the name of a line, only that is done, and nothing that it makes is dropped: for counting instructions.
use ras::{Edition, Entry, Errors, Live, SyntaxKind, Tree};
use std::hint::black_box;
use std::time::Duration;

#[repr(C)]
struct Timespec {
    seconds: i64,
    nanoseconds: i64,
}

unsafe extern "C" {
    fn clock_gettime(clock: i32, at: *mut Timespec) -> i32;
}

// The processor time of this process, as Linux counts it: what else the machine does counts for nothing.
fn processor_time() -> Duration {
    const PROCESS: i32 = 2;
    let mut at = Timespec { seconds: 0, nanoseconds: 0 };
    // SAFETY: `at` is a whole `timespec` of 64-bit Linux, which the call fills.
    let status = unsafe { clock_gettime(PROCESS, &mut at) };
    assert_eq!(status, 0, "Linux counts the time of each process");
    Duration::new(at.seconds as u64, at.nanoseconds as u32)
}

struct Rounds {
    number: u32,
    only: Option<String>,
}

impl Rounds {
    // Prints the least time of the rounds, in nanoseconds for each of some things, as bytes.
    fn tell<T>(&self, name: &str, things: usize, unit: &str, mut work: impl FnMut() -> T) {
        if let Some(only) = &self.only {
            if only == name {
                (0..self.number).for_each(|_| std::mem::forget(black_box(work())));
            }
            return;
        }
        let timed = (0..self.number).map(|_| {
            let begun = processor_time();
            let made = black_box(work());
            let taken = processor_time() - begun;
            drop(made);
            taken
        });
        println!("{name}: {:.2} {unit}", timed.min().unwrap_or_default().as_nanos() as f64 / things.max(1) as f64);
    }
}

fn main() -> Result<(), Box<dyn std::error::Error>> {
    let mut words = std::env::args().skip(1);
    let (Some(name), Some(number)) = (words.next(), words.next()) else {
        return Err("usage: measure FILE ROUNDS [LINE]".into());
    };
    let (text, rounds) = (std::fs::read_to_string(name)?, Rounds { number: number.parse()?, only: words.next() });
    let text = text.as_str();
    let tree = Tree::parse(text, Edition::CURRENT)?;
    let (bytes, rows) = (text.len(), tree.rows().len());
    println!("bytes {bytes} rows {rows} errors {}", tree.errors().len());
    rounds.tell("Tree::parse", bytes, "ns/byte", || Tree::parse(text, Edition::CURRENT));
    rounds.tell("Tree::parse_as, parse errors", bytes, "ns/byte", || {
        Tree::parse_as(text, Edition::CURRENT, Entry::SourceFile, Errors::Parse)
    });
    // It copies the text, and parses it.
    rounds.tell("the proved parse", bytes, "ns/byte", || Live::parse(text, Edition::CURRENT));
    for (name, things, unit) in [("walk", bytes, "ns/byte"), ("walk of borrowed nodes", rows, "ns/row")] {
        rounds.tell(name, things, unit, || {
            tree.root().descendants_with_tokens().fold(0, |sum, it| sum ^ it.kind().number() as usize ^ it.text().len())
        });
    }
    rounds.tell("walk of owned nodes", rows, "ns/row", || {
        tree.syntax_node().descendants_with_tokens().fold(0, |sum, it| sum ^ it.kind().number() as usize ^ it.text().len())
    });
    let mut names = tree.root().tokens().filter(|it| it.kind() == SyntaxKind::IDENT);
    if let Some(name) = names.find(|it| usize::from(it.text_range().start()) >= bytes / 2) {
        let mut live = Live::parse(text, Edition::CURRENT)?;
        rounds.tell("edit of a name", 1000, "us", || live.edit(name.text_range(), name.text()));
        for (line, errors) in [
            ("edit and Live::tree", Errors::All),
            ("edit and Live::tree, parse errors", Errors::Parse),
            ("edit and Live::tree, no errors", Errors::Nothing),
        ] {
            rounds.tell(line, 1000, "us", || live.edit(name.text_range(), name.text()).map(|_| live.tree_with(errors)));
        }
    }
    Ok(())
}
