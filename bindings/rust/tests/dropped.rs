//! A dropped tree leaves nothing behind. The test is alone in its program, since it looks at the memory of the whole process.
#![cfg(target_os = "linux")]
use ras::{Edition, Tree};

// The kilobytes of this process that are in memory.
fn resident() -> usize {
    let status = std::fs::read_to_string("/proc/self/status").expect("Linux has it");
    let line = status.lines().find_map(|it| it.strip_prefix("VmRSS:")).expect("it has the line");
    line.trim().trim_end_matches(" kB").parse().expect("it is a number")
}

fn parse(text: &str) -> Tree {
    Tree::parse(text, Edition::CURRENT).expect("there is memory")
}

#[test]
fn a_dropped_tree_leaves_nothing() {
    let text = "fn f(a: &[u8]) -> Option<u8> { a.iter().map(|b| (b + 1) * 2).max() }\n".repeat(3_000);
    let rounds = |number| (0..number).for_each(|_| assert!(!parse(&text).rows().is_empty()));
    rounds(3);
    let before = resident();
    rounds(40);
    // The rows of one tree have some 1,500 kilobytes.
    let more = resident().saturating_sub(before);
    assert!(more < 20_000, "{more} kB stay behind");
}
