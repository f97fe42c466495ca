//! The number of the library's kinds and calls.
use ras_sys as raw;
use std::sync::OnceLock;

static FOUND: OnceLock<u32> = OnceLock::new();

/// Panics if the library that is linked has other kinds and calls than this crate knows.
pub(crate) fn check() {
    // SAFETY: the call takes nothing.
    let found = *FOUND.get_or_init(|| unsafe { raw::ras_c_version() });
    assert!(found == raw::VERSION, "{}", difference(found));
}

fn difference(found: u32) -> String {
    let known = raw::VERSION;
    format!("libras_c.a has the number {found:08x} of kinds and calls, and the crate ras {known:08x}: build both from one state of the repository")
}

#[test]
fn both_numbers_are_named() {
    check();
    let told = difference(!raw::VERSION);
    assert!(told.contains(&format!("{:08x}", raw::VERSION)) && told.contains(&format!("{:08x}", !raw::VERSION)));
}
