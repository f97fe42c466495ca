//! Questions about names.
use crate::tree::Edition;
use ras_sys::{self as raw, Word};

// What a text is as a word, by the library's proved call.
fn word(text: &str, edition: Edition) -> Word {
    crate::version::check();
    let mut word = Word { keyword: raw::NO_KIND, contextual: raw::NO_KIND, is_identifier: false, is_raw_identifier: false };
    // SAFETY: the text is borrowed for the call, with its length. The call is refused for no text and edition that there are.
    unsafe { raw::ras_c_word(text.as_ptr(), text.len(), edition.year(), &mut word) };
    word
}

/// Whether a text is an identifier that is no keyword everywhere in the edition; it may be one in some places only, as `union`.
///
/// ```
/// use ras::{Edition, utils};
///
/// assert!(utils::is_identifier("union", Edition::CURRENT));
/// assert!(!utils::is_identifier("fn", Edition::CURRENT) && !utils::is_identifier("r#fn", Edition::CURRENT));
/// ```
pub fn is_identifier(name: &str, edition: Edition) -> bool {
    word(name, edition).is_identifier
}

/// Whether a text is a keyword everywhere in the edition that may be written with `r#` as a name: all but `self`, `super`, `crate`, `Self`.
///
/// ```
/// use ras::{Edition, utils};
///
/// assert!(utils::is_raw_identifier("fn", Edition::CURRENT));
/// assert!(!utils::is_raw_identifier("self", Edition::CURRENT) && !utils::is_raw_identifier("f", Edition::CURRENT));
/// ```
pub fn is_raw_identifier(name: &str, edition: Edition) -> bool {
    word(name, edition).is_raw_identifier
}
