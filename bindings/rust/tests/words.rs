//! Words: the tables of this crate beside the library's call, in each edition.
use ras::{Edition, SyntaxKind, utils};
use ras_sys::{NO_KIND, OK, Word, ras_c_word};

// The texts of all kinds that have one, and some that are no keywords.
fn texts() -> Vec<&'static str> {
    let kinds = (0..70_000).filter_map(SyntaxKind::from_number);
    let others = ["", "_", "f", "größe", "1a", "a b", "r#fn", "fn ", "Fn", "\u{301}a", "asm", "safe", "raw", "async", "try", "gen", "dyn"];
    kinds.map(|it| it.text()).chain(others).collect()
}

#[test]
fn each_word_is_what_the_library_says() {
    let mut keywords = 0;
    for text in texts() {
        for edition in Edition::iter() {
            let mut word = Word { keyword: 9, contextual: 9, is_identifier: true, is_raw_identifier: true };
            // SAFETY: the text is borrowed for the call, with its length.
            assert_eq!(unsafe { ras_c_word(text.as_ptr(), text.len(), edition.number() as u32, &mut word) }, OK);
            let number = |kind: Option<SyntaxKind>| kind.map_or(NO_KIND, |it| it.number());
            assert_eq!(number(SyntaxKind::from_keyword(text, edition)), word.keyword, "{text} in {edition}");
            assert_eq!(number(SyntaxKind::from_contextual_keyword(text, edition)), word.contextual, "{text} in {edition}");
            assert_eq!(utils::is_identifier(text, edition), word.is_identifier, "{text} in {edition}");
            assert_eq!(utils::is_raw_identifier(text, edition), word.is_raw_identifier, "{text} in {edition}");
            assert!(word.keyword == NO_KIND || !word.is_identifier, "{text} in {edition}");
            keywords += usize::from(word.keyword != NO_KIND);
        }
    }
    assert!(keywords > 4 * 40, "{keywords}");
}
