//! Lines and columns, by counting.
use ras::{LineCol, LineIndex, TextRange, TextSize, WideEncoding, WideLineCol};
use ras_sys::{ENCODING_UTF8, ENCODING_UTF16, ENCODING_UTF32, NO_PLACE, OK, ras_c_line_cols, ras_c_line_starts, ras_c_offsets};

const TEXTS: [&str; 9] = ["", "\n", "a", "a\nbc", "a\n\nä\n", "ä€𝄞x\n𝄞𝄞", "\r\n\t\r\n", "fn f() { \"ß\" }\n// 🦀\n", "\n\n\n"];

#[test]
fn offsets_are_counted() {
    for text in TEXTS {
        let index = LineIndex::new(text);
        assert_eq!((index.len(), index.is_empty()), (TextSize::of(text), text.is_empty()));
        for offset in 0..=text.len() + 2 {
            let at = TextSize::new(offset as u32);
            let Some(before) = text.get(..offset) else {
                assert_eq!(index.try_line_col(at), None, "{text:?} {offset}");
                continue;
            };
            let line = before.matches('\n').count() as u32;
            let begun = &before[before.rfind('\n').map_or(0, |it| it + 1)..];
            let place = LineCol { line, col: begun.len() as u32 };
            assert_eq!((index.line_col(at), index.offset(place)), (place, Some(at)), "{text:?} {offset}");
            for (encoding, col) in [(WideEncoding::Utf16, begun.encode_utf16().count()), (WideEncoding::Utf32, begun.chars().count())] {
                let wide = WideLineCol { line, col: col as u32 };
                assert_eq!(encoding.measure(begun), col);
                assert_eq!(index.to_wide(encoding, place), Some(wide), "{text:?} {offset}");
                assert_eq!(index.to_utf8(encoding, wide), Some(place), "{text:?} {offset}");
            }
        }
    }
}

#[test]
fn places_that_are_none_have_no_offset() {
    for text in TEXTS {
        let index = LineIndex::new(text);
        let lines: Vec<&str> = text.split_inclusive('\n').chain(text.ends_with('\n').then_some("").or(text.is_empty().then_some(""))).collect();
        for line in 0..lines.len() as u32 + 2 {
            for col in 0..20 {
                let known = lines.get(line as usize).filter(|it| col as usize + usize::from(it.ends_with('\n')) <= it.len());
                assert_eq!(index.offset(LineCol { line, col }).is_some(), known.is_some(), "{text:?} {line} {col}");
                for encoding in [WideEncoding::Utf16, WideEncoding::Utf32] {
                    // A column is known if a character of the line starts there, or the text ends.
                    let starts = known_columns(lines.get(line as usize), encoding);
                    let found = index.to_utf8(encoding, WideLineCol { line, col });
                    assert_eq!(found.is_some(), starts.contains(&(col as usize)), "{text:?} {line} {col} {encoding:?}");
                }
            }
        }
    }
}

fn known_columns(line: Option<&&str>, encoding: WideEncoding) -> Vec<usize> {
    let Some(line) = line else { return Vec::new() };
    let starts = line.char_indices().map(|it| it.0).chain((!line.ends_with('\n')).then_some(line.len()));
    starts.map(|it| encoding.measure(&line[..it])).collect()
}

// What a call that converts a list answers: the results, or the number of the first element without one.
fn converted<T, U: Clone>(call: impl Fn(*const T, usize, *mut U, usize, *mut u32) -> u32, given: &[T], none: U) -> Result<Vec<U>, u32> {
    let (mut out, mut count) = (vec![none; given.len()], 0);
    match call(given.as_ptr(), given.len(), out.as_mut_ptr(), out.len(), &mut count) {
        OK => Ok(out),
        NO_PLACE => Err(count),
        status => panic!("the status {status}"),
    }
}

// The places of offsets of a text, by the library; the columns are in bytes if there is no encoding.
fn library_places(text: &str, encoding: Option<WideEncoding>, offsets: &[u32]) -> Result<Vec<(u32, u32)>, u32> {
    let none = ras_sys::LineCol { line: 0, col: 0 };
    // SAFETY: each pointer is to as many elements as is said, and no two buffers overlap; so below.
    let call = |given, len, out, room, count| unsafe { ras_c_line_cols(text.as_ptr(), text.len(), number(encoding), given, len, out, room, count) };
    Ok(converted(call, offsets, none)?.into_iter().map(|it| (it.line, it.col)).collect())
}

fn library_offsets(text: &str, encoding: Option<WideEncoding>, places: &[(u32, u32)]) -> Result<Vec<u32>, u32> {
    let places: Vec<_> = places.iter().map(|&(line, col)| ras_sys::LineCol { line, col }).collect();
    converted(|given, len, out, room, count| unsafe { ras_c_offsets(text.as_ptr(), text.len(), number(encoding), given, len, out, room, count) }, &places, 0)
}

fn number(encoding: Option<WideEncoding>) -> u32 {
    match encoding {
        None => ENCODING_UTF8,
        Some(WideEncoding::Utf16) => ENCODING_UTF16,
        Some(WideEncoding::Utf32) => ENCODING_UTF32,
    }
}

// The same by this crate.
fn place(index: &LineIndex, encoding: Option<WideEncoding>, offset: u32) -> Option<(u32, u32)> {
    let at = index.try_line_col(offset.into())?;
    match encoding {
        None => Some((at.line, at.col)),
        Some(encoding) => index.to_wide(encoding, at).map(|it| (it.line, it.col)),
    }
}

fn offset(index: &LineIndex, encoding: Option<WideEncoding>, (line, col): (u32, u32)) -> Option<u32> {
    let at = match encoding {
        None => LineCol { line, col },
        Some(encoding) => index.to_utf8(encoding, WideLineCol { line, col })?,
    };
    // A column in bytes may be inside a character here.
    index.offset(at).filter(|it| index.try_line_col(*it).is_some()).map(u32::from)
}

#[test]
fn the_library_has_the_same_places() {
    for text in TEXTS {
        let index = LineIndex::new(text);
        let offsets: Vec<u32> = (0..=text.len() as u32 + 2).collect();
        let places: Vec<(u32, u32)> = (0..6).flat_map(|line| (0..20).map(move |col| (line, col))).collect();
        for encoding in [None, Some(WideEncoding::Utf16), Some(WideEncoding::Utf32)] {
            let answers: Vec<_> = offsets.iter().map(|it| place(&index, encoding, *it)).collect();
            for (it, answer) in offsets.iter().zip(&answers) {
                assert_eq!(library_places(text, encoding, &[*it]).ok(), answer.map(|it| vec![it]), "{text:?} {it} {encoding:?}");
            }
            let first = answers.iter().position(Option::is_none).unwrap();
            assert_eq!(library_places(text, encoding, &offsets), Err(first as u32), "{text:?} {encoding:?}");
            let (known, found): (Vec<_>, Vec<_>) = offsets.iter().zip(&answers).filter_map(|(it, answer)| Some((*it, (*answer)?))).unzip();
            assert_eq!(library_places(text, encoding, &known).as_ref(), Ok(&found), "{text:?} {encoding:?}");
            assert_eq!(library_offsets(text, encoding, &found), Ok(known), "{text:?} {encoding:?}");
            for it in &places {
                let answer = offset(&index, encoding, *it);
                assert_eq!(library_offsets(text, encoding, &[*it]).ok(), answer.map(|it| vec![it]), "{text:?} {it:?} {encoding:?}");
            }
        }
    }
}

#[test]
fn the_library_has_the_same_lines() {
    for text in TEXTS {
        let (mut starts, mut count) = ([0; 8], 0);
        let status = unsafe { ras_c_line_starts(text.as_ptr(), text.len(), starts.as_mut_ptr(), starts.len(), &mut count) };
        assert_eq!(status, OK);
        let index = LineIndex::new(text);
        let wanted: Vec<u32> = (0..).map_while(|line| index.line(line)).map(|it| it.start().into()).collect();
        assert_eq!(starts[..count as usize], wanted, "{text:?}");
    }
}

#[test]
fn ranges_are_split_at_lines() {
    let (text, index) = ("a\nbc\n\nd", LineIndex::new("a\nbc\n\nd"));
    for start in 0..=text.len() {
        for end in start..=text.len() {
            let range = TextRange::new((start as u32).into(), (end as u32).into());
            let parts: Vec<_> = index.lines(range).map(|it| &text[it]).collect();
            assert_eq!(parts, text[start..end].split_inclusive('\n').collect::<Vec<_>>(), "{range}");
        }
    }
    assert_eq!((index.line(1), index.line(3), index.line(4)), (Some(TextRange::new(2.into(), 5.into())), Some(TextRange::new(6.into(), 7.into())), None));
}
