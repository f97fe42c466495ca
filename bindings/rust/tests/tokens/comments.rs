//! Comments and white space. Written by bindings/make from crates/typed_vectors/src/tokens.
use super::{Fail, typed};
use ras::SyntaxKind;
use ras::ast::{AnyComment, Comment, DocComment, Whitespace};
use ras::ast::{AttrKind, CommentShape};

// Comments, their shapes, and their texts without what marks them.
const COMMENTS: [(&str, CommentShape, Option<&str>); 8] = [
    ("// a", CommentShape::Line, Some(" a")),
    ("/* a */", CommentShape::Block, Some(" a ")),
    ("/* a", CommentShape::Block, Some(" a")),
    ("/*/", CommentShape::Block, Some("/")),
    ("/*", CommentShape::Block, Some("")),
    ("// a */", CommentShape::Line, Some(" a */")),
    ("/", CommentShape::Line, None),
    ("", CommentShape::Line, None),
];

type CommentRow = (&'static str, CommentShape, Option<&'static str>);

fn is_comment(row: &CommentRow) -> Result<bool, Fail> {
    let comment: Comment = typed(SyntaxKind::COMMENT, row.0)?;
    Ok(comment.shape() == row.1 && comment.text_without_markers() == row.2.unwrap_or_default())
}

#[test]
fn comments() -> Result<(), Fail> {
    for row in &COMMENTS {
        assert!(is_comment(row)?, "in {}", row.0);
    }
    Ok(())
}

// Texts of documentation.
const TEXTS: [(SyntaxKind, &str, Option<&str>); 10] = [
    (SyntaxKind::COMMENT, "//a", Some("a")),
    (SyntaxKind::COMMENT, "/*a*/", Some("a")),
    (SyntaxKind::COMMENT, "/", None),
    (SyntaxKind::INNER_DOC_COMMENT, "//! a", Some(" a")),
    (SyntaxKind::INNER_DOC_COMMENT, "/*! a*/", Some(" a")),
    (SyntaxKind::OUTER_DOC_COMMENT, "/// doc1", Some(" doc1")),
    (SyntaxKind::OUTER_DOC_COMMENT, "/// doc2  ", Some(" doc2  ")),
    (
        SyntaxKind::OUTER_DOC_COMMENT,
        "/** this is mod foo*/",
        Some(" this is mod foo"),
    ),
    (SyntaxKind::OUTER_DOC_COMMENT, "//", None),
    (SyntaxKind::OUTER_DOC_COMMENT, "/**/", Some("/")),
];

type TextRow = (SyntaxKind, &'static str, Option<&'static str>);

fn has_text(row: &TextRow) -> Result<bool, Fail> {
    let comment: AnyComment = typed(row.0, row.1)?;
    Ok(comment.text() == row.2.unwrap_or_default())
}

#[test]
fn texts_of_documentation() -> Result<(), Fail> {
    for row in &TEXTS {
        assert!(has_text(row)?, "in {}", row.1);
    }
    Ok(())
}

#[test]
fn whole_texts() -> Result<(), Fail> {
    let comment: AnyComment = typed(SyntaxKind::INNER_DOC_COMMENT, "/*! a*/")?;
    assert_eq!(comment.text_with_markers(), "/*! a*/");
    Ok(())
}

// A comment, its shape, what it documents, and what it begins with.
type KindRow = (
    SyntaxKind,
    &'static str,
    CommentShape,
    Option<AttrKind>,
    &'static str,
);

const INNER: Option<AttrKind> = Some(AttrKind::Inner);

const OUTER: Option<AttrKind> = Some(AttrKind::Outer);

const KINDS: [KindRow; 8] = [
    (SyntaxKind::COMMENT, "// a", CommentShape::Line, None, "//"),
    (
        SyntaxKind::COMMENT,
        "/* a */",
        CommentShape::Block,
        None,
        "/*",
    ),
    (SyntaxKind::COMMENT, "/", CommentShape::Line, None, "//"),
    (
        SyntaxKind::INNER_DOC_COMMENT,
        "//! a",
        CommentShape::Line,
        INNER,
        "//!",
    ),
    (
        SyntaxKind::INNER_DOC_COMMENT,
        "/*! a */",
        CommentShape::Block,
        INNER,
        "/*!",
    ),
    (
        SyntaxKind::OUTER_DOC_COMMENT,
        "/// a",
        CommentShape::Line,
        OUTER,
        "///",
    ),
    (
        SyntaxKind::OUTER_DOC_COMMENT,
        "/** a */",
        CommentShape::Block,
        OUTER,
        "/**",
    ),
    (
        SyntaxKind::OUTER_DOC_COMMENT,
        "//",
        CommentShape::Line,
        OUTER,
        "///",
    ),
];

fn is_of_kind(row: &KindRow) -> Result<bool, Fail> {
    let comment: AnyComment = typed(row.0, row.1)?;
    Ok(comment.shape() == row.2 && comment.doc_kind() == row.3 && comment.prefix() == row.4)
}

#[test]
fn kinds_of_comments() -> Result<(), Fail> {
    for row in &KINDS {
        assert!(is_of_kind(row)?, "in {}", row.1);
    }
    Ok(())
}

// Whether a comment documents what it is in, or what follows.
const DOCUMENTED: [(SyntaxKind, &str, bool, bool); 3] = [
    (SyntaxKind::COMMENT, "//", false, false),
    (SyntaxKind::INNER_DOC_COMMENT, "//!", true, false),
    (SyntaxKind::OUTER_DOC_COMMENT, "///", false, true),
];

fn documents(row: &(SyntaxKind, &'static str, bool, bool)) -> Result<bool, Fail> {
    let comment: AnyComment = typed(row.0, row.1)?;
    Ok(
        comment.is_inner() == row.2
            && comment.is_outer() == row.3
            && comment.kind().prefix() == row.1,
    )
}

#[test]
fn what_comments_document() -> Result<(), Fail> {
    for row in &DOCUMENTED {
        assert!(documents(row)?, "in {}", row.1);
    }
    assert_eq!(DocComment::PREFIX_LEN, 3.into());
    Ok(())
}

// White space, and whether it spans lines.
const SPACES: [(&str, bool); 5] = [
    (" ", false),
    ("\n", false),
    ("\n\n", true),
    ("\n \n ", true),
    ("", false),
];

fn spans_lines(row: &(&'static str, bool)) -> Result<bool, Fail> {
    let space: Whitespace = typed(SyntaxKind::WHITESPACE, row.0)?;
    Ok(space.spans_multiple_lines() == row.1)
}

#[test]
fn lines_of_white_space() -> Result<(), Fail> {
    for row in &SPACES {
        assert!(spans_lines(row)?, "in {:?}", row.0);
    }
    Ok(())
}
