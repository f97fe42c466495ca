//! The snippets of the repository's README.
use ras::ast::{self, AstNode, HasName};
use ras::{Edition, SourceFile};

#[test]
fn functions_are_listed() {
    let text = "fn one() {} mod m { fn two() {} }";
    let mut names = Vec::new();
    let file = SourceFile::parse(text, Edition::CURRENT).tree();
    for function in file.syntax().descendants().filter_map(ast::Fn::cast) {
        names.extend(function.name().map(|it| it.to_string()));
    }
    assert_eq!(names, ["one", "two"]);
}
