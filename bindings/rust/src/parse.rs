//! Parses as rust-analyzer's crate has them.
use crate::ast::{AstNode, Expr, MacroItems, MacroStmts, Meta, Pat, SourceFile, Type};
use crate::node::SyntaxNode;
use crate::range::TextRange;
use crate::tree::{Edition, Entry, Errors, ParseError, SyntaxError, Tree};
use std::fmt;
use std::marker::PhantomData;

/// The result of parsing: a tree, and its errors.
///
/// It is a [`Tree`] by the names that rust-analyzer's crate has.
pub struct Parse<T = SourceFile> {
    tree: Tree,
    view: PhantomData<fn() -> T>,
}

impl<T> Parse<T> {
    pub(crate) fn of_tree(tree: Tree) -> Parse<T> {
        Parse { tree, view: PhantomData }
    }

    /// The root.
    pub fn syntax_node(&self) -> SyntaxNode {
        self.tree.syntax_node()
    }

    /// What is wrong with the text: the errors of the parser, those of the lexer, and then what breaks rules beyond the grammar.
    pub fn errors(&self) -> Vec<SyntaxError> {
        self.tree.errors().to_vec()
    }

    /// The same parse, of which the root has no type.
    pub fn to_syntax(self) -> Parse<SyntaxNode> {
        Parse { tree: self.tree, view: PhantomData }
    }

    /// The tree itself, whose nodes may borrow it.
    pub fn into_tree(self) -> Tree {
        self.tree
    }
}

impl<T: AstNode> Parse<T> {
    /// The root by its type.
    pub fn tree(&self) -> T {
        T::cast(self.tree.syntax_node()).expect("a parse is made for the type of its root")
    }

    /// The root by its type if it is of this type and there are no errors; else the errors. The list is empty if the text goes on behind an
    /// expression, or another part, and nothing else is wrong, as in `a b`.
    pub fn ok(self) -> Result<T, Vec<SyntaxError>> {
        let errors = self.errors();
        match T::cast(self.tree.syntax_node()) {
            Some(root) if errors.is_empty() => Ok(root),
            _ => Err(errors),
        }
    }
}

impl Parse<SyntaxNode> {
    /// The same parse with a type of its root; `None` if the root is not of this type.
    pub fn cast<A: AstNode>(self) -> Option<Parse<A>> {
        A::can_cast(self.syntax_node().kind()).then_some(Parse { tree: self.tree, view: PhantomData })
    }
}

impl Parse<SourceFile> {
    /// The tree as a dump, and a line for each error.
    pub fn debug_dump(&self) -> String {
        let errors = self.tree.errors().iter().map(|it| format!("error {:?}: {it}\n", it.range()));
        format!("{:#?}{}", self.tree.root(), errors.collect::<String>())
    }

    /// The parse of the text in which a range is replaced by another text. The whole text is parsed again; [`Live`](crate::Live) parses
    /// one token or one block again if that is enough.
    ///
    /// ```
    /// use ras::{AstNode, Edition, SourceFile, TextRange};
    ///
    /// let parse = SourceFile::parse("fn f() {}", Edition::CURRENT);
    /// let new = parse.reparse(TextRange::new(3.into(), 4.into()), "main", Edition::CURRENT);
    /// assert_eq!(new.tree().syntax().text(), "fn main() {}");
    /// ```
    ///
    /// # Panics
    ///
    /// It panics if the range is not one of the text, if the new text has 2^32 bytes or more, or if memory runs out.
    pub fn reparse(&self, delete: TextRange, insert: &str, edition: Edition) -> Parse<SourceFile> {
        let text = self.tree.text();
        of(Tree::parse([&text[..delete.start().into()], insert, &text[delete.end().into()..]].concat(), edition))
    }
}

impl<T> Clone for Parse<T> {
    fn clone(&self) -> Self {
        Parse { tree: self.tree.clone(), view: PhantomData }
    }
}

impl<T> PartialEq for Parse<T> {
    fn eq(&self, other: &Self) -> bool {
        self.tree == other.tree
    }
}

impl<T> Eq for Parse<T> {}

impl<T> fmt::Debug for Parse<T> {
    fn fmt(&self, f: &mut fmt::Formatter<'_>) -> fmt::Result {
        f.debug_struct("Parse").field("tree", &self.tree).finish()
    }
}

// A parse by its type, or a panic: rust-analyzer's calls have no errors.
fn of<T>(tree: Result<Tree, ParseError>) -> Parse<T> {
    match tree {
        Ok(tree) => Parse { tree, view: PhantomData },
        Err(error @ (ParseError::TooLong | ParseError::Memory)) => panic!("{error}"),
    }
}

impl Expr {
    /// The parse of a text, read as an expression.
    ///
    /// ```
    /// use ras::ast::{AstNode, Expr};
    /// use ras::Edition;
    ///
    /// let parse = Expr::parse("a + b", Edition::CURRENT);
    /// assert!(matches!(parse.tree(), Expr::BinExpr(_)));
    /// assert!(Expr::parse("a b", Edition::CURRENT).ok().is_err());
    /// ```
    ///
    /// # Panics
    ///
    /// It panics if the text has 2^32 bytes or more, or if memory runs out; [`Tree::parse_expr`] returns an error instead. And `tree` of
    /// the parse panics if the text is not one expression; `ok` is an error then.
    pub fn parse(text: &str, edition: Edition) -> Parse<Expr> {
        of(Tree::parse_expr(text, edition))
    }
}

impl Type {
    /// The parse of a text, read as a type, with its bounds.
    ///
    /// ```
    /// use ras::{Edition, ast};
    ///
    /// let parse = ast::Type::parse("Vec<&'a str>", Edition::CURRENT);
    /// assert!(matches!(parse.tree(), ast::Type::PathType(_)));
    /// assert!(ast::Type::parse("A B", Edition::CURRENT).ok().is_err());
    /// ```
    ///
    /// # Panics
    ///
    /// It panics if the text has 2^32 bytes or more, or if memory runs out; [`Tree::parse_as`] returns an error instead. And `tree` of
    /// the parse panics if the text is not one type; `ok` is an error then.
    pub fn parse(text: &str, edition: Edition) -> Parse<Type> {
        of(Tree::parse_as(text, edition, Entry::Type, Errors::All))
    }
}

impl Pat {
    /// The parse of a text, read as a pattern, with its alternatives.
    ///
    /// ```
    /// use ras::{Edition, ast};
    ///
    /// let parse = ast::Pat::parse("Some(a) | None", Edition::CURRENT);
    /// assert!(matches!(parse.tree(), ast::Pat::OrPat(_)));
    /// assert!(ast::Pat::parse("a if b", Edition::CURRENT).ok().is_err());
    /// ```
    ///
    /// # Panics
    ///
    /// It panics if the text has 2^32 bytes or more, or if memory runs out; [`Tree::parse_as`] returns an error instead. And `tree` of
    /// the parse panics if the text is not one pattern; `ok` is an error then.
    pub fn parse(text: &str, edition: Edition) -> Parse<Pat> {
        of(Tree::parse_as(text, edition, Entry::Pattern, Errors::All))
    }
}

impl Meta {
    /// The parse of a text, read as the contents of an attribute.
    ///
    /// ```
    /// use ras::{Edition, ast};
    ///
    /// let parse = ast::Meta::parse("derive(Debug)", Edition::CURRENT);
    /// assert!(matches!(parse.tree(), ast::Meta::TokenTreeMeta(_)));
    /// assert!(ast::Meta::parse("#[derive(Debug)]", Edition::CURRENT).ok().is_err());
    /// ```
    ///
    /// # Panics
    ///
    /// It panics if the text has 2^32 bytes or more, or if memory runs out; [`Tree::parse_as`] returns an error instead. And `tree` of
    /// the parse panics if the text is no such contents; `ok` is an error then.
    pub fn parse(text: &str, edition: Edition) -> Parse<Meta> {
        of(Tree::parse_as(text, edition, Entry::MetaItem, Errors::All))
    }
}

impl MacroStmts {
    /// The parse of a text, read as the statements that a macro stands for: each with or without its `;`, and an expression.
    ///
    /// ```
    /// use ras::{Edition, ast};
    ///
    /// let parse = ast::MacroStmts::parse("let a = 1; a", Edition::CURRENT);
    /// assert_eq!(parse.tree().statements().count(), 1);
    /// assert!(parse.tree().expr().is_some());
    /// assert!(ast::MacroStmts::parse("let = 1;", Edition::CURRENT).ok().is_err());
    /// ```
    ///
    /// # Panics
    ///
    /// It panics if the text has 2^32 bytes or more, or if memory runs out; [`Tree::parse_as`] returns an error instead.
    pub fn parse(text: &str, edition: Edition) -> Parse<MacroStmts> {
        of(Tree::parse_as(text, edition, Entry::MacroStmts, Errors::All))
    }
}

impl MacroItems {
    /// The parse of a text, read as the items that a macro stands for.
    ///
    /// ```
    /// use ras::{Edition, ast};
    ///
    /// let parse = ast::MacroItems::parse("fn f() {} use a::b;", Edition::CURRENT);
    /// assert_eq!(ast::HasModuleItem::items(&parse.tree()).count(), 2);
    /// assert!(ast::MacroItems::parse("fn f(", Edition::CURRENT).ok().is_err());
    /// ```
    ///
    /// # Panics
    ///
    /// It panics if the text has 2^32 bytes or more, or if memory runs out; [`Tree::parse_as`] returns an error instead.
    pub fn parse(text: &str, edition: Edition) -> Parse<MacroItems> {
        of(Tree::parse_as(text, edition, Entry::MacroItems, Errors::All))
    }
}

impl SourceFile {
    /// The parse of a text, read as a file.
    ///
    /// ```
    /// use ras::{AstNode, Edition, SourceFile};
    ///
    /// let parse = SourceFile::parse("fn f() {}", Edition::CURRENT);
    /// assert_eq!(parse.tree().syntax().text(), "fn f() {}");
    /// ```
    ///
    /// # Panics
    ///
    /// It panics if the text has 2^32 bytes or more, or if memory runs out; [`Tree::parse`] returns an error instead.
    pub fn parse(text: &str, edition: Edition) -> Parse<SourceFile> {
        of(Tree::parse(text, edition))
    }
}
