//! Search and replace by rules.
use crate::range::TextRange;
use crate::tree::{Edition, ParseError, Tree, answered};
use ras_sys::{self as raw, MatchRow, RuleFault};
use std::fmt;

/// Patterns or rules of search and replace: one, or one a line.
///
/// A pattern is Rust with placeholders: `$name` stands for any expression, type, pattern or path, and for the same one where it comes
/// again. A rule is `PATTERN ==>> TEMPLATE`.
#[derive(Clone, Copy, Debug, PartialEq, Eq)]
pub enum Rules<'a> {
    /// The text is one.
    One(&'a str),
    /// The text has one in each line that is not empty and does not begin with `#`.
    Lines(&'a str),
}

impl Rules<'_> {
    fn text(&self) -> &str {
        let (Rules::One(text) | Rules::Lines(text)) = self;
        text
    }
}

impl<'a> From<&'a str> for Rules<'a> {
    /// The text is one.
    fn from(text: &'a str) -> Rules<'a> {
        Rules::One(text)
    }
}

impl<'a> From<&'a String> for Rules<'a> {
    /// The text is one.
    fn from(text: &'a String) -> Rules<'a> {
        Rules::One(text)
    }
}

/// A place where a rule matches.
#[derive(Clone, Copy, Debug, PartialEq, Eq, Hash)]
pub struct Match {
    /// The number of the rule, from 0.
    pub rule: usize,
    /// Where it matches.
    pub range: TextRange,
}

/// Why a text is no rule.
#[derive(Clone, Debug, PartialEq, Eq)]
pub struct RuleError {
    message: Box<str>,
    offset: usize,
}

impl RuleError {
    /// The message.
    pub fn message(&self) -> &str {
        &self.message
    }

    /// The byte of the text where it is wrong.
    pub fn offset(&self) -> usize {
        self.offset
    }
}

impl fmt::Display for RuleError {
    fn fmt(&self, f: &mut fmt::Formatter<'_>) -> fmt::Result {
        f.write_str(&self.message)
    }
}

impl std::error::Error for RuleError {}

/// Why a text is not searched.
#[derive(Clone, Debug, PartialEq, Eq)]
pub enum SearchError {
    /// A pattern is none.
    Rule(RuleError),
    /// The text or the rules have no tree.
    Parse(ParseError),
}

impl fmt::Display for SearchError {
    fn fmt(&self, f: &mut fmt::Formatter<'_>) -> fmt::Result {
        match self {
            SearchError::Rule(error) => error.fmt(f),
            SearchError::Parse(error) => error.fmt(f),
        }
    }
}

impl std::error::Error for SearchError {}

/// Why the matches of a text are not replaced.
#[derive(Clone, Debug, PartialEq, Eq)]
pub enum RewriteError {
    /// A rule is none.
    Rule(RuleError),
    /// A rule has no template.
    NoTemplate,
    /// A comment would be lost: it is in what stands for a placeholder that the template has not.
    LosesComment,
    /// The new text would be read otherwise than it is meant, or with more errors.
    ReadsOtherwise,
    /// The text, the rules or the new text have no tree, or the new text is more than sixteen times as long as the old one and 1 MiB.
    Parse(ParseError),
}

impl fmt::Display for RewriteError {
    fn fmt(&self, f: &mut fmt::Formatter<'_>) -> fmt::Result {
        f.write_str(match self {
            RewriteError::Rule(error) => return error.fmt(f),
            RewriteError::Parse(error) => return error.fmt(f),
            RewriteError::NoTemplate => "a rule has no template",
            RewriteError::LosesComment => "a comment would be lost: it is in what stands for a placeholder that the template has not",
            RewriteError::ReadsOtherwise => "the new text would be read otherwise than it is meant",
        })
    }
}

impl std::error::Error for RewriteError {}

// What the library says of rules that are none.
struct Said {
    message: [u8; 4096],
    fault: RuleFault,
}

impl Said {
    fn new() -> Said {
        Said { message: [0; 4096], fault: RuleFault { offset: 0, message: 0 } }
    }

    fn error(&self) -> RuleError {
        let message = self.message.get(..self.fault.message).map_or("this is no rule".into(), String::from_utf8_lossy);
        RuleError { message: message.into(), offset: self.fault.offset }
    }
}

fn search(rules: Rules<'_>, text: &str, edition: Edition) -> Result<Vec<Match>, SearchError> {
    crate::version::check();
    let (patterns, mut said) = (rules.text(), Said::new());
    let none = MatchRow { rule: 0, start: 0, end: 0 };
    let (mut rows, mut count) = (vec![none; 64], 0);
    loop {
        // SAFETY: both texts and both buffers are borrowed for the call, with their lengths, none overlaps another, and the declaration is
        // made from that of `crates/ras_c`.
        let status = unsafe {
            raw::ras_c_search(
                patterns.as_ptr(),
                patterns.len(),
                matches!(rules, Rules::Lines(_)),
                text.as_ptr(),
                text.len(),
                edition.year(),
                rows.as_mut_ptr(),
                rows.len(),
                &mut count,
                said.message.as_mut_ptr(),
                said.message.len(),
                &mut said.fault,
            )
        };
        if status == raw::BAD_RULE {
            return Err(SearchError::Rule(said.error()));
        }
        let has_room = answered(status).map_err(SearchError::Parse)?;
        rows.resize(count as usize, none);
        if has_room {
            let found = |it: &MatchRow| Match { rule: it.rule, range: TextRange::new(it.start.into(), it.end.into()) };
            return Ok(rows.iter().map(found).collect());
        }
    }
}

/// A text in which each match of rules is replaced by its rule's template, with parentheses exactly where they are needed. What is outside
/// of the matches stays as it is, byte for byte. It takes a few parses of the text.
///
/// ```
/// use ras::{Edition, RewriteError, rewrite};
///
/// let new = rewrite("add($a, $b) ==>> $a + $b", "fn f() { add(1, 2) * 3 }", Edition::CURRENT)?;
/// assert_eq!(new, "fn f() { (1 + 2) * 3 }");
/// let Err(RewriteError::Rule(error)) = rewrite("add($a) ==>> $b", "", Edition::CURRENT) else { panic!("this is no rule") };
/// assert_eq!((error.message(), error.offset()), ("expected a placeholder of the pattern", 13));
/// # Ok::<(), ras::RewriteError>(())
/// ```
///
/// # Panics
///
/// It panics if the library that is linked is not the one that this crate was made for.
pub fn rewrite<'a>(rules: impl Into<Rules<'a>>, text: &str, edition: Edition) -> Result<String, RewriteError> {
    crate::version::check();
    let (rules, mut said) = (rules.into(), Said::new());
    let source = rules.text();
    let (mut out, mut count, mut matches) = (Vec::with_capacity(text.len() + text.len() / 4 + 64), 0, 0);
    loop {
        // SAFETY: as in `search`; `out` has room for as many bytes as it has capacity.
        let status = unsafe {
            raw::ras_c_rewrite(
                source.as_ptr(),
                source.len(),
                matches!(rules, Rules::Lines(_)),
                text.as_ptr(),
                text.len(),
                edition.year(),
                out.as_mut_ptr(),
                out.capacity(),
                &mut count,
                &mut matches,
                said.message.as_mut_ptr(),
                said.message.len(),
                &mut said.fault,
            )
        };
        match status {
            raw::BAD_RULE => return Err(RewriteError::Rule(said.error())),
            raw::NO_TEMPLATE => return Err(RewriteError::NoTemplate),
            raw::LOSES_COMMENT => return Err(RewriteError::LosesComment),
            raw::READS_OTHERWISE => return Err(RewriteError::ReadsOtherwise),
            _ => {}
        }
        if answered(status).map_err(RewriteError::Parse)? {
            // SAFETY: the call returned `OK`, and then it has written so many bytes.
            unsafe { out.set_len(count as usize) };
            return Ok(String::from_utf8(out).expect("the library writes UTF-8"));
        }
        out = Vec::with_capacity(count as usize);
    }
}

impl Tree {
    /// Where patterns match, in preorder: the outermost matches, and those inside what stands for placeholders. At one place the first
    /// pattern that matches counts. The text is parsed again.
    ///
    /// ```
    /// use ras::{Edition, Rules, Tree};
    ///
    /// let tree = Tree::parse("fn f() { a == None; (b + 1) == None }", Edition::CURRENT)?;
    /// let found = tree.search("$a == None")?;
    /// assert_eq!(found.iter().map(|it| &tree.text()[it.range]).collect::<Vec<_>>(), ["a == None", "(b + 1) == None"]);
    /// assert_eq!(tree.search(Rules::Lines("$a + $b\n$a == None"))?[0].rule, 1);
    /// # Ok::<(), Box<dyn std::error::Error>>(())
    /// ```
    pub fn search<'a>(&self, rules: impl Into<Rules<'a>>) -> Result<Vec<Match>, SearchError> {
        search(rules.into(), self.text(), self.edition())
    }

    /// The tree of the text in which each match of rules is replaced, as [`rewrite`] does it. The tree itself stays.
    ///
    /// ```
    /// use ras::{Edition, RewriteError, Tree};
    ///
    /// let tree = Tree::parse("fn f() { g([1 /* a */], 2) }", Edition::CURRENT)?;
    /// assert_eq!(tree.rewrite("g($a, $b) ==>> $b - $a")?.text(), "fn f() { 2 - [1 /* a */] }");
    /// assert_eq!(tree.rewrite("g($a, $b) ==>> h()").err(), Some(RewriteError::LosesComment));
    /// # Ok::<(), Box<dyn std::error::Error>>(())
    /// ```
    pub fn rewrite<'a>(&self, rules: impl Into<Rules<'a>>) -> Result<Tree, RewriteError> {
        let new = rewrite(rules, self.text(), self.edition())?;
        Tree::parse(new, self.edition()).map_err(RewriteError::Parse)
    }
}
