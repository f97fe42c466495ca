//! Texts that are copied often.
use std::borrow::{Borrow, Cow};
use std::cmp::Ordering;
use std::fmt;
use std::ops::Deref;
use std::sync::Arc;

/// A text that never changes, of which a copy costs nothing: the name of an attribute, say. It has the calls of the crate `smol_str` that
/// rust-analyzer's crates use, and is a `str` by `Deref`.
///
/// ```
/// use ras::{SmolStr, ToSmolStr, format_smolstr};
///
/// let name = SmolStr::new("cfg");
/// assert_eq!((name.len(), &*name), (3, "cfg"));
/// assert_eq!(format_smolstr!("{name}_attr"), "cfg_attr");
/// assert_eq!(1.to_smolstr(), "1");
/// ```
#[derive(Clone, PartialEq, Eq, PartialOrd, Ord, Hash)]
pub struct SmolStr(Arc<str>);

impl SmolStr {
    /// A copy of a text.
    pub fn new(text: impl AsRef<str>) -> SmolStr {
        SmolStr(text.as_ref().into())
    }

    /// A copy of a text.
    pub fn new_static(text: &'static str) -> SmolStr {
        SmolStr::new(text)
    }

    /// The text.
    pub fn as_str(&self) -> &str {
        &self.0
    }
}

impl Deref for SmolStr {
    type Target = str;

    fn deref(&self) -> &str {
        &self.0
    }
}

impl AsRef<str> for SmolStr {
    fn as_ref(&self) -> &str {
        &self.0
    }
}

impl Borrow<str> for SmolStr {
    fn borrow(&self) -> &str {
        &self.0
    }
}

impl Default for SmolStr {
    /// The empty text.
    fn default() -> SmolStr {
        SmolStr::new("")
    }
}

impl fmt::Display for SmolStr {
    fn fmt(&self, f: &mut fmt::Formatter<'_>) -> fmt::Result {
        fmt::Display::fmt(self.as_str(), f)
    }
}

impl fmt::Debug for SmolStr {
    fn fmt(&self, f: &mut fmt::Formatter<'_>) -> fmt::Result {
        fmt::Debug::fmt(self.as_str(), f)
    }
}

macro_rules! from {
    ($($of:ty),+) => {
        $(
            impl From<$of> for SmolStr {
                fn from(text: $of) -> SmolStr {
                    SmolStr(text.into())
                }
            }
        )+
    };
}
from!(&str, &mut str, String, Box<str>, Arc<str>, Cow<'_, str>);

impl From<&String> for SmolStr {
    fn from(text: &String) -> SmolStr {
        SmolStr::new(text)
    }
}

impl From<char> for SmolStr {
    fn from(sign: char) -> SmolStr {
        SmolStr::new(sign.encode_utf8(&mut [0; 4]))
    }
}

impl From<SmolStr> for String {
    fn from(text: SmolStr) -> String {
        text.as_str().to_owned()
    }
}

impl FromIterator<char> for SmolStr {
    fn from_iter<I: IntoIterator<Item = char>>(signs: I) -> SmolStr {
        signs.into_iter().collect::<String>().into()
    }
}

macro_rules! equal {
    ($($other:ty),+) => {
        $(
            impl PartialEq<$other> for SmolStr {
                fn eq(&self, other: &$other) -> bool {
                    let other: &str = other;
                    self.as_str() == other
                }
            }

            impl PartialEq<SmolStr> for $other {
                fn eq(&self, other: &SmolStr) -> bool {
                    other == self
                }
            }
        )+
    };
}
equal!(str, &str, String);

impl PartialOrd<str> for SmolStr {
    fn partial_cmp(&self, other: &str) -> Option<Ordering> {
        self.as_str().partial_cmp(other)
    }
}

/// A text that is put together, and then a [`SmolStr`].
///
/// ```
/// use ras::SmolStrBuilder;
/// use std::fmt::Write;
///
/// let mut builder = SmolStrBuilder::new();
/// builder.push('r');
/// builder.push_str("#");
/// write!(builder, "{}", 1)?;
/// assert_eq!(builder.finish(), "r#1");
/// # Ok::<(), std::fmt::Error>(())
/// ```
#[derive(Clone, Debug, Default, PartialEq, Eq)]
pub struct SmolStrBuilder(String);

impl SmolStrBuilder {
    /// The empty text.
    pub const fn new() -> SmolStrBuilder {
        SmolStrBuilder(String::new())
    }

    /// Puts a character at the end.
    pub fn push(&mut self, sign: char) {
        self.0.push(sign);
    }

    /// Puts a text at the end.
    pub fn push_str(&mut self, text: &str) {
        self.0.push_str(text);
    }

    /// What was put together.
    pub fn finish(&self) -> SmolStr {
        SmolStr::new(&self.0)
    }
}

impl fmt::Write for SmolStrBuilder {
    fn write_str(&mut self, text: &str) -> fmt::Result {
        self.push_str(text);
        Ok(())
    }
}

/// What can be shown, as a [`SmolStr`].
pub trait ToSmolStr {
    /// What it shows.
    fn to_smolstr(&self) -> SmolStr;
}

impl<T: fmt::Display + ?Sized> ToSmolStr for T {
    fn to_smolstr(&self) -> SmolStr {
        self.to_string().into()
    }
}

/// `format!`, as a [`SmolStr`].
#[macro_export]
macro_rules! format_smolstr {
    ($($words:tt)*) => { $crate::SmolStr::from(::std::format!($($words)*)) };
}
