//! The lookups of the views, by the parts of the language. Written by bindings/make.
mod asm;
mod attr;
mod control;
mod enums;
mod expr;
mod generic;
mod item;
mod part;
mod pat;
mod path;
mod stmt;
mod ty;
