//! Accessors of names, paths, items, types and patterns that are more than lookups.
use super::views::*;
use super::{AstChildren, AstNode, AstToken, support};
use crate::node::{Node, NodeOrToken, Token};
use crate::range::TextRange;
use crate::{SyntaxKind, T};

// ---- names

macro_rules! first_texts {
    ($($name:ident)+) => {
        $(
            impl<N: Node> $name<N> {
                /// The text of the first child, if that is a token; else empty.
                pub fn text(&self) -> &str {
                    support::first_text(self.syntax()).unwrap_or_default()
                }
            }
        )+
    };
}

first_texts!(Name NameRef Lifetime NameLike NameOrNameRef);

impl<N: Node> NameRef<N> {
    /// The text as the number of a tuple's field, as `usize::from_str` parses it; `None` for other texts.
    pub fn as_tuple_field(&self) -> Option<usize> {
        self.text().parse().ok()
    }

    /// The kind of the first token, at any depth, or `ERROR` if there is none.
    pub fn token_kind(&self) -> SyntaxKind {
        self.syntax.first_token().map_or(SyntaxKind::ERROR, |it| it.kind())
    }
}

impl<N: Node> NameLike<N> {
    /// The name, if it is one that is used.
    pub fn as_name_ref(&self) -> Option<&NameRef<N>> {
        match self {
            NameLike::NameRef(it) => Some(it),
            NameLike::Name(_) | NameLike::Lifetime(_) => None,
        }
    }

    /// The lifetime, if it is one.
    pub fn as_lifetime(&self) -> Option<&Lifetime<N>> {
        match self {
            NameLike::Lifetime(it) => Some(it),
            NameLike::NameRef(_) | NameLike::Name(_) => None,
        }
    }
}

// ---- paths

/// The segments of a path, in order.
#[derive(Clone, Debug)]
pub struct Segments<N> {
    next: Option<N>,
    range: TextRange,
}

impl<N: Node> Iterator for Segments<N> {
    type Item = PathSegment<N>;

    fn next(&mut self) -> Option<PathSegment<N>> {
        let path = self.next.take()?;
        if path.kind() != SyntaxKind::PATH || !self.range.contains_range(path.text_range()) {
            return None;
        }
        let segment = support::first(&path)?;
        self.next = path.parent();
        Some(segment)
    }
}

impl<N: Node> Path<N> {
    /// The segments, from that of the deepest qualifier outwards to its own, through the paths that are within this one's range. They end
    /// at a path without a segment.
    pub fn segments(&self) -> Segments<N> {
        Segments { next: Some(self.first_qualifier_or_self().syntax), range: self.syntax.text_range() }
    }

    /// The qualifiers, the nearest first: `a::b` and `a` of `a::b::c`.
    pub fn qualifiers(&self) -> impl Iterator<Item = Path<N>> + use<N> {
        std::iter::successors(self.qualifier(), |it| it.qualifier())
    }

    /// The end of the chain of qualifiers: `a` of `a::b::c`; `None` if the path has no qualifier.
    pub fn first_qualifier(&self) -> Option<Path<N>> {
        self.qualifiers().last()
    }

    /// The end of the chain of qualifiers; this path if it has none.
    pub fn first_qualifier_or_self(&self) -> Path<N> {
        self.first_qualifier().unwrap_or_else(|| self.clone())
    }

    /// The segment at the end of the chain of qualifiers, if that path has one: `a` of `a::b::c`.
    pub fn first_segment(&self) -> Option<PathSegment<N>> {
        self.first_qualifier_or_self().segment()
    }

    /// The outermost path that this path is a qualifier of, directly or not; the path itself if it is not a qualifier.
    pub fn top_path(&self) -> Path<N> {
        std::iter::successors(Some(self.clone()), |it| it.parent_path()).last().unwrap_or_else(|| self.clone())
    }

    /// The path that it is the qualifier of: the parent, if that is a path.
    pub fn parent_path(&self) -> Option<Path<N>> {
        support::parent_as(&self.syntax)
    }

    /// The segment of a path without a qualifier.
    pub fn as_single_segment(&self) -> Option<PathSegment<N>> {
        if self.qualifier().is_some() { None } else { self.segment() }
    }

    /// The name in the segment of a path without a qualifier.
    pub fn as_single_name_ref(&self) -> Option<NameRef<N>> {
        self.as_single_segment()?.name_ref()
    }
}

/// The kind of a segment of a path.
#[derive(Clone, Debug, PartialEq, Eq, Hash)]
pub enum PathSegmentKind<N> {
    /// A name, with or without generic arguments.
    Name(NameRef<N>),
    /// `<T>`, `<T as U>`.
    Type {
        /// `T`
        type_ref: Option<Type<N>>,
        /// `U`
        trait_ref: Option<PathType<N>>,
    },
    /// `Self`
    SelfTypeKw,
    /// `self`
    SelfKw,
    /// `super`
    SuperKw,
    /// `crate`
    CrateKw,
}

impl<N: Node> PathSegment<N> {
    /// The kind of segment, by the first token of its name; without a name, by its anchor `<T as U>`. `None` if it has neither.
    pub fn kind(&self) -> Option<PathSegmentKind<N>> {
        if let Some(name) = self.name_ref() {
            return Some(match name.token_kind() {
                SyntaxKind::SELF_TYPE_KW => PathSegmentKind::SelfTypeKw,
                SyntaxKind::SELF_KW => PathSegmentKind::SelfKw,
                SyntaxKind::SUPER_KW => PathSegmentKind::SuperKw,
                SyntaxKind::CRATE_KW => PathSegmentKind::CrateKw,
                _ => PathSegmentKind::Name(name),
            });
        }
        let anchor = self.type_anchor()?;
        let trait_ref = support::recast(support::all::<Type<N>, N>(&anchor.syntax).nth(1));
        Some(PathSegmentKind::Type { type_ref: support::first(&anchor.syntax), trait_ref })
    }

    /// The path that it is the segment of: the parent.
    ///
    /// # Panics
    ///
    /// It panics if the parent is no path, or if there is none. In a tree that was parsed there is one.
    pub fn parent_path(&self) -> Path<N> {
        support::parent_as(&self.syntax).expect("a segment is in a path")
    }

    /// The trait of `<T as Trait>`: the second path type in the anchor, otherwise the first.
    pub fn qualifying_trait(&self) -> Option<PathType<N>> {
        let mut types = support::all(&self.type_anchor()?.syntax);
        let first = types.next()?;
        Some(types.next().unwrap_or(first))
    }

    /// The first token `crate` in its name.
    pub fn crate_token(&self) -> Option<N::Token> {
        self.name_ref()?.crate_token()
    }

    /// The first token `self` in its name.
    pub fn self_token(&self) -> Option<N::Token> {
        self.name_ref()?.self_token()
    }

    /// The first token `Self` in its name.
    pub fn self_type_token(&self) -> Option<N::Token> {
        self.name_ref()?.self_type_token()
    }

    /// The same, by the name that rust-analyzer's crate has for it.
    #[allow(non_snake_case)]
    pub fn Self_token(&self) -> Option<N::Token> {
        self.self_type_token()
    }

    /// The first token `super` in its name.
    pub fn super_token(&self) -> Option<N::Token> {
        self.name_ref()?.super_token()
    }
}

impl<N: Node> NameRef<N> {
    /// The first token `Self`, by the name that rust-analyzer's crate has for it.
    #[allow(non_snake_case)]
    pub fn Self_token(&self) -> Option<N::Token> {
        self.self_type_token()
    }
}

// ---- uses

impl<N: Node> Use<N> {
    /// Whether it imports all of one module: its tree has a `*`, and no list.
    pub fn is_simple_glob(&self) -> bool {
        self.use_tree().is_some_and(|it| it.use_tree_list().is_none() && it.star_token().is_some())
    }
}

impl<N: Node> UseTree<N> {
    /// Whether it has neither a `*` nor a list.
    pub fn is_simple_path(&self) -> bool {
        self.use_tree_list().is_none() && self.star_token().is_none()
    }

    /// The outermost use tree around it, through lists of use trees; this tree if it is not in such a list.
    pub fn top_use_tree(&self) -> UseTree<N> {
        let around = |it: &UseTree<N>| it.parent_use_tree_list()?.use_tree_around();
        std::iter::successors(Some(self.clone()), around).last().unwrap_or_else(|| self.clone())
    }

    /// The list that it is in: the parent, if that is a list.
    pub fn parent_use_tree_list(&self) -> Option<UseTreeList<N>> {
        support::parent_as(&self.syntax)
    }
}

impl<N: Node> UseTreeList<N> {
    /// The use tree of the list: the parent.
    ///
    /// # Panics
    ///
    /// It panics if the parent is no use tree, or if there is none. In a tree that was parsed there is one.
    pub fn parent_use_tree(&self) -> UseTree<N> {
        self.use_tree_around().expect("a list of use trees is in a use tree")
    }

    fn use_tree_around(&self) -> Option<UseTree<N>> {
        support::parent_as(&self.syntax)
    }

    /// The commas among the children, in order.
    pub fn comma(&self) -> impl Iterator<Item = N::Token> + use<N> {
        self.syntax.children_with_tokens().filter_map(NodeOrToken::into_token).filter(|it| it.kind() == T![,])
    }

    /// Whether a comment is a child.
    pub fn has_inner_comment(&self) -> bool {
        support::leaf(&self.syntax, SyntaxKind::COMMENT).is_some()
    }
}

// ---- items

impl<N: Node> MacroDef<N> {
    /// The first of two token trees, or `None` if there are fewer than two.
    pub fn args(&self) -> Option<TokenTree<N>> {
        let mut trees = support::all(&self.syntax);
        let first = trees.next()?;
        trees.next().map(|_| first)
    }

    /// The second token tree, or the first if there is only one.
    pub fn body(&self) -> Option<TokenTree<N>> {
        support::all(&self.syntax).take(2).last()
    }
}

impl<N: Node> Impl<N> {
    /// The trait: the first type, if it starts before the `for`, or `None` if there is no `for`.
    pub fn trait_(&self) -> Option<Type<N>> {
        let for_token = support::leaf(&self.syntax, T![for])?;
        support::first(&self.syntax).filter(|it: &Type<N>| it.syntax().text_range().start() < for_token.text_range().start())
    }

    /// The type that it is for: the one after the trait, or the first type if there is no trait.
    pub fn self_ty(&self) -> Option<Type<N>> {
        support::all(&self.syntax).nth(self.trait_().is_some() as usize)
    }

    /// The nearest impl above a name, if its trait starts where the name does.
    pub fn for_trait_name_ref(name_ref: &NameRef<N>) -> Option<Impl<N>> {
        let around: Impl<N> = support::ancestor_as(&name_ref.syntax)?;
        let start = around.trait_()?.syntax().text_range().start();
        (start == name_ref.syntax.text_range().start()).then_some(around)
    }
}

impl<N: Node> Item<N> {
    /// The list of generic parameters of an item, if it has one.
    pub fn generic_param_list(&self) -> Option<GenericParamList<N>> {
        if AnyHasGenericParams::<N>::can_cast(self.syntax().kind()) { support::first(self.syntax()) } else { None }
    }
}

impl<N: Node> TypeOrConstParam<N> {
    /// The parameter's name.
    pub fn name(&self) -> Option<Name<N>> {
        support::first(self.syntax())
    }
}

/// The fields of a struct, a union or a variant.
#[derive(Clone, Copy, Debug, PartialEq, Eq, Hash)]
pub enum StructKind<N> {
    /// `{ f: T }`
    Record(RecordFieldList<N>),
    /// `(T)`
    Tuple(TupleFieldList<N>),
    /// No fields.
    Unit,
}

fn struct_kind<N: Node>(node: &N) -> StructKind<N> {
    match support::first(node) {
        Some(fields) => StructKind::Record(fields),
        None => support::first(node).map_or(StructKind::Unit, StructKind::Tuple),
    }
}

macro_rules! struct_kinds {
    ($($name:ident)+) => {
        $(
            impl<N: Node> $name<N> {
                /// Its fields: named ones, otherwise numbered ones, or no fields.
                pub fn kind(&self) -> StructKind<N> {
                    struct_kind(&self.syntax)
                }
            }
        )+
    };
}

struct_kinds!(Struct Union Variant);

impl<N: Node> Variant<N> {
    /// The enum that it is a variant of: the parent's parent.
    ///
    /// # Panics
    ///
    /// It panics if that is no enum, or if there is none. In a tree that was parsed there is one.
    pub fn parent_enum(&self) -> Enum<N> {
        support::grandparent_as(&self.syntax).expect("a variant is in an enum")
    }
}

impl<N: Node> Module<N> {
    /// The module that it is in: the parent's parent, if that is one.
    pub fn parent(&self) -> Option<Module<N>> {
        support::grandparent_as(&self.syntax)
    }
}

impl<N: Node> Abi<N> {
    /// The first token that is a string: the name of the calling convention.
    pub fn abi_string(&self) -> Option<String<N::Token>> {
        AstToken::cast(support::leaf(&self.syntax, SyntaxKind::STRING)?)
    }
}

/// How a method takes its receiver.
#[derive(Clone, Copy, Debug, PartialEq, Eq, Hash)]
pub enum SelfParamKind {
    /// `self`
    Owned,
    /// `&self`
    Ref,
    /// `&mut self`
    MutRef,
}

impl<N: Node> SelfParam<N> {
    /// Owned if there is no `&`; otherwise a mutable borrow if there is a `mut`, or else a shared one.
    pub fn kind(&self) -> SelfParamKind {
        match (self.amp_token().is_some(), self.mut_token().is_some()) {
            (false, _) => SelfParamKind::Owned,
            (true, true) => SelfParamKind::MutRef,
            (true, false) => SelfParamKind::Ref,
        }
    }
}

/// The scope of a visibility.
#[derive(Clone, Copy, Debug, PartialEq, Eq, Hash)]
pub enum VisibilityKind<N> {
    /// `pub(in a::b)`, and any path that is not one of the words below.
    In(Path<N>),
    /// `pub(crate)`
    PubCrate,
    /// `pub(super)`
    PubSuper,
    /// `pub(self)`
    PubSelf,
    /// `pub`
    Pub,
}

impl<N: Node> VisibilityInner<N> {
    /// `crate`, `super` or `self` if the path is that one segment without `::`; any other path; public if there is no path.
    pub fn kind(&self) -> VisibilityKind<N> {
        let Some(path) = self.path() else { return VisibilityKind::Pub };
        match path.as_single_segment().filter(|it| it.coloncolon_token().is_none()) {
            Some(segment) if segment.crate_token().is_some() => VisibilityKind::PubCrate,
            Some(segment) if segment.super_token().is_some() => VisibilityKind::PubSuper,
            Some(segment) if segment.self_token().is_some() => VisibilityKind::PubSelf,
            _ => VisibilityKind::In(path),
        }
    }
}

impl<N: Node> Visibility<N> {
    /// The scope by its part in parentheses; public if it has none.
    pub fn kind(&self) -> VisibilityKind<N> {
        self.visibility_inner().map_or(VisibilityKind::Pub, |it| it.kind())
    }
}

// ---- generics and types

impl<N: Node> GenericArgList<N> {
    /// The arguments that are lifetimes, in order.
    pub fn lifetime_args(&self) -> AstChildren<LifetimeArg<N>, N> {
        support::all(&self.syntax)
    }
}

impl<N: Node> GenericParamList<N> {
    /// The parameters that are lifetimes, in order.
    pub fn lifetime_params(&self) -> AstChildren<LifetimeParam<N>, N> {
        support::all(&self.syntax)
    }

    /// The parameters that are types or constants, in order.
    pub fn type_or_const_params(&self) -> AstChildren<TypeOrConstParam<N>, N> {
        support::all(&self.syntax)
    }
}

impl<N: Node> LifetimeParam<N> {
    /// The lifetimes among its bounds, in order: `'b` and `'c` of `'a: 'b + 'c`.
    pub fn lifetime_bounds(&self) -> impl Iterator<Item = N::Token> + use<N> {
        let list: Option<TypeBoundList<N>> = support::first(&self.syntax);
        let bounds = list.into_iter().flat_map(|it| support::all::<TypeBound<N>, N>(&it.syntax));
        bounds.filter_map(|it| support::leaf(&support::first::<Lifetime<N>, N>(&it.syntax)?.syntax, SyntaxKind::LIFETIME_IDENT))
    }
}

/// The form of a bound.
#[derive(Clone, Copy, Debug, PartialEq, Eq, Hash)]
pub enum TypeBoundKind<N> {
    /// A trait: `Trait`, `for<'a> Trait`.
    PathType(Option<ForBinder<N>>, PathType<N>),
    /// Captured parameters: `use<'a, T>`.
    Use(UseBoundGenericArgs<N>),
    /// A lifetime: `'a`.
    Lifetime(Lifetime<N>),
}

impl<N: Node> TypeBound<N> {
    /// A path type with the bound's binder, the path type in a `for` type with the binder of that type, the captured arguments of
    /// `use<..>`, or a lifetime: the first of these that the bound has. `None` if it has none of them, or if the type in a `for` type is
    /// not a path type.
    pub fn kind(&self) -> Option<TypeBoundKind<N>> {
        if let Some(path) = support::first(&self.syntax) {
            return Some(TypeBoundKind::PathType(self.for_binder(), path));
        }
        if let Some(for_type) = support::first::<ForType<N>, N>(&self.syntax) {
            return Some(TypeBoundKind::PathType(for_type.for_binder(), support::recast(for_type.ty())?));
        }
        match self.use_bound_generic_args() {
            Some(captured) => Some(TypeBoundKind::Use(captured)),
            None => self.lifetime().map(TypeBoundKind::Lifetime),
        }
    }
}

impl<N: Node> Type<N> {
    /// The generic arguments of a path type: those of the segment of its path; `None` for other types.
    pub fn generic_arg_list(&self) -> Option<GenericArgList<N>> {
        match self {
            Type::PathType(it) => support::first(it.path()?.segment()?.syntax()),
            _ => None,
        }
    }

    /// Whether the type needs angle brackets where it begins a path, as in `<[T]>::len`: it is not a path type, or it has generic
    /// arguments.
    pub fn needs_angles_in_path(&self) -> bool {
        !matches!(self, Type::PathType(_)) || self.generic_arg_list().is_some()
    }
}

// ---- patterns

impl<N: Node> OrPat<N> {
    /// The first child that is not white space or a comment, if it is a `|`.
    pub fn leading_pipe(&self) -> Option<N::Token> {
        support::first_if_token(&self.syntax, |kind| !kind.is_trivia()).filter(|it| it.kind() == T![|])
    }
}

/// The patterns in a slice pattern: those before the first rest pattern, that one, and those after it.
#[derive(Clone, Debug, PartialEq, Eq, Hash)]
pub struct SlicePatComponents<N> {
    /// The patterns before the rest pattern; all patterns if there is none.
    pub prefix: Vec<Pat<N>>,
    /// The rest pattern.
    pub slice: Option<Pat<N>>,
    /// The patterns after the rest pattern.
    pub suffix: Vec<Pat<N>>,
}

fn is_rest<N: Node>(pat: &Pat<N>) -> bool {
    let is_bound = |it: &Pat<N>| match it {
        Pat::RestPat(_) => true,
        Pat::IdentPat(it) => matches!(support::first(&it.syntax), Some(Pat::RestPat::<N>(_))),
        _ => false,
    };
    match pat {
        Pat::RefPat(it) => support::first(&it.syntax).is_some_and(|it| is_bound(&it)),
        other => is_bound(other),
    }
}

impl<N: Node> SlicePat<N> {
    /// The patterns before the first rest pattern, that one, and those after it. A rest pattern is `..`, also bound by a name or after
    /// `&`.
    pub fn components(&self) -> SlicePatComponents<N> {
        let mut left = support::all(&self.syntax);
        let (mut prefix, mut slice) = (Vec::new(), None);
        for pat in left.by_ref() {
            if is_rest(&pat) {
                slice = Some(pat);
                break;
            }
            prefix.push(pat);
        }
        SlicePatComponents { prefix, slice, suffix: left.collect() }
    }
}

impl<N: Node> IdentPat<N> {
    /// Whether it is only a name: it has no `@`, `mut` or `ref`, and no pattern after an `@`.
    pub fn is_simple_ident(&self) -> bool {
        let has_token = self.at_token().is_some() || self.mut_token().is_some() || self.ref_token().is_some();
        !has_token && support::first::<Pat<N>, N>(&self.syntax).is_none()
    }
}

impl<N: Node> RecordPatField<N> {
    /// The field's name: its own, or the name that its pattern binds, also after `box`.
    pub fn field_name(&self) -> Option<NameOrNameRef<N>> {
        if let Some(name) = self.name_ref() {
            return Some(NameOrNameRef::NameRef(name));
        }
        let bound = match self.pat()? {
            Pat::IdentPat(it) => support::first(&it.syntax),
            Pat::BoxPat(it) => match support::first(&it.syntax)? {
                Pat::IdentPat::<N>(it) => support::first(&it.syntax),
                _ => None,
            },
            _ => None,
        };
        bound.map(NameOrNameRef::Name)
    }

    // The field, if this node is its name.
    fn if_named(self, name: &N) -> Option<RecordPatField<N>> {
        (self.field_name()?.syntax() == name).then_some(self)
    }

    /// The field that is a name's parent, if the name is the field's.
    pub fn for_field_name_ref(field_name: &NameRef<N>) -> Option<RecordPatField<N>> {
        support::parent_as::<Self, N>(&field_name.syntax)?.if_named(&field_name.syntax)
    }

    /// The field that is the parent of a name's pattern, if the name is the field's.
    pub fn for_field_name(field_name: &Name<N>) -> Option<RecordPatField<N>> {
        support::grandparent_as::<Self, N>(&field_name.syntax)?.if_named(&field_name.syntax)
    }

    /// The record that it is a field of: the nearest record pattern above it.
    ///
    /// # Panics
    ///
    /// It panics if there is none. In a tree that was parsed there is one.
    pub fn parent_record_pat(&self) -> RecordPat<N> {
        support::ancestor_as(&self.syntax).expect("a field is in a record pattern")
    }
}
