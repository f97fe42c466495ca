//! What a line of `views.rs` and of `aliases.rs` stands for.

// The view of a kind of node.
macro_rules! node {
    ($name:ident, $kind:ident) => {
        #[doc = concat!("A node of the kind `", stringify!($kind), "`.")]
        #[derive(Clone, Copy, Debug, PartialEq, Eq, Hash)]
        pub struct $name<N> {
            pub(crate) syntax: N,
        }

        impl<N: Node> AstNode<N> for $name<N> {
            fn kind() -> SyntaxKind {
                SyntaxKind::$kind
            }

            fn can_cast(kind: SyntaxKind) -> bool {
                kind == SyntaxKind::$kind
            }

            fn cast(syntax: N) -> Option<Self> {
                <Self as AstNode<N>>::can_cast(syntax.kind()).then_some($name { syntax })
            }

            fn syntax(&self) -> &N {
                &self.syntax
            }
        }

        impl<N: std::fmt::Display> std::fmt::Display for $name<N> {
            fn fmt(&self, f: &mut std::fmt::Formatter<'_>) -> std::fmt::Result {
                std::fmt::Display::fmt(&self.syntax, f)
            }
        }
    };
}

// The view of a kind of token.
macro_rules! token {
    ($name:ident, $kind:ident) => {
        #[doc = concat!("A token of the kind `", stringify!($kind), "`.")]
        #[derive(Clone, Copy, Debug, PartialEq, Eq, Hash)]
        pub struct $name<T> {
            pub(crate) syntax: T,
        }

        impl<T: Token> AstToken<T> for $name<T> {
            fn can_cast(kind: SyntaxKind) -> bool {
                kind == SyntaxKind::$kind
            }

            fn cast(syntax: T) -> Option<Self> {
                <Self as AstToken<T>>::can_cast(syntax.kind()).then_some($name { syntax })
            }

            fn syntax(&self) -> &T {
                &self.syntax
            }
        }

        impl<T: std::fmt::Display> std::fmt::Display for $name<T> {
            fn fmt(&self, f: &mut std::fmt::Formatter<'_>) -> std::fmt::Result {
                std::fmt::Display::fmt(&self.syntax, f)
            }
        }
    };
}

// One of several views.
macro_rules! choice {
    ($name:ident: $($variant:ident($view:ident)),+) => {
        #[doc = concat!("One of the views that `", stringify!($name), "` has as its variants.")]
        #[derive(Clone, Copy, Debug, PartialEq, Eq, Hash)]
        pub enum $name<N> {
            $(
                #[doc = concat!("A `", stringify!($view), "`.")]
                $variant($view<N>),
            )+
        }

        impl<N: Node> AstNode<N> for $name<N> {
            fn can_cast(kind: SyntaxKind) -> bool {
                $(<$view<N> as AstNode<N>>::can_cast(kind))||+
            }

            fn cast(syntax: N) -> Option<Self> {
                let kind = syntax.kind();
                $(
                    if <$view<N> as AstNode<N>>::can_cast(kind) {
                        return <$view<N> as AstNode<N>>::cast(syntax).map($name::$variant);
                    }
                )+
                None
            }

            fn syntax(&self) -> &N {
                match self {
                    $($name::$variant(it) => it.syntax(),)+
                }
            }
        }

        impl<N: Node> std::fmt::Display for $name<N> {
            fn fmt(&self, f: &mut std::fmt::Formatter<'_>) -> std::fmt::Result {
                std::fmt::Display::fmt(self.syntax(), f)
            }
        }

        $(
            impl<N> From<$view<N>> for $name<N> {
                fn from(it: $view<N>) -> $name<N> {
                    $name::$variant(it)
                }
            }
        )+
    };
}

// One of several views, from one of fewer: for each variant the variant that it becomes.
macro_rules! widened {
    ($name:ident: $source:ident: $($variant:ident $wide:ident),+) => {
        impl<N> From<$source<N>> for $name<N> {
            fn from(it: $source<N>) -> $name<N> {
                match it {
                    $($source::$variant(it) => $name::$wide(it),)+
                }
            }
        }
    };
}

// A node of a kind that has a trait; the last views are each one of several.
macro_rules! any {
    ($name:ident: $shared:ident: $($view:ident),+ $(; $($choice:ident),+)?) => {
        #[doc = concat!("A node of a kind that has `", stringify!($shared), "`.")]
        #[derive(Clone, Copy, Debug, PartialEq, Eq, Hash)]
        pub struct $name<N> {
            pub(crate) syntax: N,
        }

        impl<N: Node> $name<N> {
            #[doc = concat!("The node of a view that has `", stringify!($shared), "`.")]
            pub fn new<A: $shared<N>>(view: A) -> $name<N> {
                $name { syntax: view.syntax().clone() }
            }
        }

        impl<N: Node> AstNode<N> for $name<N> {
            fn can_cast(kind: SyntaxKind) -> bool {
                $(<$view<N> as AstNode<N>>::can_cast(kind))||+
            }

            fn cast(syntax: N) -> Option<Self> {
                <Self as AstNode<N>>::can_cast(syntax.kind()).then_some($name { syntax })
            }

            fn syntax(&self) -> &N {
                &self.syntax
            }
        }

        impl<N: std::fmt::Display> std::fmt::Display for $name<N> {
            fn fmt(&self, f: &mut std::fmt::Formatter<'_>) -> std::fmt::Result {
                std::fmt::Display::fmt(&self.syntax, f)
            }
        }

        impl<N: Node> $shared<N> for $name<N> {}

        $(
            impl<N: Node> From<$view<N>> for $name<N> {
                fn from(it: $view<N>) -> $name<N> {
                    $name { syntax: it.syntax }
                }
            }
        )+
        $($(
            impl<N: Node> From<$choice<N>> for $name<N> {
                fn from(it: $choice<N>) -> $name<N> {
                    $name { syntax: it.syntax().clone() }
                }
            }
        )+)?
    };
}

// The calls of a view.
macro_rules! calls {
    ($owner:ident: $($way:ident $call:ident: $of:ident = $example:literal,)+) => {
        impl<N: Node> $owner<N> {
            $($way!($call, $of, $example);)+
        }
    };
}

macro_rules! first {
    ($call:ident, $of:ident, $example:literal) => {
        #[doc = concat!("The first child that is a `", stringify!($of), "`, if there is one.")]
        #[doc = $example]
        pub fn $call(&self) -> Option<$of<N>> {
            support::first(self.syntax())
        }
    };
}

macro_rules! second {
    ($call:ident, $of:ident, $example:literal) => {
        #[doc = concat!("The second child that is a `", stringify!($of), "`, if there is one.")]
        #[doc = $example]
        pub fn $call(&self) -> Option<$of<N>> {
            support::all(self.syntax()).nth(1)
        }
    };
}

macro_rules! all {
    ($call:ident, $of:ident, $example:literal) => {
        #[doc = concat!("The children that are a `", stringify!($of), "`, in order.")]
        #[doc = $example]
        pub fn $call(&self) -> AstChildren<$of<N>, N> {
            support::all(self.syntax())
        }
    };
}

macro_rules! leaf {
    ($call:ident, $of:ident, $example:literal) => {
        #[doc = concat!("The first token of the kind `", stringify!($of), "` among the children, if there is one.")]
        #[doc = $example]
        pub fn $call(&self) -> Option<N::Token> {
            support::leaf(self.syntax(), SyntaxKind::$of)
        }
    };
}

// A trait of views that share calls.
macro_rules! shared {
    ($shared:ident: $($view:ident),+) => {
        $(impl<N: Node> $shared<N> for $view<N> {})+
    };
}

// The views of nodes and of tokens, over those that own a share of their tree and over those that borrow it.
macro_rules! aliases {
    (nodes: $($node:ident)+; tokens: $($token:ident)+;) => {
        $(
            #[doc = concat!("[`views::", stringify!($node), "`](super::views::", stringify!($node), ") over nodes that own a share of their tree.")]
            pub type $node = super::views::$node<crate::SyntaxNode>;
        )+
        $(
            #[doc = concat!("[`views::", stringify!($token), "`](super::views::", stringify!($token), ") over tokens that own a share of their tree.")]
            pub type $token = super::views::$token<crate::SyntaxToken>;
        )+

        /// The views over nodes and tokens that borrow their tree: `ast::borrowed::Fn<'t>`.
        pub mod borrowed {
            $(
                #[doc = concat!("[`views::", stringify!($node), "`](crate::ast::views::", stringify!($node), ") over nodes that borrow their tree.")]
                pub type $node<'t> = crate::ast::views::$node<crate::NodeRef<'t>>;
            )+
            $(
                #[doc = concat!("[`views::", stringify!($token), "`](crate::ast::views::", stringify!($token), ") over tokens that borrow their tree.")]
                pub type $token<'t> = crate::ast::views::$token<crate::TokenRef<'t>>;
            )+
        }
    };
}

pub(in crate::ast) use {aliases, all, any, calls, choice, first, leaf, node, second, shared, token, widened};
