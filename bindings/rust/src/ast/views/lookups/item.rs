//! Lookups in items. Written by bindings/make.
use crate::ast::macros::*;
use crate::ast::views::*;
use crate::ast::{AstChildren, AstNode, support};
use crate::SyntaxKind;
use crate::node::Node;

calls! {
    Const:
    first body: Expr = "Example: `a` of `const A: T = a;`.",
    leaf colon_token: COLON = "Example: `:` of `const A: T = a;`.",
    leaf const_token: CONST_KW = "Example: `const` of `const A: T = a;`.",
    leaf default_token: DEFAULT_KW = "Example: `default` of `default const A: T = a;`.",
    leaf eq_token: EQ = "Example: `=` of `const A: T = a;`.",
    leaf semicolon_token: SEMICOLON = "Example: `;` of `const A: T = a;`.",
    first ty: Type = "Example: `T` of `const A: T = a;`.",
    leaf underscore_token: UNDERSCORE = "Example: `_` of `const _: T = a;`.",
}

calls! {
    Enum:
    leaf enum_token: ENUM_KW = "Example: `enum` of `enum E { A, B }`.",
    first variant_list: VariantList = "Example: `{ A, B }` of `enum E { A, B }`.",
}

calls! {
    ExternBlock:
    first abi: Abi = "Example: `extern \"C\"` of `unsafe extern \"C\" { fn f(); }`.",
    first extern_item_list: ExternItemList = "Example: `{ fn f(); }` of `unsafe extern \"C\" { fn f(); }`.",
    leaf unsafe_token: UNSAFE_KW = "Example: `unsafe` of `unsafe extern \"C\" { fn f(); }`.",
}

calls! {
    ExternCrate:
    leaf crate_token: CRATE_KW = "Example: `crate` of `extern crate a as b;`.",
    leaf extern_token: EXTERN_KW = "Example: `extern` of `extern crate a as b;`.",
    first name_ref: NameRef = "Example: `a` of `extern crate a as b;`.",
    first rename: Rename = "Example: `as b` of `extern crate a as b;`.",
    leaf semicolon_token: SEMICOLON = "Example: `;` of `extern crate a as b;`.",
}

calls! {
    Fn:
    first abi: Abi = "Example: `extern \"C\"` of `unsafe extern \"C\" fn f() {}`.",
    leaf async_token: ASYNC_KW = "Example: `async` of `async fn f() {}`.",
    first body: BlockExpr = "Example: `{ b }` of `fn f(a: T) -> U { b }`.",
    leaf const_token: CONST_KW = "Example: `const` of `const fn f() {}`.",
    leaf default_token: DEFAULT_KW = "Example: `default` of `default fn f() {}`.",
    leaf fn_token: FN_KW = "Example: `fn` of `fn f(a: T) -> U { b }`.",
    leaf gen_token: GEN_KW = "Example: `gen` of `gen fn f() {}`.",
    first param_list: ParamList = "Example: `(a: T)` of `fn f(a: T) -> U { b }`.",
    first ret_type: RetType = "Example: `-> U` of `fn f(a: T) -> U { b }`.",
    leaf safe_token: SAFE_KW = "Example: `safe` of `safe fn f();`.",
    leaf semicolon_token: SEMICOLON = "Example: `;` of `fn f();`.",
    leaf unsafe_token: UNSAFE_KW = "Example: `unsafe` of `unsafe extern \"C\" fn f() {}`.",
}

calls! {
    Impl:
    first assoc_item_list: AssocItemList = "Example: `{ fn f() {} }` of `impl T for U { fn f() {} }`.",
    leaf const_token: CONST_KW = "Example: `const` of `impl const T for U {}`.",
    leaf default_token: DEFAULT_KW = "Example: `default` of `default impl T for U {}`.",
    leaf excl_token: BANG = "Example: `!` of `impl !T for U {}`.",
    leaf for_token: FOR_KW = "Example: `for` of `impl T for U { fn f() {} }`.",
    leaf impl_token: IMPL_KW = "Example: `impl` of `impl T for U { fn f() {} }`.",
    leaf unsafe_token: UNSAFE_KW = "Example: `unsafe` of `unsafe impl T for U {}`.",
}

calls! {
    MacroCall:
    leaf excl_token: BANG = "Example: `!` of `m!(a);`.",
    first path: Path = "Example: `m` of `m!(a);`.",
    leaf semicolon_token: SEMICOLON = "Example: `;` of `m!(a);`.",
    first token_tree: TokenTree = "Example: `(a)` of `m!(a);`.",
}

calls! {
    MacroDef:
    leaf macro_token: MACRO_KW = "Example: `macro` of `macro m(a) { b }`.",
}

calls! {
    MacroItems:
    all items: Item = "",
}

calls! {
    MacroRules:
    leaf excl_token: BANG = "Example: `!` of `macro_rules! m { () => {} }`.",
    leaf macro_rules_token: MACRO_RULES_KW = "Example: `macro_rules` of `macro_rules! m { () => {} }`.",
    first token_tree: TokenTree = "Example: `{ () => {} }` of `macro_rules! m { () => {} }`.",
}

calls! {
    Module:
    first item_list: ItemList = "Example: `{ fn f() {} }` of `mod m { fn f() {} }`.",
    leaf mod_token: MOD_KW = "Example: `mod` of `mod m { fn f() {} }`.",
    leaf semicolon_token: SEMICOLON = "Example: `;` of `mod m;`.",
}

calls! {
    Rename:
    leaf as_token: AS_KW = "Example: `as` of `as b`.",
    first name: Name = "Example: `b` of `as b`.",
    leaf underscore_token: UNDERSCORE = "Example: `_` of `as _`.",
}

calls! {
    SourceFile:
    leaf frontmatter_token: FRONTMATTER = "Example: `---\\na\\n---\\n` of `---\\na\\n---\\nfn f() {}`.",
    leaf shebang_token: SHEBANG = "Example: `#!/bin/sh\\n` of `#!/bin/sh\\nfn f() {}`.",
}

calls! {
    Static:
    first body: Expr = "Example: `a` of `static A: T = a;`.",
    leaf colon_token: COLON = "Example: `:` of `static A: T = a;`.",
    leaf eq_token: EQ = "Example: `=` of `static A: T = a;`.",
    leaf mut_token: MUT_KW = "Example: `mut` of `static mut A: T = a;`.",
    leaf safe_token: SAFE_KW = "Example: `safe` of `safe static A: T;`.",
    leaf semicolon_token: SEMICOLON = "Example: `;` of `static A: T = a;`.",
    leaf static_token: STATIC_KW = "Example: `static` of `static A: T = a;`.",
    first ty: Type = "Example: `T` of `static A: T = a;`.",
    leaf unsafe_token: UNSAFE_KW = "Example: `unsafe` of `unsafe static A: T;`.",
}

calls! {
    Struct:
    first field_list: FieldList = "Example: `(T)` of `struct S(T);`.",
    leaf semicolon_token: SEMICOLON = "Example: `;` of `struct S(T);`.",
    leaf struct_token: STRUCT_KW = "Example: `struct` of `struct S(T);`.",
}

calls! {
    Trait:
    first assoc_item_list: AssocItemList = "Example: `{ fn f(); }` of `trait T { fn f(); }`.",
    leaf auto_token: AUTO_KW = "Example: `auto` of `auto trait T {}`.",
    leaf eq_token: EQ = "Example: `=` of `trait T = U;`.",
    leaf semicolon_token: SEMICOLON = "Example: `;` of `trait T = U;`.",
    leaf trait_token: TRAIT_KW = "Example: `trait` of `trait T { fn f(); }`.",
    leaf unsafe_token: UNSAFE_KW = "Example: `unsafe` of `unsafe trait T {}`.",
}

calls! {
    TypeAlias:
    leaf default_token: DEFAULT_KW = "Example: `default` of `default type A = T;`.",
    leaf eq_token: EQ = "Example: `=` of `type A = T;`.",
    leaf semicolon_token: SEMICOLON = "Example: `;` of `type A = T;`.",
    first ty: Type = "Example: `T` of `type A = T;`.",
    leaf type_token: TYPE_KW = "Example: `type` of `type A = T;`.",
}

calls! {
    Union:
    first record_field_list: RecordFieldList = "Example: `{ f: T }` of `union U { f: T }`.",
    leaf union_token: UNION_KW = "Example: `union` of `union U { f: T }`.",
}

calls! {
    Use:
    leaf semicolon_token: SEMICOLON = "Example: `;` of `use a::b;`.",
    leaf use_token: USE_KW = "Example: `use` of `use a::b;`.",
    first use_tree: UseTree = "Example: `a::b` of `use a::b;`.",
}

calls! {
    VariantList:
    leaf l_curly_token: L_CURLY = "Example: `{` of `{ A, B }`.",
    leaf r_curly_token: R_CURLY = "Example: `}` of `{ A, B }`.",
    all variants: Variant = "Example: `A` and `B` of `{ A, B }`.",
}
