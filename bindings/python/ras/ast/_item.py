"""Views of items. Written by bindings/make."""
from __future__ import annotations

from typing import TYPE_CHECKING, List, Optional

from ._lookups import View, every, first, second, token
from ._shared import *

if TYPE_CHECKING:
    from .. import Element
    from . import *


class Const(Item, AssocItem, HasName, HasVisibility, HasAttrs):
    """A constant: `const A: T = a;`."""

    KIND = "CONST"

    @property
    def body(self) -> Optional[Expr]:
        """Example: `a` of `const A: T = a;`."""
        return first(self, "Expr")

    @property
    def colon_token(self) -> Optional[Element]:
        """Example: `:` of `const A: T = a;`."""
        return token(self, "COLON")

    @property
    def const_token(self) -> Optional[Element]:
        """Example: `const` of `const A: T = a;`."""
        return token(self, "CONST_KW")

    @property
    def default_token(self) -> Optional[Element]:
        """Example: `default` of `default const A: T = a;`."""
        return token(self, "DEFAULT_KW")

    @property
    def eq_token(self) -> Optional[Element]:
        """Example: `=` of `const A: T = a;`."""
        return token(self, "EQ")

    @property
    def semicolon_token(self) -> Optional[Element]:
        """Example: `;` of `const A: T = a;`."""
        return token(self, "SEMICOLON")

    @property
    def ty(self) -> Optional[Type]:
        """Example: `T` of `const A: T = a;`."""
        return first(self, "Type")

    @property
    def underscore_token(self) -> Optional[Element]:
        """Example: `_` of `const _: T = a;`."""
        return token(self, "UNDERSCORE")


class Enum(Item, Adt, HasName, HasVisibility, HasGenericParams, HasAttrs):
    """An enum: `enum E { A, B }`."""

    KIND = "ENUM"

    @property
    def enum_token(self) -> Optional[Element]:
        """Example: `enum` of `enum E { A, B }`."""
        return token(self, "ENUM_KW")

    @property
    def variant_list(self) -> Optional[VariantList]:
        """Example: `{ A, B }` of `enum E { A, B }`."""
        return first(self, "VariantList")


class ExternBlock(Item, HasAttrs):
    """`extern "C" { .. }`."""

    KIND = "EXTERN_BLOCK"

    @property
    def abi(self) -> Optional[Abi]:
        """Example: `extern "C"` of `unsafe extern "C" { fn f(); }`."""
        return first(self, "Abi")

    @property
    def extern_item_list(self) -> Optional[ExternItemList]:
        """Example: `{ fn f(); }` of `unsafe extern "C" { fn f(); }`."""
        return first(self, "ExternItemList")

    @property
    def unsafe_token(self) -> Optional[Element]:
        """Example: `unsafe` of `unsafe extern "C" { fn f(); }`."""
        return token(self, "UNSAFE_KW")


class ExternCrate(Item, HasVisibility, HasAttrs):
    """`extern crate a as b;`."""

    KIND = "EXTERN_CRATE"

    @property
    def crate_token(self) -> Optional[Element]:
        """Example: `crate` of `extern crate a as b;`."""
        return token(self, "CRATE_KW")

    @property
    def extern_token(self) -> Optional[Element]:
        """Example: `extern` of `extern crate a as b;`."""
        return token(self, "EXTERN_KW")

    @property
    def name_ref(self) -> Optional[NameRef]:
        """Example: `a` of `extern crate a as b;`."""
        return first(self, "NameRef")

    @property
    def rename(self) -> Optional[Rename]:
        """Example: `as b` of `extern crate a as b;`."""
        return first(self, "Rename")

    @property
    def semicolon_token(self) -> Optional[Element]:
        """Example: `;` of `extern crate a as b;`."""
        return token(self, "SEMICOLON")


class Fn(Item, AssocItem, ExternItem, HasName, HasVisibility, HasGenericParams, HasAttrs):
    """A function: `fn f(a: T) -> U { .. }`."""

    KIND = "FN"

    @property
    def abi(self) -> Optional[Abi]:
        """Example: `extern "C"` of `unsafe extern "C" fn f() {}`."""
        return first(self, "Abi")

    @property
    def async_token(self) -> Optional[Element]:
        """Example: `async` of `async fn f() {}`."""
        return token(self, "ASYNC_KW")

    @property
    def body(self) -> Optional[BlockExpr]:
        """Example: `{ b }` of `fn f(a: T) -> U { b }`."""
        return first(self, "BlockExpr")

    @property
    def const_token(self) -> Optional[Element]:
        """Example: `const` of `const fn f() {}`."""
        return token(self, "CONST_KW")

    @property
    def default_token(self) -> Optional[Element]:
        """Example: `default` of `default fn f() {}`."""
        return token(self, "DEFAULT_KW")

    @property
    def fn_token(self) -> Optional[Element]:
        """Example: `fn` of `fn f(a: T) -> U { b }`."""
        return token(self, "FN_KW")

    @property
    def gen_token(self) -> Optional[Element]:
        """Example: `gen` of `gen fn f() {}`."""
        return token(self, "GEN_KW")

    @property
    def param_list(self) -> Optional[ParamList]:
        """Example: `(a: T)` of `fn f(a: T) -> U { b }`."""
        return first(self, "ParamList")

    @property
    def ret_type(self) -> Optional[RetType]:
        """Example: `-> U` of `fn f(a: T) -> U { b }`."""
        return first(self, "RetType")

    @property
    def safe_token(self) -> Optional[Element]:
        """Example: `safe` of `safe fn f();`."""
        return token(self, "SAFE_KW")

    @property
    def semicolon_token(self) -> Optional[Element]:
        """Example: `;` of `fn f();`."""
        return token(self, "SEMICOLON")

    @property
    def unsafe_token(self) -> Optional[Element]:
        """Example: `unsafe` of `unsafe extern "C" fn f() {}`."""
        return token(self, "UNSAFE_KW")


class Impl(Item, HasVisibility, HasGenericParams, HasAttrs):
    """An implementation: `impl T for U { .. }`, `impl U { .. }`."""

    KIND = "IMPL"

    @property
    def assoc_item_list(self) -> Optional[AssocItemList]:
        """Example: `{ fn f() {} }` of `impl T for U { fn f() {} }`."""
        return first(self, "AssocItemList")

    @property
    def const_token(self) -> Optional[Element]:
        """Example: `const` of `impl const T for U {}`."""
        return token(self, "CONST_KW")

    @property
    def default_token(self) -> Optional[Element]:
        """Example: `default` of `default impl T for U {}`."""
        return token(self, "DEFAULT_KW")

    @property
    def excl_token(self) -> Optional[Element]:
        """Example: `!` of `impl !T for U {}`."""
        return token(self, "BANG")

    @property
    def for_token(self) -> Optional[Element]:
        """Example: `for` of `impl T for U { fn f() {} }`."""
        return token(self, "FOR_KW")

    @property
    def impl_token(self) -> Optional[Element]:
        """Example: `impl` of `impl T for U { fn f() {} }`."""
        return token(self, "IMPL_KW")

    @property
    def unsafe_token(self) -> Optional[Element]:
        """Example: `unsafe` of `unsafe impl T for U {}`."""
        return token(self, "UNSAFE_KW")


class MacroCall(Item, AssocItem, ExternItem, HasAttrs):
    """A macro call: `m!(..)`."""

    KIND = "MACRO_CALL"

    @property
    def excl_token(self) -> Optional[Element]:
        """Example: `!` of `m!(a);`."""
        return token(self, "BANG")

    @property
    def path(self) -> Optional[Path]:
        """Example: `m` of `m!(a);`."""
        return first(self, "Path")

    @property
    def semicolon_token(self) -> Optional[Element]:
        """Example: `;` of `m!(a);`."""
        return token(self, "SEMICOLON")

    @property
    def token_tree(self) -> Optional[TokenTree]:
        """Example: `(a)` of `m!(a);`."""
        return first(self, "TokenTree")


class MacroDef(Item, Macro, HasName, HasVisibility, HasAttrs):
    """A macro 2.0: `macro m(..) { .. }`."""

    KIND = "MACRO_DEF"

    @property
    def macro_token(self) -> Optional[Element]:
        """Example: `macro` of `macro m(a) { b }`."""
        return token(self, "MACRO_KW")


class MacroItems(View):
    """The items that a macro expands to."""

    KIND = "MACRO_ITEMS"

    @property
    def items(self) -> List[Item]:
        """Its items."""
        return every(self, "Item")


class MacroRules(Item, Macro, HasName, HasVisibility, HasAttrs):
    """A macro by example: `macro_rules! m { .. }`."""

    KIND = "MACRO_RULES"

    @property
    def excl_token(self) -> Optional[Element]:
        """Example: `!` of `macro_rules! m { () => {} }`."""
        return token(self, "BANG")

    @property
    def macro_rules_token(self) -> Optional[Element]:
        """Example: `macro_rules` of `macro_rules! m { () => {} }`."""
        return token(self, "MACRO_RULES_KW")

    @property
    def token_tree(self) -> Optional[TokenTree]:
        """Example: `{ () => {} }` of `macro_rules! m { () => {} }`."""
        return first(self, "TokenTree")


class Module(Item, HasName, HasVisibility, HasAttrs):
    """A module: `mod m { .. }`, `mod m;`."""

    KIND = "MODULE"

    @property
    def item_list(self) -> Optional[ItemList]:
        """Example: `{ fn f() {} }` of `mod m { fn f() {} }`."""
        return first(self, "ItemList")

    @property
    def mod_token(self) -> Optional[Element]:
        """Example: `mod` of `mod m { fn f() {} }`."""
        return token(self, "MOD_KW")

    @property
    def semicolon_token(self) -> Optional[Element]:
        """Example: `;` of `mod m;`."""
        return token(self, "SEMICOLON")


class Rename(View):
    """The new name of what is used: `as a`, `as _`."""

    KIND = "RENAME"

    @property
    def as_token(self) -> Optional[Element]:
        """Example: `as` of `as b`."""
        return token(self, "AS_KW")

    @property
    def name(self) -> Optional[Name]:
        """Example: `b` of `as b`."""
        return first(self, "Name")

    @property
    def underscore_token(self) -> Optional[Element]:
        """Example: `_` of `as _`."""
        return token(self, "UNDERSCORE")


class SourceFile(HasModuleItem, HasAttrs):
    """A source file."""

    KIND = "SOURCE_FILE"

    @property
    def frontmatter_token(self) -> Optional[Element]:
        """Example: `---\\na\\n---\\n` of `---\\na\\n---\\nfn f() {}`."""
        return token(self, "FRONTMATTER")

    @property
    def shebang_token(self) -> Optional[Element]:
        """Example: `#!/bin/sh\\n` of `#!/bin/sh\\nfn f() {}`."""
        return token(self, "SHEBANG")


class Static(Item, ExternItem, HasName, HasVisibility, HasAttrs):
    """A static: `static A: T = a;`."""

    KIND = "STATIC"

    @property
    def body(self) -> Optional[Expr]:
        """Example: `a` of `static A: T = a;`."""
        return first(self, "Expr")

    @property
    def colon_token(self) -> Optional[Element]:
        """Example: `:` of `static A: T = a;`."""
        return token(self, "COLON")

    @property
    def eq_token(self) -> Optional[Element]:
        """Example: `=` of `static A: T = a;`."""
        return token(self, "EQ")

    @property
    def mut_token(self) -> Optional[Element]:
        """Example: `mut` of `static mut A: T = a;`."""
        return token(self, "MUT_KW")

    @property
    def safe_token(self) -> Optional[Element]:
        """Example: `safe` of `safe static A: T;`."""
        return token(self, "SAFE_KW")

    @property
    def semicolon_token(self) -> Optional[Element]:
        """Example: `;` of `static A: T = a;`."""
        return token(self, "SEMICOLON")

    @property
    def static_token(self) -> Optional[Element]:
        """Example: `static` of `static A: T = a;`."""
        return token(self, "STATIC_KW")

    @property
    def ty(self) -> Optional[Type]:
        """Example: `T` of `static A: T = a;`."""
        return first(self, "Type")

    @property
    def unsafe_token(self) -> Optional[Element]:
        """Example: `unsafe` of `unsafe static A: T;`."""
        return token(self, "UNSAFE_KW")


class Struct(Item, Adt, VariantDef, HasName, HasVisibility, HasGenericParams, HasAttrs):
    """A struct: `struct S { f: T }`, `struct S(T);`, `struct S;`."""

    KIND = "STRUCT"

    @property
    def field_list(self) -> Optional[FieldList]:
        """Example: `(T)` of `struct S(T);`."""
        return first(self, "FieldList")

    @property
    def semicolon_token(self) -> Optional[Element]:
        """Example: `;` of `struct S(T);`."""
        return token(self, "SEMICOLON")

    @property
    def struct_token(self) -> Optional[Element]:
        """Example: `struct` of `struct S(T);`."""
        return token(self, "STRUCT_KW")


class Trait(Item, HasName, HasVisibility, HasGenericParams, HasTypeBounds, HasAttrs):
    """A trait: `trait T { .. }`."""

    KIND = "TRAIT"

    @property
    def assoc_item_list(self) -> Optional[AssocItemList]:
        """Example: `{ fn f(); }` of `trait T { fn f(); }`."""
        return first(self, "AssocItemList")

    @property
    def auto_token(self) -> Optional[Element]:
        """Example: `auto` of `auto trait T {}`."""
        return token(self, "AUTO_KW")

    @property
    def eq_token(self) -> Optional[Element]:
        """Example: `=` of `trait T = U;`."""
        return token(self, "EQ")

    @property
    def semicolon_token(self) -> Optional[Element]:
        """Example: `;` of `trait T = U;`."""
        return token(self, "SEMICOLON")

    @property
    def trait_token(self) -> Optional[Element]:
        """Example: `trait` of `trait T { fn f(); }`."""
        return token(self, "TRAIT_KW")

    @property
    def unsafe_token(self) -> Optional[Element]:
        """Example: `unsafe` of `unsafe trait T {}`."""
        return token(self, "UNSAFE_KW")


class TypeAlias(Item, AssocItem, ExternItem, HasName, HasVisibility, HasGenericParams, HasTypeBounds, HasAttrs):
    """A type's other name: `type A = T;`."""

    KIND = "TYPE_ALIAS"

    @property
    def default_token(self) -> Optional[Element]:
        """Example: `default` of `default type A = T;`."""
        return token(self, "DEFAULT_KW")

    @property
    def eq_token(self) -> Optional[Element]:
        """Example: `=` of `type A = T;`."""
        return token(self, "EQ")

    @property
    def semicolon_token(self) -> Optional[Element]:
        """Example: `;` of `type A = T;`."""
        return token(self, "SEMICOLON")

    @property
    def ty(self) -> Optional[Type]:
        """Example: `T` of `type A = T;`."""
        return first(self, "Type")

    @property
    def type_token(self) -> Optional[Element]:
        """Example: `type` of `type A = T;`."""
        return token(self, "TYPE_KW")


class Union(Item, Adt, VariantDef, HasName, HasVisibility, HasGenericParams, HasAttrs):
    """A union: `union U { f: T }`."""

    KIND = "UNION"

    @property
    def record_field_list(self) -> Optional[RecordFieldList]:
        """Example: `{ f: T }` of `union U { f: T }`."""
        return first(self, "RecordFieldList")

    @property
    def union_token(self) -> Optional[Element]:
        """Example: `union` of `union U { f: T }`."""
        return token(self, "UNION_KW")


class Use(Item, HasVisibility, HasAttrs):
    """An import: `use a::{b, c};`."""

    KIND = "USE"

    @property
    def semicolon_token(self) -> Optional[Element]:
        """Example: `;` of `use a::b;`."""
        return token(self, "SEMICOLON")

    @property
    def use_token(self) -> Optional[Element]:
        """Example: `use` of `use a::b;`."""
        return token(self, "USE_KW")

    @property
    def use_tree(self) -> Optional[UseTree]:
        """Example: `a::b` of `use a::b;`."""
        return first(self, "UseTree")


class VariantList(View):
    """The variants of an enum with their braces: `{ A, B(T) }`."""

    KIND = "VARIANT_LIST"

    @property
    def l_curly_token(self) -> Optional[Element]:
        """Example: `{` of `{ A, B }`."""
        return token(self, "L_CURLY")

    @property
    def r_curly_token(self) -> Optional[Element]:
        """Example: `}` of `{ A, B }`."""
        return token(self, "R_CURLY")

    @property
    def variants(self) -> List[Variant]:
        """Example: `A` and `B` of `{ A, B }`."""
        return every(self, "Variant")
