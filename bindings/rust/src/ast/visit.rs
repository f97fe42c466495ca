//! Visits of the nodes of a tree by their types. Written by bindings/make from crates/ra_ap_syntax/views.txt and crates/rust_views/views.txt.
use super::AstNode;
use crate::node::SyntaxNode;
use crate::{SyntaxKind, WalkEvent, ast};

macro_rules! visits {
    ($($(#[$doc:meta])* $call:ident: $view:ident $kind:ident;)+) => {
        /// A call for each type of node. Each returns whether the nodes inside are visited too; those that are not written return `true`.
        ///
        /// ```
        /// use ras::ast::visit::{Visit, visit};
        /// use ras::ast::{self, HasName};
        /// use ras::{Edition, SourceFile};
        ///
        /// // The names of functions that are not in another function.
        /// #[derive(Default)]
        /// struct Outer(Vec<String>);
        ///
        /// impl Visit for Outer {
        ///     fn visit_fn(&mut self, it: &ast::Fn) -> bool {
        ///         self.0.extend(it.name().map(|name| name.to_string()));
        ///         false
        ///     }
        /// }
        ///
        /// let file = SourceFile::parse("fn a() { fn b() {} } mod m { fn c() {} }", Edition::CURRENT);
        /// let mut outer = Outer::default();
        /// visit(&mut outer, &file.syntax_node());
        /// assert_eq!(outer.0, ["a", "c"]);
        /// ```
        pub trait Visit {
            $(
                $(#[$doc])*
                fn $call(&mut self, it: &ast::$view) -> bool {
                    let _ = it;
                    true
                }
            )+
        }

        fn visit_node(visitor: &mut impl Visit, node: SyntaxNode) -> bool {
            match node.kind() {
                $(SyntaxKind::$kind => ast::$view::cast(node).is_none_or(|it| visitor.$call(&it)),)+
                _ => true,
            }
        }
    };
}

/// Calls a visitor for a node and the nodes below it, in preorder. It does not recurse, so a tree may be as deep as it is.
pub fn visit(visitor: &mut impl Visit, root: &SyntaxNode) {
    let mut walk = root.preorder();
    while let Some(event) = walk.next() {
        let WalkEvent::Enter(node) = event else { continue };
        if !visit_node(visitor, node) {
            walk.skip_subtree();
        }
    }
}

visits! {
    /// `extern "C"`.
    visit_abi: Abi ABI;
    /// The arguments of a call: `(a, b)`.
    visit_arg_list: ArgList ARG_LIST;
    /// An array: `[a, b]`, `[a; n]`.
    visit_array_expr: ArrayExpr ARRAY_EXPR;
    /// An array type: `[T; n]`.
    visit_array_type: ArrayType ARRAY_TYPE;
    /// The ABIs whose registers are overwritten: `clobber_abi("C")`.
    visit_asm_clobber_abi: AsmClobberAbi ASM_CLOBBER_ABI;
    /// A constant as an operand: `const a`.
    visit_asm_const: AsmConst ASM_CONST;
    /// The direction of an operand: `in`, `out`, `lateout`, `inout`, `inlateout`.
    visit_asm_dir_spec: AsmDirSpec ASM_DIR_SPEC;
    /// Inline assembly: `builtin # asm(..)`.
    visit_asm_expr: AsmExpr ASM_EXPR;
    /// A block as an operand: `label { a }`.
    visit_asm_label: AsmLabel ASM_LABEL;
    /// What is read, and what is written: `a`, `a => b`.
    visit_asm_operand_expr: AsmOperandExpr ASM_OPERAND_EXPR;
    /// An operand, with a name where it has one: `a = in(r) b`.
    visit_asm_operand_named: AsmOperandNamed ASM_OPERAND_NAMED;
    /// An option: `pure`, `nomem`.
    visit_asm_option: AsmOption ASM_OPTION;
    /// Options: `options(pure, nomem)`.
    visit_asm_options: AsmOptions ASM_OPTIONS;
    /// A register as an operand: `in(r) a`.
    visit_asm_reg_operand: AsmRegOperand ASM_REG_OPERAND;
    /// A register, or a class of registers: `"eax"`, `r`.
    visit_asm_reg_spec: AsmRegSpec ASM_REG_SPEC;
    /// A symbol as an operand: `sym a`.
    visit_asm_sym: AsmSym ASM_SYM;
    /// The items of a trait or an implementation with their braces.
    visit_assoc_item_list: AssocItemList ASSOC_ITEM_LIST;
    /// A named argument: `Item = T`, `Item: T`.
    visit_assoc_type_arg: AssocTypeArg ASSOC_TYPE_ARG;
    /// An attribute: `#[a]`, `#![a]`.
    visit_attr: Attr ATTR;
    /// A future that is awaited: `a.await`.
    visit_await_expr: AwaitExpr AWAIT_EXPR;
    /// A tail call: `become f(a)`.
    visit_become_expr: BecomeExpr BECOME_EXPR;
    /// A binary operator and its operands: `a + b`, `a = b`, `a && b`.
    visit_bin_expr: BinExpr BIN_EXPR;
    /// A block: `{ a; b }`, also `unsafe`, `async`, `const`, `try` and labelled ones.
    visit_block_expr: BlockExpr BLOCK_EXPR;
    /// `box p`.
    visit_box_pat: BoxPat BOX_PAT;
    /// `break`, with a label and a value where it has them.
    visit_break_expr: BreakExpr BREAK_EXPR;
    /// A call: `f(a, b)`.
    visit_call_expr: CallExpr CALL_EXPR;
    /// A cast: `a as T`.
    visit_cast_expr: CastExpr CAST_EXPR;
    /// A `cfg` predicate of one option: `a`, `a = "b"`.
    visit_cfg_atom: CfgAtom CFG_ATOM;
    /// `cfg_attr(p, m)`.
    visit_cfg_attr_meta: CfgAttrMeta CFG_ATTR_META;
    /// `cfg(p)`.
    visit_cfg_meta: CfgMeta CFG_META;
    /// A `cfg!` predicate where an expression is.
    visit_cfg_pred_expr: CfgPredExpr CFG_PRED_EXPR;
    /// A closure: `|a| b`, `move || a`.
    visit_closure_expr: ClosureExpr CLOSURE_EXPR;
    /// A constant: `const A: T = a;`.
    visit_const: Const CONST;
    /// A constant argument: the `1` of `A<1>`.
    visit_const_arg: ConstArg CONST_ARG;
    /// A constant block as a pattern: `const { .. }`.
    visit_const_block_pat: ConstBlockPat CONST_BLOCK_PAT;
    /// A constant parameter: `const N: T = a`.
    visit_const_param: ConstParam CONST_PARAM;
    /// `continue`, with a label where it has one.
    visit_continue_expr: ContinueExpr CONTINUE_EXPR;
    /// A documentation comment.
    visit_doc_comment: DocComment DOC_COMMENT;
    /// A trait object type: `dyn T + U`.
    visit_dyn_trait_type: DynTraitType DYN_TRAIT_TYPE;
    /// An enum: `enum E { A, B }`.
    visit_enum: Enum ENUM;
    /// An expression that is a statement: `a;`.
    visit_expr_stmt: ExprStmt EXPR_STMT;
    /// `extern "C" { .. }`.
    visit_extern_block: ExternBlock EXTERN_BLOCK;
    /// `extern crate a as b;`.
    visit_extern_crate: ExternCrate EXTERN_CRATE;
    /// The items of an `extern` block with their braces.
    visit_extern_item_list: ExternItemList EXTERN_ITEM_LIST;
    /// A field: `a.f`, `a.0`.
    visit_field_expr: FieldExpr FIELD_EXPR;
    /// A function: `fn f(a: T) -> U { .. }`.
    visit_fn: Fn FN;
    /// A function pointer type: `fn(T) -> U`.
    visit_fn_ptr_type: FnPtrType FN_PTR_TYPE;
    /// Lifetimes that are bound: `for<'a>`.
    visit_for_binder: ForBinder FOR_BINDER;
    /// A `for` loop: `for p in a { .. }`.
    visit_for_expr: ForExpr FOR_EXPR;
    /// A type with bound lifetimes: `for<'a> fn(&'a T)`.
    visit_for_type: ForType FOR_TYPE;
    /// An argument of `format_args`: `x = a`.
    visit_format_args_arg: FormatArgsArg FORMAT_ARGS_ARG;
    /// The name of an argument of `format_args`, and its `=`.
    visit_format_args_arg_name: FormatArgsArgName FORMAT_ARGS_ARG_NAME;
    /// Formatted arguments: `builtin # format_args("{}", a)`.
    visit_format_args_expr: FormatArgsExpr FORMAT_ARGS_EXPR;
    /// Generic arguments with their angles: `<'a, T>`, `::<T>`.
    visit_generic_arg_list: GenericArgList GENERIC_ARG_LIST;
    /// Generic parameters with their angles: `<'a, T>`.
    visit_generic_param_list: GenericParamList GENERIC_PARAM_LIST;
    /// A name that is bound: `ref mut x @ p`.
    visit_ident_pat: IdentPat IDENT_PAT;
    /// `if a { .. } else { .. }`.
    visit_if_expr: IfExpr IF_EXPR;
    /// An implementation: `impl T for U { .. }`, `impl U { .. }`.
    visit_impl: Impl IMPL;
    /// `impl T + U`.
    visit_impl_trait_type: ImplTraitType IMPL_TRAIT_TYPE;
    /// The bytes of a file: `builtin # include_bytes("f")`.
    visit_include_bytes_expr: IncludeBytesExpr INCLUDE_BYTES_EXPR;
    /// An index: `a[i]`.
    visit_index_expr: IndexExpr INDEX_EXPR;
    /// The type that is left out: `_`.
    visit_infer_type: InferType INFER_TYPE;
    /// The items of a module with their braces.
    visit_item_list: ItemList ITEM_LIST;
    /// An attribute with a value: `a = b`.
    visit_key_value_meta: KeyValueMeta KEY_VALUE_META;
    /// A label: `'a:`.
    visit_label: Label LABEL;
    /// The `else { .. }` of a `let`.
    visit_let_else: LetElse LET_ELSE;
    /// A `let` in a condition: `let p = a`.
    visit_let_expr: LetExpr LET_EXPR;
    /// `let p: T = a else { .. };`.
    visit_let_stmt: LetStmt LET_STMT;
    /// A lifetime: `'a`.
    visit_lifetime: Lifetime LIFETIME;
    /// A lifetime argument: the `'a` of `A<'a>`.
    visit_lifetime_arg: LifetimeArg LIFETIME_ARG;
    /// A lifetime parameter: `'a: 'b`.
    visit_lifetime_param: LifetimeParam LIFETIME_PARAM;
    /// A literal: a number, a string, a character, a byte, `true` or `false`.
    visit_literal: Literal LITERAL;
    /// A literal as a pattern.
    visit_literal_pat: LiteralPat LITERAL_PAT;
    /// A `loop { .. }`.
    visit_loop_expr: LoopExpr LOOP_EXPR;
    /// A macro call: `m!(..)`.
    visit_macro_call: MacroCall MACRO_CALL;
    /// A macro 2.0: `macro m(..) { .. }`.
    visit_macro_def: MacroDef MACRO_DEF;
    /// A macro call as an expression.
    visit_macro_expr: MacroExpr MACRO_EXPR;
    /// The items that a macro expands to.
    visit_macro_items: MacroItems MACRO_ITEMS;
    /// A macro call as a pattern.
    visit_macro_pat: MacroPat MACRO_PAT;
    /// A macro by example: `macro_rules! m { .. }`.
    visit_macro_rules: MacroRules MACRO_RULES;
    /// The statements that a macro expands to.
    visit_macro_stmts: MacroStmts MACRO_STMTS;
    /// A macro call as a type.
    visit_macro_type: MacroType MACRO_TYPE;
    /// An arm of a `match`: `p if a => b,`.
    visit_match_arm: MatchArm MATCH_ARM;
    /// The arms of a `match` with their braces.
    visit_match_arm_list: MatchArmList MATCH_ARM_LIST;
    /// `match a { .. }`.
    visit_match_expr: MatchExpr MATCH_EXPR;
    /// The guard of an arm: `if a`.
    visit_match_guard: MatchGuard MATCH_GUARD;
    /// A method call: `a.f(b)`.
    visit_method_call_expr: MethodCallExpr METHOD_CALL_EXPR;
    /// A module: `mod m { .. }`, `mod m;`.
    visit_module: Module MODULE;
    /// A name where it is defined.
    visit_name: Name NAME;
    /// A name where it is used.
    visit_name_ref: NameRef NAME_REF;
    /// The type without values: `!`.
    visit_never_type: NeverType NEVER_TYPE;
    /// The offset of a field: `builtin # offset_of(T, f)`.
    visit_offset_of_expr: OffsetOfExpr OFFSET_OF_EXPR;
    /// Alternatives: `p | q`.
    visit_or_pat: OrPat OR_PAT;
    /// A parameter: `a: T`.
    visit_param: Param PARAM;
    /// The parameters of a function or closure: `(&self, a: T)`, `|a|`.
    visit_param_list: ParamList PARAM_LIST;
    /// An expression in parentheses: `(a)`.
    visit_paren_expr: ParenExpr PAREN_EXPR;
    /// A pattern in parentheses: `(p)`.
    visit_paren_pat: ParenPat PAREN_PAT;
    /// A type in parentheses: `(T)`.
    visit_paren_type: ParenType PAREN_TYPE;
    /// The types of the arguments in a path: the `(A, B)` of `Fn(A, B) -> C`.
    visit_parenthesized_arg_list: ParenthesizedArgList PARENTHESIZED_ARG_LIST;
    /// A path: `a::b::<T>::c`.
    visit_path: Path PATH;
    /// A path as an expression: `a::b`.
    visit_path_expr: PathExpr PATH_EXPR;
    /// An attribute that is a path: `a::b`.
    visit_path_meta: PathMeta PATH_META;
    /// A path as a pattern.
    visit_path_pat: PathPat PATH_PAT;
    /// A segment of a path: `b::<T>`, `<T as U>`.
    visit_path_segment: PathSegment PATH_SEGMENT;
    /// A path as a type: `a::T<U>`.
    visit_path_type: PathType PATH_TYPE;
    /// A prefix operator and its operand: `-a`, `!a`, `*a`.
    visit_prefix_expr: PrefixExpr PREFIX_EXPR;
    /// A raw pointer type: `*const T`, `*mut T`.
    visit_ptr_type: PtrType PTR_TYPE;
    /// A range: `a..b`, `a..=b`, `..`.
    visit_range_expr: RangeExpr RANGE_EXPR;
    /// A range of values: `a..=b`.
    visit_range_pat: RangePat RANGE_PAT;
    /// A struct with its fields: `S { f: a, ..b }`.
    visit_record_expr: RecordExpr RECORD_EXPR;
    /// A field of a struct that is made: `f: a`.
    visit_record_expr_field: RecordExprField RECORD_EXPR_FIELD;
    /// The fields of a struct that is made, with their braces: `{ f: a, ..b }`.
    visit_record_expr_field_list: RecordExprFieldList RECORD_EXPR_FIELD_LIST;
    /// A named field of a type: `pub f: T`.
    visit_record_field: RecordField RECORD_FIELD;
    /// The named fields of a type with their braces.
    visit_record_field_list: RecordFieldList RECORD_FIELD_LIST;
    /// A struct and patterns of its fields: `S { f: p, .. }`.
    visit_record_pat: RecordPat RECORD_PAT;
    /// A field of a struct that is matched: `f: p`.
    visit_record_pat_field: RecordPatField RECORD_PAT_FIELD;
    /// The fields of a struct that is matched, with their braces: `{ f: p, .. }`.
    visit_record_pat_field_list: RecordPatFieldList RECORD_PAT_FIELD_LIST;
    /// A borrow: `&a`, `&mut a`, `&raw const a`.
    visit_ref_expr: RefExpr REF_EXPR;
    /// A reference pattern: `&p`.
    visit_ref_pat: RefPat REF_PAT;
    /// A reference type: `&'a T`, `&mut T`.
    visit_ref_type: RefType REF_TYPE;
    /// The new name of what is used: `as a`, `as _`.
    visit_rename: Rename RENAME;
    /// The rest: `..`.
    visit_rest_pat: RestPat REST_PAT;
    /// The type that is returned: `-> T`.
    visit_ret_type: RetType RET_TYPE;
    /// `return`, with a value where it has one.
    visit_return_expr: ReturnExpr RETURN_EXPR;
    /// `(..)` after the name of a function in a bound.
    visit_return_type_syntax: ReturnTypeSyntax RETURN_TYPE_SYNTAX;
    /// The receiver: `&mut self`, `self: T`.
    visit_self_param: SelfParam SELF_PARAM;
    /// A slice and patterns of its elements: `[p, .., q]`.
    visit_slice_pat: SlicePat SLICE_PAT;
    /// A slice type: `[T]`.
    visit_slice_type: SliceType SLICE_TYPE;
    /// A source file.
    visit_source_file: SourceFile SOURCE_FILE;
    /// A static: `static A: T = a;`.
    visit_static: Static STATIC;
    /// The statements of a block with its braces: `{ a; b }`.
    visit_stmt_list: StmtList STMT_LIST;
    /// A struct: `struct S { f: T }`, `struct S(T);`, `struct S;`.
    visit_struct: Struct STRUCT;
    /// Tokens with delimiters around them, as of a macro call.
    visit_token_tree: TokenTree TOKEN_TREE;
    /// An attribute with arguments: `a(..)`.
    visit_token_tree_meta: TokenTreeMeta TOKEN_TREE_META;
    /// A trait: `trait T { .. }`.
    visit_trait: Trait TRAIT;
    /// The `try` of a block, with its type: `try bikeshed T`.
    visit_try_block_modifier: TryBlockModifier TRY_BLOCK_MODIFIER;
    /// The question mark: `a?`.
    visit_try_expr: TryExpr TRY_EXPR;
    /// A tuple: `(a, b)`, `()`.
    visit_tuple_expr: TupleExpr TUPLE_EXPR;
    /// A field of a tuple struct: `pub T`.
    visit_tuple_field: TupleField TUPLE_FIELD;
    /// The fields of a tuple struct with their parentheses.
    visit_tuple_field_list: TupleFieldList TUPLE_FIELD_LIST;
    /// A tuple and patterns of its fields: `(p, q)`.
    visit_tuple_pat: TuplePat TUPLE_PAT;
    /// A tuple struct and patterns of its fields: `S(p, q)`.
    visit_tuple_struct_pat: TupleStructPat TUPLE_STRUCT_PAT;
    /// A tuple type: `(T, U)`, `()`.
    visit_tuple_type: TupleType TUPLE_TYPE;
    /// A type's other name: `type A = T;`.
    visit_type_alias: TypeAlias TYPE_ALIAS;
    /// The type that a path starts at: `<T as U>`.
    visit_type_anchor: TypeAnchor TYPE_ANCHOR;
    /// A type argument: the `T` of `A<T>`.
    visit_type_arg: TypeArg TYPE_ARG;
    /// A bound: `T`, `'a`, `?T`, `use<..>`.
    visit_type_bound: TypeBound TYPE_BOUND;
    /// Bounds: `T + U`.
    visit_type_bound_list: TypeBoundList TYPE_BOUND_LIST;
    /// A type parameter: `T: U = V`.
    visit_type_param: TypeParam TYPE_PARAM;
    /// The `_` that is assigned to.
    visit_underscore_expr: UnderscoreExpr UNDERSCORE_EXPR;
    /// A union: `union U { f: T }`.
    visit_union: Union UNION;
    /// `unsafe(m)`.
    visit_unsafe_meta: UnsafeMeta UNSAFE_META;
    /// An import: `use a::{b, c};`.
    visit_use: Use USE;
    /// The parameters of a `use` bound: `<'a, T>`.
    visit_use_bound_generic_args: UseBoundGenericArgs USE_BOUND_GENERIC_ARGS;
    /// A tree of imports: `a::{b, c as d}`, `a::*`.
    visit_use_tree: UseTree USE_TREE;
    /// The trees in braces: `{b, c}`.
    visit_use_tree_list: UseTreeList USE_TREE_LIST;
    /// A variant of an enum: `A(T) = 1`.
    visit_variant: Variant VARIANT;
    /// The variants of an enum with their braces: `{ A, B(T) }`.
    visit_variant_list: VariantList VARIANT_LIST;
    /// A visibility: `pub`, `pub(in a)`.
    visit_visibility: Visibility VISIBILITY;
    /// The part of a visibility in parentheses: `(crate)`, `(in a)`.
    visit_visibility_inner: VisibilityInner VISIBILITY_INNER;
    /// `where T: U, V: W`.
    visit_where_clause: WhereClause WHERE_CLAUSE;
    /// A predicate of a `where` clause: `T: U`.
    visit_where_pred: WherePred WHERE_PRED;
    /// A `while` loop: `while a { .. }`.
    visit_while_expr: WhileExpr WHILE_EXPR;
    /// The pattern that takes all: `_`.
    visit_wildcard_pat: WildcardPat WILDCARD_PAT;
    /// `do yeet a`.
    visit_yeet_expr: YeetExpr YEET_EXPR;
    /// `yield a`.
    visit_yield_expr: YieldExpr YIELD_EXPR;
}
