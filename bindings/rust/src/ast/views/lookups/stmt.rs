//! Lookups in statements and parts of expressions. Written by bindings/make.
use crate::ast::macros::*;
use crate::ast::views::*;
use crate::ast::{AstChildren, AstNode, support};
use crate::SyntaxKind;
use crate::node::Node;

calls! {
    ArgList:
    all args: Expr = "Example: `a` and `b` of `(a, b)`.",
    leaf l_paren_token: L_PAREN = "Example: `(` of `(a, b)`.",
    leaf r_paren_token: R_PAREN = "Example: `)` of `(a, b)`.",
}

calls! {
    ExprStmt:
    first expr: Expr = "Example: `a` of `a;`.",
    leaf semicolon_token: SEMICOLON = "Example: `;` of `a;`.",
}

calls! {
    FormatArgsArg:
    first arg_name: FormatArgsArgName = "Example: `a =` of `a = b`.",
    first expr: Expr = "Example: `b` of `a = b`.",
}

calls! {
    Label:
    leaf colon_token: COLON = "Example: `:` of `'a:`.",
    first lifetime: Lifetime = "Example: `'a` of `'a:`.",
}

calls! {
    LetElse:
    first block_expr: BlockExpr = "Example: `{ b }` of `else { b }`.",
    leaf else_token: ELSE_KW = "Example: `else` of `else { b }`.",
}

calls! {
    LetStmt:
    leaf colon_token: COLON = "Example: `:` of `let p: T = a else { b };`.",
    leaf eq_token: EQ = "Example: `=` of `let p: T = a else { b };`.",
    first initializer: Expr = "Example: `a` of `let p: T = a else { b };`.",
    first let_else: LetElse = "Example: `else { b }` of `let p: T = a else { b };`.",
    leaf let_token: LET_KW = "Example: `let` of `let p: T = a else { b };`.",
    first pat: Pat = "Example: `p` of `let p: T = a else { b };`.",
    leaf semicolon_token: SEMICOLON = "Example: `;` of `let p: T = a else { b };`.",
    leaf super_token: SUPER_KW = "Example: `super` of `super let p = a;`.",
    first ty: Type = "Example: `T` of `let p: T = a else { b };`.",
}

calls! {
    MatchArm:
    leaf comma_token: COMMA = "Example: `,` of `p if a => b,`.",
    first expr: Expr = "Example: `b` of `p if a => b,`.",
    leaf fat_arrow_token: FAT_ARROW = "Example: `=>` of `p if a => b,`.",
    first guard: MatchGuard = "Example: `if a` of `p if a => b,`.",
    first pat: Pat = "Example: `p` of `p if a => b,`.",
}

calls! {
    MatchArmList:
    all arms: MatchArm = "Example: `p => b,` and `q => c` of `{ p => b, q => c }`.",
    leaf l_curly_token: L_CURLY = "Example: `{` of `{ p => b, q => c }`.",
    leaf r_curly_token: R_CURLY = "Example: `}` of `{ p => b, q => c }`.",
}

calls! {
    MatchGuard:
    first condition: Expr = "Example: `a` of `if a`.",
    leaf if_token: IF_KW = "Example: `if` of `if a`.",
}

calls! {
    RecordExprField:
    leaf colon_token: COLON = "Example: `:` of `f: a`.",
    first expr: Expr = "Example: `a` of `f: a`.",
    first name_ref: NameRef = "Example: `f` of `f: a`.",
}

calls! {
    StmtList:
    leaf l_curly_token: L_CURLY = "Example: `{` of `{ a; fn g() {} b }`.",
    leaf r_curly_token: R_CURLY = "Example: `}` of `{ a; fn g() {} b }`.",
    all statements: Stmt = "Example: `a;` and `fn g() {}` of `{ a; fn g() {} b }`.",
    first tail_expr: Expr = "Example: `b` of `{ a; fn g() {} b }`.",
}

calls! {
    TryBlockModifier:
    leaf bikeshed_token: BIKESHED_KW = "Example: `bikeshed` of `try bikeshed T`.",
    leaf try_token: TRY_KW = "Example: `try` of `try bikeshed T`.",
    first ty: Type = "Example: `T` of `try bikeshed T`.",
}
