//! Lookups in inline assembly. Written by bindings/make.
use crate::ast::macros::*;
use crate::ast::views::*;
use crate::ast::{AstChildren, AstNode, support};
use crate::SyntaxKind;
use crate::node::Node;

calls! {
    AsmClobberAbi:
    leaf clobber_abi_token: CLOBBER_ABI_KW = "Example: `clobber_abi` of `clobber_abi(\"C\")`.",
    leaf l_paren_token: L_PAREN = "Example: `(` of `clobber_abi(\"C\")`.",
    leaf r_paren_token: R_PAREN = "Example: `)` of `clobber_abi(\"C\")`.",
    leaf string_token: STRING = "Example: `\"C\"` of `clobber_abi(\"C\")`.",
}

calls! {
    AsmConst:
    leaf const_token: CONST_KW = "Example: `const` of `const b`.",
    first expr: Expr = "Example: `b` of `const b`.",
}

calls! {
    AsmDirSpec:
    leaf in_token: IN_KW = "Example: `in` of `in`.",
    leaf inlateout_token: INLATEOUT_KW = "Example: `inlateout` of `inlateout`.",
    leaf inout_token: INOUT_KW = "Example: `inout` of `inout`.",
    leaf lateout_token: LATEOUT_KW = "Example: `lateout` of `lateout`.",
    leaf out_token: OUT_KW = "Example: `out` of `out`.",
}

calls! {
    AsmLabel:
    first block_expr: BlockExpr = "Example: `{ b }` of `label { b }`.",
    leaf label_token: LABEL_KW = "Example: `label` of `label { b }`.",
}

calls! {
    AsmOperandExpr:
    leaf fat_arrow_token: FAT_ARROW = "Example: `=>` of `b => c`.",
    first in_expr: Expr = "Example: `b` of `b => c`.",
    second out_expr: Expr = "Example: `c` of `b => c`.",
}

calls! {
    AsmOperandNamed:
    first asm_operand: AsmOperand = "Example: `const c` of `b = const c`.",
    leaf eq_token: EQ = "Example: `=` of `b = const c`.",
    first name: Name = "Example: `b` of `b = const c`.",
}

calls! {
    AsmOption:
    leaf att_syntax_token: ATT_SYNTAX_KW = "Example: `att_syntax` of `att_syntax`.",
    leaf may_unwind_token: MAY_UNWIND_KW = "Example: `may_unwind` of `may_unwind`.",
    leaf nomem_token: NOMEM_KW = "Example: `nomem` of `nomem`.",
    leaf noreturn_token: NORETURN_KW = "Example: `noreturn` of `noreturn`.",
    leaf nostack_token: NOSTACK_KW = "Example: `nostack` of `nostack`.",
    leaf preserves_flags_token: PRESERVES_FLAGS_KW = "Example: `preserves_flags` of `preserves_flags`.",
    leaf pure_token: PURE_KW = "Example: `pure` of `pure`.",
    leaf raw_token: RAW_KW = "Example: `raw` of `raw`.",
    leaf readonly_token: READONLY_KW = "Example: `readonly` of `readonly`.",
}

calls! {
    AsmOptions:
    all asm_options: AsmOption = "Example: `pure` and `nomem` of `options(pure, nomem)`.",
    leaf comma_token: COMMA = "Example: `,` of `options(pure, nomem)`.",
    leaf l_paren_token: L_PAREN = "Example: `(` of `options(pure, nomem)`.",
    leaf options_token: OPTIONS_KW = "Example: `options` of `options(pure, nomem)`.",
    leaf r_paren_token: R_PAREN = "Example: `)` of `options(pure, nomem)`.",
}

calls! {
    AsmRegOperand:
    first asm_dir_spec: AsmDirSpec = "Example: `in` of `in(r) b`.",
    first asm_operand_expr: AsmOperandExpr = "Example: `b` of `in(r) b`.",
    first asm_reg_spec: AsmRegSpec = "Example: `r` of `in(r) b`.",
    leaf l_paren_token: L_PAREN = "Example: `(` of `in(r) b`.",
    leaf r_paren_token: R_PAREN = "Example: `)` of `in(r) b`.",
}

calls! {
    AsmRegSpec:
    first name_ref: NameRef = "Example: `r` of `r`.",
    leaf string_token: STRING = "Example: `\"eax\"` of `\"eax\"`.",
}

calls! {
    AsmSym:
    first path: Path = "Example: `b` of `sym b`.",
    leaf sym_token: SYM_KW = "Example: `sym` of `sym b`.",
}
