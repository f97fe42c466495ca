"""Views of inline assembly. Written by bindings/make."""
from __future__ import annotations

from typing import TYPE_CHECKING, List, Optional

from ._lookups import View, every, first, second, token
from ._shared import *

if TYPE_CHECKING:
    from .. import Element
    from . import *


class AsmClobberAbi(AsmPiece):
    """The ABIs whose registers are overwritten: `clobber_abi("C")`."""

    KIND = "ASM_CLOBBER_ABI"

    @property
    def clobber_abi_token(self) -> Optional[Element]:
        """Example: `clobber_abi` of `clobber_abi("C")`."""
        return token(self, "CLOBBER_ABI_KW")

    @property
    def l_paren_token(self) -> Optional[Element]:
        """Example: `(` of `clobber_abi("C")`."""
        return token(self, "L_PAREN")

    @property
    def r_paren_token(self) -> Optional[Element]:
        """Example: `)` of `clobber_abi("C")`."""
        return token(self, "R_PAREN")

    @property
    def string_token(self) -> Optional[Element]:
        """Example: `"C"` of `clobber_abi("C")`."""
        return token(self, "STRING")


class AsmConst(AsmOperand):
    """A constant as an operand: `const a`."""

    KIND = "ASM_CONST"

    @property
    def const_token(self) -> Optional[Element]:
        """Example: `const` of `const b`."""
        return token(self, "CONST_KW")

    @property
    def expr(self) -> Optional[Expr]:
        """Example: `b` of `const b`."""
        return first(self, "Expr")


class AsmDirSpec(View):
    """The direction of an operand: `in`, `out`, `lateout`, `inout`, `inlateout`."""

    KIND = "ASM_DIR_SPEC"

    @property
    def in_token(self) -> Optional[Element]:
        """Example: `in` of `in`."""
        return token(self, "IN_KW")

    @property
    def inlateout_token(self) -> Optional[Element]:
        """Example: `inlateout` of `inlateout`."""
        return token(self, "INLATEOUT_KW")

    @property
    def inout_token(self) -> Optional[Element]:
        """Example: `inout` of `inout`."""
        return token(self, "INOUT_KW")

    @property
    def lateout_token(self) -> Optional[Element]:
        """Example: `lateout` of `lateout`."""
        return token(self, "LATEOUT_KW")

    @property
    def out_token(self) -> Optional[Element]:
        """Example: `out` of `out`."""
        return token(self, "OUT_KW")


class AsmLabel(AsmOperand):
    """A block as an operand: `label { a }`."""

    KIND = "ASM_LABEL"

    @property
    def block_expr(self) -> Optional[BlockExpr]:
        """Example: `{ b }` of `label { b }`."""
        return first(self, "BlockExpr")

    @property
    def label_token(self) -> Optional[Element]:
        """Example: `label` of `label { b }`."""
        return token(self, "LABEL_KW")


class AsmOperandExpr(View):
    """What is read, and what is written: `a`, `a => b`."""

    KIND = "ASM_OPERAND_EXPR"

    @property
    def fat_arrow_token(self) -> Optional[Element]:
        """Example: `=>` of `b => c`."""
        return token(self, "FAT_ARROW")

    @property
    def in_expr(self) -> Optional[Expr]:
        """Example: `b` of `b => c`."""
        return first(self, "Expr")

    @property
    def out_expr(self) -> Optional[Expr]:
        """Example: `c` of `b => c`."""
        return second(self, "Expr")


class AsmOperandNamed(AsmPiece):
    """An operand, with a name where it has one: `a = in(r) b`."""

    KIND = "ASM_OPERAND_NAMED"

    @property
    def asm_operand(self) -> Optional[AsmOperand]:
        """Example: `const c` of `b = const c`."""
        return first(self, "AsmOperand")

    @property
    def eq_token(self) -> Optional[Element]:
        """Example: `=` of `b = const c`."""
        return token(self, "EQ")

    @property
    def name(self) -> Optional[Name]:
        """Example: `b` of `b = const c`."""
        return first(self, "Name")


class AsmOption(View):
    """An option: `pure`, `nomem`."""

    KIND = "ASM_OPTION"

    @property
    def att_syntax_token(self) -> Optional[Element]:
        """Example: `att_syntax` of `att_syntax`."""
        return token(self, "ATT_SYNTAX_KW")

    @property
    def may_unwind_token(self) -> Optional[Element]:
        """Example: `may_unwind` of `may_unwind`."""
        return token(self, "MAY_UNWIND_KW")

    @property
    def nomem_token(self) -> Optional[Element]:
        """Example: `nomem` of `nomem`."""
        return token(self, "NOMEM_KW")

    @property
    def noreturn_token(self) -> Optional[Element]:
        """Example: `noreturn` of `noreturn`."""
        return token(self, "NORETURN_KW")

    @property
    def nostack_token(self) -> Optional[Element]:
        """Example: `nostack` of `nostack`."""
        return token(self, "NOSTACK_KW")

    @property
    def preserves_flags_token(self) -> Optional[Element]:
        """Example: `preserves_flags` of `preserves_flags`."""
        return token(self, "PRESERVES_FLAGS_KW")

    @property
    def pure_token(self) -> Optional[Element]:
        """Example: `pure` of `pure`."""
        return token(self, "PURE_KW")

    @property
    def raw_token(self) -> Optional[Element]:
        """Example: `raw` of `raw`."""
        return token(self, "RAW_KW")

    @property
    def readonly_token(self) -> Optional[Element]:
        """Example: `readonly` of `readonly`."""
        return token(self, "READONLY_KW")


class AsmOptions(AsmPiece):
    """Options: `options(pure, nomem)`."""

    KIND = "ASM_OPTIONS"

    @property
    def asm_options(self) -> List[AsmOption]:
        """Example: `pure` and `nomem` of `options(pure, nomem)`."""
        return every(self, "AsmOption")

    @property
    def comma_token(self) -> Optional[Element]:
        """Example: `,` of `options(pure, nomem)`."""
        return token(self, "COMMA")

    @property
    def l_paren_token(self) -> Optional[Element]:
        """Example: `(` of `options(pure, nomem)`."""
        return token(self, "L_PAREN")

    @property
    def options_token(self) -> Optional[Element]:
        """Example: `options` of `options(pure, nomem)`."""
        return token(self, "OPTIONS_KW")

    @property
    def r_paren_token(self) -> Optional[Element]:
        """Example: `)` of `options(pure, nomem)`."""
        return token(self, "R_PAREN")


class AsmRegOperand(AsmOperand):
    """A register as an operand: `in(r) a`."""

    KIND = "ASM_REG_OPERAND"

    @property
    def asm_dir_spec(self) -> Optional[AsmDirSpec]:
        """Example: `in` of `in(r) b`."""
        return first(self, "AsmDirSpec")

    @property
    def asm_operand_expr(self) -> Optional[AsmOperandExpr]:
        """Example: `b` of `in(r) b`."""
        return first(self, "AsmOperandExpr")

    @property
    def asm_reg_spec(self) -> Optional[AsmRegSpec]:
        """Example: `r` of `in(r) b`."""
        return first(self, "AsmRegSpec")

    @property
    def l_paren_token(self) -> Optional[Element]:
        """Example: `(` of `in(r) b`."""
        return token(self, "L_PAREN")

    @property
    def r_paren_token(self) -> Optional[Element]:
        """Example: `)` of `in(r) b`."""
        return token(self, "R_PAREN")


class AsmRegSpec(View):
    """A register, or a class of registers: `"eax"`, `r`."""

    KIND = "ASM_REG_SPEC"

    @property
    def name_ref(self) -> Optional[NameRef]:
        """Example: `r` of `r`."""
        return first(self, "NameRef")

    @property
    def string_token(self) -> Optional[Element]:
        """Example: `"eax"` of `"eax"`."""
        return token(self, "STRING")


class AsmSym(AsmOperand):
    """A symbol as an operand: `sym a`."""

    KIND = "ASM_SYM"

    @property
    def path(self) -> Optional[Path]:
        """Example: `b` of `sym b`."""
        return first(self, "Path")

    @property
    def sym_token(self) -> Optional[Element]:
        """Example: `sym` of `sym b`."""
        return token(self, "SYM_KW")
