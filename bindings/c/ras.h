/* Lossless syntax trees for Rust: the calls of the library. Written by bindings/make.
 *
 * Each buffer is a pointer and how many elements lie there; it may be null where that is 0. No two buffers of a call overlap.
 *
 * libras_c.a takes its memory by the three functions below, which the program has: heap.c has them over malloc, realloc and free.
 * libras.so has them itself.
 */
#ifndef RAS_H
#define RAS_H

#include <stdbool.h>
#include <stddef.h>
#include <stdint.h>

#ifdef __cplusplus
extern "C" {
#endif

/* A block of memory: whether there was memory, and where; the pointer is never null. */
typedef struct {
    bool is_there;
    void *at;
} ras_block;

/* A block of a size, in bytes, and of an alignment, a power of two of at most 16. The size may be 0. */
ras_block rattle_alloc(size_t size, size_t align);

/* A block of another size with the first bytes of the old one, of which `used` count. The old one is kept if there is no memory. */
ras_block rattle_realloc(void *at, size_t used, size_t size, size_t align);

/* Frees a block. */
void rattle_dealloc(void *at);

/* What a change puts in stands in the place of the element; with nothing, the element is deleted. */
#define RAS_PLACE_INSTEAD 0u

/* It is put before the element. */
#define RAS_PLACE_BEFORE 1u

/* It is put after the element. */
#define RAS_PLACE_AFTER 2u

/* It is put into the node, before its first child. */
#define RAS_PLACE_FIRST 3u

/* It is put into the node, after its last child. */
#define RAS_PLACE_LAST 4u

/* A change puts nothing in. */
#define RAS_CONTENT_NOTHING 0u

/* A change puts a text in: bytes start to end of the texts. */
#define RAS_CONTENT_TEXT 1u

/* A change puts a copy of an element of the old tree in, that at the row start. */
#define RAS_CONTENT_ROW 2u

/* A change is before, after or in the place of the root. Nothing was written. */
#define RAS_BESIDE_ROOT 21u

/* A change puts a child into a token. Nothing was written. */
#define RAS_INTO_TOKEN 22u

/* A change is of an element that another one replaces or deletes. Nothing was written. */
#define RAS_REPLACED 23u

/* A change is inside an element that another one replaces or deletes. Nothing was written. */
#define RAS_IN_REPLACED 24u

/* A change replaces an element inside which there are others. Nothing was written. */
#define RAS_CHANGED_INSIDE 25u

/* No place or no content of a change has the number. Nothing was written. */
#define RAS_NO_CHANGE 26u

/* The entry of a file: the root is a SOURCE_FILE. */
#define RAS_ENTRY_FILE 0u

/*
 * The entry of an expression: the root is a node of an expression, or ERROR if the text is not
 * one expression. If only its beginning is one, as in a b, there may be no errors.
 */
#define RAS_ENTRY_EXPR 1u

/*
 * The entry of a type, with its bounds: the root is a node of a type, or ERROR if the text is
 * not one type, as for RAS_ENTRY_EXPR.
 */
#define RAS_ENTRY_TYPE 2u

/*
 * The entry of a pattern, with its alternatives: the root is a node of a pattern, or ERROR if
 * the text is not one pattern, as for RAS_ENTRY_EXPR.
 */
#define RAS_ENTRY_PATTERN 3u

/* The entry of statements, as a macro may stand for: the root is a MACRO_STMTS. */
#define RAS_ENTRY_STATEMENTS 4u

/* The entry of items, as a macro may stand for: the root is a MACRO_ITEMS. */
#define RAS_ENTRY_ITEMS 5u

/*
 * The entry of what is between the brackets of an attribute: the root is a PATH_META,
 * KEY_VALUE_META, TOKEN_TREE_META, UNSAFE_META, CFG_META or CFG_ATTR_META, or ERROR if
 * the text is not one of these, as for RAS_ENTRY_EXPR.
 */
#define RAS_ENTRY_META_ITEM 6u

/* No errors are told. */
#define RAS_NO_ERRORS 0u

/*
 * The errors of the parser, and then those of the lexer, are told. The tree is not walked for
 * violations of rules beyond the grammar.
 */
#define RAS_PARSE_ERRORS 1u

/* The violations of rules beyond the grammar are told, without the errors of the parse. */
#define RAS_VIOLATIONS 2u

/* All errors are told: those of the parse, and then the violations. */
#define RAS_ALL_ERRORS 3u

/* Two ranges of an edit overlap. Nothing was written. */
#define RAS_OVERLAP 19u

/*
 * The lengths of the inserted texts do not cut their bytes into texts: there are more or fewer
 * bytes, or a text would end inside a character. Nothing was written.
 */
#define RAS_NOT_CUT 20u

/* A number that no kind has. */
#define RAS_NO_KIND 4294967295u

/* Columns are counted in bytes, the units of UTF-8. */
#define RAS_ENCODING_UTF8 0u

/* Columns are counted in units of UTF-16, as editors count: two for a character past U+FFFF. */
#define RAS_ENCODING_UTF16 1u

/* Columns are counted in characters, the units of UTF-32. */
#define RAS_ENCODING_UTF32 2u

/* No encoding has the number. Nothing was written. */
#define RAS_NO_ENCODING 18u

/* The text in place of an expression is not one expression. Nothing was written. */
#define RAS_NO_EXPR 17u

/* The rules are refused. message and fault say why and where; nothing else was written. */
#define RAS_BAD_RULE 13u

/* A rule to replace by has no template. Nothing was written. */
#define RAS_NO_TEMPLATE 14u

/*
 * A comment would be lost: it is in what stands for a placeholder that the template has not.
 * Nothing was written.
 */
#define RAS_LOSES_COMMENT 15u

/* The new text would be read otherwise than it is meant. Nothing was written. */
#define RAS_READS_OTHERWISE 16u

/* Success. The buffers and the counts were written. */
#define RAS_OK 0u

/* The text is not UTF-8. Nothing was written. */
#define RAS_NOT_UTF8 1u

/* The text, its rows or its messages have 2^32 bytes or elements or more. Nothing was written. */
#define RAS_TOO_LONG 2u

/* Out of memory. Nothing was written. */
#define RAS_NO_MEMORY 3u

/* A buffer is too small. The counts are the sizes that are needed; nothing else was written. */
#define RAS_NO_ROOM 4u

/* The edition is not 2015, 2018, 2021 or 2024. Nothing was written. */
#define RAS_NO_EDITION 5u

/*
 * The text has no such range, or its tree no such node; or an element of a list is no offset or
 * place of the text. Nothing was written, but for the number of that element.
 */
#define RAS_NO_PLACE 6u

/* The handle holds no parse. Nothing was written. */
#define RAS_NO_PARSE 7u

/* No entry has the number. Nothing was written. */
#define RAS_NO_ENTRY 11u

/* No choice of errors has the number. Nothing was written. */
#define RAS_NO_CHOICE 12u

/* A unit that is a character: its value is the character's number. */
#define RAS_UNIT_CHAR 0u

/*
 * A unit that is a byte from 80 (hexadecimal) on, as \xff of a byte string or a C string: its
 * value is the byte.
 */
#define RAS_UNIT_BYTE 1u

/* A unit that is wrong, or a warning: its value is the status of the fault, from RAS_FAULT on. */
#define RAS_UNIT_FAULT 2u

/* An integer without a digit. Nothing was written. */
#define RAS_NO_DIGIT 8u

/* An integer with a character that is no digit of its radix. Nothing was written. */
#define RAS_BAD_DIGIT 9u

/* An integer of 2^128 or more. Nothing was written. */
#define RAS_TOO_LARGE 10u

/*
 * From this status on, an escape or a character of a literal is wrong: RAS_FAULT + n, where n
 * counts EscapeError's variants. Nothing was written.
 */
#define RAS_FAULT 64u

/* A number made of the kinds, constants, structs and calls of the library. Bindings that know another number were made for others. */
#define RAS_VERSION 1426711408u

/* The statuses of a wrong escape or character. */
enum ras_fault {
    /* A character or byte literal without content. */
    RAS_FAULT_ZERO_CHARS = 64,
    /* Something follows the one good unit of a character or byte literal. */
    RAS_FAULT_MORE_THAN_ONE_CHAR = 65,
    /* A backslash at the content's end. */
    RAS_FAULT_LONE_SLASH = 66,
    /* A backslash before a character that begins no escape. */
    RAS_FAULT_INVALID_ESCAPE = 67,
    /* A bare carriage return, also before a newline. */
    RAS_FAULT_BARE_CARRIAGE_RETURN = 68,
    /* A carriage return in a raw string. No call of this crate returns it. */
    RAS_FAULT_BARE_CARRIAGE_RETURN_IN_RAW_STRING = 69,
    /*
     * A character that must be escaped in this literal: " in the strings; ', newline and
     * tab in a character or byte.
     */
    RAS_FAULT_ESCAPE_ONLY_CHAR = 70,
    /* The content ends before the second digit of \x. */
    RAS_FAULT_TOO_SHORT_HEX_ESCAPE = 71,
    /* Another character than a hexadecimal digit after \x. */
    RAS_FAULT_INVALID_CHAR_IN_HEX_ESCAPE = 72,
    /* A value over 7F in a character or string. */
    RAS_FAULT_OUT_OF_RANGE_HEX_ESCAPE = 73,
    /* No { after \u. */
    RAS_FAULT_NO_BRACE_IN_UNICODE_ESCAPE = 74,
    /* Another character than a hexadecimal digit or an underscore within the braces. */
    RAS_FAULT_INVALID_CHAR_IN_UNICODE_ESCAPE = 75,
    /* Nothing within the braces. */
    RAS_FAULT_EMPTY_UNICODE_ESCAPE = 76,
    /* The content ends before the closing brace. */
    RAS_FAULT_UNCLOSED_UNICODE_ESCAPE = 77,
    /* An underscore before the first digit. */
    RAS_FAULT_LEADING_UNDERSCORE_UNICODE_ESCAPE = 78,
    /* More than six digits. */
    RAS_FAULT_OVERLONG_UNICODE_ESCAPE = 79,
    /* A value from D800 to DFFF. */
    RAS_FAULT_LONE_SURROGATE_UNICODE_ESCAPE = 80,
    /* A value over 10FFFF. */
    RAS_FAULT_OUT_OF_RANGE_UNICODE_ESCAPE = 81,
    /* \u{..} in a byte or byte string. */
    RAS_FAULT_UNICODE_ESCAPE_IN_BYTE = 82,
    /* A character past ASCII in a byte or byte string. */
    RAS_FAULT_NON_ASCII_CHAR_IN_BYTE = 83,
    /* The character 0 in a C string, however it is written. */
    RAS_FAULT_NUL_IN_C_STR = 84,
    /* A warning: a continuation skips a second newline. */
    RAS_FAULT_MULTIPLE_SKIPPED_LINES_WARNING = 85,
    /* A warning: white space that is not skipped follows a continuation. */
    RAS_FAULT_UNSKIPPED_WHITESPACE_WARNING = 86,
};

/* The kinds, by their numbers; that of a token's row has 2^31 more. */
enum ras_kind {
    RAS_KIND_WHITESPACE = 0,
    RAS_KIND_COMMENT = 1,
    RAS_KIND_INNER_DOC_COMMENT = 2,
    RAS_KIND_OUTER_DOC_COMMENT = 3,
    RAS_KIND_ERROR = 4,
    RAS_KIND_IDENT = 5,
    RAS_KIND_LIFETIME_IDENT = 6,
    RAS_KIND_INT_NUMBER = 7,
    RAS_KIND_FLOAT_NUMBER = 8,
    RAS_KIND_CHAR = 9,
    RAS_KIND_BYTE = 10,
    RAS_KIND_STRING = 11,
    RAS_KIND_BYTE_STRING = 12,
    RAS_KIND_C_STRING = 13,
    RAS_KIND_SEMICOLON = 14,
    RAS_KIND_COMMA = 15,
    RAS_KIND_L_PAREN = 16,
    RAS_KIND_R_PAREN = 17,
    RAS_KIND_L_CURLY = 18,
    RAS_KIND_R_CURLY = 19,
    RAS_KIND_L_BRACK = 20,
    RAS_KIND_R_BRACK = 21,
    RAS_KIND_L_ANGLE = 22,
    RAS_KIND_R_ANGLE = 23,
    RAS_KIND_AT = 24,
    RAS_KIND_POUND = 25,
    RAS_KIND_DOLLAR = 26,
    RAS_KIND_TILDE = 27,
    RAS_KIND_QUESTION = 28,
    RAS_KIND_AMP = 29,
    RAS_KIND_PIPE = 30,
    RAS_KIND_PLUS = 31,
    RAS_KIND_STAR = 32,
    RAS_KIND_SLASH = 33,
    RAS_KIND_CARET = 34,
    RAS_KIND_PERCENT = 35,
    RAS_KIND_UNDERSCORE = 36,
    RAS_KIND_DOT = 37,
    RAS_KIND_DOT2 = 38,
    RAS_KIND_DOT3 = 39,
    RAS_KIND_DOT2EQ = 40,
    RAS_KIND_COLON = 41,
    RAS_KIND_COLON2 = 42,
    RAS_KIND_EQ = 43,
    RAS_KIND_EQ2 = 44,
    RAS_KIND_FAT_ARROW = 45,
    RAS_KIND_BANG = 46,
    RAS_KIND_NEQ = 47,
    RAS_KIND_MINUS = 48,
    RAS_KIND_THIN_ARROW = 49,
    RAS_KIND_LTEQ = 50,
    RAS_KIND_GTEQ = 51,
    RAS_KIND_PLUSEQ = 52,
    RAS_KIND_MINUSEQ = 53,
    RAS_KIND_PIPEEQ = 54,
    RAS_KIND_AMPEQ = 55,
    RAS_KIND_CARETEQ = 56,
    RAS_KIND_SLASHEQ = 57,
    RAS_KIND_STAREQ = 58,
    RAS_KIND_PERCENTEQ = 59,
    RAS_KIND_AMP2 = 60,
    RAS_KIND_PIPE2 = 61,
    RAS_KIND_SHL = 62,
    RAS_KIND_SHR = 63,
    RAS_KIND_SHLEQ = 64,
    RAS_KIND_SHREQ = 65,
    RAS_KIND_AS_KW = 66,
    RAS_KIND_ASYNC_KW = 67,
    RAS_KIND_AUTO_KW = 68,
    RAS_KIND_AWAIT_KW = 69,
    RAS_KIND_BECOME_KW = 70,
    RAS_KIND_BIKESHED_KW = 71,
    RAS_KIND_BREAK_KW = 72,
    RAS_KIND_BUILTIN_KW = 73,
    RAS_KIND_CONST_KW = 74,
    RAS_KIND_CONTINUE_KW = 75,
    RAS_KIND_CRATE_KW = 76,
    RAS_KIND_DEFAULT_KW = 77,
    RAS_KIND_DO_KW = 78,
    RAS_KIND_DYN_KW = 79,
    RAS_KIND_ELSE_KW = 80,
    RAS_KIND_ENUM_KW = 81,
    RAS_KIND_EXTERN_KW = 82,
    RAS_KIND_FALSE_KW = 83,
    RAS_KIND_FN_KW = 84,
    RAS_KIND_FOR_KW = 85,
    RAS_KIND_GEN_KW = 86,
    RAS_KIND_IF_KW = 87,
    RAS_KIND_IMPL_KW = 88,
    RAS_KIND_IN_KW = 89,
    RAS_KIND_LET_KW = 90,
    RAS_KIND_LOOP_KW = 91,
    RAS_KIND_MACRO_KW = 92,
    RAS_KIND_MACRO_RULES_KW = 93,
    RAS_KIND_MATCH_KW = 94,
    RAS_KIND_MOD_KW = 95,
    RAS_KIND_MOVE_KW = 96,
    RAS_KIND_MUT_KW = 97,
    RAS_KIND_PUB_KW = 98,
    RAS_KIND_REF_KW = 99,
    RAS_KIND_RETURN_KW = 100,
    RAS_KIND_SELF_KW = 101,
    RAS_KIND_SELF_TYPE_KW = 102,
    RAS_KIND_STATIC_KW = 103,
    RAS_KIND_STRUCT_KW = 104,
    RAS_KIND_SUPER_KW = 105,
    RAS_KIND_TRAIT_KW = 106,
    RAS_KIND_TRUE_KW = 107,
    RAS_KIND_TRY_KW = 108,
    RAS_KIND_TYPE_KW = 109,
    RAS_KIND_UNION_KW = 110,
    RAS_KIND_UNSAFE_KW = 111,
    RAS_KIND_USE_KW = 112,
    RAS_KIND_WHERE_KW = 113,
    RAS_KIND_WHILE_KW = 114,
    RAS_KIND_YEET_KW = 115,
    RAS_KIND_YIELD_KW = 116,
    RAS_KIND_ARRAY_EXPR = 117,
    RAS_KIND_ASM_EXPR = 118,
    RAS_KIND_AWAIT_EXPR = 119,
    RAS_KIND_BECOME_EXPR = 120,
    RAS_KIND_BIN_EXPR = 121,
    RAS_KIND_BLOCK_EXPR = 122,
    RAS_KIND_BREAK_EXPR = 123,
    RAS_KIND_CALL_EXPR = 124,
    RAS_KIND_CAST_EXPR = 125,
    RAS_KIND_CFG_PRED_EXPR = 126,
    RAS_KIND_CLOSURE_EXPR = 127,
    RAS_KIND_CONTINUE_EXPR = 128,
    RAS_KIND_FIELD_EXPR = 129,
    RAS_KIND_FOR_EXPR = 130,
    RAS_KIND_FORMAT_ARGS_EXPR = 131,
    RAS_KIND_IF_EXPR = 132,
    RAS_KIND_INCLUDE_BYTES_EXPR = 133,
    RAS_KIND_INDEX_EXPR = 134,
    RAS_KIND_LET_EXPR = 135,
    RAS_KIND_LITERAL = 136,
    RAS_KIND_LOOP_EXPR = 137,
    RAS_KIND_MACRO_EXPR = 138,
    RAS_KIND_MATCH_EXPR = 139,
    RAS_KIND_METHOD_CALL_EXPR = 140,
    RAS_KIND_OFFSET_OF_EXPR = 141,
    RAS_KIND_PAREN_EXPR = 142,
    RAS_KIND_PATH_EXPR = 143,
    RAS_KIND_PREFIX_EXPR = 144,
    RAS_KIND_RANGE_EXPR = 145,
    RAS_KIND_RECORD_EXPR = 146,
    RAS_KIND_REF_EXPR = 147,
    RAS_KIND_RETURN_EXPR = 148,
    RAS_KIND_TRY_EXPR = 149,
    RAS_KIND_TUPLE_EXPR = 150,
    RAS_KIND_UNDERSCORE_EXPR = 151,
    RAS_KIND_WHILE_EXPR = 152,
    RAS_KIND_YEET_EXPR = 153,
    RAS_KIND_YIELD_EXPR = 154,
    RAS_KIND_ARRAY_TYPE = 155,
    RAS_KIND_DYN_TRAIT_TYPE = 156,
    RAS_KIND_FN_PTR_TYPE = 157,
    RAS_KIND_FOR_TYPE = 158,
    RAS_KIND_IMPL_TRAIT_TYPE = 159,
    RAS_KIND_INFER_TYPE = 160,
    RAS_KIND_MACRO_TYPE = 161,
    RAS_KIND_NEVER_TYPE = 162,
    RAS_KIND_PAREN_TYPE = 163,
    RAS_KIND_PATH_TYPE = 164,
    RAS_KIND_PTR_TYPE = 165,
    RAS_KIND_REF_TYPE = 166,
    RAS_KIND_SLICE_TYPE = 167,
    RAS_KIND_TUPLE_TYPE = 168,
    RAS_KIND_BOX_PAT = 169,
    RAS_KIND_CONST_BLOCK_PAT = 170,
    RAS_KIND_IDENT_PAT = 171,
    RAS_KIND_LITERAL_PAT = 172,
    RAS_KIND_MACRO_PAT = 173,
    RAS_KIND_OR_PAT = 174,
    RAS_KIND_PAREN_PAT = 175,
    RAS_KIND_PATH_PAT = 176,
    RAS_KIND_RANGE_PAT = 177,
    RAS_KIND_RECORD_PAT = 178,
    RAS_KIND_REF_PAT = 179,
    RAS_KIND_REST_PAT = 180,
    RAS_KIND_SLICE_PAT = 181,
    RAS_KIND_TUPLE_PAT = 182,
    RAS_KIND_TUPLE_STRUCT_PAT = 183,
    RAS_KIND_WILDCARD_PAT = 184,
    RAS_KIND_CONST = 185,
    RAS_KIND_ENUM = 186,
    RAS_KIND_EXTERN_BLOCK = 187,
    RAS_KIND_EXTERN_CRATE = 188,
    RAS_KIND_FN = 189,
    RAS_KIND_IMPL = 190,
    RAS_KIND_MACRO_CALL = 191,
    RAS_KIND_MACRO_DEF = 192,
    RAS_KIND_MACRO_RULES = 193,
    RAS_KIND_MODULE = 194,
    RAS_KIND_STATIC = 195,
    RAS_KIND_STRUCT = 196,
    RAS_KIND_TRAIT = 197,
    RAS_KIND_TYPE_ALIAS = 198,
    RAS_KIND_UNION = 199,
    RAS_KIND_USE = 200,
    RAS_KIND_CFG_ATTR_META = 201,
    RAS_KIND_CFG_META = 202,
    RAS_KIND_KEY_VALUE_META = 203,
    RAS_KIND_PATH_META = 204,
    RAS_KIND_TOKEN_TREE_META = 205,
    RAS_KIND_UNSAFE_META = 206,
    RAS_KIND_LIFETIME_PARAM = 207,
    RAS_KIND_TYPE_PARAM = 208,
    RAS_KIND_CONST_PARAM = 209,
    RAS_KIND_TYPE_ARG = 210,
    RAS_KIND_ASSOC_TYPE_ARG = 211,
    RAS_KIND_LIFETIME_ARG = 212,
    RAS_KIND_CONST_ARG = 213,
    RAS_KIND_EXPR_STMT = 214,
    RAS_KIND_LET_STMT = 215,
    RAS_KIND_SOURCE_FILE = 216,
    RAS_KIND_NAME = 217,
    RAS_KIND_NAME_REF = 218,
    RAS_KIND_LIFETIME = 219,
    RAS_KIND_PATH = 220,
    RAS_KIND_PATH_SEGMENT = 221,
    RAS_KIND_TYPE_ANCHOR = 222,
    RAS_KIND_ARG_LIST = 223,
    RAS_KIND_PARAM_LIST = 224,
    RAS_KIND_PARAM = 225,
    RAS_KIND_SELF_PARAM = 226,
    RAS_KIND_RET_TYPE = 227,
    RAS_KIND_STMT_LIST = 228,
    RAS_KIND_LABEL = 229,
    RAS_KIND_TRY_BLOCK_MODIFIER = 230,
    RAS_KIND_LET_ELSE = 231,
    RAS_KIND_MATCH_ARM_LIST = 232,
    RAS_KIND_MATCH_ARM = 233,
    RAS_KIND_MATCH_GUARD = 234,
    RAS_KIND_RECORD_EXPR_FIELD = 235,
    RAS_KIND_RECORD_PAT_FIELD = 236,
    RAS_KIND_FORMAT_ARGS_ARG = 237,
    RAS_KIND_ABI = 238,
    RAS_KIND_ATTR = 239,
    RAS_KIND_DOC_COMMENT = 240,
    RAS_KIND_CFG_ATOM = 241,
    RAS_KIND_USE_TREE = 242,
    RAS_KIND_USE_TREE_LIST = 243,
    RAS_KIND_RECORD_FIELD_LIST = 244,
    RAS_KIND_RECORD_FIELD = 245,
    RAS_KIND_TUPLE_FIELD_LIST = 246,
    RAS_KIND_TUPLE_FIELD = 247,
    RAS_KIND_VARIANT = 248,
    RAS_KIND_ITEM_LIST = 249,
    RAS_KIND_ASSOC_ITEM_LIST = 250,
    RAS_KIND_EXTERN_ITEM_LIST = 251,
    RAS_KIND_TYPE_BOUND = 252,
    RAS_KIND_TYPE_BOUND_LIST = 253,
    RAS_KIND_USE_BOUND_GENERIC_ARGS = 254,
    RAS_KIND_FOR_BINDER = 255,
    RAS_KIND_GENERIC_PARAM_LIST = 256,
    RAS_KIND_GENERIC_ARG_LIST = 257,
    RAS_KIND_WHERE_CLAUSE = 258,
    RAS_KIND_WHERE_PRED = 259,
    RAS_KIND_VISIBILITY = 260,
    RAS_KIND_VISIBILITY_INNER = 261,
    RAS_KIND_TOKEN_TREE = 262,
    RAS_KIND_MACRO_STMTS = 263,
    RAS_KIND_FRONTMATTER = 65536,
    RAS_KIND_SHEBANG = 65537,
    RAS_KIND_ABSTRACT_KW = 65538,
    RAS_KIND_BOX_KW = 65539,
    RAS_KIND_FINAL_KW = 65540,
    RAS_KIND_OVERRIDE_KW = 65541,
    RAS_KIND_PRIV_KW = 65542,
    RAS_KIND_TYPEOF_KW = 65543,
    RAS_KIND_UNSIZED_KW = 65544,
    RAS_KIND_VIRTUAL_KW = 65545,
    RAS_KIND_ASM_KW = 65546,
    RAS_KIND_ATT_SYNTAX_KW = 65547,
    RAS_KIND_CLOBBER_ABI_KW = 65548,
    RAS_KIND_FORMAT_ARGS_KW = 65549,
    RAS_KIND_GLOBAL_ASM_KW = 65550,
    RAS_KIND_INLATEOUT_KW = 65551,
    RAS_KIND_INOUT_KW = 65552,
    RAS_KIND_LABEL_KW = 65553,
    RAS_KIND_LATEOUT_KW = 65554,
    RAS_KIND_MAY_UNWIND_KW = 65555,
    RAS_KIND_NAKED_ASM_KW = 65556,
    RAS_KIND_NOMEM_KW = 65557,
    RAS_KIND_NORETURN_KW = 65558,
    RAS_KIND_NOSTACK_KW = 65559,
    RAS_KIND_OFFSET_OF_KW = 65560,
    RAS_KIND_OPTIONS_KW = 65561,
    RAS_KIND_OUT_KW = 65562,
    RAS_KIND_PRESERVES_FLAGS_KW = 65563,
    RAS_KIND_PURE_KW = 65564,
    RAS_KIND_RAW_KW = 65565,
    RAS_KIND_READONLY_KW = 65566,
    RAS_KIND_SAFE_KW = 65567,
    RAS_KIND_SYM_KW = 65568,
    RAS_KIND_CFG_KW = 65569,
    RAS_KIND_CFG_ATTR_KW = 65570,
    RAS_KIND_ASM_CLOBBER_ABI = 65792,
    RAS_KIND_ASM_CONST = 65793,
    RAS_KIND_ASM_DIR_SPEC = 65794,
    RAS_KIND_ASM_LABEL = 65795,
    RAS_KIND_ASM_OPERAND_EXPR = 65796,
    RAS_KIND_ASM_OPERAND_NAMED = 65797,
    RAS_KIND_ASM_OPTION = 65798,
    RAS_KIND_ASM_OPTIONS = 65799,
    RAS_KIND_ASM_REG_OPERAND = 65800,
    RAS_KIND_ASM_REG_SPEC = 65801,
    RAS_KIND_ASM_SYM = 65802,
    RAS_KIND_CFG_COMPOSITE = 65803,
    RAS_KIND_FORMAT_ARGS_ARG_NAME = 65804,
    RAS_KIND_MACRO_ITEMS = 65805,
    RAS_KIND_PARENTHESIZED_ARG_LIST = 65806,
    RAS_KIND_RECORD_EXPR_FIELD_LIST = 65807,
    RAS_KIND_RECORD_PAT_FIELD_LIST = 65808,
    RAS_KIND_RENAME = 65809,
    RAS_KIND_RETURN_TYPE_SYNTAX = 65810,
    RAS_KIND_VARIANT_LIST = 65811,
};

/* One node or token, in 16 bytes. Rows are numbered from 0 in preorder. */
typedef struct {
    /* The number of its kind, plus 2^31 for a token, since ERROR is a kind of both. */
    uint32_t kind;
    /* The byte where its text starts. */
    uint32_t start;
    /* The number of the first row after its subtree. */
    uint32_t subtree_end;
    /* The number of its parent's row; the root, row 0, has 0. */
    uint32_t parent;
} ras_flat_row;

/* One of several changes of a tree. */
typedef struct {
    /* The row of the element of the old tree. */
    uint32_t row;
    /* Where the change is, such as RAS_PLACE_BEFORE. */
    uint32_t place;
    /* What is put in, such as RAS_CONTENT_TEXT. */
    uint32_t content;
    /* Where its text starts in the texts, or its row in the old tree. */
    uint32_t start;
    /* Where its text ends. */
    uint32_t end;
} ras_change_row;

/*
 * One of several replacements of a text. Their inserted texts lie in a buffer, one behind the
 * other.
 */
typedef struct {
    /* The byte of the old text where what is replaced starts. */
    uint32_t start;
    /* The byte where it ends. */
    uint32_t end;
    /* The length of the inserted text in bytes. */
    uint32_t insert;
} ras_edit_row;

/*
 * A parse that is kept between calls, or no parse. A handle of all zeros holds none.
 *
 * The fields are private to the library. Do not use a copy of a handle after a call that changed
 * the original. A handle may go from thread to thread; one call at a time may use it.
 */
typedef struct {
    /* Whether there is a parse. */
    bool full;
    /* Where it is. */
    void *at;
} ras_handle;

/* A place in a text, by its line and its column, both counted from 0. */
typedef struct {
    /* How many line feeds are before the place. */
    uint32_t line;
    /* How many units are between the last of them, or the text's start, and the place. */
    uint32_t col;
} ras_line_col;

/* The memory of a tree that was handed over, or none. Its fields are private to the library. */
typedef struct {
    /* Whether there is a tree. */
    bool full;
    /* Where its memory is. */
    void *at;
} ras_tree_owner;

/* A range of the text, in bytes. */
typedef struct {
    /* Where it starts. */
    uint32_t start;
    /* Where it ends. */
    uint32_t end;
} ras_range;

/* One error: its range in the text, in bytes, and the length of its message. */
typedef struct {
    /* The byte where its range starts. */
    uint32_t start;
    /* The byte where its range ends. */
    uint32_t end;
    /* The length of its message in bytes. The messages are stored one after another. */
    uint32_t message;
} ras_error_row;

/* How many rows, errors and bytes of messages a text has. */
typedef struct {
    /* The nodes and tokens of its tree. */
    uint32_t rows;
    /*
     * Its errors: those of the parser, then those of the lexer, then the violations of rules
     * beyond the grammar.
     */
    uint32_t errors;
    /* How many of the errors are such violations. They are the last ones. */
    uint32_t violations;
    /* The bytes of all messages. */
    uint32_t messages;
} ras_counts;

/* A place where a rule matches. */
typedef struct {
    /* The number of the rule, from 0. */
    size_t rule;
    /* The byte where the match starts. */
    uint32_t start;
    /* The byte where it ends. */
    uint32_t end;
} ras_match_row;

/* What is wrong with rules. */
typedef struct {
    /* The byte of the rules' text where it is. */
    size_t offset;
    /* The length of its message in bytes. */
    size_t message;
} ras_rule_fault;

/* One token. */
typedef struct {
    /* The number of its kind. */
    uint32_t kind;
    /* The length of its text in bytes. */
    uint32_t bytes;
} ras_token_row;

/*
 * A tree in memory that the caller owns: its rows, those that ras_c_rows writes, and its text.
 * All zeros is no tree.
 *
 * Nothing changes the rows and the text, so any number of threads may read them, until
 * ras_c_free_tree frees them. It may be called by any thread, once: not for a copy of the struct
 * too. Only the library changes the fields.
 */
typedef struct {
    /* The rows, in preorder. Where there is no tree it is null. */
    const ras_flat_row *rows;
    /* How many rows there are: at least one, and fewer than 2^32. */
    size_t row_count;
    /* The bytes of the text, which is UTF-8. Nothing may be read there if it is empty. */
    const uint8_t *text;
    /* How many bytes the text has: fewer than 2^32. */
    size_t text_len;
    /* What owns the memory. It is private to the library. */
    ras_tree_owner owner;
} ras_tree_rows;

/* One unit of a string literal: a character or an escape. */
typedef struct {
    /* The byte of the literal's text where it starts. */
    uint32_t start;
    /* The byte where it ends. */
    uint32_t end;
    /* What it is: RAS_UNIT_CHAR, RAS_UNIT_BYTE or RAS_UNIT_FAULT. */
    uint32_t sort;
    /* The number of the character, the byte, or the status of the fault. */
    uint32_t value;
} ras_unit_row;

/* What a word is in an edition. */
typedef struct {
    /*
     * The number of its kind if it is a keyword everywhere in the edition, such as fn, also if
     * it is reserved, as abstract; RAS_NO_KIND if it is none.
     */
    uint32_t keyword;
    /*
     * The number of its kind if it is a keyword in some places alone, such as union; RAS_NO_KIND
     * if it is none.
     */
    uint32_t contextual;
    /*
     * Whether it is an identifier: it begins with a letter or _, goes on with such and digits,
     * by Unicode, and is no keyword everywhere.
     */
    bool is_identifier;
    /*
     * Whether it is one only behind r#: it is a keyword everywhere, but for self, crate,
     * super and Self.
     */
    bool is_raw_identifier;
} ras_word;

/*
 * Writes the text of a handle's tree with many changes made at once to the front of out, and its
 * length to count. The handle keeps its parse. Each change puts a text or a copy of an element,
 * or nothing, before or after an element, into a node, or in the place of an element, which
 * deletes it: as SyntaxEditor does. In the tree of fn f() {}, the text g in the place of the
 * row of its NAME gives fn g() {}.
 *
 * All rows are those of the tree as it is, so no change moves another one, and several texts at
 * one place stay in the order of the list. texts has the texts, each anywhere in it. They are
 * put in as they are: what they mean there, a parse of the new text tells, as by ras_c_parse. It
 * takes time linear in the tree and in what is put in.
 *
 * Returns RAS_OK, RAS_NOT_UTF8, RAS_TOO_LONG if the new text would be too long, RAS_NO_MEMORY,
 * RAS_NO_ROOM, RAS_NO_PARSE if the handle holds no parse, or for the first change that is refused
 * RAS_NO_PLACE if the tree has no such row, RAS_NO_CHANGE if no place or content has the number,
 * RAS_NOT_CUT if texts has no such part, RAS_BESIDE_ROOT, RAS_INTO_TOKEN, RAS_REPLACED,
 * RAS_IN_REPLACED or RAS_CHANGED_INSIDE.
 */
uint32_t ras_c_change_tree(
    ras_handle *handle,
    const ras_change_row *changes,
    size_t changes_len,
    const uint8_t *texts,
    size_t texts_len,
    uint8_t *out,
    size_t out_len,
    uint32_t *count);

/*
 * Edits the text of a handle's parse at several places at once: all edits are made or, if they are
 * refused, none. The ranges of edits are of the text as it is, in any order; texts that are
 * inserted at one place stay in the order of the list. inserts has the inserted texts, one
 * behind the other. The handle then holds the parse of the new text: the same tree and errors that
 * ras_c_parse would make.
 *
 * In the edition that the parse is of, up to eight edits are made one after another, the last in
 * the text first, and for each one token gets another text or one block is parsed again, if that
 * is enough for all of them; else, and in another edition, the whole new text is parsed, once.
 * Which parts were read again is not told: ras_c_edit_told tells it of one edit.
 *
 * Returns RAS_OK, RAS_NOT_UTF8, RAS_TOO_LONG, RAS_NO_MEMORY, RAS_NO_EDITION, RAS_NO_PARSE if the
 * handle holds no parse, RAS_NOT_CUT if the lengths in edits do not cut inserts into texts,
 * RAS_NO_PLACE if a range is backwards, not in the text or not on character boundaries, or
 * RAS_OVERLAP if two ranges overlap; those that touch do not, nor two insertions at one place.
 * Unless it is RAS_OK, the handle is not changed.
 */
uint32_t ras_c_edits(
    ras_handle *handle,
    uint32_t edition,
    const ras_edit_row *edits,
    size_t edits_len,
    const uint8_t *inserts,
    size_t inserts_len);

/*
 * Writes a choice of the errors of a handle's parse, such as RAS_PARSE_ERRORS, and their messages,
 * as ras_c_rows_as does, without rows. The counts have no rows. The handle keeps its parse.
 *
 * Returns RAS_OK, RAS_TOO_LONG, RAS_NO_MEMORY, RAS_NO_ROOM, RAS_NO_CHOICE, or RAS_NO_PARSE if the
 * handle holds no parse.
 */
uint32_t ras_c_errors(
    ras_handle *handle,
    uint32_t told,
    ras_error_row *errors,
    size_t errors_len,
    uint8_t *messages,
    size_t messages_len,
    ras_counts *counts);

/*
 * Writes the name of the kind with this number, for example FN, to the front of name, and
 * returns the name's length in bytes: 0 if no kind has the number, or if the kind has no name. If
 * name is shorter than that, it is not changed. 64 bytes are enough for all.
 */
size_t ras_c_kind_name(
    uint32_t kind,
    uint8_t *name,
    size_t name_len);

/* The number of the kind with this name, for example FN, or RAS_NO_KIND if there is none. */
uint32_t ras_c_kind_of_name(
    const uint8_t *name,
    size_t name_len);

/*
 * Writes where the lines of a text start to the front of starts, in bytes: 0, and the byte after
 * each line feed. Of a\nb these are 0 and 2.
 *
 * With them a program finds the line of any byte by a binary search, and gives that line alone to
 * ras_c_line_cols or ras_c_offsets, as a text of one line.
 *
 * Returns RAS_OK, RAS_NOT_UTF8, RAS_TOO_LONG, RAS_NO_MEMORY or RAS_NO_ROOM. It takes time linear
 * in the text, which has one line more than line feeds.
 */
uint32_t ras_c_line_starts(
    const uint8_t *text,
    size_t text_len,
    uint32_t *starts,
    size_t starts_len,
    uint32_t *count);

/*
 * Writes the lines and columns of offsets of a text to the front of places, one for each in the
 * same order, and their number to count. The columns are in an encoding, such as
 * RAS_ENCODING_UTF16: byte 5 of a text with two letters of two bytes before it in its first line
 * is line 0 and column 5 in UTF-8, and column 3 in UTF-16.
 *
 * It takes a list, so that the text is read once for all: in time linear in the text, and for
 * each offset in the logarithm of the number of lines and, but in UTF-8, in the bytes from the
 * offset before, if that is in the same line and not behind, or else from the line's start. To
 * convert offsets of a text one at a time, keep its ras_c_line_starts and give a line alone.
 *
 * Returns RAS_OK, RAS_NOT_UTF8, RAS_TOO_LONG, RAS_NO_MEMORY, RAS_NO_ROOM, RAS_NO_ENCODING, or
 * RAS_NO_PLACE if an offset is past the end of the text or inside a character: then count is how
 * many offsets are before the first such one.
 */
uint32_t ras_c_line_cols(
    const uint8_t *text,
    size_t text_len,
    uint32_t encoding,
    const uint32_t *offsets,
    size_t offsets_len,
    ras_line_col *places,
    size_t places_len,
    uint32_t *count);

/*
 * Writes the offsets of places of a text to the front of offsets, in bytes, one for each in the
 * same order, and their number to count. The columns are in an encoding, such as
 * RAS_ENCODING_UTF16. A line feed is the last character of its line. It takes back what
 * ras_c_line_cols gives.
 *
 * It takes a list, so that the text is read once for all: in time linear in the text, and for
 * each place, but in UTF-8, in its column.
 *
 * Returns RAS_OK, RAS_NOT_UTF8, RAS_TOO_LONG, RAS_NO_MEMORY, RAS_NO_ROOM, RAS_NO_ENCODING, or
 * RAS_NO_PLACE if the text has no such line, the line no such column, or the column is inside a
 * character: then count is how many places are before the first such one.
 */
uint32_t ras_c_offsets(
    const uint8_t *text,
    size_t text_len,
    uint32_t encoding,
    const ras_line_col *places,
    size_t places_len,
    uint32_t *offsets,
    size_t offsets_len,
    uint32_t *count);

/*
 * Parses a text as a Rust file of an edition, such as 2024, and puts the parse into a handle. A
 * parse that the handle held is freed.
 *
 * Returns RAS_OK, RAS_NOT_UTF8, RAS_TOO_LONG, RAS_NO_MEMORY or RAS_NO_EDITION. Unless it is
 * RAS_OK, the handle is not changed.
 */
uint32_t ras_c_parse(
    const uint8_t *text,
    size_t text_len,
    uint32_t edition,
    ras_handle *handle);

/*
 * Writes the rows, errors and messages of a handle's parse, as ras_c_read does for a text. The
 * handle keeps its parse.
 *
 * Returns RAS_OK, RAS_TOO_LONG, RAS_NO_MEMORY, RAS_NO_ROOM, or RAS_NO_PARSE if the handle holds no
 * parse.
 */
uint32_t ras_c_rows(
    ras_handle *handle,
    ras_flat_row *rows,
    size_t rows_len,
    ras_error_row *errors,
    size_t errors_len,
    uint8_t *messages,
    size_t messages_len,
    ras_counts *counts);

/*
 * Writes the rows of a handle's parse with a choice of errors, such as RAS_PARSE_ERRORS, as
 * ras_c_read_as does for a text. The handle keeps its parse.
 *
 * Returns RAS_OK, RAS_TOO_LONG, RAS_NO_MEMORY, RAS_NO_ROOM, RAS_NO_CHOICE, or RAS_NO_PARSE if the
 * handle holds no parse.
 */
uint32_t ras_c_rows_as(
    ras_handle *handle,
    uint32_t told,
    ras_flat_row *rows,
    size_t rows_len,
    ras_error_row *errors,
    size_t errors_len,
    uint8_t *messages,
    size_t messages_len,
    ras_counts *counts);

/*
 * Writes the rows of the innermost node of a handle's parse that covers a range of the text, as a
 * tree of its own: positions count from the node's start, and rows from its row, which is row 0
 * here. The errors are those of the whole parse, by a choice, such as RAS_PARSE_ERRORS, with
 * positions in the whole text. The handle keeps its parse. Of a range that ras_c_edit_told
 * wrote, if it is not the whole text, the node is the block that was parsed again, or has the
 * token as a child that got another text.
 *
 * Returns RAS_OK, RAS_TOO_LONG, RAS_NO_MEMORY, RAS_NO_ROOM, RAS_NO_CHOICE, RAS_NO_PARSE if the
 * handle holds no parse, or RAS_NO_PLACE if the text has no such range.
 */
uint32_t ras_c_rows_at(
    ras_handle *handle,
    uint32_t told,
    uint32_t start,
    uint32_t end,
    ras_flat_row *rows,
    size_t rows_len,
    ras_error_row *errors,
    size_t errors_len,
    uint8_t *messages,
    size_t messages_len,
    ras_counts *counts);

/*
 * Edits the text of a handle's parse: insert replaces the bytes from start to end, and the
 * handle then holds the parse of the new text: the same tree and errors that ras_c_parse would
 * make. In the edition that the parse is of, one token gets another text or one block is parsed
 * again, if that is enough; in another edition the whole text is parsed.
 *
 * Returns RAS_OK, RAS_NOT_UTF8, RAS_TOO_LONG, RAS_NO_MEMORY, RAS_NO_EDITION, RAS_NO_PARSE if the
 * handle holds no parse, or RAS_NO_PLACE if the range is not in the text or not on character
 * boundaries. Unless it is RAS_OK, the handle is not changed.
 */
uint32_t ras_c_edit(
    ras_handle *handle,
    uint32_t edition,
    uint32_t start,
    uint32_t end,
    const uint8_t *insert,
    size_t insert_len);

/*
 * Edits the text of a handle's parse as ras_c_edit does, and writes the range of the new text
 * that was read again to again: that of one token or block, or the whole text. The rest of the
 * tree is as it was; what is behind the token or block has moved with the text.
 *
 * Returns what ras_c_edit returns. Unless it is RAS_OK, nothing was changed.
 */
uint32_t ras_c_edit_told(
    ras_handle *handle,
    uint32_t edition,
    uint32_t start,
    uint32_t end,
    const uint8_t *insert,
    size_t insert_len,
    ras_range *again);

/* Frees the parse of a handle, if it holds one. The handle then holds none, and may be used again. */
void ras_c_free(
    ras_handle *handle);

/*
 * Finds the needless pairs of parentheses of a text of an edition, such as 2024, in preorder of
 * the tree: those that rust_tree parens --all --mixed lists. All of them can be removed
 * together.
 *
 * Returns RAS_OK, RAS_NOT_UTF8, RAS_TOO_LONG, RAS_NO_MEMORY, RAS_NO_ROOM or RAS_NO_EDITION. A
 * range is that of a PAREN_EXPR or a PAREN_PAT, with both parentheses. Put a blank in place of
 * a parenthesis whose neighbours would be joined, as in return(a). Pairs that rustc needs stay,
 * for example around a macro call that is a statement. It usually takes a few parses of the text;
 * at worst one for each pair that stays.
 */
uint32_t ras_c_parens(
    const uint8_t *text,
    size_t text_len,
    uint32_t edition,
    ras_range *pairs,
    size_t pairs_len,
    uint32_t *count);

/*
 * Tests whether the operator tree with exactly this range, in a text of an edition such as 2024,
 * is the one reading of its tokens. answer is 1 if it is, and 0 if not. If several operator
 * trees have the range, the innermost is tested.
 *
 * Returns RAS_OK, RAS_NOT_UTF8, RAS_TOO_LONG, RAS_NO_MEMORY, RAS_NO_EDITION, or RAS_NO_PLACE if no
 * operator tree has the range.
 */
uint32_t ras_c_reads_back(
    const uint8_t *text,
    size_t text_len,
    uint32_t edition,
    uint32_t start,
    uint32_t end,
    uint32_t *answer);

/*
 * Fills a buffer with rows of a handle's parse, those from number from on: a part of the rows
 * that ras_c_rows writes, so that a caller can use each part while it is near. The handle keeps
 * its parse.
 *
 * Returns RAS_OK, RAS_TOO_LONG if the whole tree has 2^32 rows or more, RAS_NO_PARSE if the handle
 * holds no parse, or RAS_NO_PLACE if the tree has fewer rows from from on than the buffer.
 */
uint32_t ras_c_rows_from(
    ras_handle *handle,
    uint32_t from,
    ras_flat_row *rows,
    size_t rows_len);

/*
 * Tests whether an expression, whose text is own, needs parentheses in place of the expression
 * with exactly this range, in a text of an edition such as 2024. answer is 1 if it does, and 0
 * if not. If several expressions have the range, the innermost is the place.
 *
 * The test is that of needs_parens_in_place_of, and exact for operands. It does not see that a
 * place begins a statement, where if a {} else {} + b would be two; ras_c_rewrite sees that.
 *
 * Returns RAS_OK, RAS_NOT_UTF8, RAS_TOO_LONG, RAS_NO_MEMORY, RAS_NO_EDITION, RAS_NO_PLACE if no
 * expression has the range, or RAS_NO_EXPR if own is not one expression. Both texts are parsed.
 */
uint32_t ras_c_needs_parens(
    const uint8_t *text,
    size_t text_len,
    uint32_t edition,
    uint32_t start,
    uint32_t end,
    const uint8_t *own,
    size_t own_len,
    uint32_t *answer);

/*
 * Parses a text as a Rust file of an edition, such as 2024. Writes the tree as rows in preorder,
 * the errors, and their messages one after another, each to the front of its buffer.
 *
 * Returns RAS_OK, RAS_NOT_UTF8, RAS_TOO_LONG, RAS_NO_MEMORY, RAS_NO_ROOM or RAS_NO_EDITION. Text
 * with syntax errors has a tree too. A text of n bytes seldom has more than 2 n rows.
 */
uint32_t ras_c_read(
    const uint8_t *text,
    size_t text_len,
    uint32_t edition,
    ras_flat_row *rows,
    size_t rows_len,
    ras_error_row *errors,
    size_t errors_len,
    uint8_t *messages,
    size_t messages_len,
    ras_counts *counts);

/*
 * Parses a text as an expression of an edition, and writes what ras_c_read writes for a file.
 * The root is a node of an expression, or ERROR if the text is not one expression. If only its
 * beginning is one, as in a b, there may be no errors.
 *
 * Returns RAS_OK, RAS_NOT_UTF8, RAS_TOO_LONG, RAS_NO_MEMORY, RAS_NO_ROOM or RAS_NO_EDITION.
 */
uint32_t ras_c_read_expr(
    const uint8_t *text,
    size_t text_len,
    uint32_t edition,
    ras_flat_row *rows,
    size_t rows_len,
    ras_error_row *errors,
    size_t errors_len,
    uint8_t *messages,
    size_t messages_len,
    ras_counts *counts);

/*
 * Parses a text by an entry, such as RAS_ENTRY_TYPE, and writes what ras_c_read writes for a
 * file, with a choice of errors, such as RAS_PARSE_ERRORS. The counts are those of the chosen
 * errors.
 *
 * Returns RAS_OK, RAS_NOT_UTF8, RAS_TOO_LONG, RAS_NO_MEMORY, RAS_NO_ROOM, RAS_NO_EDITION,
 * RAS_NO_ENTRY or RAS_NO_CHOICE. The violations of rules beyond the grammar are looked for only if
 * they are chosen: they take a further walk through the tree.
 */
uint32_t ras_c_read_as(
    uint32_t entry,
    uint32_t told,
    const uint8_t *text,
    size_t text_len,
    uint32_t edition,
    ras_flat_row *rows,
    size_t rows_len,
    ras_error_row *errors,
    size_t errors_len,
    uint8_t *messages,
    size_t messages_len,
    ras_counts *counts);

/*
 * Searches a text of an edition, such as 2024, by a pattern: $a == None. With lines there are
 * several, one a line, each a pattern or a rule with its template; lines that are empty or begin
 * with # are passed over. Writes a row for each match, in preorder: the outermost ones, and
 * those inside what stands for placeholders. At one place the first rule that matches counts.
 *
 * Returns RAS_OK, RAS_NOT_UTF8 of either text, RAS_TOO_LONG, RAS_NO_MEMORY, RAS_NO_ROOM,
 * RAS_NO_EDITION, or RAS_BAD_RULE with what is wrong: the message is at the front of message if
 * it has room for it; 256 bytes are enough for most. The arguments of macros are not searched.
 * Takes a parse of the text, and time linear in the text for each rule.
 */
uint32_t ras_c_search(
    const uint8_t *patterns,
    size_t patterns_len,
    bool lines,
    const uint8_t *text,
    size_t text_len,
    uint32_t edition,
    ras_match_row *matches,
    size_t matches_len,
    uint32_t *count,
    uint8_t *message,
    size_t message_len,
    ras_rule_fault *fault);

/*
 * Replaces the matches of a rule in a text of an edition, such as 2024: by $a == None ==>>
 * $a.is_none(). With lines there are several, one a line; lines that are empty or begin with
 * # are passed over. Writes the new text to the front of out, its length to count, and the
 * number of matches to matches. Parentheses stand exactly where they are needed, and what is
 * outside of the matches is as it was.
 *
 * Returns RAS_OK, RAS_NOT_UTF8 of either text, RAS_TOO_LONG, RAS_NO_MEMORY, RAS_NO_ROOM,
 * RAS_NO_EDITION, RAS_NO_TEMPLATE, RAS_LOSES_COMMENT, RAS_READS_OTHERWISE, or RAS_BAD_RULE with
 * what is wrong: the message is at the front of message if it has room for it; 256 bytes are
 * enough for most. It takes a few parses of the text.
 */
uint32_t ras_c_rewrite(
    const uint8_t *rules,
    size_t rules_len,
    bool lines,
    const uint8_t *text,
    size_t text_len,
    uint32_t edition,
    uint8_t *out,
    size_t out_len,
    uint32_t *count,
    size_t *matches,
    uint8_t *message,
    size_t message_len,
    ras_rule_fault *fault);

/*
 * Cuts a text of an edition, such as 2024, into tokens. White space and comments are tokens too,
 * and punctuation is cut into single characters.
 *
 * Returns RAS_OK, RAS_NOT_UTF8, RAS_TOO_LONG, RAS_NO_MEMORY, RAS_NO_ROOM or RAS_NO_EDITION. A text
 * has at most as many tokens as bytes.
 */
uint32_t ras_c_tokens(
    const uint8_t *text,
    size_t text_len,
    uint32_t edition,
    ras_token_row *tokens,
    size_t tokens_len,
    uint32_t *count);

/*
 * Takes the tree of a handle's parse out of it, as rows and text that the caller owns from then
 * on, without a copy of them. The handle then holds no parse. A tree that tree held is freed.
 *
 * Returns RAS_OK, RAS_TOO_LONG if the tree has 2^32 rows or more, RAS_NO_MEMORY, or RAS_NO_PARSE
 * if the handle holds no parse. Unless it is RAS_OK, tree is not changed; if it is
 * RAS_NO_MEMORY, the parse of the handle is freed, and else the handle is not changed.
 */
uint32_t ras_c_take_tree(
    ras_handle *handle,
    ras_tree_rows *tree);

/*
 * Frees the rows and the text of a tree, if there is one. It then is none, all zeros, and may be
 * used again.
 */
void ras_c_free_tree(
    ras_tree_rows *tree);

/*
 * Writes the units of a string, a byte string or a C string with this text, quotes and prefix with
 * it, to the front of units: each character and each escape with its range in the text, and its
 * character, byte or fault. Of "a\n" these are a at 1..2 and a line feed at 2..4.
 *
 * A text that begins with b is a byte string, one with c a C string, any other a string. Of a
 * raw one each character is a unit. A backslash before a line feed is no unit, with the blanks
 * after it, but each warning about these is one. A text without two quotes has no units.
 *
 * Returns RAS_OK, RAS_NOT_UTF8, RAS_TOO_LONG, RAS_NO_MEMORY or RAS_NO_ROOM. It takes time linear
 * in the text, and there are at most as many units as bytes.
 */
uint32_t ras_c_char_ranges(
    const uint8_t *text,
    size_t text_len,
    ras_unit_row *units,
    size_t units_len,
    uint32_t *count);

/*
 * Writes the value of a string with this text, quotes and prefix with it, to the front of value,
 * and its length to count: of "a\n" the letter and a line feed.
 *
 * Returns RAS_OK, RAS_NOT_UTF8, RAS_TOO_LONG, RAS_NO_MEMORY, RAS_NO_ROOM, or a status from
 * RAS_FAULT on. The value is at most as long as the text.
 */
uint32_t ras_c_string_value(
    const uint8_t *text,
    size_t text_len,
    uint8_t *value,
    size_t value_len,
    uint32_t *count);

/*
 * Writes the value of a byte string with this text, quotes and prefix with it, to the front of
 * value, and its length to count: of b"\xff" the byte 255.
 *
 * Returns RAS_OK, RAS_NOT_UTF8, RAS_TOO_LONG, RAS_NO_MEMORY, RAS_NO_ROOM, or a status from
 * RAS_FAULT on. The value is at most as long as the text.
 */
uint32_t ras_c_byte_string_value(
    const uint8_t *text,
    size_t text_len,
    uint8_t *value,
    size_t value_len,
    uint32_t *count);

/*
 * Writes the value of a C string with this text, quotes and prefix with it, to the front of
 * value, and its length to count: of c"a" the letter, without the zero behind it.
 *
 * Returns RAS_OK, RAS_NOT_UTF8, RAS_TOO_LONG, RAS_NO_MEMORY, RAS_NO_ROOM, or a status from
 * RAS_FAULT on. The value is at most as long as the text.
 */
uint32_t ras_c_c_string_value(
    const uint8_t *text,
    size_t text_len,
    uint8_t *value,
    size_t value_len,
    uint32_t *count);

/*
 * Writes the value of a character with this text, quotes with it, to value: of 'a' the number
 * 97.
 *
 * Returns RAS_OK, RAS_NOT_UTF8, or a status from RAS_FAULT on.
 */
uint32_t ras_c_char_value(
    const uint8_t *text,
    size_t text_len,
    uint32_t *value);

/*
 * Writes the value of a byte with this text, quotes with it, to value: of b'a' the number 97.
 *
 * Returns RAS_OK, RAS_NOT_UTF8, or a status from RAS_FAULT on.
 */
uint32_t ras_c_byte_value(
    const uint8_t *text,
    size_t text_len,
    uint32_t *value);

/*
 * Writes the value of an integer with this text, prefix and suffix with it, to high and low,
 * 64 bits each: of 0x10u8 the numbers 0 and 16.
 *
 * Returns RAS_OK, RAS_NOT_UTF8, RAS_NO_DIGIT, RAS_BAD_DIGIT or RAS_TOO_LARGE.
 */
uint32_t ras_c_int_value(
    const uint8_t *text,
    size_t text_len,
    uint64_t *high,
    uint64_t *low);

/*
 * Writes the violations of rules beyond the grammar at the node of a row of a handle's parse, and
 * at the nodes in it: a part of those of the whole parse, which stand together in them, in the
 * same order, with positions in the whole text. It walks through this node alone. A row's number
 * is that in the rows of the whole parse, such as those of ras_c_rows. The counts have no rows.
 * The handle keeps its parse.
 *
 * Returns RAS_OK, RAS_TOO_LONG, RAS_NO_MEMORY, RAS_NO_ROOM, RAS_NO_PARSE if the handle holds no
 * parse, or RAS_NO_PLACE if the tree has no such row, or that of a token.
 */
uint32_t ras_c_violations_at(
    ras_handle *handle,
    uint32_t row,
    ras_error_row *errors,
    size_t errors_len,
    uint8_t *messages,
    size_t messages_len,
    ras_counts *counts);

/*
 * Writes the violations of rules beyond the grammar at the nodes of a handle's parse whose rows
 * have the numbers from from to before to. Those of the whole parse are those among its first
 * rows, and then those among the rest, as they are written here. The counts have no rows. The
 * handle keeps its parse.
 *
 * Returns RAS_OK, RAS_TOO_LONG, RAS_NO_MEMORY, RAS_NO_ROOM, RAS_NO_PARSE if the handle holds no
 * parse, or RAS_NO_PLACE if the tree has fewer than to rows.
 */
uint32_t ras_c_violations_among(
    ras_handle *handle,
    uint32_t from,
    uint32_t to,
    ras_error_row *errors,
    size_t errors_len,
    uint8_t *messages,
    size_t messages_len,
    ras_counts *counts);

/*
 * What a text is as one word of an edition, such as 2024. A text that is no word, as a b, is
 * neither a keyword nor an identifier; r#fn is none either: ask for fn.
 *
 * Returns RAS_OK, RAS_NOT_UTF8 or RAS_NO_EDITION. Unless it is RAS_OK, word is not changed. It
 * takes no memory.
 */
uint32_t ras_c_word(
    const uint8_t *text,
    size_t text_len,
    uint32_t edition,
    ras_word *word);

/* The number RAS_VERSION of the library. Compare it with that of the header. */
uint32_t ras_c_version(void);

#ifdef __cplusplus
}
#endif

#endif
