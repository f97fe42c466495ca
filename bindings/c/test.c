/* Tests the library: what its calls answer, and each allocation of each call refused in turn.
 *
 * It is built with -fsanitize=address,undefined, which ends it at a bad access and at a leak. In place of heap.c it has a heap that
 * refuses an allocation where it is told to.
 */
#include "ras.h"
#include <stdio.h>
#include <stdlib.h>
#include <string.h>

/* How many allocations are still granted, or none is refused; how many were asked for; how many blocks are held. */
static long granted = -1, asked, held;

static bool refused(void) {
    asked++;
    if (granted > 0) granted--;
    else if (granted == 0) return true;
    return false;
}

ras_block rattle_alloc(size_t size, size_t align) {
    void *at = refused() ? NULL : malloc(size ? size : align);
    held += at != NULL;
    return at ? (ras_block){true, at} : (ras_block){false, (void *)16};
}

ras_block rattle_realloc(void *old, size_t used, size_t size, size_t align) {
    (void)used;
    void *at = refused() ? NULL : realloc(old, size ? size : align);
    return at ? (ras_block){true, at} : (ras_block){false, (void *)16};
}

void rattle_dealloc(void *at) {
    held -= at != NULL;
    free(at);
}

static int bad;

static void owes(bool holds, const char *what) {
    if (!holds) printf("not so: %s\n", what), bad = 1;
}

static const char TEXT[] = "fn foo() { let x = (a * (b + 1)); \"\\q\"; 1 + }\nfn b(";
enum { ROWS = 256, ERRORS = 16, MESSAGES = 1024 };
static ras_flat_row rows[ROWS], filled[ROWS];
static ras_error_row errors[ERRORS];
static uint8_t messages[MESSAGES];

#define BYTES(text) (const uint8_t *)(text), strlen(text)

static uint32_t read_with(size_t row_room, size_t error_room, size_t message_room, ras_counts *counts) {
    return ras_c_read(BYTES(TEXT), 2024, rows, row_room, errors, error_room, messages, message_room, counts);
}

static void reads(void) {
    ras_counts counts = {0, 0, 0, 0}, none = {0, 0, 0, 0};
    owes(read_with(ROWS, ERRORS, MESSAGES, &counts) == RAS_OK, "a text is read");
    owes(rows[0].subtree_end == counts.rows && rows[0].parent == 0, "the root's subtree is the tree");
    for (uint32_t n = 1; n < counts.rows; n++) {
        ras_flat_row parent = rows[rows[n].parent];
        owes(rows[n].parent < n && rows[n].subtree_end <= parent.subtree_end && rows[n].start >= parent.start, "a row stands in its parent");
        owes(!(rows[n].kind >> 31) || rows[n].subtree_end == n + 1, "a token has nothing below it");
    }
    uint32_t sum = 0;
    for (uint32_t n = 0; n < counts.errors; n++) sum += errors[n].message;
    owes(counts.errors > 1 && sum == counts.messages, "messages have the lengths that are told");

    memcpy(filled, rows, sizeof rows);
    memset(rows, 0xAB, sizeof rows);
    for (int small = 0; small < 3; small++) {
        ras_counts needed = none;
        uint32_t status = read_with(counts.rows - (small == 0), counts.errors - (small == 1), counts.messages - (small == 2), &needed);
        owes(status == RAS_NO_ROOM, "a small buffer is refused");
        owes(memcmp(&needed, &counts, sizeof needed) == 0, "what is needed is told");
        owes(rows[0].kind == 0xABABABABu, "a refused call writes nothing");
    }
    owes(read_with(counts.rows, counts.errors, counts.messages, &counts) == RAS_OK, "just enough room is enough");
    owes(memcmp(rows, filled, counts.rows * sizeof *rows) == 0, "the rows are the same");
    owes(ras_c_read(NULL, 0, 2024, rows, ROWS, NULL, 0, NULL, 0, &counts) == RAS_OK && counts.rows == 1, "no text has a root");
    owes(ras_c_read_expr(BYTES("a + b"), 2024, rows, ROWS, NULL, 0, NULL, 0, &counts) == RAS_OK && rows[0].kind == RAS_KIND_BIN_EXPR
        && counts.errors == 0, "an expression is read by itself");
    owes(ras_c_read_expr(BYTES("let a = b;"), 2024, rows, ROWS, errors, ERRORS, messages, MESSAGES, &counts) == RAS_OK
        && rows[0].kind == RAS_KIND_ERROR && counts.errors > 0, "a statement is no expression");
    ras_counts kept = counts;
    owes(ras_c_read(BYTES("\xff"), 2024, NULL, 0, NULL, 0, NULL, 0, &counts) == RAS_NOT_UTF8, "bad UTF-8 is refused");
    owes(ras_c_read(BYTES("a"), 2016, NULL, 0, NULL, 0, NULL, 0, &counts) == RAS_NO_EDITION, "there is no edition 2016");
    owes(memcmp(&kept, &counts, sizeof kept) == 0, "a refused text leaves the counts");
}

/* A text whose string breaks a rule beyond the grammar, beside the errors of the parse. */
static uint32_t read_as(uint32_t entry, uint32_t told, ras_counts *counts) {
    return ras_c_read_as(entry, told, BYTES(TEXT), 2024, rows, ROWS, errors, ERRORS, messages, MESSAGES, counts);
}

/* A part of a file is read without errors, and its root is of the kind. */
static void reads_part(uint32_t entry, const uint8_t *text, size_t text_len, uint32_t kind, const char *what) {
    ras_counts counts;
    owes(ras_c_read_as(entry, RAS_ALL_ERRORS, text, text_len, 2024, rows, ROWS, errors, ERRORS, messages, MESSAGES, &counts) == RAS_OK
        && rows[0].kind == kind && rows[0].subtree_end == counts.rows && counts.errors == 0, what);
}

static void reads_as(void) {
    static const uint32_t choices[] = {RAS_NO_ERRORS, RAS_PARSE_ERRORS, RAS_VIOLATIONS, RAS_ALL_ERRORS};
    ras_counts all = {0, 0, 0, 0}, parts[4], kept = {9, 9, 9, 9};
    owes(read_with(ROWS, ERRORS, MESSAGES, &all) == RAS_OK && all.violations > 0 && all.errors > all.violations, "a text has errors of both sorts");
    memcpy(filled, rows, sizeof rows);
    for (int n = 0; n < 4; n++) {
        memset(rows, 0xAB, sizeof rows);
        owes(read_as(RAS_ENTRY_FILE, choices[n], &parts[n]) == RAS_OK && parts[n].rows == all.rows, "a text is read with a choice of errors");
        owes(memcmp(rows, filled, all.rows * sizeof *rows) == 0, "the tree is the same by each choice");
    }
    owes(parts[0].errors == 0 && parts[0].violations == 0 && parts[0].messages == 0, "no errors are told");
    owes(parts[1].errors == all.errors - all.violations && parts[1].violations == 0, "the errors of the parse are told");
    owes(parts[2].errors == all.violations && parts[2].violations == all.violations, "the violations are told");
    owes(memcmp(&parts[3], &all, sizeof all) == 0 && parts[1].messages + parts[2].messages == all.messages, "all errors are told");
    owes(ras_c_read_as(RAS_ENTRY_EXPR, RAS_ALL_ERRORS, BYTES("a + b"), 2024, rows, ROWS, NULL, 0, NULL, 0, &all) == RAS_OK
        && rows[0].kind == RAS_KIND_BIN_EXPR && all.errors == 0, "an expression is an entry");
    reads_part(RAS_ENTRY_TYPE, BYTES("&[u8]"), RAS_KIND_REF_TYPE, "a type is an entry");
    reads_part(RAS_ENTRY_TYPE, BYTES("A B"), RAS_KIND_ERROR, "two types are an error");
    reads_part(RAS_ENTRY_PATTERN, BYTES("A | Some(b)"), RAS_KIND_OR_PAT, "a pattern is an entry");
    reads_part(RAS_ENTRY_STATEMENTS, BYTES("let a = 1; a"), RAS_KIND_MACRO_STMTS, "statements are an entry");
    reads_part(RAS_ENTRY_ITEMS, BYTES("use a; fn f() {}"), RAS_KIND_MACRO_ITEMS, "items are an entry");
    reads_part(RAS_ENTRY_META_ITEM, BYTES("derive(Debug)"), RAS_KIND_TOKEN_TREE_META, "the contents of an attribute are an entry");
    owes(read_as(7, RAS_ALL_ERRORS, &kept) == RAS_NO_ENTRY && read_as(UINT32_MAX, 9, &kept) == RAS_NO_ENTRY, "no entry has the number");
    owes(read_as(RAS_ENTRY_FILE, 4, &kept) == RAS_NO_CHOICE && kept.rows == 9, "no choice of errors has the number");
    ras_handle live = {0};
    owes(ras_c_parse(BYTES(TEXT), 2024, &live) == RAS_OK, "a handle holds the text");
    for (int n = 0; n < 4; n++)
        owes(ras_c_rows_as(&live, choices[n], rows, ROWS, errors, ERRORS, messages, MESSAGES, &all) == RAS_OK
            && memcmp(&all, &parts[n], sizeof all) == 0, "a handle tells the same");
    owes(ras_c_rows_as(&live, 4, rows, ROWS, errors, ERRORS, messages, MESSAGES, &all) == RAS_NO_CHOICE, "nor by a handle");
    ras_c_free(&live);
    owes(ras_c_rows_as(&live, 0, rows, ROWS, errors, ERRORS, messages, MESSAGES, &all) == RAS_NO_PARSE, "an empty handle tells nothing");
}

static bool is_word(const char *text, uint32_t edition, uint32_t keyword, uint32_t contextual, bool identifier, bool raw) {
    ras_word word = {9, 9, !identifier, !raw};
    return ras_c_word(BYTES(text), edition, &word) == RAS_OK && word.keyword == keyword && word.contextual == contextual
        && word.is_identifier == identifier && word.is_raw_identifier == raw;
}

static void words(void) {
    const uint32_t none = RAS_NO_KIND;
    owes(is_word("fn", 2024, RAS_KIND_FN_KW, none, false, true), "fn is a keyword");
    owes(is_word("self", 2024, RAS_KIND_SELF_KW, none, false, false), "self is no raw identifier");
    owes(is_word("gen", 2024, RAS_KIND_GEN_KW, none, false, true) && is_word("gen", 2021, none, none, true, false), "gen is one since 2024");
    owes(is_word("dyn", 2015, none, RAS_KIND_DYN_KW, true, false) && is_word("dyn", 2018, RAS_KIND_DYN_KW, none, false, true), "dyn is one since 2018");
    owes(is_word("union", 2024, none, RAS_KIND_UNION_KW, true, false), "union is one in some places");
    owes(is_word("\xc3\xbc_1", 2024, none, none, true, false) && is_word("_", 2024, none, none, true, false), "other words are identifiers");
    owes(is_word("1a", 2024, none, none, false, false) && is_word("a b", 2024, none, none, false, false) && is_word("", 2024, none, none, false, false)
        && is_word("r#fn", 2024, none, none, false, false), "these are no words");
    ras_word word = {9, 9, true, true};
    owes(ras_c_word(BYTES("\xff"), 2024, &word) == RAS_NOT_UTF8 && ras_c_word(BYTES("a"), 2016, &word) == RAS_NO_EDITION && word.keyword == 9,
        "a refused text leaves the word");
}

/* What a text becomes by rules: a status, and the text if it is RAS_OK. */
static uint32_t becomes(const char *rules, bool lines, const char *text, const char *new, size_t number) {
    uint8_t out[256] = {7}, said[256] = {7};
    uint32_t count = 9;
    size_t matches = 9;
    ras_rule_fault fault = {9, 9};
    uint32_t status = ras_c_rewrite(BYTES(rules), lines, BYTES(text), 2024, out, sizeof out, &count, &matches, said, sizeof said, &fault);
    if (status == RAS_OK) owes(count == strlen(new) && memcmp(out, new, count) == 0 && matches == number, new);
    else owes(count == 9 && matches == 9 && out[0] == 7, "a refused text leaves the buffer");
    if (status == RAS_BAD_RULE) owes(fault.offset == number && fault.message == strlen(new) && memcmp(said, new, fault.message) == 0, rules);
    else owes(fault.offset == 9 && fault.message == 9 && said[0] == 7, "nothing is said of a rule that is one");
    return status;
}

static void rewrites(void) {
    static const char text[] = "fn f() { g(1, 2) * 3; g(g(a, b), [/* c */ d]); }";
    ras_match_row matches[4];
    uint8_t said[8] = {7};
    uint32_t count = 9;
    ras_rule_fault fault = {9, 9};
    owes(ras_c_search(BYTES("g($a, $b)"), false, BYTES(text), 2024, matches, 4, &count, said, sizeof said, &fault) == RAS_OK && count == 3
        && matches[0].start == 9 && matches[0].end == 16 && matches[1].start == 22 && matches[2].start == 24 && matches[2].rule == 0, "matches are in order");
    owes(ras_c_search(BYTES("g($a, $b)"), false, BYTES(text), 2024, matches, 2, &count, said, sizeof said, &fault) == RAS_NO_ROOM && count == 3,
        "two rows are too little room");
    owes(ras_c_search(BYTES("# all\n$a * $b\ng($a, $b)\n"), true, BYTES(text), 2024, matches, 4, &count, said, sizeof said, &fault) == RAS_OK
        && count == 4 && matches[0].rule == 0 && matches[1].rule == 1, "patterns stand one a line");
    count = 9;
    owes(ras_c_search(BYTES("g($a"), false, BYTES(text), 2024, matches, 4, &count, said, sizeof said, &fault) == RAS_BAD_RULE && count == 9
        && fault.offset <= 4 && fault.message > sizeof said && said[0] == 7, "half a pattern is none, and its message needs room");
    owes(ras_c_search(BYTES("a"), false, BYTES("\xff"), 2024, matches, 4, &count, said, sizeof said, &fault) == RAS_NOT_UTF8
        && ras_c_search(BYTES("\xff"), false, BYTES("a"), 2024, matches, 4, &count, said, sizeof said, &fault) == RAS_NOT_UTF8
        && ras_c_search(BYTES("a"), false, BYTES("a"), 2016, matches, 4, &count, said, sizeof said, &fault) == RAS_NO_EDITION, "refused texts are not searched");
    owes(becomes("g($a, $b) ==>> $a + $b", false, text, "fn f() { (1 + 2) * 3; a + b + [/* c */ d]; }", 3) == RAS_OK, "matches are replaced");
    owes(becomes("# sums\ng($a, $b) ==>> $a + $b\n", true, "fn f() { h() }", "fn f() { h() }", 0) == RAS_OK, "no match changes nothing");
    owes(becomes("g($a, $b) ==>> $a", false, text, "", 0) == RAS_LOSES_COMMENT, "no comment is lost");
    owes(becomes("g($a, $b)\n", true, text, "", 0) == RAS_NO_TEMPLATE, "a pattern replaces nothing");
    owes(becomes("g($a, $b)", false, text, "expected `==>>` between a pattern and a template", 9) == RAS_BAD_RULE, "a rule has a template");
    owes(becomes("g($a) ==>> $b", false, text, "expected a placeholder of the pattern", 11) == RAS_BAD_RULE, "a template has no other placeholder");
    owes(becomes("\xff", false, text, "", 0) == RAS_NOT_UTF8 && becomes("a ==>> b", false, "\xff", "", 0) == RAS_NOT_UTF8, "bad UTF-8 is not replaced");
    size_t number = 9;
    owes(ras_c_rewrite(BYTES("a ==>> bc"), false, BYTES("fn f() { a }"), 2024, NULL, 0, &count, &number, NULL, 0, &fault) == RAS_NO_ROOM
        && count == 13 && number == 1, "a new text needs room");
}

static void names(void) {
    uint8_t name[64];
    size_t length = ras_c_kind_name(ras_c_kind_of_name(BYTES("FN")), name, sizeof name);
    owes(length == 2 && memcmp(name, "FN", 2) == 0, "a kind has its name");
    owes(ras_c_kind_of_name(BYTES("VARIANT_LIST")) >= 65536, "a kind beyond the table has a number");
    owes(ras_c_kind_of_name(BYTES("NOTHING")) == RAS_NO_KIND, "no kind has this name");
    owes(ras_c_kind_of_name(BYTES("OTHER(3)")) == RAS_NO_KIND, "a number is no name");
    owes(ras_c_kind_of_name(NULL, 0) == RAS_NO_KIND, "no text is no name");
    owes(ras_c_kind_of_name(BYTES("\xff")) == RAS_NO_KIND, "bad UTF-8 is no name");
    owes(ras_c_kind_name(300, name, sizeof name) == 0, "no kind has this number");
    for (uint32_t kind = 0; kind < 66000; kind++) {
        length = ras_c_kind_name(kind, name, sizeof name);
        owes(length <= sizeof name, "each name has at most 64 bytes");
        owes(length == 0 || ras_c_kind_of_name(name, length) == kind, "names lead back");
    }
}

/* Without the pairs these texts have errors or mean something else. */
static const char *const STAY[] = {
    "fn f() { if let x = (a && b) {} }",
    "fn f() { if (S {} == x) {} }",
    "fn f() { for x in (S {}.f()) {} }",
    "fn f() { match (a..{ 0 }) {} }",
    "fn f() { ({ 0 } + 1); }",
    "fn f() { let x = (a && b) else { return }; }",
    "fn f() { let x = &(S {}) else { return }; }",
    "fn f() { while (S {}.x) {} }",
    "fn f() { for _ in (0..{3}) {} }",
    "fn f() { (m! {}); }",
    "fn f() { (continue) as u8; }",
    "fn f() { match (|| S {}) { _ => {} } }",
};

static void tokens_and_parens(void) {
    ras_token_row tokens[64];
    uint32_t count = 0, length = 0, answer = 7;
    owes(ras_c_tokens(BYTES(TEXT), 2024, tokens, 64, &count) == RAS_OK, "a text is cut");
    for (uint32_t n = 0; n < count; n++) length += tokens[n].bytes;
    owes(length == strlen(TEXT), "tokens have all bytes");
    owes(ras_c_tokens(BYTES(TEXT), 2024, tokens, 1, &count) == RAS_NO_ROOM && count > 1, "one token is too little room");
    ras_range pairs[4];
    owes(ras_c_version() == RAS_VERSION, "the header is that of the library");
    for (size_t n = 0; n < sizeof STAY / sizeof *STAY; n++)
        owes(ras_c_parens(BYTES(STAY[n]), 2024, pairs, 4, &count) == RAS_OK && count == 0, STAY[n]);
    const char *many = "fn f() { (return); g((x), (y)); if let x = (a && b) {} }";
    owes(ras_c_parens(BYTES(many), 2024, pairs, 4, &count) == RAS_OK && count == 3 && pairs[0].start == 9 && pairs[2].end == 29, "pairs are in order");
    const char *sum = "fn f() { (a * b) + c }";
    owes(ras_c_parens(BYTES(sum), 2024, pairs, 4, &count) == RAS_OK && count == 1 && pairs[0].start == 9, "a needless pair is found");
    owes(ras_c_parens(BYTES(sum), 2024, NULL, 0, &count) == RAS_NO_ROOM && count == 1, "no room for a pair");
    owes(ras_c_reads_back(BYTES(sum), 2024, 9, 20, &answer) == RAS_OK && answer == 1, "a sum reads back");
    owes(ras_c_reads_back(BYTES(sum), 2024, 0, 2, &answer) == RAS_NO_PLACE, "a word is no expression");
    owes(ras_c_reads_back(BYTES(sum), 2024, 3, 2, &answer) == RAS_NO_PLACE, "a range does not end before it starts");
    owes(ras_c_reads_back(BYTES(sum), 2024, 9, 21, &answer) == RAS_NO_PLACE, "a range that is no tree's has no answer");
    owes(ras_c_reads_back(BYTES("\xff"), 2024, 0, 1, &answer) == RAS_NOT_UTF8, "bad UTF-8 does not read back");
    owes(ras_c_reads_back(BYTES(sum), 2016, 9, 20, &answer) == RAS_NO_EDITION && answer == 1, "a refused text leaves the answer");
}

/* Whether an expression needs parentheses in place of the one at a range: its answer, or 16 and its status. */
static uint32_t needs(const char *text, uint32_t start, uint32_t end, const char *own) {
    uint32_t answer = 9, status = ras_c_needs_parens(BYTES(text), 2024, start, end, BYTES(own), &answer);
    owes(status == RAS_OK ? answer <= 1 : answer == 9, "a refused question leaves the answer");
    return status == RAS_OK ? answer : 16 + status;
}

static void places(void) {
    const char *sum = "fn f() { a * b + c; let x = d; }";
    owes(needs(sum, 9, 10, "x + y") == 1 && needs(sum, 9, 10, "x * y") == 0, "an operand of a product");
    owes(needs(sum, 13, 14, "x * y") == 1 && needs(sum, 17, 18, "x * y") == 0 && needs(sum, 17, 18, "x + y") == 1, "the right one is narrower");
    owes(needs(sum, 9, 14, "x + y") == 0 && needs(sum, 9, 14, "x = y") == 1, "the left operand of a sum");
    owes(needs(sum, 28, 29, "x = y") == 0 && needs(sum, 28, 29, "if x {} else {}") == 0, "a value needs none");
    owes(needs("fn f() { if a {} }", 12, 13, "S {}") == 1 && needs("fn f() { (a); }", 10, 11, "x..y") == 0, "a record in a condition, and in a pair");
    owes(needs(sum, 0, 2, "x") == 16 + RAS_NO_PLACE && needs(sum, 9, 12, "x") == 16 + RAS_NO_PLACE, "no expression has the range");
    owes(needs(sum, 10, 9, "x") == 16 + RAS_NO_PLACE && needs(sum, 99, 99, "x") == 16 + RAS_NO_PLACE, "the text has no such range");
    owes(needs(sum, 9, 10, "x y") == 16 + RAS_NO_EXPR && needs(sum, 9, 10, "") == 16 + RAS_NO_EXPR, "it is not one expression");
    owes(needs(sum, 9, 10, "\xff") == 16 + RAS_NOT_UTF8 && needs("\xff", 0, 1, "x") == 16 + RAS_NOT_UTF8, "bad UTF-8 is no expression");
    uint32_t answer = 9;
    owes(ras_c_needs_parens(BYTES("\xff"), 2016, 0, 1, BYTES("\xff"), &answer) == RAS_NO_EDITION && answer == 9, "there is no edition 2016");
}

/* What a call tells of a string's text: its status, and whether the value is this, in a buffer that has as much room and in none. */
typedef uint32_t string_call(const uint8_t *, size_t, uint8_t *, size_t, uint32_t *);

static void has_value(string_call *call, const char *text, const char *value, size_t length) {
    uint8_t found[64];
    uint32_t count = 9, needed = 9;
    owes(call(BYTES(text), found, sizeof found, &count) == RAS_OK && count == length && memcmp(found, value, length) == 0, text);
    owes(call(BYTES(text), NULL, 0, &needed) == (length ? RAS_NO_ROOM : RAS_OK) && needed == length, text);
}

static void has_none(string_call *call, const char *text, uint32_t status) {
    uint8_t found[64] = {7};
    uint32_t count = 9;
    owes(call(BYTES(text), found, sizeof found, &count) == status && count == 9 && found[0] == 7, text);
}

static void values(void) {
    has_value(ras_c_string_value, "\"a\\n\\u{e9}\\\n   b\"", "a\n\xc3\xa9" "b", 5);
    has_value(ras_c_string_value, "r#\"a\\n\"#", "a\\n", 3);
    has_value(ras_c_string_value, "\"\"", "", 0);
    has_value(ras_c_byte_string_value, "b\"\\xff\\0a\"", "\xff\0a", 3);
    has_value(ras_c_c_string_value, "c\"\xc3\xa9\\xff\"", "\xc3\xa9\xff", 3);
    has_none(ras_c_string_value, "\"\\q\"", RAS_FAULT_INVALID_ESCAPE);
    has_none(ras_c_string_value, "\"\\q\\xff\"", RAS_FAULT_OUT_OF_RANGE_HEX_ESCAPE);
    has_none(ras_c_string_value, "\"", RAS_FAULT_LONE_SLASH);
    has_none(ras_c_string_value, "\"\xff\"", RAS_NOT_UTF8);
    has_none(ras_c_byte_string_value, "b\"\xc3\xa9\"", RAS_FAULT_NON_ASCII_CHAR_IN_BYTE);
    has_none(ras_c_c_string_value, "c\"\\0\"", RAS_FAULT_NUL_IN_C_STR);
    uint32_t value = 9;
    uint64_t high = 9, low = 9;
    owes(ras_c_char_value(BYTES("'\\u{1F600}'"), &value) == RAS_OK && value == 0x1F600, "a character has its number");
    owes(ras_c_byte_value(BYTES("b'\\xfe'"), &value) == RAS_OK && value == 254, "a byte has its number");
    owes(ras_c_char_value(BYTES("'ab'"), &value) == RAS_FAULT_MORE_THAN_ONE_CHAR && value == 254, "two characters have none");
    owes(ras_c_byte_value(BYTES("b''"), &value) == RAS_FAULT_ZERO_CHARS && value == 254, "no byte has none");
    owes(ras_c_char_value(BYTES("\xff"), &value) == RAS_NOT_UTF8 && ras_c_byte_value(BYTES("\xff"), &value) == RAS_NOT_UTF8, "bad UTF-8 has none");
    owes(ras_c_int_value(BYTES("0x1_0000_0000_0000_0002u128"), &high, &low) == RAS_OK && high == 1 && low == 2, "an integer has its value");
    owes(ras_c_int_value(BYTES("0b_"), &high, &low) == RAS_NO_DIGIT && high == 1 && low == 2, "without a digit there is none");
    owes(ras_c_int_value(BYTES("0b12"), &high, &low) == RAS_BAD_DIGIT && low == 2, "with another digit there is none");
    owes(ras_c_int_value(BYTES("340282366920938463463374607431768211456"), &high, &low) == RAS_TOO_LARGE && low == 2, "2^128 is too large");
    owes(ras_c_int_value(BYTES("\xff"), &high, &low) == RAS_NOT_UTF8, "bad UTF-8 is no integer");
    ras_flat_row found[64];
    ras_counts counts;
    owes(ras_c_read(BYTES("fn f() {}"), 2024, found, 64, NULL, 0, NULL, 0, &counts) == RAS_OK && found[1].kind == RAS_KIND_FN
         && found[2].kind == RAS_KIND_FN_KW + 0x80000000u, "the header numbers the kinds");
}

/* The units of a literal's text are these rows, in a buffer that has room for more and in one that has no room. */
static void has_units(const char *text, const ras_unit_row *units, uint32_t number) {
    ras_unit_row found[8];
    uint32_t count = 9, needed = 9;
    memset(found, 7, sizeof found);
    owes(ras_c_char_ranges(BYTES(text), found, 8, &count) == RAS_OK && count == number
        && (!number || !memcmp(found, units, number * sizeof *units)) && found[number].start == 0x07070707u, text);
    owes(ras_c_char_ranges(BYTES(text), NULL, 0, &needed) == (number ? RAS_NO_ROOM : RAS_OK) && needed == number, text);
}

static void units(void) {
    has_units("\"a\\n\xc3\xa9\"", (ras_unit_row[]){{1, 2, RAS_UNIT_CHAR, 'a'}, {2, 4, RAS_UNIT_CHAR, '\n'}, {4, 6, RAS_UNIT_CHAR, 0xE9}}, 3);
    has_units("r#\"a\\n\"#", (ras_unit_row[]){{3, 4, RAS_UNIT_CHAR, 'a'}, {4, 5, RAS_UNIT_CHAR, '\\'}, {5, 6, RAS_UNIT_CHAR, 'n'}}, 3);
    has_units("b\"\\xff\\q\"", (ras_unit_row[]){{2, 6, RAS_UNIT_BYTE, 255}, {6, 8, RAS_UNIT_FAULT, RAS_FAULT_INVALID_ESCAPE}}, 2);
    has_units("c\"\xc3\xa9\\xe9\\0\"", (ras_unit_row[]){{2, 4, RAS_UNIT_CHAR, 0xE9}, {4, 8, RAS_UNIT_BYTE, 0xE9}, {8, 10, RAS_UNIT_FAULT, RAS_FAULT_NUL_IN_C_STR}}, 3);
    has_units("cr\"\\0\"", (ras_unit_row[]){{3, 4, RAS_UNIT_CHAR, '\\'}, {4, 5, RAS_UNIT_CHAR, '0'}}, 2);
    has_units("\"\\\n\n b\"", (ras_unit_row[]){{1, 5, RAS_UNIT_FAULT, RAS_FAULT_MULTIPLE_SKIPPED_LINES_WARNING}, {5, 6, RAS_UNIT_CHAR, 'b'}}, 2);
    has_units("\"\"", NULL, 0);
    has_units("\"a", NULL, 0);
    has_units("'a'", NULL, 0);
    has_units("", NULL, 0);
    ras_unit_row none = {7, 7, 7, 7};
    uint32_t count = 9;
    owes(ras_c_char_ranges(BYTES("\"\xff\""), &none, 1, &count) == RAS_NOT_UTF8 && count == 9 && none.start == 7, "bad UTF-8 has no units");
    owes(ras_c_char_ranges(BYTES("\"ab\""), &none, 1, &count) == RAS_NO_ROOM && count == 2 && none.start == 7, "a refused call writes no unit");
}

static bool is_at(ras_line_col place, uint32_t line, uint32_t col) {
    return place.line == line && place.col == col;
}

/* The places of offsets in three encodings, and back. */
static void lines(void) {
    static const char text[] = "a\xc3\xa9\xf0\x9d\x84\x9e" "b\n\nc";
    static const uint32_t offsets[] = {0, 1, 3, 7, 8, 9, 10, 11}, columns[3][8] = {{0, 1, 3, 7, 8, 0, 0, 1}, {0, 1, 2, 4, 5, 0, 0, 1}, {0, 1, 2, 3, 4, 0, 0, 1}};
    uint32_t starts[4] = {7, 7, 7, 7}, found[9], count = 9;
    owes(ras_c_line_starts(BYTES(text), starts, 2, &count) == RAS_NO_ROOM && count == 3 && starts[0] == 7, "two lines are too little room");
    owes(ras_c_line_starts(BYTES(text), starts, 4, &count) == RAS_OK && count == 3 && starts[0] == 0 && starts[1] == 9 && starts[2] == 10 && starts[3] == 7,
        "a line starts after each line feed");
    owes(ras_c_line_starts(NULL, 0, starts, 1, &count) == RAS_OK && count == 1 && starts[0] == 0, "no text has a line");
    owes(ras_c_line_starts(BYTES("\xff"), starts, 4, &count) == RAS_NOT_UTF8 && count == 1, "bad UTF-8 has none");
    ras_line_col places[9];
    for (uint32_t encoding = RAS_ENCODING_UTF8; encoding <= RAS_ENCODING_UTF32; encoding++) {
        memset(places, 7, sizeof places), memset(found, 7, sizeof found);
        owes(ras_c_line_cols(BYTES(text), encoding, offsets, 8, places, 9, &count) == RAS_OK && count == 8 && places[8].line == 0x07070707u, "offsets have places");
        for (int n = 0; n < 8; n++) owes(is_at(places[n], n < 5 ? 0 : n - 4 - (n == 7), columns[encoding][n]), "each has its own");
        owes(ras_c_offsets(BYTES(text), encoding, places, 8, found, 9, &count) == RAS_OK && count == 8 && !memcmp(found, offsets, sizeof offsets)
            && found[8] == 0x07070707u, "places have offsets");
        owes(ras_c_line_cols(BYTES(text), encoding, (uint32_t[]){11, 0, 4}, 3, places, 9, &count) == RAS_NO_PLACE && count == 2, "no place is inside a character");
        owes(ras_c_line_cols(BYTES(text), encoding, (uint32_t[]){12}, 1, places, 9, &count) == RAS_NO_PLACE && count == 0, "nor past the end");
        ras_line_col none[] = {{0, 0}, {1, 1}, {3, 0}, {2, 2}, {UINT32_MAX, UINT32_MAX}};
        owes(ras_c_offsets(BYTES(text), encoding, none, 5, found, 9, &count) == RAS_NO_PLACE && count == 1, "a line has no column behind its line feed");
        for (int n = 2; n < 5; n++)
            owes(ras_c_offsets(BYTES(text), encoding, none + n, 1, found, 9, &count) == RAS_NO_PLACE && count == 0, "there is no such line or column");
        count = 9;
        owes(ras_c_line_cols(BYTES(text), encoding, offsets, 8, places, 7, &count) == RAS_NO_ROOM && count == 8 && places[0].line == 0, "seven are too few");
        owes(ras_c_line_cols(BYTES("\xff"), encoding, offsets, 1, places, 9, &count) == RAS_NOT_UTF8
            && ras_c_offsets(BYTES("\xff"), encoding, none, 1, found, 9, &count) == RAS_NOT_UTF8 && count == 8, "bad UTF-8 has no places");
    }
    owes(ras_c_offsets(BYTES(text), RAS_ENCODING_UTF16, (ras_line_col[]){{0, 3}}, 1, found, 9, &count) == RAS_NO_PLACE, "half a character has no offset");
    owes(ras_c_offsets(BYTES(text), RAS_ENCODING_UTF8, (ras_line_col[]){{0, 2}}, 1, found, 9, &count) == RAS_NO_PLACE, "nor has a part of its bytes");
    owes(ras_c_line_cols(BYTES("\xff"), 3, offsets, 1, places, 9, &count) == RAS_NO_ENCODING
        && ras_c_offsets(BYTES("\xff"), UINT32_MAX, places, 1, found, 9, &count) == RAS_NO_ENCODING, "no encoding has the number");
}

static uint32_t rows_of(ras_handle *handle, ras_flat_row *out, size_t room, ras_counts *counts) {
    return ras_c_rows(handle, out, room, errors, ERRORS, messages, MESSAGES, counts);
}

/* Whether the handle tells what a text does. */
static bool tells(ras_handle *handle, const char *text) {
    static ras_flat_row whole[ROWS];
    ras_counts counts, wanted;
    return rows_of(handle, rows, ROWS, &counts) == RAS_OK
        && ras_c_read(BYTES(text), 2024, whole, ROWS, errors, ERRORS, messages, MESSAGES, &wanted) == RAS_OK
        && memcmp(&counts, &wanted, sizeof counts) == 0 && memcmp(rows, whole, counts.rows * sizeof *rows) == 0;
}

static uint32_t edit(ras_handle *handle, uint32_t start, uint32_t end, const char *insert) {
    return ras_c_edit(handle, 2024, start, end, BYTES(insert));
}

static const char OLD[] = "fn foo() { let x = 1; }", NEW[] = "fn \xc3\xbc() { let x = { 1 + 2 }; }\nfn g() {}";

static void edits(void) {
    ras_handle live = {0};
    ras_counts counts = {9, 9, 9, 9};
    owes(rows_of(&live, rows, ROWS, &counts) == RAS_NO_PARSE && counts.rows == 9, "an empty handle tells nothing");
    owes(edit(&live, 0, 0, "a") == RAS_NO_PARSE, "an empty handle has no text");
    owes(edit(&live, 0, 0, "\xff") == RAS_NOT_UTF8, "a text that is none comes before an empty handle");
    ras_c_free(&live);
    owes(ras_c_parse(BYTES("\xff"), 2024, &live) == RAS_NOT_UTF8, "bad UTF-8 is not parsed");
    owes(ras_c_parse(BYTES("a"), 2016, &live) == RAS_NO_EDITION && held == 0, "there is no edition 2016");
    owes(ras_c_parse(BYTES("a"), 2024, &live) == RAS_OK, "a text is parsed");
    owes(ras_c_parse(BYTES(OLD), 2024, &live) == RAS_OK && tells(&live, OLD), "a handle is used again");
    owes(edit(&live, 3, 6, "\xc3\xbc") == RAS_OK, "a name is edited");
    owes(edit(&live, 18, 19, "{ 1 + 2 }") == RAS_OK, "a block is edited");
    owes(edit(&live, 30, 30, "\nfn g() {}") == RAS_OK && tells(&live, NEW), "a text is added to");
    owes(edit(&live, 4, 5, "u") == RAS_NO_PLACE && edit(&live, 3, 4, "u") == RAS_NO_PLACE, "no range ends inside a character");
    owes(edit(&live, 3, 2, "") == RAS_NO_PLACE && edit(&live, 0, 99, "") == RAS_NO_PLACE, "no range is backwards, or ends after the text");
    owes(edit(&live, 99, 99, "") == RAS_NO_PLACE && edit(&live, UINT32_MAX, UINT32_MAX, "") == RAS_NO_PLACE, "no range is after the text");
    owes(edit(&live, 0, 0, "\xff") == RAS_NOT_UTF8, "bad UTF-8 is not put in");
    owes(ras_c_edit(&live, 2016, 0, 0, NULL, 0) == RAS_NO_EDITION && tells(&live, NEW), "a refused edit leaves the handle");
    owes(rows_of(&live, rows, 3, &counts) == RAS_NO_ROOM && counts.rows > 3 && tells(&live, NEW), "a small buffer leaves the handle");
    owes(ras_c_edit(&live, 2024, 0, strlen(NEW), NULL, 0) == RAS_OK && tells(&live, ""), "all of a text goes");
    ras_c_free(&live);
    owes(held == 0 && rows_of(&live, rows, ROWS, &counts) == RAS_NO_PARSE, "a freed handle holds nothing");
    ras_c_free(&live);
    owes(held == 0, "a handle is freed once");
}

static uint32_t edits_of(ras_handle *handle, const ras_edit_row *edits, size_t number, const char *inserts) {
    return ras_c_edits(handle, 2024, edits, number, BYTES(inserts));
}

/* Several edits at once: all, or none. */
static void edits_at_once(void) {
    static const char text[] = "fn f(a: u8) { \xc3\xbc }", new[] = "fn f(b: u8) { b + 1 }";
    const ras_edit_row both[] = {{14, 16, 5}, {5, 6, 1}}, lapping[] = {{3, 4, 0}, {0, 4, 0}}, touching[] = {{3, 4, 2}, {0, 3, 3}, {3, 3, 1}, {3, 3, 1}};
    ras_handle live = {0};
    owes(edits_of(&live, both, 2, "b + 1b") == RAS_NO_PARSE && held == 0, "an empty handle has no text");
    owes(ras_c_parse(BYTES(text), 2024, &live) == RAS_OK, "a text is parsed");
    owes(edits_of(&live, both, 2, "\xff") == RAS_NOT_UTF8 && ras_c_edits(&live, 2016, both, 2, BYTES("\xff")) == RAS_NO_EDITION, "refused texts are not put in");
    owes(edits_of(&live, both, 2, "b + 1") == RAS_NOT_CUT && edits_of(&live, both, 2, "b + 1bc") == RAS_NOT_CUT && edits_of(&live, NULL, 0, "b") == RAS_NOT_CUT
        && edits_of(&live, both, 2, "b +  \xc3\xa9") == RAS_NOT_CUT && edits_of(&live, &(ras_edit_row){0, 0, UINT32_MAX}, 1, "b") == RAS_NOT_CUT,
        "lengths cut the texts");
    owes(edits_of(&live, &(ras_edit_row){5, 4, 0}, 1, "") == RAS_NO_PLACE && edits_of(&live, &(ras_edit_row){0, 99, 0}, 1, "") == RAS_NO_PLACE
        && edits_of(&live, &(ras_edit_row){15, 16, 0}, 1, "") == RAS_NO_PLACE, "no range is backwards, past the end or inside a character");
    owes(edits_of(&live, lapping, 2, "") == RAS_OVERLAP && tells(&live, text), "two ranges do not overlap, and a refused edit leaves the handle");
    owes(edits_of(&live, both, 2, "b + 1b") == RAS_OK && tells(&live, new), "both are made");
    owes(edits_of(&live, touching, 4, "r#fn r#") == RAS_OK && tells(&live, "fn r#r#(b: u8) { b + 1 }"), "ranges may touch, and insertions keep their order");
    owes(edits_of(&live, NULL, 0, "") == RAS_OK && tells(&live, "fn r#r#(b: u8) { b + 1 }"), "no edit changes nothing");
    ras_edit_row many[12];
    for (uint32_t n = 0; n < 12; n++) many[n] = (ras_edit_row){11 - n, 11 - n, 1};
    owes(ras_c_parse(BYTES("fn f(){g(a)}"), 2024, &live) == RAS_OK && edits_of(&live, many, 12, "            ") == RAS_OK, "many are made");
    owes(tells(&live, " f n   f ( ) { g ( a ) }"), "each at its place");
    owes(ras_c_edits(&live, 2015, &(ras_edit_row){15, 16, 5}, 1, BYTES("async")) == RAS_OK, "another edition reads all anew");
    ras_c_free(&live);
    owes(held == 0, "a freed handle holds nothing");
}

/* What many changes make of a handle's tree: a status, and the text if it is RAS_OK. */
static uint32_t changed(ras_handle *handle, const ras_change_row *changes, size_t number, const char *texts, const char *new) {
    uint8_t out[64] = {7};
    uint32_t count = 9, status = ras_c_change_tree(handle, changes, number, BYTES(texts), out, sizeof out, &count);
    if (status == RAS_OK) owes(count == strlen(new) && !memcmp(out, new, count), new);
    else owes(count == 9 && out[0] == 7, "refused changes write nothing");
    return status;
}

static uint32_t change(ras_handle *handle, uint32_t row, uint32_t place, uint32_t content, uint32_t start, uint32_t end) {
    return changed(handle, &(ras_change_row){row, place, content, start, end}, 1, "\xc3\xa9", "");
}

/* Many changes of a tree, made at once. Its rows: the file, the function, fn, a blank, the name, f, the list of parameters and its two
 * parentheses, a blank, the block, the list in it, and its two braces. */
static void changes_trees(void) {
    static const char text[] = "fn f() {}";
    enum { FN = 1, NAME = 4, F = 5, BRACE = 12, REPLACE = RAS_PLACE_INSTEAD, NONE = RAS_CONTENT_NOTHING, TEXT_OF = RAS_CONTENT_TEXT };
    const ras_change_row many[] = {
        {NAME, REPLACE, TEXT_OF, 0, 1}, {FN, RAS_PLACE_BEFORE, TEXT_OF, 1, 9}, {BRACE, RAS_PLACE_AFTER, TEXT_OF, 0, 1},
        {FN, RAS_PLACE_BEFORE, TEXT_OF, 9, 10}, {FN, RAS_PLACE_AFTER, RAS_CONTENT_ROW, FN, 0}, {0, RAS_PLACE_FIRST, RAS_CONTENT_ROW, 3, 0},
        {0, RAS_PLACE_LAST, TEXT_OF, 9, 10}, {F, RAS_PLACE_BEFORE, NONE, 0, 0},
    };
    const ras_change_row inside[] = {{FN, REPLACE, NONE, 0, 0}, {NAME, REPLACE, NONE, 0, 0}, {FN, REPLACE, NONE, 0, 0}, {FN, RAS_PLACE_LAST, NONE, 0, 0}};
    ras_handle live = {0};
    uint8_t out[9];
    uint32_t count = 9;
    owes(changed(&live, many, 4, "g", "") == RAS_NO_PARSE && changed(&live, many, 4, "\xff", "") == RAS_NOT_UTF8, "an empty handle has no tree");
    owes(ras_c_parse(BYTES(text), 2024, &live) == RAS_OK, "a text is parsed");
    owes(changed(&live, many, 7, "g/* a */ \n", " /* a */ \nfn g() {g}fn f() {}\n") == RAS_OK, "changes are made, each at its place");
    owes(changed(&live, NULL, 0, "", text) == RAS_OK && changed(&live, inside, 1, "", "") == RAS_OK && changed(&live, inside + 1, 1, "", "fn () {}") == RAS_OK,
        "what is replaced by nothing is deleted");
    owes(changed(&live, many, 8, "g/* a */ \n", "") == RAS_IN_REPLACED && changed(&live, inside, 2, "", "") == RAS_IN_REPLACED, "what is replaced stays whole");
    owes(changed(&live, inside + 1, 2, "", "") == RAS_CHANGED_INSIDE, "what is changed inside is not replaced");
    owes(changed(&live, inside + 2, 2, "", "") == RAS_REPLACED, "what is replaced gets no child");
    owes(change(&live, 0, RAS_PLACE_AFTER, NONE, 0, 0) == RAS_BESIDE_ROOT && change(&live, 0, REPLACE, NONE, 0, 0) == RAS_BESIDE_ROOT, "nothing is beside the root");
    owes(change(&live, F, RAS_PLACE_FIRST, NONE, 0, 0) == RAS_INTO_TOKEN && change(&live, F, RAS_PLACE_LAST, NONE, 0, 0) == RAS_INTO_TOKEN, "nor in a token");
    owes(change(&live, 14, REPLACE, NONE, 0, 0) == RAS_NO_PLACE && change(&live, F, REPLACE, RAS_CONTENT_ROW, 14, 0) == RAS_NO_PLACE, "the tree has no such row");
    owes(change(&live, F, 5, NONE, 0, 0) == RAS_NO_CHANGE && change(&live, F, REPLACE, 3, 0, 0) == RAS_NO_CHANGE, "no place or content has the number");
    owes(change(&live, F, REPLACE, TEXT_OF, 0, 1) == RAS_NOT_CUT && change(&live, F, REPLACE, TEXT_OF, 2, 0) == RAS_NOT_CUT
        && change(&live, F, REPLACE, TEXT_OF, 0, 3) == RAS_NOT_CUT, "the texts have no such part");
    owes(ras_c_change_tree(&live, NULL, 0, NULL, 0, out, 8, &count) == RAS_NO_ROOM && count == 9 && tells(&live, text), "a text needs room, and the handle stays");
    owes(ras_c_change_tree(&live, NULL, 0, NULL, 0, out, 9, &count) == RAS_OK && !memcmp(out, text, 9), "just enough room is enough");
    ras_c_free(&live);
    owes(held == 0, "a freed handle holds nothing");
}

static uint32_t rows_at(ras_handle *handle, uint32_t told, uint32_t start, uint32_t end, size_t room, ras_counts *counts) {
    return ras_c_rows_at(handle, told, start, end, rows, room, errors, ERRORS, messages, MESSAGES, counts);
}

/* What an edit parsed again is told, and its rows alone are: those of the whole tree there, counted from the block. */
static void tells_what_is_new(void) {
    static const char text[] = "fn f() { a }\nfn g() { b }", new[] = "fn f() { x +  }\nfn g() { b }";
    ras_handle live = {0};
    ras_counts counts = {9, 9, 9, 9}, all;
    ras_range again = {9, 9};
    owes(ras_c_edit_told(&live, 2024, 0, 0, NULL, 0, &again) == RAS_NO_PARSE && again.start == 9 && again.end == 9, "an empty handle has no text");
    owes(rows_at(&live, RAS_ALL_ERRORS, 0, 0, ROWS, &counts) == RAS_NO_PARSE && counts.rows == 9, "nor rows at a place");
    owes(ras_c_parse(BYTES(text), 2024, &live) == RAS_OK, "a text is parsed");
    owes(ras_c_edit_told(&live, 2024, 3, 99, NULL, 0, &again) == RAS_NO_PLACE && again.start == 9 && again.end == 9, "a refused edit tells nothing");
    owes(ras_c_edit_told(&live, 2024, 9, 10, BYTES("x + "), &again) == RAS_OK && again.start == 7 && again.end == 15, "a block is parsed again");
    owes(tells(&live, new), "the handle has the parse of the new text");
    owes(rows_of(&live, filled, ROWS, &all) == RAS_OK, "all rows are told");
    owes(rows_at(&live, RAS_ALL_ERRORS, again.start, again.end, ROWS, &counts) == RAS_OK && counts.rows < all.rows, "the rows of the block are told");
    owes(counts.errors == all.errors && counts.errors == 1 && errors[0].start == 12, "with the errors of the whole text");
    uint32_t at = 0;
    while (at < all.rows && (filled[at].kind != RAS_KIND_STMT_LIST || filled[at].start != 7)) at++;
    owes(at + counts.rows <= all.rows && filled[at].subtree_end == at + counts.rows, "they are a subtree");
    for (uint32_t n = 0; n < counts.rows && at + n < all.rows; n++)
        owes(rows[n].kind == filled[at + n].kind && rows[n].start + 7 == filled[at + n].start && rows[n].subtree_end + at == filled[at + n].subtree_end
            && (n == 0 ? rows[n].parent == 0 : rows[n].parent + at == filled[at + n].parent), "a row is that of the whole tree");
    owes(rows_at(&live, RAS_NO_ERRORS, 7, 15, counts.rows - 1, &all) == RAS_NO_ROOM && all.rows == counts.rows && all.errors == 0, "a small buffer is refused");
    owes(rows_at(&live, 4, 7, 15, ROWS, &all) == RAS_NO_CHOICE && rows_at(&live, 0, 8, 7, ROWS, &all) == RAS_NO_PLACE
        && rows_at(&live, 0, 0, strlen(new) + 1, ROWS, &all) == RAS_NO_PLACE && all.rows == counts.rows, "there is no such choice, and no such range");
    owes(rows_at(&live, RAS_NO_ERRORS, 0, strlen(new), ROWS, &all) == RAS_OK && rows[0].kind == RAS_KIND_SOURCE_FILE, "all is covered by the root");
    owes(rows_at(&live, RAS_NO_ERRORS, 8, 9, ROWS, &all) == RAS_OK && rows[0].kind == RAS_KIND_STMT_LIST, "a token is in a node");
    owes(ras_c_edit_told(&live, 2024, 3, 4, BYTES("g"), &again) == RAS_OK && again.start == 3 && again.end == 4, "a name gets another text");
    owes(ras_c_edit_told(&live, 2024, 0, 2, BYTES("enum"), &again) == RAS_OK && again.start == 0 && again.end == strlen(new) + 2, "all is parsed again");
    owes(ras_c_edit_told(&live, 2024, 0, 4, BYTES("fn"), &again) == RAS_OK && again.start == 0 && again.end == strlen(new), "and once more");
    owes(ras_c_edit_told(&live, 2015, 9, 10, BYTES("a"), &again) == RAS_OK && again.start == 0 && again.end == strlen(new), "another edition reads all anew");
    owes(ras_c_edit_told(&live, 2015, 9, 10, BYTES("async"), &again) == RAS_OK && again.start == 9 && again.end == 14, "and then stays");
    ras_c_free(&live);
    owes(held == 0, "a freed handle holds nothing");
}

static uint32_t violations_at(ras_handle *handle, uint32_t row, size_t error_room, size_t message_room, ras_counts *counts) {
    return ras_c_violations_at(handle, row, errors, error_room, messages, message_room, counts);
}

/* The violations in a node are those of the whole tree that are there, in the same order. */
static void tells_violations_of_a_part(void) {
    static const char text[] = "fn f() { \"\\q\" }\nfn g() { \"\\z\"; (let a = '') }\nfn h() { 1 + }";
    ras_handle live = {0};
    ras_counts counts = {9, 9, 9, 9}, all, none;
    owes(violations_at(&live, 0, ERRORS, MESSAGES, &counts) == RAS_NO_PARSE && counts.errors == 9, "an empty handle has no violations");
    owes(ras_c_parse(BYTES(text), 2024, &live) == RAS_OK, "a text is parsed");
    owes(ras_c_rows_as(&live, RAS_VIOLATIONS, rows, ROWS, errors, ERRORS, messages, MESSAGES, &all) == RAS_OK && all.violations == 4, "it has four");
    ras_error_row whole[4];
    uint8_t texts[MESSAGES];
    memcpy(whole, errors, sizeof whole);
    memcpy(texts, messages, all.messages);
    owes(violations_at(&live, 0, ERRORS, MESSAGES, &counts) == RAS_OK && counts.rows == 0 && counts.errors == 4 && counts.violations == 4
        && counts.messages == all.messages && !memcmp(errors, whole, sizeof whole) && !memcmp(messages, texts, all.messages), "the root has all");
    uint32_t second = rows[1].subtree_end;
    while (rows[second].kind != RAS_KIND_FN) second = rows[second].subtree_end;
    owes(violations_at(&live, second, ERRORS, MESSAGES, &counts) == RAS_OK && counts.errors == 3 && counts.violations == 3
        && counts.messages == all.messages - whole[0].message && !memcmp(errors, whole + 1, 3 * sizeof *whole)
        && !memcmp(messages, texts + whole[0].message, counts.messages), "the second function has the others");
    none = counts;
    memset(errors, 7, sizeof whole);
    owes(violations_at(&live, second, 2, MESSAGES, &counts) == RAS_NO_ROOM && counts.errors == 3 && errors[0].start == 0x07070707, "two errors have no room");
    owes(violations_at(&live, second, ERRORS, none.messages - 1, &counts) == RAS_NO_ROOM && counts.messages == none.messages
        && errors[0].start == 0x07070707, "nor has a message less");
    owes(violations_at(&live, second, 3, none.messages, &counts) == RAS_OK && errors[0].start == whole[1].start, "so much room is enough");
    counts = (ras_counts){9, 9, 9, 9};
    owes(violations_at(&live, second + 1, ERRORS, MESSAGES, &counts) == RAS_NO_PLACE && violations_at(&live, all.rows, ERRORS, MESSAGES, &counts) == RAS_NO_PLACE
        && violations_at(&live, UINT32_MAX, ERRORS, MESSAGES, &counts) == RAS_NO_PLACE && counts.errors == 9, "a token has none, nor is there such a row");
    owes(tells(&live, text), "the handle keeps its parse");
    ras_c_free(&live);
    owes(held == 0, "a freed handle holds nothing");
}

static uint32_t violations_among(ras_handle *handle, uint32_t from, uint32_t to, size_t error_room, size_t message_room, ras_counts *counts) {
    return ras_c_violations_among(handle, from, to, errors, error_room, messages, message_room, counts);
}

/* Parts of the rows, and the violations among them, are together those of the whole tree. */
static void tells_parts_of_the_rows(void) {
    static const char text[] = "fn f() { \"\\q\" }\nfn g() { \"\\z\"; (let a = '') }\nfn h() { 1 + }";
    ras_handle live = {0};
    ras_counts counts = {9, 9, 9, 9}, all;
    ras_flat_row part[8];
    memset(part, 7, sizeof part);
    ras_flat_row untouched = part[0];
    owes(ras_c_rows_from(&live, 0, part, 1) == RAS_NO_PARSE && !memcmp(part, &untouched, sizeof *part), "an empty handle has no rows");
    owes(violations_among(&live, 0, 1, ERRORS, MESSAGES, &counts) == RAS_NO_PARSE && counts.errors == 9, "nor violations");
    owes(ras_c_parse(BYTES(text), 2024, &live) == RAS_OK, "a text is parsed");
    owes(ras_c_rows_as(&live, RAS_VIOLATIONS, rows, ROWS, errors, ERRORS, messages, MESSAGES, &all) == RAS_OK && all.violations == 4, "it has four");
    ras_error_row whole[4];
    uint8_t texts[MESSAGES];
    memcpy(whole, errors, sizeof whole);
    memcpy(texts, messages, all.messages);
    for (uint32_t size = 1; size <= 8; size++) {
        uint32_t told = 0, bytes = 0;
        for (uint32_t from = 0; from < all.rows; from += size) {
            uint32_t count = all.rows - from < size ? all.rows - from : size;
            owes(ras_c_rows_from(&live, from, part, count) == RAS_OK && !memcmp(part, rows + from, count * sizeof *part), "a part has those rows");
            owes(violations_among(&live, from, from + count, ERRORS, MESSAGES, &counts) == RAS_OK && counts.rows == 0, "and its violations are told");
            owes(counts.errors == counts.violations && told + counts.errors <= 4 && !memcmp(errors, whole + told, counts.errors * sizeof *whole)
                && !memcmp(messages, texts + bytes, counts.messages), "which are the next ones");
            told += counts.errors, bytes += counts.messages;
        }
        owes(told == 4 && bytes == all.messages, "the parts have all");
    }
    memset(part, 7, sizeof part);
    owes(ras_c_rows_from(&live, all.rows, part, 0) == RAS_OK && ras_c_rows_from(&live, all.rows, part, 1) == RAS_NO_PLACE
        && ras_c_rows_from(&live, all.rows - 1, part, 2) == RAS_NO_PLACE && ras_c_rows_from(&live, UINT32_MAX, part, 1) == RAS_NO_PLACE
        && !memcmp(part, &untouched, sizeof *part), "behind the last row is none");
    counts = (ras_counts){9, 9, 9, 9};
    owes(violations_among(&live, 0, all.rows + 1, ERRORS, MESSAGES, &counts) == RAS_NO_PLACE
        && violations_among(&live, 0, UINT32_MAX, ERRORS, MESSAGES, &counts) == RAS_NO_PLACE && counts.errors == 9, "nor a violation");
    owes(violations_among(&live, 5, 2, ERRORS, MESSAGES, &counts) == RAS_OK && counts.errors == 0, "and none among no rows");
    owes(violations_among(&live, 0, all.rows, 3, MESSAGES, &counts) == RAS_NO_ROOM && counts.errors == 4, "three errors are too little room");
    owes(violations_among(&live, 0, all.rows, 4, all.messages - 1, &counts) == RAS_NO_ROOM && counts.messages == all.messages, "so is a byte less");
    owes(violations_among(&live, 0, all.rows, 4, all.messages, &counts) == RAS_OK && !memcmp(errors, whole, sizeof whole), "so much room is enough");
    owes(tells(&live, text), "the handle keeps its parse");
    ras_c_free(&live);
    owes(held == 0, "a freed handle holds nothing");
}

/* The errors of a handle's parse without its rows: those that the library writes beside the rows. */
static void tells_errors(void) {
    static ras_error_row with_rows[ERRORS];
    static uint8_t texts[MESSAGES];
    ras_handle live = {0};
    ras_counts all, counts = {9, 9, 9, 9};
    owes(ras_c_errors(&live, RAS_ALL_ERRORS, errors, ERRORS, messages, MESSAGES, &counts) == RAS_NO_PARSE && counts.errors == 9, "an empty handle has no errors");
    owes(ras_c_parse(BYTES(TEXT), 2024, &live) == RAS_OK, "a text with errors is parsed");
    owes(ras_c_errors(&live, 4, errors, ERRORS, messages, MESSAGES, &counts) == RAS_NO_CHOICE && counts.errors == 9, "no choice of errors has the number");
    for (uint32_t choice = RAS_NO_ERRORS; choice <= RAS_ALL_ERRORS; choice++) {
        owes(ras_c_rows_as(&live, choice, rows, ROWS, with_rows, ERRORS, texts, MESSAGES, &all) == RAS_OK, "errors stand beside rows");
        owes(ras_c_errors(&live, choice, errors, ERRORS, messages, MESSAGES, &counts) == RAS_OK && counts.rows == 0 && counts.errors == all.errors
            && counts.violations == all.violations && counts.messages == all.messages, "and alone");
        owes(!memcmp(errors, with_rows, all.errors * sizeof *errors) && !memcmp(messages, texts, all.messages), "they are the same");
        owes(ras_c_errors(&live, choice, errors, all.errors, messages, all.messages, &counts) == RAS_OK, "just enough room is enough");
        if (!all.errors) continue;
        counts = (ras_counts){9, 9, 9, 9};
        memset(errors, 7, sizeof errors);
        owes(ras_c_errors(&live, choice, errors, all.errors - 1, messages, MESSAGES, &counts) == RAS_NO_ROOM && counts.errors == all.errors
            && ras_c_errors(&live, choice, errors, ERRORS, messages, all.messages - 1, &counts) == RAS_NO_ROOM && counts.messages == all.messages
            && errors[0].start == 0x07070707u, "less is too little");
    }
    ras_c_free(&live);
    owes(held == 0, "a freed handle holds nothing");
}

/* Whether a tree has the text, and the rows that the library writes for it. */
static bool is_tree_of(const ras_tree_rows *tree, const char *text) {
    ras_counts counts = {0, 0, 0, 0};
    return ras_c_read(BYTES(text), 2024, rows, ROWS, errors, ERRORS, messages, MESSAGES, &counts) == RAS_OK && tree->row_count == counts.rows
        && !memcmp(tree->rows, rows, counts.rows * sizeof *rows) && tree->text_len == strlen(text)
        && (!tree->text_len || !memcmp(tree->text, text, tree->text_len));
}

static bool is_no_tree(const ras_tree_rows *tree) {
    return !tree->rows && !tree->row_count && !tree->text && !tree->text_len && !tree->owner.full && !tree->owner.at;
}

/* Trees that are handed over: the handle is empty then, and they have what the library writes. */
static void hands_trees_over(void) {
    ras_handle live = {0}, none = {0};
    ras_tree_rows tree = {0}, other = {0};
    owes(ras_c_take_tree(&live, &tree) == RAS_NO_PARSE && is_no_tree(&tree), "an empty handle has no tree");
    ras_c_free_tree(&tree);
    owes(is_no_tree(&tree), "no tree may be freed");
    owes(ras_c_parse(BYTES(TEXT), 2024, &live) == RAS_OK && ras_c_take_tree(&live, &tree) == RAS_OK, "a tree is handed over");
    owes(!memcmp(&live, &none, sizeof live) && ras_c_take_tree(&live, &other) == RAS_NO_PARSE && is_no_tree(&other), "once");
    owes(is_tree_of(&tree, TEXT), "it is that of the text");
    owes(ras_c_parse(BYTES(""), 2024, &live) == RAS_OK && ras_c_take_tree(&live, &other) == RAS_OK, "so is that of no text");
    owes(is_tree_of(&other, "") && is_tree_of(&tree, TEXT), "each has its own");
    ras_c_free(&live);
    owes(is_tree_of(&tree, TEXT), "a tree outlives its handle");
    /* What takes the place of a tree frees it. */
    owes(ras_c_parse(BYTES(OLD), 2024, &live) == RAS_OK, "an emptied handle holds another parse");
    owes(edit(&live, 3, 6, "bar") == RAS_OK && edit(&live, 19, 20, "{ 2 }") == RAS_OK, "which is edited");
    owes(ras_c_take_tree(&live, &tree) == RAS_OK && is_tree_of(&tree, "fn bar() { let x = { 2 }; }"), "the tree is that of the edited text");
    owes(ras_c_take_tree(&live, &tree) == RAS_NO_PARSE && is_tree_of(&tree, "fn bar() { let x = { 2 }; }"), "a refused call leaves the tree");
    ras_c_free_tree(&tree), ras_c_free_tree(&other);
    owes(is_no_tree(&tree) && is_no_tree(&other), "a freed tree is none");
    ras_c_free_tree(&tree);
    owes(held == 0, "freed trees hold nothing");
}

/* A tree at a heap that may refuse: it is handed over, or the handle is empty. */
static void refuses_trees(void) {
    ras_handle live = {0}, none = {0};
    ras_tree_rows tree = {0};
    uint32_t status = ras_c_parse(BYTES(OLD), 2024, &live);
    if (status == RAS_OK) status = edit(&live, 3, 6, "bar");
    if (status == RAS_OK) {
        status = ras_c_take_tree(&live, &tree);
        owes(status == RAS_OK || (status == RAS_NO_MEMORY && is_no_tree(&tree)), "a tree is handed over or refused");
        owes(!memcmp(&live, &none, sizeof live), "the handle is empty either way");
        long left = granted, before = asked;
        granted = -1;
        owes(status != RAS_OK || is_tree_of(&tree, "fn bar() { let x = 1; }"), "the tree is that of the text");
        granted = left, asked = before;
    }
    ras_c_free_tree(&tree);
    ras_c_free(&live);
    owes(held == 0, "neither leaves a block behind");
}

/* Edits of a name, in a block and before all, at a heap that may refuse: each is done, or leaves the handle as it was. */
static void refuses_edits(void) {
    static const struct { uint32_t start, end; const char *insert, *text; } steps[] = {
        {3, 6, "bar", "fn bar() { let x = 1; }"},
        {19, 20, "{ 2 }", "fn bar() { let x = { 2 }; }"},
        {0, 0, "mod m;", "mod m;fn bar() { let x = { 2 }; }"},
    };
    ras_handle live = {0};
    ras_counts counts = {9, 9, 9, 9};
    const char *text = OLD;
    uint32_t status = ras_c_parse(BYTES(text), 2024, &live);
    owes(status == RAS_OK || status == RAS_NO_MEMORY, "parse is done or refused");
    owes(rows_of(&live, rows, ROWS, &counts) != RAS_NO_PARSE ? status == RAS_OK : status == RAS_NO_MEMORY && held == 0, "a handle is full where parse is done");
    for (size_t n = 0; status == RAS_OK && n < sizeof steps / sizeof *steps; n++) {
        status = edit(&live, steps[n].start, steps[n].end, steps[n].insert);
        owes(status == RAS_OK || status == RAS_NO_MEMORY, "edit is done or refused");
        if (status == RAS_OK) text = steps[n].text;
        /* What the handle holds is told at a heap that refuses nothing. */
        long left = granted, before = asked;
        granted = -1;
        owes(tells(&live, text), "a handle holds what was done last");
        granted = left, asked = before;
    }
    if (status == RAS_OK) {
        const ras_edit_row both[] = {{9, 12, 1}, {27, 28, 3}};
        status = edits_of(&live, both, 2, "g{3}");
        owes(status == RAS_OK || status == RAS_NO_MEMORY, "edits are done or refused");
        if (status == RAS_OK) text = "mod m;fn g() { let x = { {3} }; }";
        long left = granted, before = asked;
        granted = -1;
        owes(tells(&live, text), "all of them, or none");
        granted = left, asked = before;
    }
    ras_c_free(&live);
    owes(held == 0, "a handle leaves no block behind");
}

/* The rows and the violations of a part, likewise. */
static void refuses_parts(void) {
    ras_handle live = {0};
    ras_counts counts = {9, 9, 9, 9};
    uint32_t status = ras_c_parse(BYTES("fn foo() { let x = \"\\q\"; }"), 2024, &live);
    if (status == RAS_OK) {
        status = rows_at(&live, RAS_ALL_ERRORS, 9, 23, ROWS, &counts);
        owes(status == RAS_OK || (status == RAS_NO_MEMORY && counts.rows == 9), "the rows of a part are told or refused");
        counts = (ras_counts){9, 9, 9, 9};
        status = violations_at(&live, 0, ERRORS, MESSAGES, &counts);
        owes(status == RAS_OK ? counts.violations == 1 : status == RAS_NO_MEMORY && counts.rows == 9, "violations are told or refused");
        counts = (ras_counts){9, 9, 9, 9};
        status = violations_among(&live, 0, 4, ERRORS, MESSAGES, &counts);
        owes(status == RAS_OK ? counts.violations == 0 : status == RAS_NO_MEMORY && counts.rows == 9, "so are those among some rows");
        owes(ras_c_rows_from(&live, 1, rows, 2) == RAS_OK, "rows need no memory");
        counts = (ras_counts){9, 9, 9, 9};
        status = ras_c_errors(&live, RAS_ALL_ERRORS, errors, ERRORS, messages, MESSAGES, &counts);
        owes(status == RAS_OK ? counts.violations == 1 : status == RAS_NO_MEMORY && counts.rows == 9, "errors are told or refused");
        uint8_t out[64] = {7};
        uint32_t count = 9;
        const ras_change_row both[] = {{4, RAS_PLACE_INSTEAD, RAS_CONTENT_TEXT, 0, 1}, {1, RAS_PLACE_AFTER, RAS_CONTENT_ROW, 3, 0}};
        status = ras_c_change_tree(&live, both, 2, BYTES("g"), out, sizeof out, &count);
        owes(status == RAS_OK ? count == 25 : status == RAS_NO_MEMORY && count == 9 && out[0] == 7, "changes are made or refused");
    }
    ras_c_free(&live);
    owes(held == 0, "a handle leaves no block behind");
}

/* Each call once, at a heap that may refuse: a call is done, or answers that memory ran out and writes nothing. */
static void refuses(void) {
    ras_counts counts = {9, 9, 9, 9};
    ras_token_row tokens[64];
    ras_range pairs[4];
    uint32_t count = 9, answer = 9, status;
    memset(rows, 0xAB, sizeof rows);
    status = read_with(ROWS, ERRORS, MESSAGES, &counts);
    owes(status == RAS_OK || (status == RAS_NO_MEMORY && counts.rows == 9 && rows[0].kind == 0xABABABABu), "read is done or refused");
    status = ras_c_tokens(BYTES(TEXT), 2024, tokens, 64, &count);
    owes(status == RAS_OK || (status == RAS_NO_MEMORY && count == 9), "tokens is done or refused");
    count = 9;
    status = ras_c_parens(BYTES(TEXT), 2024, pairs, 4, &count);
    owes(status == RAS_OK || (status == RAS_NO_MEMORY && count == 9), "parens is done or refused");
    status = ras_c_reads_back(BYTES(TEXT), 2024, 20, 31, &answer);
    owes(status != RAS_NO_MEMORY ? answer != 9 || status == RAS_NO_PLACE : answer == 9, "reads_back is done or refused");
    answer = 9;
    status = ras_c_needs_parens(BYTES(TEXT), 2024, 20, 31, BYTES("a + b"), &answer);
    owes(status != RAS_NO_MEMORY ? answer != 9 || status == RAS_NO_PLACE : answer == 9, "needs_parens is done or refused");
    uint8_t value[64] = {7};
    count = 9;
    status = ras_c_string_value(BYTES("\"\\n\""), value, sizeof value, &count);
    owes(status == RAS_OK || (status == RAS_NO_MEMORY && count == 9 && value[0] == 7), "string_value is done or refused");
    ras_unit_row unit = {7, 7, 7, 7};
    count = 9;
    status = ras_c_char_ranges(BYTES("\"\\n\""), &unit, 1, &count);
    owes(status == RAS_OK || (status == RAS_NO_MEMORY && count == 9 && unit.start == 7), "char_ranges is done or refused");
    uint32_t starts[3] = {7};
    ras_line_col place = {7, 7};
    count = 9;
    status = ras_c_line_starts(BYTES("\n\n"), starts, 3, &count);
    owes(status == RAS_OK || (status == RAS_NO_MEMORY && count == 9 && starts[0] == 7), "line_starts is done or refused");
    count = 9;
    status = ras_c_line_cols(BYTES("\n\xc3\xa9"), RAS_ENCODING_UTF16, (uint32_t[]){3}, 1, &place, 1, &count);
    owes(status == RAS_OK ? is_at(place, 1, 1) : status == RAS_NO_MEMORY && count == 9 && place.line == 7, "line_cols is done or refused");
    count = 9;
    status = ras_c_offsets(BYTES("\n\xc3\xa9"), RAS_ENCODING_UTF16, (ras_line_col[]){{1, 1}}, 1, starts, 1, &count);
    owes(status == RAS_OK ? starts[0] == 3 : status == RAS_NO_MEMORY && count == 9, "offsets is done or refused");
    count = 9;
    status = ras_c_read_as(RAS_ENTRY_FILE, RAS_PARSE_ERRORS, BYTES(TEXT), 2024, rows, ROWS, errors, ERRORS, messages, MESSAGES, &counts);
    owes(status == RAS_OK || status == RAS_NO_MEMORY, "read_as is done or refused");
    ras_match_row matches[4];
    uint8_t said[64], out[64] = {7};
    ras_rule_fault fault = {9, 9};
    size_t number = 9;
    status = ras_c_search(BYTES("$a + $b"), false, BYTES("fn f() { a + b }"), 2024, matches, 4, &count, said, sizeof said, &fault);
    owes(status == RAS_OK || (status == RAS_NO_MEMORY && count == 9 && fault.offset == 9), "search is done or refused");
    count = 9;
    status = ras_c_rewrite(BYTES("$a + $b ==>> $b"), false, BYTES("fn f() { a + b }"), 2024, out, sizeof out, &count, &number, said, sizeof said, &fault);
    owes(status == RAS_OK || (status == RAS_NO_MEMORY && count == 9 && number == 9 && out[0] == 7 && fault.offset == 9),
        "rewrite is done or refused");
    refuses_edits();
    refuses_parts();
    refuses_trees();
}

int main(void) {
    reads();
    reads_as();
    names();
    words();
    rewrites();
    tokens_and_parens();
    places();
    values();
    units();
    lines();
    edits();
    edits_at_once();
    changes_trees();
    tells_what_is_new();
    tells_violations_of_a_part();
    tells_parts_of_the_rows();
    tells_errors();
    hands_trees_over();
    asked = 0;
    refuses();
    long all = asked;
    for (long n = 0; n < all; n++) {
        granted = n;
        refuses();
        owes(held == 0, "no block stays behind");
    }
    printf("%ld allocations refused in turn\n", all);
    return bad;
}
