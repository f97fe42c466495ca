/* Calls the library from several threads at once. Each has its own texts, buffers and handle, and is told what one thread alone is told;
 * one more handle goes round, and each thread in turn edits its text. All of them read one tree that was handed over, and the last one to
 * be done with it frees it.
 *
 * It is built with -fsanitize=thread, which sees what this file does and how memory is taken and freed, and runs under valgrind's
 * helgrind too, which also sees what the library does.
 */
#include "ras.h"
#include <pthread.h>
#include <stdio.h>
#include <stdlib.h>
#include <string.h>

enum { THREADS = 4, ROUNDS = 3, TURNS = 5, ROWS = 512, ERRORS = 16, MESSAGES = 1024, TEXT = 256 };

#define BYTES(text) (const uint8_t *)(text), strlen(text)

/* What all calls tell of one text. */
typedef struct {
    char text[TEXT];
    uint8_t new[TEXT], messages[MESSAGES];
    ras_flat_row rows[ROWS], live[ROWS];
    ras_error_row errors[ERRORS];
    ras_token_row tokens[ROWS];
    ras_range pairs[4];
    ras_match_row matches[4];
    ras_counts counts, live_counts;
    uint32_t token_count, pair_count, match_count, new_count;
    size_t replaced;
} told;

static void owes(bool holds, const char *what) {
    if (!holds) fprintf(stderr, "not so: %s\n", what), exit(1);
}

/* A text of its own for each number, with an error, a needless pair and three matches. */
static void tell(told *it, int number) {
    ras_rule_fault fault = {0, 0};
    ras_handle live = {0};
    memset(it, 0, sizeof *it);
    snprintf(it->text, TEXT, "fn f%d() { let x = (a * b) + %d; g(x, g(\"\\q\", %*s2)); }\nfn b(", number, number, number, "");
    owes(ras_c_read(BYTES(it->text), 2024, it->rows, ROWS, it->errors, ERRORS, it->messages, MESSAGES, &it->counts) == RAS_OK, "read");
    owes(ras_c_tokens(BYTES(it->text), 2024, it->tokens, ROWS, &it->token_count) == RAS_OK, "tokens");
    owes(ras_c_parens(BYTES(it->text), 2024, it->pairs, 4, &it->pair_count) == RAS_OK && it->pair_count == 1, "parens");
    owes(ras_c_search(BYTES("g($a, $b)"), false, BYTES(it->text), 2024, it->matches, 4, &it->match_count, NULL, 0, &fault) == RAS_OK
        && it->match_count == 2, "search");
    owes(ras_c_rewrite(BYTES("$a * $b ==>> $b - $a"), false, BYTES(it->text), 2024, it->new, TEXT, &it->new_count, &it->replaced, NULL, 0, &fault)
        == RAS_OK && it->replaced == 1, "rewrite");
    owes(ras_c_parse(BYTES(it->text), 2024, &live) == RAS_OK, "parse");
    owes(ras_c_edit(&live, 2024, 3, 4, BYTES("name")) == RAS_OK, "a name is edited");
    owes(ras_c_edit(&live, 2024, 13, 13, BYTES(" { 1 } ")) == RAS_OK, "a block is edited");
    owes(ras_c_edit(&live, 2024, 0, 0, BYTES("mod m;")) == RAS_OK, "all is parsed again");
    owes(ras_c_rows(&live, it->live, ROWS, it->errors, ERRORS, it->messages, MESSAGES, &it->live_counts) == RAS_OK, "rows");
    ras_c_free(&live);
}

/* What one thread alone was told, and what a thread is told beside others. */
static told alone[THREADS], beside[THREADS];

/* The handle that goes round, the text that it holds, and whose turn it is. */
static pthread_mutex_t lock = PTHREAD_MUTEX_INITIALIZER;
static pthread_cond_t turned = PTHREAD_COND_INITIALIZER;
static ras_handle round_handle;
static char round_text[TEXT];
static int turn;

/* A thread takes the handle out of its place, edits the text outside of the lock, and puts it back for the next. */
static void take_turn(int number) {
    static const struct { uint32_t start, end; const char *insert; } steps[] = {{3, 4, "ab"}, {3, 5, "f"}, {8, 8, " a; "}, {8, 12, ""}, {0, 0, "fn g() {} "}};
    pthread_mutex_lock(&lock);
    while (turn % THREADS != number) pthread_cond_wait(&turned, &lock);
    ras_handle live = round_handle;
    int step = turn % (int)(sizeof steps / sizeof *steps);
    pthread_mutex_unlock(&lock);

    char next[TEXT];
    static ras_flat_row whole[ROWS], rows[ROWS];
    ras_counts counts, wanted;
    snprintf(next, TEXT, "%.*s%s%s", (int)steps[step].start, round_text, steps[step].insert, round_text + steps[step].end);
    owes(ras_c_edit(&live, 2024, steps[step].start, steps[step].end, BYTES(steps[step].insert)) == RAS_OK, "a handle that came is edited");
    owes(ras_c_rows(&live, rows, ROWS, NULL, 0, NULL, 0, &counts) == RAS_OK, "its rows");
    owes(ras_c_read(BYTES(next), 2024, whole, ROWS, NULL, 0, NULL, 0, &wanted) == RAS_OK, "the text's rows");
    owes(memcmp(&counts, &wanted, sizeof counts) == 0 && memcmp(rows, whole, counts.rows * sizeof *rows) == 0, "a handle holds what was done last");

    pthread_mutex_lock(&lock);
    strcpy(round_text, next);
    round_handle = live;
    turn++;
    pthread_cond_broadcast(&turned);
    pthread_mutex_unlock(&lock);
}

/* A tree that was handed over, and how many threads have not read it yet. */
static ras_tree_rows shared_tree;
static int readers = THREADS;

/* Reads the tree outside of the lock. */
static void read_shared(void) {
    size_t tokens = 0;
    for (size_t n = 0; n < shared_tree.row_count; n++) tokens += shared_tree.rows[n].kind >> 31;
    owes(tokens < shared_tree.row_count && !memcmp(shared_tree.text, alone[0].text, shared_tree.text_len)
        && !memcmp(shared_tree.rows, alone[0].rows, shared_tree.row_count * sizeof *shared_tree.rows), "a tree is read by all");
    pthread_mutex_lock(&lock);
    if (--readers == 0) ras_c_free_tree(&shared_tree);
    pthread_mutex_unlock(&lock);
}

static void *work(void *at) {
    int number = (int)((told *)at - beside);
    read_shared();
    for (int n = 0; n < ROUNDS; n++) {
        tell(at, number);
        owes(memcmp(at, &alone[number], sizeof(told)) == 0, "a thread is told the same beside others");
    }
    for (int n = 0; n < TURNS; n++) take_turn(number);
    return NULL;
}

int main(void) {
    pthread_t threads[THREADS];
    for (int n = 0; n < THREADS; n++) tell(&alone[n], n);
    strcpy(round_text, "fn f() {}");
    owes(ras_c_parse(BYTES(round_text), 2024, &round_handle) == RAS_OK, "a handle to go round");
    ras_handle parse = {0};
    owes(ras_c_parse(BYTES(alone[0].text), 2024, &parse) == RAS_OK && ras_c_take_tree(&parse, &shared_tree) == RAS_OK, "a tree for all");
    for (int n = 0; n < THREADS; n++) owes(pthread_create(&threads[n], NULL, work, &beside[n]) == 0, "a thread");
    for (int n = 0; n < THREADS; n++) owes(pthread_join(threads[n], NULL) == 0, "a thread ends");
    owes(turn == THREADS * TURNS, "all turns were taken");
    owes(readers == 0 && !shared_tree.rows, "the last reader freed the tree");
    ras_c_free(&round_handle);
    printf("%d threads, %d turns of one handle\n", THREADS, turn);
    return 0;
}
