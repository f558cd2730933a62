/* What C gets wrong and is told: null pointers in every place, and run places in the wrong state. Prints nothing, and answers 0,
   where each call is refused with the number that the header names. */
#include "fun.h"

#include <stdio.h>

static int wrong;

static void wants(const char *what, uint32_t refusal, struct fun_reply reply) {
    if (reply.refusal == refusal && reply.layer == (refusal ? FUN_CALL : 0) && reply.place == 0)
        return;
    printf("%s: refusal %u in layer %u at %zu\n", what, (unsigned)reply.refusal, (unsigned)reply.layer, reply.place);
    wrong = 1;
}

int main(void) {
    static struct fun_rule rule;
    static struct fun_run run;
    static struct fun_book book;
    static struct fun_cell cells[2];
    uint8_t bytes[8] = {0, 3, 1, 0, 3}, out[8];
    uint16_t first[5], second[5], types[1];
    int32_t readings[1] = {0};

    if (fun_rule_size() != sizeof rule || fun_run_size() != sizeof run || fun_book_size() != sizeof book ||
        fun_cell_size() != sizeof cells[0]) {
        printf("sizes: %zu %zu %zu %zu\n", fun_rule_size(), fun_run_size(), fun_book_size(), fun_cell_size());
        wrong = 1;
    }
    wants("rule_new null", FUN_NULL, fun_rule_new(NULL));
    wants("run_new null run", FUN_NULL, fun_run_new(NULL, cells, 2));
    wants("run_new null cells", FUN_NULL, fun_run_new(&run, NULL, 0));
    wants("book_new null", FUN_NULL, fun_book_new(NULL));
    wants("rule_new", 0, fun_rule_new(&rule));
    wants("run_new", 0, fun_run_new(&run, cells, 2));
    wants("book_new", 0, fun_book_new(&book));

    wants("accept null rule", FUN_NULL, fun_accept(NULL, bytes, 5, first, 5, second, 5, types, 1));
    wants("accept null record", FUN_NULL, fun_accept(&rule, NULL, 0, first, 5, second, 5, types, 1));
    wants("accept null first", FUN_NULL, fun_accept(&rule, bytes, 5, NULL, 5, second, 5, types, 1));
    wants("accept null second", FUN_NULL, fun_accept(&rule, bytes, 5, first, 5, NULL, 5, types, 1));
    wants("accept null types", FUN_NULL, fun_accept(&rule, bytes, 5, first, 5, second, 5, NULL, 0));
    wants("book_add null book", FUN_NULL, fun_book_add(NULL, bytes, 1));
    wants("book_add null name", FUN_NULL, fun_book_add(&book, NULL, 0));
    wants("compile null book", FUN_NULL, fun_compile(NULL, bytes, 1, out, 8));
    wants("compile null text", FUN_NULL, fun_compile(&book, NULL, 0, out, 8));
    wants("compile null record", FUN_NULL, fun_compile(&book, bytes, 1, NULL, 0));

    wants("rewind closed", FUN_CLOSED, fun_rewind(&run, readings, 1));
    wants("grant closed", FUN_CLOSED, fun_grant(&run, 1));
    wants("close closed", FUN_CLOSED, fun_close(&run, &rule));
    if (fun_ask(&run).state != FUN_NO_RUN || fun_ask(NULL).state != FUN_NO_RUN) {
        puts("ask closed");
        wrong = 1;
    }
    wants("start null run", FUN_NULL, fun_start(NULL, &rule));
    wants("start null rule", FUN_NULL, fun_start(&run, NULL));
    /* every pointer of a trial, one after the other */
    for (int at = 0; at < 9; at++) {
        struct fun_trial trial =
            fun_trial(at == 0 ? NULL : &run, at == 1 ? NULL : &rule, at == 2 ? NULL : &book, at == 3 ? NULL : bytes, 1,
                      at == 4 ? NULL : out, 8, at == 5 ? NULL : first, 5, at == 6 ? NULL : second, 5,
                      at == 7 ? NULL : types, 1, at == 8 ? NULL : readings, 1, 1);
        wants("trial null", FUN_NULL, trial.reply);
    }
    wants("start", 0, fun_start(&run, &rule));
    wants("start open", FUN_OPEN, fun_start(&run, &rule));
    wants("trial open", FUN_OPEN,
          fun_trial(&run, &rule, &book, bytes, 1, out, 8, first, 5, second, 5, types, 1, readings, 1, 1).reply);
    wants("free open", FUN_OPEN, fun_free(&run));
    wants("rewind null run", FUN_NULL, fun_rewind(NULL, readings, 0));
    wants("rewind null readings", FUN_NULL, fun_rewind(&run, NULL, 0));
    wants("grant null", FUN_NULL, fun_grant(NULL, 1));
    wants("close null run", FUN_NULL, fun_close(NULL, &rule));
    wants("close null rule", FUN_NULL, fun_close(&run, NULL));
    wants("free null", FUN_NULL, fun_free(NULL));
    /* the run is still open, as every refusal left it */
    if (fun_ask(&run).state != FUN_NUMBER) {
        puts("ask open");
        wrong = 1;
    }
    wants("close", 0, fun_close(&run, &rule));
    wants("free", 0, fun_free(&run));
    if (fun_explain(FUN_NULL, NULL, 0) != 0 || fun_explain(99, bytes, 8) != 0) {
        puts("explain");
        wrong = 1;
    }
    return wrong;
}
