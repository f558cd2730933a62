/* Measures how much stack each call takes, by rules of so many nodes: each is made on a stack of its own that was painted before.
   tools/firmware/measure builds and runs it. */
#include "fun.h"

#include <pthread.h>
#include <stdio.h>
#include <stdlib.h>
#include <string.h>

#define STACK (8u << 20)

static unsigned char *stack;
static struct fun_rule rule;
static struct fun_run run;
static struct fun_book book;
static struct fun_cell cells[1024];
static uint16_t first[FUN_TABLE(512)], second[FUN_TABLE(512)], types[2048];
static uint8_t record[FUN_MOST_RECORD], text[FUN_MOST_TEXT], out[FUN_MOST_RECORD];
static size_t record_count, text_count;
static int32_t readings[1];

static void *nothing(void *unused) { return unused; }

static void *accept_it(void *unused) {
    struct fun_reply reply = fun_accept(&rule, record, record_count, first, sizeof first / 2, second, sizeof second / 2,
                                        types, sizeof types / 2);
    if (reply.refusal)
        printf("(refused %u) ", (unsigned)reply.refusal);
    return unused;
}

static void *start_it(void *unused) {
    fun_start(&run, &rule);
    return unused;
}

static void *rewind_it(void *unused) {
    fun_rewind(&run, readings, 0);
    return unused;
}

static void *grant_it(void *unused) {
    fun_grant(&run, 1000000);
    return unused;
}

static void *ask_it(void *unused) {
    fun_ask(&run);
    return unused;
}

static void *close_it(void *unused) {
    fun_close(&run, &rule);
    return unused;
}

static void *compile_it(void *unused) {
    fun_compile(&book, text, text_count, out, sizeof out);
    return unused;
}

static size_t used_by(void *(*call)(void *)) {
    pthread_attr_t attributes;
    pthread_t thread;
    memset(stack, 0xa5, STACK);
    pthread_attr_init(&attributes);
    if (pthread_attr_setstack(&attributes, stack, STACK) || pthread_create(&thread, &attributes, call, 0))
        exit(1);
    pthread_join(thread, 0);
    size_t free = 0;
    while (free < STACK && stack[free] == 0xa5)
        free++;
    return STACK - free;
}

static size_t base;

static void tell(const char *what, void *(*call)(void *)) { printf("  %s %zu", what, used_by(call) - base); }

/* a record of so many nodes: each byte of kinds repeats until the last node, which is the reading-free tail */
static void chain(size_t nodes) {
    /* fun a -> fun b -> .. -> 0 */
    size_t at = 4;
    for (size_t i = 0; i + 1 < nodes; i++)
        record[at++] = 5;
    memcpy(record + at, "\1\0\0\0\0", 5);
    at += 5;
    record[0] = (uint8_t)((at - 2) >> 8), record[1] = (uint8_t)(at - 2), record[2] = 1, record[3] = 0;
    record_count = at;
}

static void lets(size_t nodes) {
    /* let a = 1 in let b = 1 in .. in 1 */
    size_t at = 4;
    for (size_t i = 0; i + 2 < nodes; i += 2) {
        memcpy(record + at, "\7\1\0\0\0\1", 6);
        at += 6;
    }
    memcpy(record + at, "\1\0\0\0\1", 5);
    at += 5;
    record[0] = (uint8_t)((at - 2) >> 8), record[1] = (uint8_t)(at - 2), record[2] = 1, record[3] = 0;
    record_count = at;
}

int main(void) {
    if (posix_memalign((void **)&stack, 4096, STACK))
        return 1;
    base = used_by(nothing);
    fun_rule_new(&rule);
    fun_run_new(&run, cells, sizeof cells / sizeof cells[0]);
    fun_book_new(&book);
    static const size_t sizes[] = {16, 32, 64, 128, 256, 512};
    for (size_t i = 0; i < sizeof sizes / sizeof sizes[0]; i++) {
        printf("%3zu nodes:", sizes[i]);
        chain(sizes[i]);
        tell("accept (functions)", accept_it);
        lets(sizes[i] - 1);
        tell("accept (lets)", accept_it);
        tell("start", start_it);
        tell("rewind", rewind_it);
        tell("grant", grant_it);
        tell("ask", ask_it);
        tell("close", close_it);
        puts("");
    }
    static const size_t depths[] = {16, 64, 256, 1024, 4096};
    for (size_t i = 0; i < sizeof depths / sizeof depths[0]; i++) {
        memset(text, '(', depths[i]);
        text_count = depths[i];
        printf("%4zu parentheses:", depths[i]);
        tell("compile", compile_it);
        puts("");
    }
    return 0;
}
