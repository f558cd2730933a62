/* A heater's control loop over the library: records come in pieces, and on every pass the rule that was last accepted says
   whether to heat. What it prints is compared with heat.out. */
#include "fun.h"

#include <stdio.h>
#include <string.h>

#define NODES 64    /* rules of up to so many nodes are taken */
#define CELLS 3     /* environments that one pass may make */
#define SLOTS 4     /* grants in one pass */
#define STEPS 2     /* steps in one grant */
#define FALLBACK 20 /* the answer while no rule has one */

/* ---- what is lent to the library */
static struct fun_rule rule;
static struct fun_run run;
static struct fun_cell cells[CELLS];
static uint16_t first[FUN_TABLE(NODES)], second[FUN_TABLE(NODES)];
static uint16_t types[16];
static int has_rule;

static void print_refusal(const char *call, struct fun_reply reply) {
    uint8_t text[64];
    size_t length = fun_explain(reply.refusal, text, sizeof text);
    if (length > sizeof text)
        length = sizeof text;
    printf("  %s refused: %u at %zu in layer %u: %.*s\n", call, (unsigned)reply.refusal, reply.place,
           (unsigned)reply.layer, (int)length, (const char *)text);
}

/* ---- records come in pieces */
static uint8_t record[FUN_MOST_RECORD];
static size_t received;

/* Takes a piece of a record; more than a record has is cut off, and the record is refused then. */
static void receive(const uint8_t *piece, size_t length) {
    if (length > sizeof record - received)
        length = sizeof record - received;
    memcpy(record + received, piece, length);
    received += length;
}

/* The line is quiet: what came is taken for a record. Refused, the earlier rule goes on. */
static void line_is_quiet(void) {
    fun_close(&run, &rule); /* refused where no run is open: then there is nothing to give back */
    struct fun_reply reply = fun_accept(&rule, record, received, first, FUN_TABLE(NODES), second, FUN_TABLE(NODES),
                                        types, sizeof types / sizeof types[0]);
    if (reply.refusal == 0) {
        has_rule = 1;
        printf("  accepted %zu bytes, a type of %zu entries, the first of which is %u\n", received, reply.count,
               (unsigned)types[0]);
    } else {
        print_refusal("accept", reply);
    }
    received = 0;
    if (has_rule)
        fun_start(&run, &rule);
}

/* ---- one pass: what the rule says of the readings, within so many slots */
static int32_t pass(const int32_t *readings, size_t count) {
    struct fun_reply reply = fun_rewind(&run, readings, count);
    if (reply.refusal != 0) {
        print_refusal("rewind", reply);
        return FALLBACK;
    }
    struct fun_report report = fun_ask(&run);
    for (int slot = 0; slot < SLOTS && report.state == FUN_WAITING; slot++) {
        fun_grant(&run, STEPS);
        report = fun_ask(&run);
    }
    static const char *const states[] = {"no run", "waiting", "number", "truth", "function", "range", "no store", "no stack"};
    printf("  %s after %u steps\n", states[report.state], (unsigned)report.count);
    switch (report.state) {
    case FUN_NUMBER:
    case FUN_TRUTH:
        return report.value;
    default:
        return FALLBACK;
    }
}

/* ---- what comes over the line */
/* if 80 <= coil then 1 else 0 */
static const uint8_t defrost[] = {0x00, 0x16, 0x01, 0x01, 0x0a, 0x09, 0x01, 0x00, 0x00, 0x00, 0x50, 0x04,
                                  0x00, 0x00, 0x01, 0x00, 0x00, 0x00, 0x01, 0x01, 0x00, 0x00, 0x00, 0x00};
/* (fun f -> fun x -> x + f x) (fun y -> y + y) coil */
static const uint8_t thrice[] = {0x00, 0x1c, 0x01, 0x01, 0x06, 0x06, 0x05, 0x05, 0x08, 0x04, 0x00, 0x00, 0x06, 0x04, 0x00,
                                 0x01, 0x04, 0x00, 0x00, 0x05, 0x08, 0x04, 0x00, 0x00, 0x04, 0x00, 0x00, 0x04, 0x00, 0x00};
/* let a = 1 in let b = 2 in let c = 3 in let d = 4 in a + coil */
static const uint8_t lets[] = {0x00, 0x21, 0x01, 0x01, 0x07, 0x01, 0x00, 0x00, 0x00, 0x01, 0x07, 0x01,
                               0x00, 0x00, 0x00, 0x02, 0x07, 0x01, 0x00, 0x00, 0x00, 0x03, 0x07, 0x01,
                               0x00, 0x00, 0x00, 0x04, 0x08, 0x04, 0x00, 0x03, 0x04, 0x00, 0x04};
/* coil + 2147483647 */
static const uint8_t steep[] = {0x00, 0x0b, 0x01, 0x01, 0x08, 0x04, 0x00, 0x00, 0x01, 0x7f, 0xff, 0xff, 0xff};

static void passes(void) {
    static const int32_t coil[] = {79, 80, -3};
    for (size_t i = 0; i < sizeof coil / sizeof coil[0]; i++) {
        printf("coil %d:\n", (int)coil[i]);
        int32_t answer = pass(&coil[i], 1);
        printf("  heat %d\n", (int)answer);
    }
}

int main(void) {
    if (fun_rule_size() != sizeof rule || fun_run_size() != sizeof run || fun_cell_size() != sizeof cells[0])
        return 1; /* header and archive are of two versions */
    fun_rule_new(&rule);
    fun_run_new(&run, cells, CELLS);

    puts("no record has come");
    passes();
    puts("a record comes in three pieces");
    receive(defrost, 5);
    receive(defrost + 5, 10);
    receive(defrost + 15, sizeof defrost - 15);
    line_is_quiet();
    passes();
    puts("a record is torn");
    receive(thrice, 7);
    line_is_quiet();
    passes();
    puts("it comes again, and takes three grants");
    receive(thrice, sizeof thrice);
    line_is_quiet();
    passes();
    puts("a rule makes more environments than there are cells");
    receive(lets, sizeof lets);
    line_is_quiet();
    passes();
    puts("a rule leaves the number range");
    receive(steep, sizeof steep);
    line_is_quiet();
    passes();
    fun_close(&run, &rule);
    printf("closed, %zu cells free\n", fun_free(&run).count);
    return 0;
}
