/* Answers the lines of crates/answers/stdin through the C calls: those of the kinds accept and compile, and run and trial over a
   linked store. Prints each line's number and its answer, so that these can be compared with crates/answers/stdout. Every buffer is
   of its own and of just the size that the line names, so that valgrind sees a byte too many. */
#include "fun.h"

#include <stdio.h>
#include <stdlib.h>
#include <string.h>

static void *lend(size_t bytes) {
    void *memory = malloc(bytes ? bytes : 1);
    if (!memory)
        exit(2);
    return memory;
}

static char *field(char **rest) {
    char *start = *rest, *end = strchr(start, ' ');
    if (end) {
        *end = 0;
        *rest = end + 1;
    } else {
        *rest = start + strlen(start);
    }
    return start;
}

static int digit(char c) { return c <= '9' ? c - '0' : c - 'a' + 10; }

/* bytes in hexadecimal; - stands for none */
static uint8_t *bytes(const char *text, size_t *count) {
    *count = strcmp(text, "-") ? strlen(text) / 2 : 0;
    uint8_t *out = lend(*count);
    for (size_t i = 0; i < *count; i++)
        out[i] = (uint8_t)(digit(text[2 * i]) * 16 + digit(text[2 * i + 1]));
    return out;
}

static int32_t *numbers(const char *text, size_t *count) {
    int32_t *out = lend(4 * strlen(text));
    *count = 0;
    while (*text && strcmp(text, "-")) {
        char *end;
        out[(*count)++] = (int32_t)strtol(text, &end, 10);
        text = *end == ':' ? end + 1 : end;
    }
    return out;
}

static void print_refusal(struct fun_reply reply) { printf("refused %u %zu\n", (unsigned)reply.refusal, reply.place); }

static void answer_accept(char *rest) {
    size_t first_count = strtoull(field(&rest), 0, 10), second_count = strtoull(field(&rest), 0, 10);
    size_t types_count = strtoull(field(&rest), 0, 10), count;
    uint8_t *record = bytes(rest, &count);
    uint16_t *first = lend(2 * first_count), *second = lend(2 * second_count), *types = lend(2 * types_count);
    struct fun_rule *rule = lend(sizeof *rule);
    fun_rule_new(rule);
    struct fun_reply reply =
        fun_accept(rule, record, count, first, first_count, second, second_count, types, types_count);
    if (reply.refusal) {
        print_refusal(reply);
    } else {
        printf("ok %zu ", reply.count);
        for (size_t i = 0; i < reply.count; i++)
            printf("%s%u", i ? "," : "", (unsigned)types[i]);
        puts("");
    }
    free(record), free(first), free(second), free(types), free(rule);
}

/* the names of the readings, joined by commas; whether all were added */
static int add_names(struct fun_book *book, char *names) {
    if (!strcmp(names, "-"))
        return 1;
    size_t order = 0;
    for (char *name = names, *next; name; name = next, order++) {
        next = strchr(name, ',');
        if (next)
            *next++ = 0;
        size_t count;
        uint8_t *spelled = bytes(name, &count);
        struct fun_reply reply = fun_book_add(book, spelled, count);
        free(spelled);
        if (reply.refusal) {
            printf("add %zu refused %u %zu\n", order, (unsigned)reply.refusal, reply.place);
            return 0;
        }
    }
    return 1;
}

static void answer_compile(char *rest) {
    char *names = field(&rest);
    size_t room = strtoull(field(&rest), 0, 10), count;
    uint8_t *text = bytes(rest, &count), *record = lend(room);
    struct fun_book *book = lend(sizeof *book);
    fun_book_new(book);
    if (add_names(book, names)) {
        struct fun_reply reply = fun_compile(book, text, count, record, room);
        if (reply.refusal) {
            print_refusal(reply);
        } else {
            printf("ok %zu ", reply.count);
            for (size_t i = 0; i < reply.count; i++)
                printf("%02x", record[i]);
            puts("");
        }
    }
    free(text), free(record), free(book);
}

static void print_report(struct fun_report report) {
    printf("count=%u ", (unsigned)report.count);
    switch (report.state) {
    case FUN_WAITING: printf("waiting"); break;
    case FUN_NUMBER: printf("number %d", (int)report.value); break;
    case FUN_TRUTH: printf("truth %s", report.value ? "true" : "false"); break;
    case FUN_FUNCTION: printf("function at %u", (unsigned)report.node); break;
    case FUN_RANGE: printf("range at %u", (unsigned)report.node); break;
    case FUN_NO_STORE: printf("no store at %u", (unsigned)report.node); break;
    case FUN_NO_STACK: printf("no stack at %u", (unsigned)report.node); break;
    default: printf("no run"); break;
    }
}

static void answer_call(struct fun_run *run, char *call) {
    struct fun_reply reply;
    if (*call == 'a') {
        print_report(fun_ask(run));
        return;
    }
    if (*call == 'g') {
        reply = fun_grant(run, (uint32_t)strtoull(call + 1, 0, 10));
    } else {
        size_t count;
        int32_t *readings = numbers(call + 1, &count);
        reply = fun_rewind(run, readings, count);
        free(readings);
    }
    if (reply.refusal)
        printf("refused %u", (unsigned)reply.refusal);
    else
        printf("ok");
}

static void answer_run(char *rest) {
    static uint16_t first[FUN_TABLE(FUN_MOST_NODES)], second[FUN_TABLE(FUN_MOST_NODES)], types[65536];
    size_t size = strtoull(field(&rest), 0, 10), count;
    uint8_t *record = bytes(field(&rest), &count);
    struct fun_rule *rule = lend(sizeof *rule);
    struct fun_run *run = lend(sizeof *run);
    struct fun_cell *cells = lend(size * sizeof *cells);
    fun_rule_new(rule);
    fun_run_new(run, cells, size);
    struct fun_reply reply = fun_accept(rule, record, count, first, sizeof first / 2, second, sizeof second / 2, types,
                                        sizeof types / 2);
    if (reply.refusal) {
        print_refusal(reply);
    } else {
        fun_start(run, rule);
        for (char *call = strcmp(rest, "-") ? rest : 0, *next; call; call = next) {
            next = strchr(call, ',');
            if (next)
                *next++ = 0;
            answer_call(run, call);
            printf("; ");
        }
        fun_close(run, rule);
        printf("closed free=%zu\n", fun_free(run).count);
    }
    free(record), free(rule), free(run), free(cells);
}

static void answer_trial(char *rest) {
    size_t size = strtoull(field(&rest), 0, 10);
    char *names = field(&rest);
    size_t room = strtoull(field(&rest), 0, 10), first_count = strtoull(field(&rest), 0, 10);
    size_t second_count = strtoull(field(&rest), 0, 10), types_count = strtoull(field(&rest), 0, 10);
    uint32_t steps = (uint32_t)strtoull(field(&rest), 0, 10);
    size_t count, text_count;
    int32_t *readings = numbers(field(&rest), &count);
    uint8_t *text = bytes(rest, &text_count), *record = lend(room);
    uint16_t *first = lend(2 * first_count), *second = lend(2 * second_count), *types = lend(2 * types_count);
    struct fun_rule *rule = lend(sizeof *rule);
    struct fun_run *run = lend(sizeof *run);
    struct fun_book *book = lend(sizeof *book);
    struct fun_cell *cells = lend(size * sizeof *cells);
    static const char *const layers[] = {"", "text", "rule", "run", "call"};
    fun_rule_new(rule);
    fun_run_new(run, cells, size);
    fun_book_new(book);
    if (add_names(book, names)) {
        struct fun_trial trial = fun_trial(run, rule, book, text, text_count, record, room, first, first_count, second,
                                           second_count, types, types_count, readings, count, steps);
        if (trial.reply.refusal) {
            printf("refused %s %u %zu", layers[trial.reply.layer], (unsigned)trial.reply.refusal, trial.reply.place);
        } else {
            printf("ok ");
            print_report(trial.report);
            printf(" type=");
            for (size_t i = 0; i < trial.entries; i++)
                printf("%s%u", i ? "," : "", (unsigned)types[i]);
        }
        printf(" free=%zu\n", fun_free(run).count);
    }
    free(readings), free(text), free(record), free(first), free(second), free(types);
    free(rule), free(run), free(book), free(cells);
}

int main(void) {
    static char line[1 << 20];
    for (long number = 1; fgets(line, sizeof line, stdin); number++) {
        line[strcspn(line, "\n")] = 0;
        char *rest = line, *kind = field(&rest);
        void (*answer)(char *) = !strcmp(kind, "accept") ? answer_accept : !strcmp(kind, "compile") ? answer_compile : 0;
        if (!strcmp(kind, "run") && !strcmp(field(&rest), "linked"))
            answer = answer_run;
        if (!strcmp(kind, "trial") && !strcmp(field(&rest), "linked"))
            answer = answer_trial;
        if (!answer)
            continue;
        printf("%ld ", number);
        answer(rest);
    }
    return 0;
}
