/* office: the three calls of the library. Codes as numbers on standard input go through the monitor of a rule file.
 *
 *     office RULE <BOOK        cc -std=c99 office.c -lpachallu
 *
 * A whole command, with names, files and every error told, is pachallu; this shows how a program of your own calls the library.
 */
#include <pachallu.h>
#include <stdio.h>

enum { MEMORY = 1000 }; /* how many codes can be held */

int main(int count, char **words) {
    static uint8_t rule[PACHALLU_RULE_MAX + 1], sheet[PACHALLU_SHEET_MAX], memory[MEMORY], output[MEMORY + 1];
    FILE *file = count == 2 ? fopen(words[1], "rb") : NULL;
    if (!file) return fputs("usage: office RULE <BOOK\n", stderr), 2;
    size_t rule_len = fread(rule, 1, sizeof rule, file);
    if (ferror(file)) return fputs("office: the rule cannot be read\n", stderr), 2;
    fclose(file);

    /* 1. the sheet, once for each rule */
    pachallu_made made = pachallu_make(rule, rule_len, sheet, sizeof sheet);
    if (made.refusal) return printf("refused %d: %s\n", made.refusal, pachallu_refusal_text(made.refusal)), 1;

    /* 2. a run: its state and what is held are carried from call to call */
    pachallu_start start = pachallu_fresh(sheet, made.written);
    uint8_t state = start.state;
    size_t held = start.held;

    /* 3. one code at a time */
    for (unsigned code; scanf("%u", &code) == 1 && code < 256;) {
        pachallu_answer answer =
            pachallu_event(sheet, made.written, state, held, (uint8_t)code, memory, sizeof memory, output, sizeof output);
        if (answer.refusal) { /* not taken, and nothing has changed */
            printf("%u not taken: %s\n", code, pachallu_refusal_text(answer.refusal));
            continue;
        }
        for (size_t i = 0; i < answer.released; i++) printf("%u goes in\n", (unsigned)output[i]);
        if (answer.operation == PACHALLU_STORE) printf("%u is held\n", code);
        if (answer.operation == PACHALLU_HALT) printf("%u comes too late: the job is halted\n", code);
        if (answer.operation == PACHALLU_IGNORE) printf("%u is a remark\n", code);
        state = answer.state;
        held = answer.held;
    }
    return fflush(stdout) == 0 && feof(stdin) ? 0 : 2;
}
