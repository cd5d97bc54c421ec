/* Rounds of foreign input for so many seconds of the processor, from a seed and a round on: main SECONDS SEED ROUND FILE.. */
#include <inttypes.h>
#include <signal.h>
#include <stdio.h>
#include <stdlib.h>
#include <string.h>
#include <time.h>
#include <unistd.h>

#include "numbers.h"
#include "round.h"

/* The longest that a round may take, in seconds. */
enum { LONGEST_ROUND = 60 };

/* The calls by their names, and how many answers of each there were by their numbers. */
static const char *const names[CALLS] = {"no call", "entry_defined", "signal_holds", "write", "read", "dot", "dots", "line", "step"};
static uint64_t answers[CALLS][15];

/* The call that is being made or was made last, and the words that say where in the run it is. */
static volatile call now;
static char where[128];

void calling(call which) {
    now = which;
}

void answered(uint32_t number) {
    holds(number < 15, "a number that there isn't");
    answers[now][number]++;
}

/* Writes words where nothing else may be done any more. */
static void tell(const char *words) {
    size_t left = strlen(words);
    while (left > 0) {
        const ssize_t written = write(STDOUT_FILENO, words, left);
        if (written <= 0)
            return;
        words += written;
        left -= (size_t)written;
    }
}

static void tell_where(const char *what) {
    tell("foreign input: ");
    tell(what);
    tell(", in or after ");
    tell(names[now]);
    tell(where);
}

static void crashed(int signal_number) {
    tell_where(signal_number == SIGALRM ? "a call that doesn't return" : "a crash");
    _exit(1);
}

/* Called by the sanitizers before they end the program. */
void __asan_on_error(void);
void __asan_on_error(void) {
    tell_where("an error of memory");
}

void holds(int condition, const char *what) {
    if (!condition) {
        tell_where(what);
        _exit(1);
    }
}

static void watch(void) {
    static const int watched[] = {SIGSEGV, SIGBUS, SIGILL, SIGFPE, SIGABRT, SIGALRM};
    struct sigaction action;
    memset(&action, 0, sizeof action);
    action.sa_handler = crashed;
    for (size_t number = 0; number < sizeof watched / sizeof *watched; number++)
        sigaction(watched[number], &action, NULL);
}

/* One round of some kind. */
static void one_round(uint64_t seed, uint64_t number) {
    static void (*const kinds[])(void) = {
        round_of_questions, round_of_chip_calls, round_of_lines, round_of_lines, round_of_steps};
    snprintf(where, sizeof where, ", seed %" PRIu64 ", round %" PRIu64 "\n", seed, number);
    numbers_begin(seed, number);
    calling(NO_CALL);
    alarm(LONGEST_ROUND);
    kinds[below(sizeof kinds / sizeof *kinds)]();
    alarm(0);
}

/* How many answers of a call there were, and how many of them refusals. */
static void print_answers(call which) {
    uint64_t all = 0;
    for (size_t number = 0; number < 15; number++)
        all += answers[which][number];
    printf("foreign input: %" PRIu64 " calls of %s, %" PRIu64 " done", all, names[which], answers[which][0]);
    for (size_t number = 1; number < 15; number++)
        if (answers[which][number] > 0)
            printf(", %" PRIu64 " by %zu", answers[which][number], number);
    printf("\n");
}

int main(int count, char **words) {
    if (count < 4) {
        fputs("main SECONDS SEED ROUND FILE..\n", stderr);
        return 2;
    }
    const double seconds = strtod(words[1], NULL);
    const uint64_t seed = strtoull(words[2], NULL, 10), first = strtoull(words[3], NULL, 10);
    uint64_t number = first;
    for (int file = 4; file < count; file++)
        take_file(words[file]);
    printf("foreign input: seed %" PRIu64 ", from round %" PRIu64 " on\n", seed, first);
    fflush(stdout);
    watch();
    do
        one_round(seed, number++);
    while ((double)clock() < seconds * CLOCKS_PER_SEC);
    for (int which = ENTRY_DEFINED; which < CALLS; which++)
        print_answers((call)which);
    printf("foreign input: %" PRIu64 " rounds, in which nothing crashed, hung or wrote past what was lent\n", number - first);
    return 0;
}
