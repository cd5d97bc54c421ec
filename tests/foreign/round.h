/* One round of foreign input, and how a fault is told of. */
#ifndef ROUND_H
#define ROUND_H

#include <stdint.h>

/* The calls. */
typedef enum { NO_CALL, ENTRY_DEFINED, SIGNAL_HOLDS, WRITE, READ, DOT, DOTS, LINE, STEP, CALLS } call;

/* Says which call is being made, for whoever has to tell of a crash. */
void calling(call which);

/* Counts an answer of that call by its number. */
void answered(uint32_t number);

/* Ends the program with what is wrong, unless it holds. */
void holds(int condition, const char *what);

/* Rounds of each kind. */
void round_of_questions(void);
void round_of_chip_calls(void);
void round_of_lines(void);
void round_of_steps(void);

/* Takes a session file as one that steps are tried on. */
void take_file(const char *path);

#endif
