/* What the example needs of a machine. */
#ifndef MACHINE_H
#define MACHINE_H

/* The example: returns 0 if it saw nothing wrong. */
int run(void);

/* The part that the timer's interrupt runs. */
void on_tick(void);

/* Starts the timer. */
void start_timer(void);

/* Prints a text. */
void print(const char *text);
#endif
