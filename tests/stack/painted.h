/*
 * Calls on a stack of their own, which is painted before each: the lowest word that a call changed tells how much stack it
 * took.
 */
#ifndef PAINTED_H
#define PAINTED_H

#include <stddef.h>
#include <stdint.h>

typedef void any_function(void);

/* Paints the stack. What is returned calls the function on it, with the arguments that it is itself called with. */
any_function *paint(any_function *function);

/* The bytes taken since, below the stack pointer at the call: the return address is the first of them. */
size_t taken(void);

/* What a function returns that is called on the painted stack. Its arguments are checked as those of a plain call are. */
#define ON_PAINTED_STACK(function, ...) (((__typeof__(&function))paint((any_function *)function))(__VA_ARGS__))

/* A function known to take so many bytes is found to: ends the program where it is not. */
void calibrate(void);

#endif
