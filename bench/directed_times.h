/*
 * The times of the engine's directed verdict, in two parts: against the C of directed.h on gadgets, and against the
 * engine's verdict, which walks through all sets, on tables that give the directed one little to go by.
 */
#ifndef DIRECTED_TIMES_H
#define DIRECTED_TIMES_H

/* Times and prints both. */
void time_directed(void);

#endif
