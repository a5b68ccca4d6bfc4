/*
 * The times of the engine's pool against the C of pool.h: tens of thousands of reports of one size, in several orders.
 */
#ifndef POOL_TIMES_H
#define POOL_TIMES_H

/* Compares the two on random lists, times them and prints. */
void time_pool(void);

#endif
