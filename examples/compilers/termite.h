/* What drawn drivers see: the variables, locations and tasks of their design. */
#ifndef TERMITE_H
#define TERMITE_H

#include <stdint.h>

extern uint64_t v0_a, v1_b, v2_c, p0_p, termite_goal, termite_last;

void t0_set(void);
void t1_clear(void);
void termite_leave(uint64_t process);
void driver_turn(void);

#endif
