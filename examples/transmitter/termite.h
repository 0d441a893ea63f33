/* What the driver of this example sees: the state of the model, and what it can do. */
#ifndef TERMITE_H
#define TERMITE_H

#include <stdint.h>

/* the variables: what the client wants, and the registers of the device */
extern uint64_t v0_os_req, v1_os_want, v2_dev_busy, v3_dev_data;
/* where the processes stand: 0 is the start, the others are the pause, wait and ... of the text in order */
extern uint64_t p0_os_client, p1_dev_tx;
/* the number of the pending goal, and who moved last: 0 nobody, 1 the driver, 2 os.client, 3 dev.tx */
extern uint64_t termite_goal, termite_last;

/* the controllable task: writes the data register */
void t0_dev_write(uint64_t v);
/* lets the process of this number go on from its magic block */
void termite_leave(uint64_t process);

void driver_turn(void);

#endif
