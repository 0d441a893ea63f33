/* What the driver of this example sees, with where it stands in the clock, and what it can do. */
#ifndef TERMITE_H
#define TERMITE_H

#include <stdint.h>

/* what the system asks: 0 nothing, 1 set the time, 2 read it, 3 the call has returned, 4 the handler runs */
extern uint64_t v0_os_call;
/* the time to set, and which of the two registers was set or read since the call */
extern uint64_t v1_os_min, v2_os_sec, v3_os_has_min, v4_os_has_sec;
/* an update has ended in this run of the driver: nobody knows */
extern uint64_t v5_os_late;
/* A 7; what B was written: 0 plain, 1 SET, 2 UIE; C 4, kept from the reads that take it down in the device */
extern uint64_t v6_rtc_uip, v7_rtc_updates, v8_rtc_uf;
/* 2 in the call of the system; 2 in the handler; of the device nobody knows */
extern uint64_t p0_os_client, p1_os_interrupt, p2_rtc_clock;
extern uint64_t termite_goal, termite_last;

void t0_rtc_write_b(uint64_t v);
void t1_rtc_read_c(void);
void t2_rtc_write_minutes(uint64_t v);
void t3_rtc_write_seconds(uint64_t v);
void t4_rtc_read_minutes(void);
void t5_rtc_read_seconds(void);
/* returns from the call (0) or from the handler (1) */
void termite_leave(uint64_t process);

void driver_turn(void);

#endif
