/* What the driver of this example sees, with where it stands in the UART, and what it can do. */
#ifndef TERMITE_H
#define TERMITE_H

#include <stdint.h>

/* the call: 0 none, 1 open, 2 send, 3 where THR was written in it and LSR 6 is up again; the divisor or the word */
extern uint64_t v0_os_call, v1_os_arg;
/* a word has come, and no handler has returned with it: in the handler 1, else LSR 0 */
extern uint64_t v2_os_fresh;
/* what was written to THR, TSR, and the divisor latch */
extern uint64_t v3_uart_thr, v4_uart_tsr, v5_uart_dll;
/* LSR 5; whether LSR 6 is down with LSR 5 up; LSR 0 */
extern uint64_t v6_uart_thre, v7_uart_shifting, v8_uart_dr;
/* LCR 7, IER 0, MCR 3 */
extern uint64_t v9_uart_dlab, v10_uart_erbfi, v11_uart_out2;
/* 1 in a call of the layer; 2 in the handler; of the device nobody knows */
extern uint64_t p0_os_client, p1_os_interrupt, p2_uart_transmit, p3_uart_receive;
extern uint64_t termite_goal, termite_last;

void t0_uart_write_lcr(uint64_t v);
void t1_uart_write_dll(uint64_t v);
void t2_uart_write_ier(uint64_t v);
void t3_uart_write_mcr(uint64_t v);
void t4_uart_write_thr(uint64_t v);
void t5_uart_read_rbr(void);
/* returns from the call (0) or from the handler (1) */
void termite_leave(uint64_t process);

void driver_turn(void);

#endif
