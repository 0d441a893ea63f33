/* What the driver of this example sees, with where it stands in the SPI controller, and what it can do. */
#ifndef TERMITE_H
#define TERMITE_H

#include <stdint.h>

/* what the layer asks: 0 nothing, 1 a message, 2 it is under way, 3 the handler runs */
extern uint64_t v0_os_call;
/* the mode of its chip, and the words that are still to be written */
extern uint64_t v1_os_mode, v2_os_left;
/* CTRLR0 7 and 6, SSIENR 0, IMR 4 */
extern uint64_t v3_ssi_clock, v4_ssi_enabled, v5_ssi_rxfim;
/* TXFLR, RXFLR; one where a word that was written is neither read nor in a FIFO; the pin */
extern uint64_t v6_ssi_txflr, v7_ssi_rxflr, v8_ssi_shifting, v9_ssi_select;
/* 2 in the call of the layer; 2 in the handler; of the device nobody knows */
extern uint64_t p0_os_client, p1_os_interrupt, p2_ssi_shift;
extern uint64_t termite_goal, termite_last;

void t0_ssi_write_ctrlr0(uint64_t v);
void t1_ssi_write_ssienr(uint64_t v);
void t2_ssi_write_imr(uint64_t v);
void t3_ssi_select_chip(void);
void t4_ssi_free_chip(void);
void t5_ssi_write_dr(void);
void t6_ssi_read_dr(void);
/* returns from the call (0) or from the handler (1) */
void termite_leave(uint64_t process);

void driver_turn(void);

#endif
