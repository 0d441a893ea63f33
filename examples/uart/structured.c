#include "termite.h"

static void b0(void)
{
	t0_uart_write_lcr(3ULL);
}

static void b1(void)
{
	termite_leave(0ULL);
}

static void b2(void)
{
	t3_uart_write_mcr(11ULL);
}

static void b3(void)
{
	t2_uart_write_ier(1ULL);
}

void driver_turn(void)
{
	if ((termite_goal == 1ULL)) {
		if (v2_os_fresh) {
			if (v8_uart_dr) {
				if ((p1_os_interrupt == 2ULL)) {
					if (v9_uart_dlab) {
						if ((v0_os_call == 0ULL)) {
							return;
						} else {
							b0();
						}
					} else {
						t5_uart_read_rbr();
					}
				} else {
					if ((v0_os_call == 1ULL)) {
						if (v9_uart_dlab) {
							b0();
						} else {
							if (v10_uart_erbfi) {
								b2();
							} else {
								b3();
							}
						}
					} else {
						return;
					}
				}
			} else {
				termite_leave(1ULL);
			}
		} else {
			return;
		}
	} else {
		if ((v0_os_call == 0ULL)) {
			return;
		} else {
			if (v9_uart_dlab) {
				if ((v5_uart_dll == v1_os_arg)) {
					b0();
				} else {
					t1_uart_write_dll(v1_os_arg);
				}
			} else {
				if ((v0_os_call == 1ULL)) {
					if ((v5_uart_dll == v1_os_arg)) {
						if (v10_uart_erbfi) {
							if (v11_uart_out2) {
								b1();
							} else {
								b2();
							}
						} else {
							b3();
						}
					} else {
						t0_uart_write_lcr(131ULL);
					}
				} else {
					if ((v0_os_call == 3ULL)) {
						b1();
					} else {
						if (v6_uart_thre) {
							if (v7_uart_shifting) {
								return;
							} else {
								t4_uart_write_thr(v1_os_arg);
							}
						} else {
							return;
						}
					}
				}
			}
		}
	}
}
