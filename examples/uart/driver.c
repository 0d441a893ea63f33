#include "termite.h"

void driver_turn(void)
{
L0:
	if ((termite_goal == 1ULL)) goto L1; else goto L11;
L1:
	if (v2_os_fresh) goto L2; else goto L28;
L2:
	if (v8_uart_dr) goto L4; else goto L3;
L3:
	termite_leave(1ULL);
	return;
L4:
	if ((p1_os_interrupt == 2ULL)) goto L8; else goto L5;
L5:
	if ((v0_os_call == 1ULL)) goto L6; else goto L28;
L6:
	if (v9_uart_dlab) goto L27; else goto L7;
L7:
	if (v10_uart_erbfi) goto L23; else goto L21;
L8:
	if (v9_uart_dlab) goto L10; else goto L9;
L9:
	t5_uart_read_rbr();
	return;
L10:
	if ((v0_os_call == 0ULL)) goto L28; else goto L27;
L11:
	if ((v0_os_call == 0ULL)) goto L28; else goto L12;
L12:
	if (v9_uart_dlab) goto L25; else goto L13;
L13:
	if ((v0_os_call == 1ULL)) goto L18; else goto L14;
L14:
	if ((v0_os_call == 3ULL)) goto L24; else goto L15;
L15:
	if (v6_uart_thre) goto L16; else goto L28;
L16:
	if (v7_uart_shifting) goto L28; else goto L17;
L17:
	t4_uart_write_thr(v1_os_arg);
	return;
L18:
	if ((v5_uart_dll == v1_os_arg)) goto L20; else goto L19;
L19:
	t0_uart_write_lcr(131ULL);
	return;
L20:
	if (v10_uart_erbfi) goto L22; else goto L21;
L21:
	t2_uart_write_ier(1ULL);
	return;
L22:
	if (v11_uart_out2) goto L24; else goto L23;
L23:
	t3_uart_write_mcr(11ULL);
	return;
L24:
	termite_leave(0ULL);
	return;
L25:
	if ((v5_uart_dll == v1_os_arg)) goto L27; else goto L26;
L26:
	t1_uart_write_dll(v1_os_arg);
	return;
L27:
	t0_uart_write_lcr(3ULL);
	return;
L28:
	return;
}
