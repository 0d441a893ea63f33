#include "termite.h"

void driver_turn(void)
{
L0:
	if ((v0_os_call == 3ULL)) goto L16; else goto L1;
L1:
	if ((v0_os_call == 1ULL)) goto L2; else goto L27;
L2:
	if (v5_ssi_rxfim) goto L4; else goto L3;
L3:
	t2_ssi_write_imr(16ULL);
	return;
L4:
	if (v9_ssi_select) goto L12; else goto L5;
L5:
	if (v4_ssi_enabled) goto L9; else goto L6;
L6:
	if ((v1_os_mode == v3_ssi_clock)) goto L8; else goto L7;
L7:
	t0_ssi_write_ctrlr0(v1_os_mode);
	return;
L8:
	t1_ssi_write_ssienr(1ULL);
	return;
L9:
	if ((v1_os_mode == v3_ssi_clock)) goto L11; else goto L10;
L10:
	t1_ssi_write_ssienr(0ULL);
	return;
L11:
	t3_ssi_select_chip();
	return;
L12:
	if ((v6_ssi_txflr == v7_ssi_rxflr)) goto L13; else goto L15;
L13:
	if ((0ULL < v7_ssi_rxflr)) goto L28; else goto L14;
L14:
	if ((v2_os_left != 0ULL)) goto L26; else goto L15;
L15:
	termite_leave(0ULL);
	return;
L16:
	if (v9_ssi_select) goto L18; else goto L17;
L17:
	termite_leave(1ULL);
	return;
L18:
	if ((0ULL < v7_ssi_rxflr)) goto L28; else goto L19;
L19:
	if ((v6_ssi_txflr != 0ULL)) goto L23; else goto L20;
L20:
	if ((v2_os_left != 0ULL)) goto L26; else goto L21;
L21:
	if (v8_ssi_shifting) goto L27; else goto L22;
L22:
	t4_ssi_free_chip();
	return;
L23:
	if ((v6_ssi_txflr < 2ULL)) goto L24; else goto L27;
L24:
	if (v8_ssi_shifting) goto L27; else goto L25;
L25:
	if ((v2_os_left != 0ULL)) goto L26; else goto L27;
L26:
	t5_ssi_write_dr();
	return;
L27:
	return;
L28:
	t6_ssi_read_dr();
	return;
}
