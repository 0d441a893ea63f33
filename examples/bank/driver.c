#include "termite.h"

void driver_turn(void)
{
L0:
	if (v2_os_want) goto L1; else goto L4;
L1:
	if ((v7_bank_at == v0_os_slot)) goto L2; else goto L3;
L2:
	t1_bank_write(v1_os_byte);
	return;
L3:
	t0_bank_select(v0_os_slot);
	return;
L4:
	termite_leave(0ULL);
	return;
}
