#include "termite.h"

void driver_turn(void)
{
L0:
	if (v0_client_want) goto L1; else goto L4;
L1:
	if ((v4_meter_mode == 1ULL)) goto L2; else goto L3;
L2:
	return;
L3:
	t0_meter_start(0ULL);
	return;
L4:
	termite_leave(0ULL);
	return;
}
