#include "termite.h"

void driver_turn(void)
{
L0:
	if (v2_dev_busy) goto L1; else goto L2;
L1:
	return;
L2:
	t0_dev_write(v0_os_req);
	return;
}
