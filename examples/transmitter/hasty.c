#include "termite.h"

void driver_turn(void)
{
L0:
	t0_dev_write(v0_os_req);
	return;
}
