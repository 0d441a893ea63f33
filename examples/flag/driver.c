#include "termite.h"

void driver_turn(void)
{
L0:
	t0_set();
	return;
}
