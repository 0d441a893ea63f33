#include "termite.h"

void driver_turn(void)
{
L0:
	return;
}
