/* Reads states, a line each, and writes them back with the driver's answer at each. */
#include <inttypes.h>
#include <stdio.h>
#include "termite.h"

uint64_t v0_a, v1_b, v2_c, p0_p, termite_goal, termite_last;

static const char *answer;

void t0_set(void) { answer = "call 0"; }
void t1_clear(void) { answer = "call 1"; }
void termite_leave(uint64_t process) { answer = process == 0 ? "leave 0" : "leave of no process"; }

int main(void)
{
	while (scanf("%" SCNu64 " %" SCNu64 " %" SCNu64 " %" SCNu64 " %" SCNu64 " %" SCNu64 "%*[^\n]",
	             &v0_a, &v1_b, &v2_c, &p0_p, &termite_last, &termite_goal) == 6) {
		answer = "idle";
		driver_turn();
		printf("%" PRIu64 " %" PRIu64 " %" PRIu64 " %" PRIu64 " %" PRIu64 " %" PRIu64 " %s\n",
		       v0_a, v1_b, v2_c, p0_p, termite_last, termite_goal, answer);
	}
	return 0;
}
