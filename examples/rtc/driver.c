#include "termite.h"

void driver_turn(void)
{
L0:
	if ((v0_os_call == 0ULL)) goto L31; else goto L1;
L1:
	if ((v0_os_call == 4ULL)) goto L14; else goto L2;
L2:
	if ((v0_os_call == 1ULL)) goto L8; else goto L3;
L3:
	if ((v7_rtc_updates == 2ULL)) goto L7; else goto L4;
L4:
	if (v8_rtc_uf) goto L6; else goto L5;
L5:
	t0_rtc_write_b(22ULL);
	return;
L6:
	t1_rtc_read_c();
	return;
L7:
	if ((v0_os_call == 2ULL)) goto L13; else goto L31;
L8:
	if ((v7_rtc_updates != 1ULL)) goto L9; else goto L16;
L9:
	if (v3_os_has_min) goto L10; else goto L11;
L10:
	if (v4_os_has_sec) goto L12; else goto L11;
L11:
	t0_rtc_write_b(134ULL);
	return;
L12:
	if ((v7_rtc_updates == 0ULL)) goto L13; else goto L23;
L13:
	termite_leave(0ULL);
	return;
L14:
	if ((v7_rtc_updates == 0ULL)) goto L24; else goto L15;
L15:
	if ((v7_rtc_updates == 2ULL)) goto L20; else goto L16;
L16:
	if (v3_os_has_min) goto L18; else goto L17;
L17:
	t2_rtc_write_minutes(v1_os_min);
	return;
L18:
	if (v4_os_has_sec) goto L23; else goto L19;
L19:
	t3_rtc_write_seconds(v2_os_sec);
	return;
L20:
	if (v6_rtc_uip) goto L23; else goto L21;
L21:
	if (v3_os_has_min) goto L22; else goto L26;
L22:
	if (v4_os_has_sec) goto L23; else goto L29;
L23:
	t0_rtc_write_b(6ULL);
	return;
L24:
	if (v3_os_has_min) goto L27; else goto L25;
L25:
	if (v6_rtc_uip) goto L31; else goto L26;
L26:
	t4_rtc_read_minutes();
	return;
L27:
	if (v4_os_has_sec) goto L30; else goto L28;
L28:
	if (v6_rtc_uip) goto L31; else goto L29;
L29:
	t5_rtc_read_seconds();
	return;
L30:
	termite_leave(1ULL);
	return;
L31:
	return;
}
