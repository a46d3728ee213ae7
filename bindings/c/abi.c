/* The name of the layout's number, for the archive of the proving toolchain. */
#include "tz.h"

uint32_t tz_abi_2(void) { return TZ_ABI; }
