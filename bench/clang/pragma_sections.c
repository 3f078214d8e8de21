/* Globals under a pragma that names sections. */
#pragma clang section bss="my_bss" data="my_data" rodata="my_rodata" text="my_text"
int zero;
int one = 1;
const int two = 2;
int use(void) { return zero + one + two; }
