/* show.c: a function outside of the checked module. It takes digits, and 10 at the end of a line, and prints each thread's lines whole.
   It keeps what a certificate promises of it (docs/CERTIFICATES.md): it touches no cell, and calls nothing of the module or the runtime. */
#include <stdio.h>

int show(int digit) {
    static _Thread_local char line[4096];
    static _Thread_local size_t length;
    if (digit != 10 && length < sizeof line - 1) {
        line[length++] = (char)('0' + digit);
        return 0;
    }
    line[length++] = '\n';
    fwrite(line, 1, length, stdout);
    length = 0;
    return digit == 10 ? 0 : -1;
}
