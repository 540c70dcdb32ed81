#include "status.h"

#include <errno.h>
#include <stdarg.h>
#include <stdio.h>
#include <string.h>

enum status fail(const char *format, ...)
{
    va_list values;

    va_start(values, format);
    vfprintf(stderr, format, values);
    va_end(values);
    fputc('\n', stderr);
    return FAILED;
}

enum status all_said(void)
{
    if (fflush(stdout) == 0 && !ferror(stdout))
        return DONE;
    return fail("mersclund: standard output can't be written: %s\n"
                "Its reader or its disk took less than all: mend that, and run the command again.",
                strerror(errno));
}
