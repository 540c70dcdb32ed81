/* What the command ends with, and how it says why. */
#ifndef STATUS_H
#define STATUS_H

enum status {
    DONE = 0,    /* done as asked */
    REFUSED = 1, /* the library has refused, and its number was told */
    FAILED = 2   /* misuse, or a file that can't be read or written */
};

/* Says the message on standard error, as a line, and answers FAILED. */
enum status fail(const char *format, ...) __attribute__((format(printf, 1, 2)));

/* Sees to it that all that was said on standard output got there. */
enum status all_said(void);

#endif
