/* How the tools end where they cannot go on: a message on standard error, and status 1. */
#ifndef STOP_H
#define STOP_H

/* The tool's name, for its messages. */
extern const char *const tool;

#if defined(__GNUC__)
__attribute__((format(printf, 1, 2)))
#endif
_Noreturn void stop(const char *format, ...);

/* Ends if what was printed did not reach standard output. */
void see_written(void);

#endif
