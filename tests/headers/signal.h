/* signal.h for the kit's clang, which brings no C headers: the numbers and the function that the tests in C name, for x86-64 Linux. */
#ifndef HEADERS_SIGNAL_H
#define HEADERS_SIGNAL_H

#define SIGBUS 7
#define SIGSEGV 11

#ifdef __cplusplus
extern "C" {
#endif

void (*signal(int number, void (*handler)(int)))(int);

#ifdef __cplusplus
}
#endif

#endif
