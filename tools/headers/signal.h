/* See stddef.h. The values are those of Linux on x86-64. */
#ifndef STAND_IN_SIGNAL_H
#define STAND_IN_SIGNAL_H
#define SIGPIPE 13
#define SIG_IGN ((void (*)(int))1)
void (*signal(int number, void (*handler)(int)))(int);
#endif
