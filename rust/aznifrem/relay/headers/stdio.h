/* Of <stdio.h>, what is used here: the kit has no headers of C for x86-64. */
#ifndef RELAY_STDIO_H
#define RELAY_STDIO_H

int printf(const char *format, ...);

#endif
