/* Of <stddef.h>, what is used here: the kit has no headers of C for x86-64. */
#ifndef RELAY_STDDEF_H
#define RELAY_STDDEF_H

typedef __SIZE_TYPE__ size_t;

#endif
