/* Of <stdint.h>, what is used here: the kit has no headers of C for x86-64. */
#ifndef RELAY_STDINT_H
#define RELAY_STDINT_H

typedef __UINT8_TYPE__ uint8_t;
typedef __UINT16_TYPE__ uint16_t;
typedef __UINT32_TYPE__ uint32_t;
typedef __UINT64_TYPE__ uint64_t;

#endif
