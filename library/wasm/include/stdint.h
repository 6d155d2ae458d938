/* The part of <stdint.h> that the library uses. */
#ifndef STDINT_H
#define STDINT_H

#define SIZE_MAX __SIZE_MAX__
#define UINT32_MAX __UINT32_MAX__
typedef __UINT8_TYPE__ uint8_t;
typedef __UINT16_TYPE__ uint16_t;
typedef __UINT32_TYPE__ uint32_t;
typedef __UINT64_TYPE__ uint64_t;

#endif
