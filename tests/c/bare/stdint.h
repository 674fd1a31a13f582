/* What the example needs of the C library's header, for a compiler that comes with none. */
#ifndef BARE_STDINT_H
#define BARE_STDINT_H

typedef __UINT8_TYPE__ uint8_t;
typedef __INT16_TYPE__ int16_t;
typedef __UINT32_TYPE__ uint32_t;

#endif
