/* What the example needs of the C library's header, for a compiler that comes with none. */
#ifndef BARE_STDDEF_H
#define BARE_STDDEF_H

typedef __SIZE_TYPE__ size_t;

#endif
