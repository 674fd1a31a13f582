/* What the example needs of the C library's header, for a compiler that comes with none. */
#ifndef BARE_STDIO_H
#define BARE_STDIO_H

int printf(const char *format, ...);

#endif
