/* What include/tiling.h needs of it, for a clang without headers. */
#ifndef STDDEF_H
#define STDDEF_H
typedef __SIZE_TYPE__ size_t;
#endif
