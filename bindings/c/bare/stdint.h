/* For a compiler that comes with no headers, as in tests/bindings.sh: what the header, the examples and the tests use, and no more. */
#ifndef BARE_STDINT_H
#define BARE_STDINT_H
typedef __UINT8_TYPE__ uint8_t;
typedef __UINT32_TYPE__ uint32_t;
typedef __UINT64_TYPE__ uint64_t;
typedef __UINTPTR_TYPE__ uintptr_t;
#define UINT32_MAX __UINT32_MAX__
#endif
