/* What the library, the compiler and our programs call to copy, fill and compare memory: by words where both ends allow them, else by bytes. What stack
 * the library's calls of them take is in the bounds of docs/MEMORY.md; board/frames looks. */
#include <stdint.h>
#include <string.h>

/* Four bytes of whatever stands there. */
typedef uint32_t __attribute__((may_alias)) word;

static inline void copy(uint8_t *to, const uint8_t *from, size_t n) {
    if ((((uintptr_t)to | (uintptr_t)from) & 3) == 0)
        for (; 4 <= n; n -= 4, to += 4, from += 4) *(word *)(void *)to = *(const word *)(const void *)from;
    while (n--) *to++ = *from++;
}

static inline void fill(uint8_t *to, uint8_t byte, size_t n) {
    if (((uintptr_t)to & 3) == 0)
        for (; 4 <= n; n -= 4, to += 4) *(word *)(void *)to = byte * 0x01010101u;
    while (n--) *to++ = byte;
}

void *memcpy(void *to, const void *from, size_t n) {
    copy(to, from, n);
    return to;
}

void *memset(void *to, int byte, size_t n) {
    fill(to, (uint8_t)byte, n);
    return to;
}

int memcmp(const void *a, const void *b, size_t n) {
    const uint8_t *x = a, *y = b;
    for (; n--; x++, y++)
        if (*x != *y) return *x < *y ? -1 : 1;
    return 0;
}

size_t strlen(const char *text) {
    size_t n = 0;
    while (text[n]) n++;
    return n;
}

int strcmp(const char *a, const char *b) {
    while (*a && *a == *b) a++, b++;
    return (int)(uint8_t)*a - (int)(uint8_t)*b;
}

/* Arm's own names, in which a fill has its length before its byte. The numbers promise an alignment. */
void __aeabi_memcpy(void *to, const void *from, size_t n) { copy(to, from, n); }
void __aeabi_memcpy4(void *to, const void *from, size_t n) __attribute__((alias("__aeabi_memcpy")));
void __aeabi_memcpy8(void *to, const void *from, size_t n) __attribute__((alias("__aeabi_memcpy")));
void __aeabi_memset(void *to, size_t n, int byte) { fill(to, (uint8_t)byte, n); }
void __aeabi_memset4(void *to, size_t n, int byte) __attribute__((alias("__aeabi_memset")));
void __aeabi_memset8(void *to, size_t n, int byte) __attribute__((alias("__aeabi_memset")));
void __aeabi_memclr(void *to, size_t n) { fill(to, 0, n); }
void __aeabi_memclr4(void *to, size_t n) __attribute__((alias("__aeabi_memclr")));
void __aeabi_memclr8(void *to, size_t n) __attribute__((alias("__aeabi_memclr")));
