/* Numbers as text, for programs that have no printf. */
#ifndef DECIMAL_H
#define DECIMAL_H

#include <stddef.h>
#include <stdint.h>

/* The digits of the largest number. */
enum { DECIMAL = 20 };

/* Puts the digits of n into `text` and answers how many they are. By subtraction: small machines don't divide 64 bits, and a firmware may lack the
 * library by which compilers do. */
static inline size_t decimal(uint64_t n, char text[DECIMAL]) {
    uint64_t powers[DECIMAL] = {1};
    size_t digits = 0;
    int k = 0;
    for (; k < DECIMAL - 1 && powers[k] * 10 <= n; k++) powers[k + 1] = powers[k] * 10;
    for (; 0 <= k; k--) {
        char digit = '0';
        for (; powers[k] <= n; digit++) n -= powers[k];
        text[digits++] = digit;
    }
    return digits;
}

#endif
