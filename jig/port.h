/* What our C programs ask of the machine that they run on: bytes in, bytes out, and an end. jig/host.c has it by the C library, board/port.c by the calls
 * of a debugger. A program that asks for nothing else runs on both; what its main answers is its status. */
#ifndef PORT_H
#define PORT_H

#include <stddef.h>

enum port { PORT_OUT, PORT_ERR };

/* The next bytes of standard input, at most n of them: how many came, 0 where it has ended, -1 where it can't be read. */
long port_read(void *to, size_t n);

/* All n bytes to standard output or standard error: 0, or -1 where they could not all be written. */
int port_write(enum port where, const void *from, size_t n);

/* Ends the program with this status. */
__attribute__((noreturn)) void port_end(int status);

#endif
