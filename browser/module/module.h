/* What heap.c and calls.c share. Both are compiled for wasm64, without a C library, as C23. */
#ifndef NAPLPS_MODULE_H
#define NAPLPS_MODULE_H

typedef unsigned char u8;
typedef unsigned int u32;
typedef unsigned long usize;
static_assert(sizeof(usize) == 8 && sizeof(void *) == 8, "the proved code has pointers of 8 bytes");

/* Gives all blocks of the heap back at once. */
void forget_blocks(void);

#endif
