/* The stack that a function takes: bytes below its return address. */
#ifndef STACK_H
#define STACK_H

#include <stddef.h>
#include <stdint.h>

#define NOINLINE __attribute__((noinline))

/* Where the return address stood when the function measured was called. */
static uintptr_t entry;

/* A call of it in the place of the function measured, with the same arguments, says where a call begins. */
static NOINLINE uint8_t here(void) {
    /* a frame address is that of the word below the return address */
    entry = (uintptr_t)__builtin_frame_address(0) + sizeof(void *);
    return 0;
}

/* `call` is the function measured, or `here`. It is volatile so that both are called alike, and the header's functions are not
 * inlined. */
#define CALL(name) __typeof__(name) *volatile call = measured ? name : (__typeof__(name) *)(void (*)(void))here

/* What is below the stack pointer is painted with `colour`, and the lowest byte that changed is looked for. `begin` comes before each
 * call. */
static NOINLINE size_t changed(void (*call)(int), void (*begin)(void), unsigned char colour) {
    const size_t size = 1 << 16;
    volatile unsigned char *low;
    size_t i;
    begin();
    call(0);
    low = (volatile unsigned char *)entry - size;
    begin();
    for (i = 0; i < size; i++) low[i] = colour;
    call(1);
    for (i = 0; i < size && low[i] == colour; i++) {
    }
    return size - i;
}

/* A first call has the dynamic linker find what is called. The function may write one colour by chance, and not two. */
static NOINLINE size_t stack_of(void (*call)(int), void (*begin)(void)) {
    size_t one, other;
    begin();
    call(1);
    one = changed(call, begin, 0xA5);
    other = changed(call, begin, 0x5A);
    return one > other ? one : other;
}

#endif
