/* Unit tests on the console. A test is a program whose main ends with PASSED(); a CHECK that doesn't hold ends the run before. The boot ROM has neither
   function, so both stop the run (docs/COMING_FROM.md): `expect stop Swi 0x55` passes, and a failed CHECK is told by its function, with its line in r0. */
#ifndef UNIT_H
#define UNIT_H

#ifdef __thumb__
#define UNIT_SWI(number) "swi " #number
#else
#define UNIT_SWI(number) "swi " #number "0000"
#endif

/* Before a function that checks: it stays a function of its own, so that its name is told. */
#define UNIT static __attribute__((noinline)) void

#define CHECK(holds) \
    do { \
        if (!(holds)) { \
            register int line __asm__("r0") = __LINE__; \
            __asm__ volatile(UNIT_SWI(0xaa)::"r"(line)); \
        } \
    } while (0)

#define PASSED() \
    do { \
        __asm__ volatile(UNIT_SWI(0x55)); \
    } while (1)

#endif
