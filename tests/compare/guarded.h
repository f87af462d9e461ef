/* Memory that ends where an inaccessible page begins, so that an access beyond that end stops the program. Define _DEFAULT_SOURCE before the
 * first header, for MAP_ANONYMOUS. */
#ifndef GUARDED_H
#define GUARDED_H

#include <stddef.h>
#include <stdint.h>
#include <sys/mman.h>

#define LARGEST (1u << 26) /* the reports and marks of a drawer of the shortest recordings; only what is used takes memory */
#define PAGE 65536u /* a multiple of every page size in use */

/* The end of `LARGEST` such bytes; NULL where there is no memory. */
static uint8_t *guarded_end(void)
{
    uint8_t *memory = mmap(NULL, LARGEST + PAGE, PROT_READ | PROT_WRITE, MAP_PRIVATE | MAP_ANONYMOUS, -1, 0);
    if (memory == MAP_FAILED || mprotect(memory + LARGEST, PAGE, PROT_NONE) != 0)
        return NULL;
    return memory + LARGEST;
}

#endif
