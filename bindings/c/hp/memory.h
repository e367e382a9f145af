/* The memory of the arrays by HP's names: all of it comes from JudyMalloc, and its bytes are counted, for each array by
 * itself. */
#ifndef SELLUMAQ_HP_MEMORY_H
#define SELLUMAQ_HP_MEMORY_H

#include "Judy.h"

#include <stdbool.h>

/* The bytes of the blocks that this thread has asked for, less those of the blocks that it gave back. */
extern _Thread_local Word_t sellumaq_hp_balance;

/* Whether the next block that this thread asks for begins an array, and so has room behind it for the number of its
 * bytes. */
extern _Thread_local bool sellumaq_hp_begins;

/* The bytes of an array; a word of the array's own, unless it is null. */
Word_t *sellumaq_hp_bytes(Pcvoid_t array);

#endif
