/* Memory that is lent to a call: a block on the heap, around which AddressSanitizer watches this program, or one that starts behind a page
   that can't be touched or ends before one, where the processor watches the library too. What stands around a block is compared after each call. */
#ifndef LENT_H
#define LENT_H

#include <stddef.h>
#include <stdint.h>

/* All that any call is lent. */
typedef enum { STORE, TABLE, NORMAL, OVERLAY, OUTPUT, TEXT, BYTES, PARTS } part;

/* Takes a block of so many bytes for a part, where any bytes stand, and lets go of the one that it had. */
void *lend(part which, size_t bytes);

/* The block of a part, and its bytes. */
void *lent_at(part which);
size_t lent_bytes(part which);

/* Makes a part one that can be read only, or again one that can be written. Of heap blocks it is compared instead. */
void lent_read_only(part which, int read_only);

/* Remembers what stands in a part and around it. */
void lent_remember(part which);

/* Whether a part is as it was remembered, from a byte on; what stands around it too. */
int lent_stays(part which, size_t from);

#endif
