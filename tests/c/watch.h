/* Watched pages: which bytes of them a call writes, also where it writes what stands there already. Of an instruction that reads bytes and writes
   them back as they are to their own place, the first byte in a page alone is seen. */
#ifndef WATCH_H
#define WATCH_H

#include "fences.h"

/* The page that holds a byte. */
uint8_t *page_of(uint8_t *at);

/* Lets the pages of so many bytes be written again, in a buffer that is locked. */
void open_pages(uint8_t *at, size_t n);

/* Watches the pages from `from` to `to`, which may only be read meanwhile, until the watch ends; they stay locked. A fault elsewhere is told as
   catch_faults has it. */
void watch(uint8_t *from, uint8_t *to);
void end_watch(void);

/* Whether a byte of the pages watched last was written. */
int wrote(const uint8_t *at);

#endif
