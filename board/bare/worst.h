/* The largest table, and edits on it: see worst.c. */
#include "test.h"

enum { LARGEST_PAGES = 256, WORST_SLOT = 7 };
extern const struct table largest;
/* The first arguments of a call. */
#define LARGEST 34, FIRST, (uint64_t)TABLE, LARGEST_PAGES * PAGE_ENTRIES, (uint64_t)KEPT->slots
void open_roots(uint64_t count);
void fill_up(uint64_t slot, uint64_t left);
void fill_apart(void);

struct edit make_shape(const struct shape *shape);
struct edit make_widest(void);
