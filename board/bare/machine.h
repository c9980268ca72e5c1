/* QEMU's virt board: where things lie, and its devices. */
#include <stddef.h>
#include <stdint.h>

/* Outside the image, so that a reset keeps them: the lent memory (up to 256 pages), the stack of user mode, what the
 * firmware keeps, and struct kept. */
#define TABLE ((uint64_t *)0x84000000)
#define USER_STACK ((uint64_t *)0x84200000)
#define FIRMWARE ((struct firmware *)0x84300000)
#define KEPT ((struct kept *)0x84400000)
enum { USER_STACK_BYTES = 16384 };

/* A call in user mode, by physical memory protection: it may write its own stack alone, and read and run everything. */
uint64_t call_user(uintptr_t function, const uint64_t arguments[10], uint64_t *stack_top);
void protect(void);
extern const char user_exit[]; /* where a call in user mode ends */

/* The timer: 10,000,000 ticks a second. */
uint64_t ticks(void);
void start_timer(uint64_t delay);
void stop_timer(void);

void reset(void);
void stop(int failed);
