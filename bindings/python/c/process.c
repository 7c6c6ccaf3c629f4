/* SPDX-License-Identifier: Apache-2.0 OR MIT */
/* Which process this is. A fork is noticed also if nobody tells Python of it, as uWSGI and other programs that have Python
 * inside don't. */
#include "core.h"
#include <pthread.h>
#include <stdatomic.h>
#include <sys/mman.h>

static _Atomic uint64_t last = 1; /* the number of this process, or of the process of which it is a fork */
static _Atomic uint64_t here = 1;
static _Atomic uint64_t *number = &here; /* the number of this process, or 0 in the child of a fork before the first look */

static void start_child(void) {
    atomic_store(number, 0);
}

/* The kernel empties the page in the child of each fork, also of one that the C library doesn't make. A kernel without this
 * leaves it to the handler, which the C library calls in the child of each of its own forks. */
static void begin(void) {
    const size_t size = 1 << 16; /* a multiple of the size of a page */
    void *page = mmap(NULL, size, PROT_READ | PROT_WRITE, MAP_PRIVATE | MAP_ANONYMOUS, -1, 0);
    if (page != MAP_FAILED && madvise(page, size, MADV_WIPEONFORK) == 0) number = page;
    atomic_store(number, 1);
    pthread_atfork(NULL, NULL, start_child);
}

void process_begin(void) {
    static pthread_once_t once = PTHREAD_ONCE_INIT;
    pthread_once(&once, begin);
}

/* Interpreters with locks of their own may look at once; one of them sets the number. */
uint64_t process_number(void) {
    uint64_t none = 0;
    const uint64_t found = atomic_load_explicit(number, memory_order_relaxed);
    if (found != 0) return found;
    atomic_compare_exchange_strong(number, &none, atomic_fetch_add(&last, 1) + 1);
    return atomic_load(number);
}
