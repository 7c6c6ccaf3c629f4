/* SPDX-License-Identifier: Apache-2.0 OR MIT */
/* The heap of libcadence_c.a, which calls that of the host. An empty block takes as many bytes as its alignment. If
 * memory runs out, `given` of the returned block is 0, and nobody follows its pointer.
 *
 * A host can lend each thread's room to a call that frees all memory that it requests: then blocks are pieces of the room
 * as long as they fit. No other library sees these functions. */
#include <stdbool.h>
#include <stdint.h>
#include <stdlib.h>
#include <string.h>

#pragma GCC visibility push(hidden)

enum { ROOM = 1024, UNIT = 16 };

typedef struct {
    uint64_t given;
    void *at;
} block;

static uint64_t nowhere;

static _Thread_local struct {
    _Alignas(UNIT) uint8_t bytes[ROOM];
    size_t left; /* how many bytes at the end are free: a multiple of UNIT, and 0 if the room isn't lent */
} room;

static block block_of(void *at) {
    return (block){ at != NULL, at != NULL ? at : &nowhere };
}

static bool is_in_room(const void *at) {
    return (uintptr_t)at - (uintptr_t)room.bytes < ROOM;
}

block cadence_c_alloc(size_t size, size_t align) {
    if (size == 0) size = align;
    if (size > room.left) return block_of(malloc(size));
    void *at = room.bytes + ROOM - room.left;
    room.left -= (size + UNIT - 1) / UNIT * UNIT;
    return (block){ 1, at };
}

block cadence_c_realloc(void *at, size_t old_size, size_t size, size_t align) {
    if (!is_in_room(at)) return block_of(realloc(at, size != 0 ? size : align));
    const block to = cadence_c_alloc(size, align);
    if (to.given) memcpy(to.at, at, old_size < size ? old_size : size);
    return to;
}

void cadence_c_dealloc(void *at) {
    if (!is_in_room(at)) free(at);
}

/* Lends the room of this thread to a call. After the call the host writes 0 to the place that this returns, which takes the
 * whole room back. */
size_t *cadence_c_lend(void) {
    room.left = ROOM;
    return &room.left;
}
