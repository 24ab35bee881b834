/*
 * The fences of a listing, as places where the other side takes a step of its own: included before the listing. The
 * headers that it includes too come first.
 */
#ifndef FENCES_H
#define FENCES_H

#include <endian.h>
#include <stdatomic.h>
#include <stdio.h>
#include <stdlib.h>

static void (*at_fence)(memory_order order);

static void fence(memory_order order) {
    if (at_fence != NULL)
        at_fence(order);
}

#undef atomic_thread_fence
#define atomic_thread_fence fence

#endif
