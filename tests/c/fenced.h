/*
 * The helper's fences, as places where the other side takes a step of its own: included before the helper's files,
 * which are compiled as they are.
 */
#ifndef FENCED_H
#define FENCED_H

void at_fence(int order);

#define __atomic_thread_fence at_fence

#endif
