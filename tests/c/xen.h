/*
 * Xen's public headers of the block interface, as they are, with the barriers that they leave to their user. With
 * AS_I386 the records are aligned as a compiler for i386 does it, whatever this one is for.
 */
#ifndef TEST_XEN_H
#define TEST_XEN_H

#include <stdint.h>
#include <string.h>

/* From this version of the interface on, the barriers have these names. */
#define __XEN_INTERFACE_VERSION__ __XEN_LATEST_INTERFACE_VERSION__
#define xen_mb()                  __sync_synchronize()
#define xen_rmb()                 __sync_synchronize()
#define xen_wmb()                 __sync_synchronize()

#include <xen/grant_table.h>
#include <xen/io/ring.h>

#ifdef AS_I386
#pragma pack(push, 4)
#endif
#include <xen/io/blkif.h>
#ifdef AS_I386
#pragma pack(pop)
#endif

#include <xen/io/protocols.h>

#endif
