#pragma once
#include <xen/types.h>
#include <xen/lib.h>
#include <public/xen.h>
/* A guest's memory is the harness's own. */
#define copy_from_guest(to, h, n) ({ memcpy(to, (h).p, (n) * sizeof(*(to))); 0; })
#define copy_to_guest(h, from, n) ({ memcpy((h).p, from, (n) * sizeof(*(from))); 0; })
#define copy_from_guest_offset(to, h, o, n) ({ memcpy(to, (typeof(to))(h).p + (o), (n) * sizeof(*(to))); 0; })
#define copy_to_guest_offset(h, o, from, n) ({ memcpy((typeof(from))(h).p + (o), from, (n) * sizeof(*(from))); 0; })
#define __copy_from_guest_offset copy_from_guest_offset
#define guest_handle_okay(h, n) 1
#define guest_handle_is_null(h) ((h).p == NULL)
