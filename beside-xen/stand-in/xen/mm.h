#pragma once
#include <xen/types.h>
#include <xen/list.h>
#include <xen/xmalloc.h>
#include <xen/mm-frame.h>
struct page_info { unsigned long count_info; };
struct page_list_head { struct page_info *next; };
#define PGC_extra 1
#define is_xen_heap_page(pg) 0
