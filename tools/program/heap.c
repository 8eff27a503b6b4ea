/* Memory for the library as a WebAssembly module, where there is no malloc: what the toolchain's c/heap.c defines elsewhere.
 * A block is a power of two of bytes with its order in front of it; blocks that were freed wait in a list for their order. */
typedef unsigned char byte;
typedef __SIZE_TYPE__ size;

enum { PAGE = 65536, HEAD = 16, LEAST = 5, MOST = 40 };

typedef struct block {
  size order;
  struct block *next;
} block;

typedef struct tried {
  size ok;
  void *at;
} tried;

extern byte __heap_base;
static block *freed[MOST + 1];
static size end;

static size order_of(size length) {
  size order = LEAST;
  while (order <= MOST && ((size)1 << order) - HEAD < length)
    order++;
  return order;
}

static block *grown(size order) {
  if (end == 0)
    end = ((size)&__heap_base + HEAD - 1) / HEAD * HEAD;
  size start = end, stop = start + ((size)1 << order), held = __builtin_wasm_memory_size(0) * PAGE;
  if (stop > held && __builtin_wasm_memory_grow(0, (stop - held + PAGE - 1) / PAGE) == (size)-1)
    return 0;
  end = stop;
  return (block *)start;
}

__attribute__((export_name("page_alloc"))) void *page_alloc(size length) {
  size order = order_of(length);
  if (order > MOST)
    return 0;
  block *it = freed[order];
  if (it)
    freed[order] = it->next;
  else
    it = grown(order);
  if (!it)
    return 0;
  it->order = order;
  return (byte *)it + HEAD;
}

static block *block_of(void *at) { return (block *)((byte *)at - HEAD); }

static tried answer(void *at) { return (tried){at != 0, at ? at : &end}; }

void rattle_dealloc(void *at) {
  block *it = block_of(at);
  it->next = freed[it->order];
  freed[it->order] = it;
}

tried rattle_alloc(size length, size least) { return answer(page_alloc(length ? length : least)); }

tried rattle_realloc(void *at, size kept, size length, size least) {
  size wanted = length ? length : least;
  if (order_of(wanted) == block_of(at)->order)
    return answer(at);
  void *moved = page_alloc(wanted);
  if (moved) {
    __builtin_memcpy(moved, at, kept < wanted ? kept : wanted);
    rattle_dealloc(at);
  }
  return answer(moved);
}
