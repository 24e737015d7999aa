// The memory of the page's engine, in the place of the C library: blocks of powers of two, with a free list for each power, and what LLVM calls
// of a C library's own. web_take and web_give are for the page.
typedef unsigned long usize;
typedef unsigned char u8;
typedef unsigned __int128 u128;
typedef unsigned long long u64;
struct Tried { _Bool ok; void *at; };

enum { HEAD = 16 };
#define PAGE 65536ul
#define STEP 64ul
#define MOST (1ul << 40)
static struct Free { struct Free *next; } *lists[64];
extern u8 __heap_base;
static usize top, end;

// The power of a block with room for so many bytes behind its head.
static usize power(usize bytes) {
  usize whole = bytes + HEAD;
  return whole <= 32 ? 5 : 64 - (usize)__builtin_clzl(whole - 1);
}

// Memory that nothing has yet, at least a step at a time, or as much as is needed alone.
static int grown(usize bytes) {
  usize pages = (bytes + PAGE - 1) / PAGE;
  for (usize some = pages < STEP ? STEP : pages;; some = pages) {
    if (__builtin_wasm_memory_grow(0, some) != (usize)-1) { end += some * PAGE; return 1; }
    if (some == pages) return 0;
  }
}

static void *take(usize bytes) {
  if (bytes > MOST) return 0;
  usize of = power(bytes), size = 1ul << of;
  u8 *block = (u8 *)lists[of];
  if (block) lists[of] = lists[of]->next;
  else {
    if (!top) { top = ((usize)&__heap_base + HEAD - 1) & ~(usize)(HEAD - 1); end = __builtin_wasm_memory_size(0) * PAGE; }
    if (top + size > end && !grown(top + size - end)) return 0;
    block = (u8 *)top;
    top += size;
  }
  *(usize *)block = of;
  return block + HEAD;
}

static void give(void *at) {
  struct Free *block = (struct Free *)((u8 *)at - HEAD);
  usize of = *(usize *)block;
  block->next = lists[of];
  lists[of] = block;
}

struct Tried rattle_alloc(usize bytes, usize align) {
  void *at = align <= HEAD ? take(bytes) : 0;
  return (struct Tried){at != 0, at};
}

struct Tried rattle_realloc(void *at, usize kept, usize bytes, usize align) {
  if (bytes <= MOST && power(bytes) == *(usize *)((u8 *)at - HEAD)) return (struct Tried){1, at};
  struct Tried tried = rattle_alloc(bytes, align);
  if (!tried.ok) return (struct Tried){0, at};
  __builtin_memcpy(tried.at, at, kept < bytes ? kept : bytes);
  give(at);
  return tried;
}

void rattle_dealloc(void *at) { give(at); }

__attribute__((export_name("web_take"))) usize web_take(usize bytes) { return (usize)take(bytes); }
__attribute__((export_name("web_give"))) void web_give(usize at) { give((void *)at); }

int memcmp(const void *one, const void *other, usize bytes) {
  const u8 *a = one, *b = other;
  for (usize i = 0; i < bytes; i++) if (a[i] != b[i]) return a[i] < b[i] ? -1 : 1;
  return 0;
}
int bcmp(const void *one, const void *other, usize bytes) { return memcmp(one, other, bytes); }

// A product of 128 bits, by halves of 32.
u128 __multi3(u128 a, u128 b) {
  u64 al = (u64)a, ah = (u64)(a >> 64), bl = (u64)b, bh = (u64)(b >> 64), low = 0xffffffff;
  u64 least = (al & low) * (bl & low), one = (al >> 32) * (bl & low) + (least >> 32), other = (al & low) * (bl >> 32) + (one & low);
  u64 high = (al >> 32) * (bl >> 32) + (one >> 32) + (other >> 32) + al * bh + ah * bl;
  return (u128)high << 64 | (other << 32 | (least & low));
}
