// The heap of the module: classes of sizes, each with a list of blocks that were given back. A block has a head of 16 bytes. Memory is taken from the
// browser by pages, up to 4 GiB, and never given back: a page that wants less starts a new instance.
typedef unsigned long usize;
typedef unsigned char u8;

#define WASM_PAGE 65536ul
// how many pages are taken at least: 4 MiB
#define PAGES 64ul
extern u8 __heap_base;

struct head { usize class; struct head *next; };
static struct head *freed[128];
static usize top, end;

// the class of a size: 16, 32, 48, 64, 96, 128, ..: powers of two, and one and a half of each
static usize class_of(usize size) {
  if (size <= 32) return size <= 16 ? 0 : 1;
  usize power = 63 - (usize)__builtin_clzl(size - 1);
  return 2 * (power + 1) - 8 - (size <= (3ul << (power - 1)) ? 1 : 0);
}

static usize size_of(usize class) {
  if (class < 2) return class ? 32 : 16;
  usize power = (class + 9) / 2;
  return (class & 1) ? 3ul << (power - 2) : 1ul << power;
}

// a new block, or nothing where the browser has no memory
static struct head *grown(usize size) {
  if (!top) {
    top = ((usize)&__heap_base + 15) & ~15ul;
    end = __builtin_wasm_memory_size(0) * WASM_PAGE;
  }
  if (end - top < size) {
    usize pages = (size - (end - top) + WASM_PAGE - 1) / WASM_PAGE;
    if (pages < PAGES) pages = PAGES;
    if (__builtin_wasm_memory_grow(0, pages) == (usize)-1) return 0;
    end += pages * WASM_PAGE;
  }
  struct head *block = (struct head *)top;
  top += size;
  return block;
}

void *malloc(usize size) {
  if (size > (1ul << 32)) return 0;
  usize class = class_of(size);
  struct head *block = freed[class];
  if (block) {
    freed[class] = block->next;
  } else {
    block = grown(size_of(class) + 16);
    if (!block) return 0;
    block->class = class;
  }
  return (u8 *)block + 16;
}

void free(void *place) {
  if (!place) return;
  struct head *block = (struct head *)((u8 *)place - 16);
  block->next = freed[block->class];
  freed[block->class] = block;
}

// what heap.ll joins with whether there was memory
void *page_realloc(u8 *place, usize kept, usize size) {
  struct head *block = (struct head *)(place - 16);
  if (size <= size_of(block->class)) return place;
  u8 *moved = malloc(size);
  if (!moved) return 0;
  __builtin_memcpy(moved, place, kept < size ? kept : size);
  free(place);
  return moved;
}
u8 page_nothing[16] __attribute__((aligned(16)));

__attribute__((export_name("room"))) void *room(usize size) { return malloc(size); }
__attribute__((export_name("give_back"))) void give_back(void *place) { free(place); }
