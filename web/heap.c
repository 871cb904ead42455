/* The heap of the page's module: the three functions that the proved code asks for memory, and those that a compiler may call.
   A freed block goes into the list of its size class, and blocks are never joined: an instance serves one call. */
typedef unsigned long size;
typedef unsigned char byte;

extern byte __heap_base;
enum { PAGE = 65536, LINE = 16, CLASSES = 4 * 41 };
/* No larger block is given. So the sums below don't wrap, and a count of pages fits into 32 bits. */
static const size MOST = 1ul << 40;

/* What stands before a block. */
struct head {
  size class, room;
};
struct freed {
  struct freed *next;
};
static struct freed *lists[CLASSES];
static size top, end;

/* The class of a size, and the room that its blocks have: four classes from one power of two to the next. */
static struct head head_of(size wanted) {
  struct head head = {0, LINE};
  if (wanted > LINE) {
    size power = 63 - (size)__builtin_clzl(wanted - 1), base = 1ul << power, quarter = base / 4;
    size quarters = (wanted - base + quarter - 1) / quarter;
    head.class = 4 * power + quarters - 1;
    head.room = (base + quarters * quarter + LINE - 1) / LINE * LINE;
  }
  return head;
}

/* Whether the memory has that many more pages now. The answer of memory.grow isn't looked at: one that wasm-opt made for 32 bits
   isn't -1 where memory couldn't grow. */
static int grow(size pages) {
  size before = __builtin_wasm_memory_size(0);
  __builtin_wasm_memory_grow(0, pages);
  return __builtin_wasm_memory_size(0) >= before + pages;
}

/* Whether there is room for that many more bytes at the top. */
static int reach(size bytes) {
  if (!top) {
    top = ((size)&__heap_base + LINE - 1) / LINE * LINE;
    end = __builtin_wasm_memory_size(0) * PAGE;
  }
  if (bytes > end - top) {
    size pages = (bytes - (end - top) + PAGE - 1) / PAGE, eighth = end / PAGE / 8;
    if (!(pages < eighth && grow(eighth)) && !grow(pages)) return 0;
    end = __builtin_wasm_memory_size(0) * PAGE;
  }
  return 1;
}

void *malloc(size wanted) {
  struct head head, *at;
  if (wanted > MOST) return 0;
  head = head_of(wanted);
  if (lists[head.class]) {
    struct freed *block = lists[head.class];
    lists[head.class] = block->next;
    return block;
  }
  if (!reach(sizeof head + head.room)) return 0;
  at = (struct head *)top;
  *at = head;
  top += sizeof head + head.room;
  return at + 1;
}

void free(void *at) {
  struct freed *block = at;
  if (!at) return;
  size class = ((struct head *)at - 1)->class;
  block->next = lists[class];
  lists[class] = block;
}

void *memcpy(void *to, const void *from, size count);

static void *resize(void *at, size wanted) {
  struct head *head = (struct head *)at - 1, new;
  void *other;
  if (wanted <= head->room) return at;
  if (wanted > MOST) return 0;
  new = head_of(wanted);
  /* The block at the top grows where it is. */
  if ((size)at + head->room == top) {
    if (!reach(new.room - head->room)) return 0;
    top += new.room - head->room;
    *head = new;
    return at;
  }
  other = malloc(wanted);
  if (!other) return 0;
  memcpy(other, at, head->room);
  free(at);
  return other;
}

/* As in the toolchain's heap.c: `is` says whether there is memory, and `at` is never null. */
struct got {
  size is;
  byte *at;
};
static byte nothing;

static struct got got(void *at) {
  struct got it = {at != 0, at ? at : &nothing};
  return it;
}

struct got rattle_alloc(size wanted, size align) { return got(malloc(wanted ? wanted : align)); }
struct got rattle_realloc(void *at, size old, size wanted, size align) {
  (void)old;
  return got(resize(at, wanted ? wanted : align));
}
void rattle_dealloc(void *at) { free(at); }

/* The compiler makes one instruction of WebAssembly of each of these three. */
void *memcpy(void *to, const void *from, size count) { return __builtin_memcpy(to, from, count); }
void *memmove(void *to, const void *from, size count) { return __builtin_memmove(to, from, count); }
void *memset(void *to, int value, size count) { return __builtin_memset(to, value, count); }

int memcmp(const void *one, const void *other, size count) {
  const byte *a = one, *b = other;
  for (; count; count--, a++, b++)
    if (*a != *b) return *a < *b ? -1 : 1;
  return 0;
}
