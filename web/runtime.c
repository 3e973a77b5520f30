// The runtime of a program in WebAssembly (memory64): all that its module asks of a system.
//
// The page writes the words and the files of a call into the memory of a fresh instance, with `room`, `add_word` and
// `add_file`, and calls `go`, which gives the exit status. These four are exported (modules.py names them to the linker: an
// attribute here would bring an empty table, which older engines refuse). What the program writes goes out by `put`, and how
// much memory it has by `tell`, each time that it gets more: these are all imports.
// So a program has no clock, no network, no environment and no other files than those that it was given.
// Types are those of the natively linked runtime, which is the kit's: `long` and addresses have 64 bits.

typedef unsigned char byte;
typedef unsigned long size;
typedef struct { size is_good, at; } Memory;        // what an allocation gives: `at` is never 0

#define NULL ((void *)0)
#define END_OF_LIST (-1)
#define NO_SUCH_FILE 2      // of errno
#define NO_SUCH_NUMBER 9
#define NO_SUCH_PLACE 22
#define TOO_MANY_FILES 24

#define IMPORTED(name) __attribute__((import_module("page"), import_name(name)))

extern void put(int number, const byte *from, size length) IMPORTED("put");
extern void tell(size memory) IMPORTED("tell");

// ---- Memory: blocks of some sizes, cut off the end of what there is. What is given back is kept by size. ----

enum { HEAD = 16, STEP = 16, SMALL = 16 * 1024, CLASSES = SMALL / STEP + 256, PAGE = 64 * 1024, LEAST_GROWTH = 64 };

typedef struct Block { size length; struct Block *next; } Block;        // the head of a block; `next` while it is free

extern byte __heap_base;            // of the linker: the first address behind the data and the stack
static size top;                    // the first address that was never cut off
static Block *freed[CLASSES];

// The class of a block of so many bytes, head included, and the room that a block of this class has: steps of 16 bytes up
// to 16 KiB, then steps of a quarter.
static size class_of(size bytes, size *room) {
  if (bytes <= SMALL) {
    *room = (bytes + STEP - 1) / STEP * STEP;
    return *room / STEP;
  }
  size class = SMALL / STEP;
  for (*room = SMALL; *room < bytes; class++) *room = (*room + *room / 4 + STEP - 1) / STEP * STEP;
  return class;
}

static int grows_by(size pages) { return __builtin_wasm_memory_grow(0, pages) != (size)-1; }

static int has_room_up_to(size end) {
  size have = __builtin_wasm_memory_size(0) * PAGE;
  if (end <= have) return 1;
  size more = (end - have + PAGE - 1) / PAGE;
  if (!grows_by(more < LEAST_GROWTH ? LEAST_GROWTH : more) && !grows_by(more)) return 0;
  tell(__builtin_wasm_memory_size(0) * PAGE);
  return 1;
}

static Block *take(size bytes) {
  size room, class;
  if (bytes >> 46) return NULL;         // beyond any memory, and `room` below would overflow
  class = class_of(bytes, &room);
  Block *block = freed[class];
  if (block) {
    freed[class] = block->next;
    return block;
  }
  if (!top) top = ((size)&__heap_base + STEP - 1) / STEP * STEP;
  if (!has_room_up_to(top + room)) return NULL;
  block = (Block *)top;
  top += room;
  return block;
}

static Memory memory_of(Block *block, size length) {
  static byte none[STEP];
  if (!block) return (Memory){0, (size)none};
  block->length = length;
  return (Memory){1, (size)block + HEAD};
}

// No alignment above 16 is asked for; one of 0 bytes gives an address of its own, as natively.
Memory rattle_alloc(size length, size alignment) {
  if (!length) length = alignment;
  return memory_of(take(length + HEAD), length);
}

void rattle_dealloc(byte *at) {
  if (!at) return;
  Block *block = (Block *)(at - HEAD);
  size room, class = class_of(block->length + HEAD, &room);
  block->next = freed[class];
  freed[class] = block;
}

Memory rattle_realloc(byte *at, size old_length, size length, size alignment) {
  size room, other_room;
  if (!length) length = alignment;
  Block *block = (Block *)(at - HEAD);
  old_length = block->length;
  if (!(length >> 46) && class_of(old_length + HEAD, &room) == class_of(length + HEAD, &other_room)) return memory_of(block, length);
  Memory made = rattle_alloc(length, alignment);
  if (!made.is_good) return made;
  __builtin_memcpy((void *)made.at, at, old_length < length ? old_length : length);
  rattle_dealloc(at);
  return made;
}

// ---- Words and files, given from outside. ----

enum { MOST_WORDS = 64, MOST_FILES = 64, MOST_OPEN = 32, STANDARD_INPUT = 0, FIRST_OPEN = 3 };

static const byte *words[MOST_WORDS];
static size word_count;
static struct { const byte *name, *content; size length; } files[MOST_FILES];
static size file_count;
static struct { int is_open; size file, place; } opened[MOST_OPEN];
static int fault;                   // errno

// Memory for so many bytes and a zero behind them, or 0.
byte *room(size length) {
  Memory made = rattle_alloc(length + 1, STEP);
  if (!made.is_good) return NULL;
  ((byte *)made.at)[length] = 0;
  return (byte *)made.at;
}

// A word of the call, ended by a zero; the first is the name of the program. Gives 0 where there are too many.
int add_word(const byte *word) {
  if (word_count == MOST_WORDS) return 0;
  words[word_count++] = word;
  return 1;
}

// A file; one with an empty name is the standard input. Gives 0 where there are too many.
int add_file(const byte *name, const byte *content, size length) {
  if (file_count == MOST_FILES) return 0;
  files[file_count].name = name;
  files[file_count].content = content;
  files[file_count++].length = length;
  return 1;
}

// Copies a word; gives its length, -1 where there is no such word, -2 where the room is too small.
long rattle_arg(size number, byte *into, size length) {
  if (number >= word_count) return END_OF_LIST;
  size k = 0;
  for (; words[number][k]; k++) {
    if (k == length) return -2;
    into[k] = words[number][k];
  }
  return (long)k;
}

long rattle_env(const byte *name, byte *into, size length) { return -1; }
long rattle_env_at(size number, byte *into, size length) { return END_OF_LIST; }
int rattle_errno(void) { return fault; }
void rattle_set_errno(int number) { fault = number; }
long __sysv_signal(int number, long handler) { return 0; }

// The words for a number of errno: here the programs tell their own.
int __xpg_strerror_r(int number, byte *into, size length) {
  if (length) *into = 0;
  return 0;
}

static int fails(int number) {
  fault = number;
  return -1;
}

static int is_same(const byte *a, const byte *b) {
  for (; *a && *a == *b; a++, b++);
  return *a == *b;
}

int open(const byte *name, int flags, ...) {
  for (size f = 0; f < file_count; f++) {
    if (!is_same(name, files[f].name)) continue;
    for (int k = FIRST_OPEN; k < MOST_OPEN; k++) {
      if (opened[k].is_open) continue;
      opened[k].is_open = 1;
      opened[k].file = f;
      opened[k].place = 0;
      return k;
    }
    return fails(TOO_MANY_FILES);
  }
  return fails(NO_SUCH_FILE);
}

// The standard input is opened when it is read for the first time.
static int is_readable(int number) {
  if (number == STANDARD_INPUT && !opened[number].is_open) {
    for (size f = 0; f < file_count; f++) {
      if (*files[f].name) continue;
      opened[number].is_open = 1;
      opened[number].file = f;
    }
  }
  return number >= 0 && number < MOST_OPEN && opened[number].is_open;
}

long read(int number, byte *into, size length) {
  if (!is_readable(number)) return fails(NO_SUCH_NUMBER);
  size f = opened[number].file, place = opened[number].place, left = place < files[f].length ? files[f].length - place : 0;
  if (length > left) length = left;
  __builtin_memcpy(into, files[f].content + place, length);
  opened[number].place += length;
  return (long)length;
}

// From the beginning (0), from where it is (1) or from the end (2).
long lseek(int number, long by, int from) {
  if (!is_readable(number)) return fails(NO_SUCH_NUMBER);
  size length = files[opened[number].file].length;
  long place = by + (from == 0 ? 0 : from == 1 ? (long)opened[number].place : (long)length);
  if (place < 0 || from < 0 || from > 2) return fails(NO_SUCH_PLACE);
  opened[number].place = (size)place;
  return place;
}

int close(int number) {
  if (!is_readable(number)) return fails(NO_SUCH_NUMBER);
  opened[number].is_open = 0;
  return 0;
}

// ---- What is written: 1 is the standard output, 2 the standard error. ----

long write(int number, const byte *from, size length) {
  if (number != 1 && number != 2) return fails(NO_SUCH_NUMBER);
  put(number, from, length);
  return (long)length;
}

// ---- Arithmetic on 128 bits, which clang leaves to a library. ----

typedef unsigned __int128 wide;
typedef union { wide all; struct { size low, high; } half; } Halves;

// The product of two halves, from four products of 32 bits.
static Halves product(size a, size b) {
  size mask = 0xffffffff, a0 = a & mask, a1 = a >> 32, b0 = b & mask, b1 = b >> 32;
  size low = a0 * b0, middle = a1 * b0 + (low >> 32), other = a0 * b1 + (middle & mask);
  Halves made;
  made.half.low = (other << 32) | (low & mask);
  made.half.high = a1 * b1 + (middle >> 32) + (other >> 32);
  return made;
}

wide __multi3(wide a, wide b) {
  Halves x = {a}, y = {b}, made = product(x.half.low, y.half.low);
  made.half.high += x.half.high * y.half.low + x.half.low * y.half.high;
  return made.all;
}

wide __ashlti3(wide a, int by) {
  Halves x = {a}, made = x;
  if (!by) return a;
  made.half.low = by < 64 ? x.half.low << by : 0;
  made.half.high = by < 64 ? x.half.high << by | x.half.low >> (64 - by) : x.half.low << (by - 64);
  return made.all;
}

wide __lshrti3(wide a, int by) {
  Halves x = {a}, made = x;
  if (!by) return a;
  made.half.high = by < 64 ? x.half.high >> by : 0;
  made.half.low = by < 64 ? x.half.low >> by | x.half.high << (64 - by) : x.half.high >> (by - 64);
  return made.all;
}

// Bit by bit, from the highest one, where one of the numbers has more than 64 bits.
wide __udivti3(wide number, wide by) {
  Halves n = {number}, d = {by}, quotient = {0}, rest = {0};
  if (!n.half.high && !d.half.high) return n.half.low / d.half.low;
  for (int k = 127; k >= 0; k--) {
    size bit = (k < 64 ? n.half.low >> k : n.half.high >> (k - 64)) & 1;
    rest.half.high = rest.half.high << 1 | rest.half.low >> 63;
    rest.half.low = rest.half.low << 1 | bit;
    if (rest.half.high < d.half.high || (rest.half.high == d.half.high && rest.half.low < d.half.low)) continue;
    size borrow = rest.half.low < d.half.low;
    rest.half.low -= d.half.low;
    rest.half.high -= d.half.high + borrow;
    if (k < 64) quotient.half.low |= 1ul << k;
    else quotient.half.high |= 1ul << (k - 64);
  }
  return quotient.all;
}

// ---- The call. ----

extern int main(void);

// Runs the program once, and gives its exit status. An instance serves for one call.
int go(void) { return main(); }

// The page takes all that is written at once, so nobody waits until it can be written again.
int nanosleep(const void *time, void *left) { return 0; }
