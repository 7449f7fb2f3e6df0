// Counts the requests for memory of the program that it is loaded into, what it holds, and how deep
// its stack is. At the end of the program it writes a line on standard error:
//   requests N held N stack N
// These are how many requests there were, the most bytes that were held at once, and the most bytes
// of stack.
//
// The programs call malloc, realloc and free, and no other function that gives or takes blocks.
// Each call of malloc or realloc is a request. The bytes are those that were asked for, so that
// both numbers are the same with any C library. This file needs no headers of one.
//
// Before the program begins, its stack is painted: words of one value are written below the place
// that it has reached. At the end the lowest word that has another value tells how deep it went.
// The bytes count from where the system has put the words of the command line, so that neither
// these nor the environment change them.
extern void *dlsym(void *, const char *);
extern int snprintf(char *, unsigned long, const char *, ...);
extern long write(int, const void *, unsigned long);

#define NEXT ((void *)-1L)

// What the stack is painted with, and how many words of it: 4 MB, of the 8 MB that there are.
#define PAINT 0x5ca1ab1e0ddba115UL
enum { PAINTED = 1 << 19 };

// What stands before each block. It is as long as the C library aligns blocks.
struct head {
  _Alignas(16) unsigned long size;
};

static unsigned long requests, held, most;

// The lowest word that is painted, and where the words of the command line begin.
static volatile unsigned long *lowest;
static char *words;

// Paints the stack below the caller.
__attribute__((noinline)) static void paint(void) {
  volatile unsigned long room[PAINTED];
  for (long n = PAINTED; n > 0; n--) room[n - 1] = PAINT;
  lowest = room;
}

__attribute__((constructor)) static void begin(int count, char **given) {
  words = (char *)given;
  paint();
}

// The most bytes of stack. Where all that is painted was written over, it is more than these.
static unsigned long deepest(void) {
  volatile unsigned long *it = lowest;
  while (*it == PAINT) it++;
  return words - (char *)it;
}

// The block behind a head, of whose size so many bytes were held before.
static void *block_of(struct head *head, unsigned long size, unsigned long before) {
  head->size = size;
  held += size - before;
  if (held > most) most = held;
  return head + 1;
}

void *malloc(unsigned long size) {
  static void *(*next)(unsigned long);
  if (!next) next = dlsym(NEXT, "malloc");
  requests++;
  struct head *head = next(sizeof *head + size);
  return head ? block_of(head, size, 0) : 0;
}

void *realloc(void *block, unsigned long size) {
  static void *(*next)(void *, unsigned long);
  if (!next) next = dlsym(NEXT, "realloc");
  if (!block) return malloc(size);
  requests++;
  struct head *head = (struct head *)block - 1;
  unsigned long before = head->size;
  head = next(head, sizeof *head + size);
  return head ? block_of(head, size, before) : 0;
}

void free(void *block) {
  static void (*next)(void *);
  if (!next) next = dlsym(NEXT, "free");
  if (!block) return;
  struct head *head = (struct head *)block - 1;
  held -= head->size;
  next(head);
}

__attribute__((destructor)) static void end(void) {
  unsigned long stack = deepest();
  char line[96];
  const char *form = "requests %lu held %lu stack %lu\n";
  write(2, line, snprintf(line, sizeof line, form, requests, most, stack));
}
