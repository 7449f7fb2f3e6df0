// Watches the memory of the program that it is loaded into, and refuses one request for memory: the
// one whose number REFUSE gives, from 1. It also has reads of standard input and writes on one file
// take few bytes, or fail. What it sees it writes on the open file whose number TELL gives, so that
// nothing of the program stands between. Where it is not set, that is standard error. Each stands
// in a line:
//   refused                          the request of that number is refused
//   asked N where none is needed     a call that promises to take no memory made N requests
//   held N                           the most bytes that a call held at once, beside those that
//                                    were held before it
//   out of memory without a refusal  a call said that memory was refused, and none was
//   leaked N                         at the end of the program: how many blocks it has not given
//                                    back. There need be none: a program that does nothing leaves
//                                    none either
//
// The tests say where a call begins and ends. They do so by marks: requests of sizes that nothing
// else asks for. A mark is neither refused nor counted. The sizes, BEGIN to OUT_OF_MEMORY, are
// those of marks.rt in facet_solver_tests, and sweep/run hands them to the compiler.
//
// Two more numbers of the environment say how reads of standard input go, and three how writes go:
//   WRITES_TO                the file that the writes are on. Where it is not set, it is standard
//                            output
//   READS, WRITES            the most bytes that one takes: the first takes a byte, the next two,
//                            and so on up to this number, then a byte again. Where it is not set,
//                            each takes all that it is asked for
//   READS_LEFT, WRITES_LEFT  how many are made before all others fail. Where it is not set, none
//                            fails
// A read takes less only where the input ends, and not where a pipe has no more bytes yet. So the
// number of a request goes by the input alone.
//
// The programs call malloc, realloc and free, and no other function that gives or takes blocks.
// They call read for what they read, and write for what they write. The guard stands on nothing but
// the C library that they stand on, so it needs no headers.
extern void *dlsym(void *, const char *);
extern char *getenv(const char *);
extern long atol(const char *);
extern int snprintf(char *, unsigned long, const char *, ...);
extern long write(int, const void *, unsigned long);
extern int *__errno_location(void);

#define NEXT ((void *)-1L)

// Errors of the C library: a call was interrupted, a read failed, and no one reads what is written.
enum { INTERRUPTED = 4, FAILED = 5, BROKEN_PIPE = 32 };

// What stands before each block. It is as long as the C library aligns blocks.
struct head {
  _Alignas(16) unsigned long size;
};

// What each mark is given.
static char marked;

// What is held now.
static unsigned long blocks, bytes;

// The requests since the last mark BEGIN, the bytes that were held there, and the most that were
// held since.
static unsigned long requests, begun, most;

// Whether a request was refused.
static int refused;

// A number of the environment, or another one where it is not set.
static long number(const char *name, long unset) {
  const char *text = getenv(name);
  return text ? atol(text) : unset;
}

static void tell(const char *text, unsigned long count) {
  char line[64];
  write(number("TELL", 2), line, snprintf(line, sizeof line, text, count));
}

// Whether a request is a mark, which is then done.
static int is_mark(unsigned long size) {
  switch (size) {
  case BEGIN:
    requests = 0;
    begun = most = bytes;
    return 1;
  case NO_REQUEST:
    if (requests > 0) tell("asked %lu where none is needed\n", requests);
    return 1;
  case HELD:
    tell("held %lu\n", most - begun);
    return 1;
  case OUT_OF_MEMORY:
    if (!refused) tell("out of memory without a refusal\n", 0);
    return 1;
  default:
    return 0;
  }
}

// Whether a request, which is counted, is the one to refuse.
static int is_refused(void) {
  static long left = -1;
  if (left < 0) left = number("REFUSE", 0);
  requests++;
  if (left == 0 || --left > 0) return 0;
  refused = 1;
  tell("refused\n", 0);
  return 1;
}

// The block behind a head, of whose size so many bytes were counted before.
static void *counted(struct head *head, unsigned long size, unsigned long before) {
  head->size = size;
  bytes += size - before;
  if (bytes > most) most = bytes;
  return head + 1;
}

void *malloc(unsigned long size) {
  static void *(*next)(unsigned long);
  if (!next) next = dlsym(NEXT, "malloc");
  if (is_mark(size)) return &marked;
  if (is_refused()) return 0;
  struct head *head = next(sizeof *head + size);
  if (!head) return 0;
  blocks++;
  return counted(head, size, 0);
}

void *realloc(void *block, unsigned long size) {
  static void *(*next)(void *, unsigned long);
  if (!next) next = dlsym(NEXT, "realloc");
  if (!block) return malloc(size);
  if (is_refused()) return 0;
  struct head *head = (struct head *)block - 1;
  unsigned long before = head->size;
  head = next(head, sizeof *head + size);
  return head ? counted(head, size, before) : 0;
}

void free(void *block) {
  static void (*next)(void *);
  if (!next) next = dlsym(NEXT, "free");
  if (!block || block == &marked) return;
  struct head *head = (struct head *)block - 1;
  blocks--;
  bytes -= head->size;
  next(head);
}

// How the reads of standard input go, or the writes on one file.
struct way {
  long most; // The most bytes that one takes, or 0 where each takes all that it is asked for.
  long next; // The most that the next one takes.
  long left; // How many are made before all others fail, or below 0 where none fails.
};

static struct way reads, writes;
static long writes_to = 1;

__attribute__((constructor)) static void begin(void) {
  reads = (struct way){number("READS", 0), 1, number("READS_LEFT", -1)};
  writes = (struct way){number("WRITES", 0), 1, number("WRITES_LEFT", -1)};
  writes_to = number("WRITES_TO", writes_to);
}

// How many bytes a read or a write takes that is asked for so many. Where it fails, this is -1, and
// the error is set.
static long taken(struct way *way, unsigned long asked, int error) {
  if (way->left == 0) {
    *__errno_location() = error;
    return -1;
  }
  if (way->left > 0) way->left--;
  if (way->most == 0) return asked;
  unsigned long most = way->next;
  way->next = way->next < way->most ? way->next + 1 : 1;
  return most < asked ? most : asked;
}

long read(int file, void *bytes, unsigned long asked) {
  static long (*next)(int, void *, unsigned long);
  if (!next) next = dlsym(NEXT, "read");
  if (file != 0) return next(file, bytes, asked);
  long count = taken(&reads, asked, FAILED), done = 0;
  if (count < 0) return -1;
  while (done < count) {
    long more = next(file, (char *)bytes + done, count - done);
    if (more < 0 && *__errno_location() == INTERRUPTED) continue;
    if (more < 0) return -1;
    if (more == 0) break;
    done += more;
  }
  return done;
}

long write(int file, const void *bytes, unsigned long asked) {
  static long (*next)(int, const void *, unsigned long);
  if (!next) next = dlsym(NEXT, "write");
  if (file != writes_to) return next(file, bytes, asked);
  long count = taken(&writes, asked, BROKEN_PIPE);
  return count < 0 ? -1 : next(file, bytes, count);
}

__attribute__((destructor)) static void end(void) { tell("leaked %lu\n", blocks); }
