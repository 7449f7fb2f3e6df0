// Stands in for the programs of this repository, in a few lines: which one it is, its words tell.
// Without words it is facet_solver_program, with `read` or `check` facet_solver_tool, and with the
// name of a file or `in_code` facet_solver_tests. The one good document is `ok` and a line feed.
//
// A fault is put into it by a name that is defined: LEAKS, HOLDS_MORE, ASKS_MORE, SAYS_SO,
// IS_SILENT, IS_CUT, WRITES_ONCE, PRINTS_MORE, ENDS_OTHERWISE or IS_DEEPER. It needs no headers.
extern void *malloc(unsigned long);
extern void *realloc(void *, unsigned long);
extern void free(void *);
extern void exit(int);
extern int __cxa_atexit(void (*)(void *), void *, void *);
extern int open(const char *, int, ...);
extern long read(int, void *, unsigned long);
extern long write(int, const void *, unsigned long);
extern unsigned long strlen(const char *);
extern char *strstr(const char *, const char *);
extern int strcmp(const char *, const char *);

// The most bytes of a document, and those that a new solver holds.
enum { MOST = 4096 };
#ifdef HOLDS_MORE
enum { HOLDS = 101 };
#else
enum { HOLDS = 100 };
#endif

// The sizes of the marks, which a test has put into marks.rt too.
enum { BEGIN = 1000003, NO_REQUEST = 1000005, HELD = 1000007, OUT_OF_MEMORY = 1000009 };

// How many bytes of stack more it takes where it is deeper, which a test knows too.
enum { DEEPER = 65536 };

// What a write that fails ends the program with.
static int unwritten;

static void say(int file, const char *text) {
  unsigned long size = strlen(text);
#ifdef WRITES_ONCE
  write(file, text, size);
#else
  while (size > 0) {
    long count = write(file, text, size);
    if (count < 0) exit(unwritten);
    text += count;
    size -= count;
  }
#endif
}

// All bytes of a file behind a block that is given, or -1 where a read fails.
static long read_all(int file, char *into) {
  long size = 0, count;
  while ((count = read(file, into + size, MOST - 1 - size)) > 0) size += count;
#ifdef IS_CUT
  if (count < 0) count = 0;
#endif
  into[size] = 0;
  return count < 0 ? -1 : size;
}

static void mark(unsigned long size) { free(malloc(size)); }

// So much room, by two requests, or 0 where one is refused.
static char *room(unsigned long size) {
  char *little = malloc(1);
  char *text = little ? realloc(little, size) : 0;
  if (!text) free(little);
  return text;
}

static int solve(void) {
  unwritten = 4;
  char *text = room(MOST);
  if (!text) {
#ifdef IS_SILENT
    return 5;
#endif
    say(1, "out of memory\n");
    return 5;
  }
  int is_good = read_all(0, text) >= 0 && strcmp(text, "ok\n") == 0;
#ifndef LEAKS
  free(text);
#endif
  say(1, is_good ? "resolved 0\n" : "bad input\n");
#ifdef PRINTS_MORE
  say(2, "more\n");
#endif
  return is_good ? 0 : 4;
}

static int check(const char *types) {
#ifdef IS_DEEPER
  volatile char room[DEEPER];
  room[0] = 0;
#endif
  char *text = malloc(MOST);
  if (!text) return say(2, "out of memory\n"), 5;
  free(text);
  if (strstr(types, "faults")) return say(2, "at fault\n"), 3;
  say(1, "root: S\n");
  return strstr(types, "notice") ? 2 : 0;
}

static int read_document(int is_json, int is_lines) {
  char *text = malloc(MOST);
  if (!text) return say(2, "out of memory\n"), 5;
  int is_read = read_all(0, text) >= 0, is_good = is_read && strcmp(text, "ok\n") == 0;
  free(text);
  if (!is_read) return say(2, "standard input: Input/output error (os error 5)\n"), 64;
  if (is_lines) {
    say(1, is_good ? "{\"reading\": {\"a\": 1}}\n" : "{\"status\": 1, \"error\": \"no\"}\n");
    say(2, is_good ? "1 of 1 documents read\n" : "0 of 1 documents read, 1 without a reading\n");
    return !is_good;
  }
  if (!is_good) return say(2, "no\n"), 1;
  say(1, is_json ? "{\"a\": 1}\n" : "a: 1\n");
#ifdef ENDS_OTHERWISE
  return 2;
#endif
  return 0;
}

static int transcript(const char *name) {
  char *text;
  mark(BEGIN);
  while (!(text = room(HOLDS))) mark(OUT_OF_MEMORY);
  mark(HELD);
#ifdef SAYS_SO
  mark(OUT_OF_MEMORY);
#endif
  mark(BEGIN);
#ifdef ASKS_MORE
  free(malloc(1));
#endif
  mark(NO_REQUEST);
  free(text);
  if (strcmp(name, "in_code") == 0) return say(1, "ok a_check\n"), 0;
  char line[MOST];
  if (read_all(open(name, 0), line) < 0) return 5;
  char *end = line + strlen("transcript ");
  while (*end != '\n') end++;
  *end = 0;
  say(1, "ok ");
  say(1, line + strlen("transcript "));
  say(1, "\n");
  return 0;
}

static int run(int count, char **words) {
  unwritten = 74;
  if (count == 1) return solve();
  if (count > 2 && words[2][0] == (char)0xff) return say(2, "the arguments: invalid data\n"), 64;
  if (strcmp(words[1], "check") == 0) return check(words[2]);
  if (strcmp(words[1], "read") != 0) return transcript(words[1]);
  const char *option = count > 3 ? words[3] : "";
  return read_document(strcmp(option, "--json") == 0, strcmp(option, "--lines") == 0);
}

void begin(long *stack, void (*at_end)(void *)) {
  __cxa_atexit(at_end, 0, 0);
  exit(run(stack[0], (char **)(stack + 1)));
}

__attribute__((naked)) void _start(void) {
  __asm__("mov %rsp, %rdi\n mov %rdx, %rsi\n and $-16, %rsp\n call begin\n");
}
