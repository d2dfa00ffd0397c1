// Refuses a program memory and threads. bin/refuse-memory has it loaded before the C library.
//
// REFUSE=N refuses the Nth request alone, REFUSE=N- that one and all after it, REFUSE=@SIZE the first of SIZE bytes and all after it. A
// request is one for memory or for a thread, by whatever thread. Each refusal is a byte on file descriptor 9. On descriptor 8 stands
// a 't' for each thread that was made, and an 'm' for each request of 16 KiB or more. After 10 seconds the program is stopped.

typedef unsigned long size;

enum { OUT_OF_MEMORY = 12, TRY_AGAIN = 11, TOLD = 9, COUNTED = 8, LARGE = 16384, SECONDS = 10 };

extern int *__errno_location(void);
extern unsigned alarm(unsigned);
extern char *getenv(const char *);
extern long strtol(const char *, char **, int);
extern long write(int, const void *, size);
extern void *dlsym(void *, const char *);
extern void *__libc_malloc(size);
extern void *__libc_calloc(size, size);
extern void *__libc_realloc(void *, size);
extern void *__libc_memalign(size, size);

static long first, last, mark, count;

__attribute__((constructor)) static void begin(void) {
  char *asked = getenv("REFUSE"), *end;
  alarm(SECONDS);
  if (!asked) return;
  if (*asked == '@') {
    mark = strtol(asked + 1, &end, 10);
    return;
  }
  last = first = strtol(asked, &end, 10);
  if (*end == '-') last = __LONG_MAX__;
}

static int refused(size bytes) {
  if (bytes >= LARGE) write(COUNTED, "m", 1);
  long number = __atomic_add_fetch(&count, 1, __ATOMIC_SEQ_CST);
  if (mark && (long)bytes == mark) {
    first = number;
    last = __LONG_MAX__;
  }
  if (!first || number < first || number > last) return 0;
  write(TOLD, "r", 1);
  *__errno_location() = OUT_OF_MEMORY;
  return 1;
}

void *malloc(size bytes) { return refused(bytes) ? 0 : __libc_malloc(bytes); }

void *calloc(size items, size bytes) { return refused(items * bytes) ? 0 : __libc_calloc(items, bytes); }

void *realloc(void *block, size bytes) { return refused(bytes) ? 0 : __libc_realloc(block, bytes); }

void *memalign(size align, size bytes) { return refused(bytes) ? 0 : __libc_memalign(align, bytes); }

void *aligned_alloc(size align, size bytes) { return memalign(align, bytes); }

int posix_memalign(void **block, size align, size bytes) {
  void *made = memalign(align, bytes);
  if (!made) return OUT_OF_MEMORY;
  *block = made;
  return 0;
}

int pthread_create(void *thread, const void *how, void *(*body)(void *), void *argument) {
  static int (*start)(void *, const void *, void *(*)(void *), void *);
  if (refused(0)) return TRY_AGAIN;
  if (!start) start = (int (*)(void *, const void *, void *(*)(void *), void *))dlsym((void *)-1l, "pthread_create");
  int fault = start(thread, how, body, argument);
  if (!fault) write(COUNTED, "t", 1);
  return fault;
}
