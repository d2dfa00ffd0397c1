// Fails calls that read files. bin/refuse-reads has it loaded before the C library.
//
// FAIL=N fails the Nth call of open, read, statx, readlink or getdents64, with the error ERROR (errno(3)). That failure is a byte on
// file descriptor 9. After 10 seconds the program is stopped.

typedef unsigned long size;

enum { TOLD = 9, SECONDS = 10 };

extern int *__errno_location(void);
extern unsigned alarm(unsigned);
extern char *getenv(const char *);
extern long strtol(const char *, char **, int);
extern long write(int, const void *, size);
extern void *dlsym(void *, const char *);

static long chosen, count;
static int error;

__attribute__((constructor)) static void begin(void) {
  char *number = getenv("FAIL"), *kind = getenv("ERROR");
  alarm(SECONDS);
  if (number) chosen = strtol(number, 0, 10);
  if (kind) error = (int)strtol(kind, 0, 10);
}

static int fails(void) {
  if (__atomic_add_fetch(&count, 1, __ATOMIC_SEQ_CST) != chosen) return 0;
  write(TOLD, "f", 1);
  *__errno_location() = error;
  return 1;
}

static void *next(const char *name) { return dlsym((void *)-1l, name); }

int open(const char *path, int flags, int mode) { return fails() ? -1 : ((int (*)(const char *, int, ...))next("open"))(path, flags, mode); }

int openat(int dir, const char *path, int flags, int mode) {
  return fails() ? -1 : ((int (*)(int, const char *, int, ...))next("openat"))(dir, path, flags, mode);
}

long read(int file, void *bytes, size most) { return fails() ? -1 : ((long (*)(int, void *, size))next("read"))(file, bytes, most); }

int statx(int dir, const char *path, int flags, unsigned mask, void *found) {
  return fails() ? -1 : ((int (*)(int, const char *, int, unsigned, void *))next("statx"))(dir, path, flags, mask, found);
}

long readlink(const char *path, char *text, size most) {
  return fails() ? -1 : ((long (*)(const char *, char *, size))next("readlink"))(path, text, most);
}

long getdents64(int dir, void *entries, size most) {
  return fails() ? -1 : ((long (*)(int, void *, size))next("getdents64"))(dir, entries, most);
}
