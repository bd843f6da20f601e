/* Stands between the program and the C library, for the script `faults`, so that memory is refused and reads and writes go wrong at
   chosen calls. The environment names the calls by their numbers, from 1; a name that isn't there chooses none.

   REFUSE_AT, REFUSE_FROM      the request for memory that is refused, or the first of those that are
   READ_FAILS, WRITE_FAILS     the call that fails
   READ_MOST, WRITE_MOST       how many bytes each call moves at most
   WRITE_NONE                  the write that takes nothing
   READ_STOPS                  the read before which the program stops until it is told to go on
   FAULTS_TELL                 a file that is told, at the end, how many requests for memory came, how many reads and writes, and
                               how many pieces of memory were still held

   It is built without the C library's headers, and asks for the memory by the names that glibc has for its own. */

typedef unsigned long size;

extern void *__libc_malloc(size bytes);
extern void *__libc_calloc(size count, size bytes);
extern void *__libc_realloc(void *piece, size bytes);
extern void __libc_free(void *piece);
extern long syscall(long number, ...);
extern char *getenv(const char *name);
extern int open(const char *path, int flags, ...);
extern int close(int file);
extern int dprintf(int file, const char *form, ...);
extern int raise(int number);
extern int *__errno_location(void);

enum { READ = 0, WRITE = 1, EIO = 5, ENOMEM = 12, STOP = 19, WRITE_TO_END = 02001, EXIT_GROUP = 231 };

static long asked, reads, writes, held, quiet;

static long chosen(const char *name) {
  const char *digits = getenv(name);
  long number = 0;
  for (; digits && *digits; digits++) number = 10 * number + (*digits - '0');
  return number;
}

/* Threads count together. */
static long counts(long *count, long step) { return __atomic_add_fetch(count, step, __ATOMIC_SEQ_CST); }

static int is_refused(void) {
  long first = chosen("REFUSE_FROM");
  long now = counts(&asked, 1);
  return now == chosen("REFUSE_AT") || (first && now >= first);
}

static void *counted(void *piece) {
  if (piece) counts(&held, 1);
  else *__errno_location() = ENOMEM;
  return piece;
}

void *malloc(size bytes) {
  if (quiet) return __libc_malloc(bytes);
  return counted(is_refused() ? 0 : __libc_malloc(bytes));
}

void *calloc(size count, size bytes) {
  if (quiet) return __libc_calloc(count, bytes);
  return counted(is_refused() ? 0 : __libc_calloc(count, bytes));
}

void *realloc(void *piece, size bytes) {
  void *grown;
  if (!piece) return malloc(bytes);
  grown = !quiet && is_refused() ? 0 : __libc_realloc(piece, bytes);
  if (!grown) *__errno_location() = ENOMEM;
  return grown;
}

void free(void *piece) {
  if (piece && !quiet) counts(&held, -1);
  __libc_free(piece);
}

static size at_most(const char *name, size bytes) {
  long most = chosen(name);
  return most && (size)most < bytes ? (size)most : bytes;
}

static long fails(void) {
  *__errno_location() = EIO;
  return -1;
}

long read(int file, void *into, size bytes) {
  long now = counts(&reads, 1);
  if (now == chosen("READ_STOPS")) raise(STOP);
  if (now == chosen("READ_FAILS")) return fails();
  return syscall(READ, file, into, at_most("READ_MOST", bytes));
}

long write(int file, const void *from, size bytes) {
  long now;
  if (file != 1) return syscall(WRITE, file, from, bytes);
  now = counts(&writes, 1);
  if (now == chosen("WRITE_FAILS")) return fails();
  if (now == chosen("WRITE_NONE")) return 0;
  return syscall(WRITE, file, from, at_most("WRITE_MOST", bytes));
}

__attribute__((destructor)) static void tells(void) {
  const char *name = getenv("FAULTS_TELL");
  int file;
  if (quiet) return;
  quiet = 1;
  if (!name || (file = open(name, WRITE_TO_END)) < 0) return;
  dprintf(file, "%ld %ld %ld %ld\n", asked, reads, writes, held);
  close(file);
}

/* A program that may start threads ends by this call, which runs no destructor. */
void _exit(int status) {
  tells();
  for (;;) syscall(EXIT_GROUP, status);
}
