// Has requests of a program refused: loaded before the C library (LD_PRELOAD), it stands in the way
// of the calls that take memory, that read and that write. check_refusals.py builds and loads it.
//
// REFUSE   which: memory, io (reads and writes fail), or short (reads and writes move one byte)
// FROM     the first request that is refused, counted from 1 among those of its kind
// TO       the last one; left out, the same as FROM; 0: all further ones
// AFTER    count from after so many writes on (0)
// REPORT   a file descriptor: one byte is written to it for each refusal, at most a thousand:
//          'm' memory asked for, 'g' a block to grow, 's' a block that may well stay as it is
typedef unsigned long size_t;
typedef long ssize_t;
struct part { char *base; size_t length; };

#define OUT_OF_MEMORY 12
#define IO_ERROR 5
#define MOST_REPORTS 1000
enum calls { READ = 0, WRITE = 1, READV = 19, WRITEV = 20 };

void *__libc_malloc(size_t);
void *__libc_calloc(size_t, size_t);
void *__libc_realloc(void *, size_t);
size_t malloc_usable_size(void *);
char *getenv(const char *);
long atol(const char *);
long syscall(long, ...);
int *__errno_location(void);

static char kind;
static long from, to, after;
static int report;
static long requests, reports, writes;

static long number(const char *name, long otherwise) {
  const char *text = getenv(name);
  return text ? atol(text) : otherwise;
}

__attribute__((constructor)) static void start(void) {
  const char *name = getenv("REFUSE");
  from = number("FROM", 1);
  to = number("TO", from);
  after = number("AFTER", 0);
  report = (int)number("REPORT", -1);
  kind = name ? name[0] : 0;
}

// Whether this request, of one of the kinds, is to be refused; it is reported as a letter.
static int refused(char of, char letter) {
  if (kind != of || __atomic_load_n(&writes, __ATOMIC_SEQ_CST) < after) return 0;
  long nth = __atomic_add_fetch(&requests, 1, __ATOMIC_SEQ_CST);
  if (nth < from || (to != 0 && nth > to)) return 0;
  if (report >= 0 && __atomic_add_fetch(&reports, 1, __ATOMIC_SEQ_CST) <= MOST_REPORTS)
    syscall(WRITE, report, &letter, 1);
  return 1;
}

static long failed(int error) {
  *__errno_location() = error;
  return -1;
}

void *malloc(size_t size) {
  if (!refused('m', 'm')) return __libc_malloc(size);
  failed(OUT_OF_MEMORY);
  return 0;
}

void *calloc(size_t count, size_t size) {
  if (!refused('m', 'm')) return __libc_calloc(count, size);
  failed(OUT_OF_MEMORY);
  return 0;
}

void *realloc(void *block, size_t size) {
  char letter = !block ? 'm' : malloc_usable_size(block) < size ? 'g' : 's';
  if (!refused('m', letter)) return __libc_realloc(block, size);
  failed(OUT_OF_MEMORY);
  return 0;
}

ssize_t read(int file, void *bytes, size_t size) {
  if (refused('i', 'r')) return failed(IO_ERROR);
  return syscall(READ, file, bytes, size > 1 && refused('s', 'r') ? 1 : size);
}

static ssize_t counted(ssize_t moved) {
  int error = *__errno_location();
  __atomic_add_fetch(&writes, 1, __ATOMIC_SEQ_CST);
  *__errno_location() = error;
  return moved;
}

ssize_t write(int file, const void *bytes, size_t size) {
  if (refused('i', 'w')) return failed(IO_ERROR);
  return counted(syscall(WRITE, file, bytes, size > 1 && refused('s', 'w') ? 1 : size));
}

ssize_t readv(int file, const struct part *parts, int count) {
  if (count == 1) return read(file, parts->base, parts->length);
  if (refused('i', 'r')) return failed(IO_ERROR);
  if (refused('s', 'r'))
    for (; count > 0; parts++, count--)
      if (parts->length) return syscall(READ, file, parts->base, 1);
  return syscall(READV, file, parts, count);
}

ssize_t writev(int file, const struct part *parts, int count) {
  if (count == 1) return write(file, parts->base, parts->length);
  if (refused('i', 'w')) return failed(IO_ERROR);
  if (refused('s', 'w'))
    for (; count > 0; parts++, count--)
      if (parts->length) return counted(syscall(WRITE, file, parts->base, 1));
  return counted(syscall(WRITEV, file, parts, count));
}
