/* Refuses one request for memory of a program: that of the number that REFUSED gives. For LD_PRELOAD; it needs no headers.
   All ways by which a program asks the C library for memory that it gives back by `free` are counted and refused. */
typedef unsigned long size;

extern void *__libc_malloc(size);
extern void *__libc_calloc(size, size);
extern void *__libc_realloc(void *, size);
extern void *__libc_memalign(size, size);
extern char *getenv(const char *);
extern unsigned long strtoul(const char *, char **, int);

enum { NO_MEMORY = 12 };

static size made, refused;

/* The loader may ask before the environment is there, so the number is looked for until it is found. */
static int is_refused(void) {
  if (refused == 0) {
    const char *number = getenv("REFUSED");
    refused = number ? strtoul(number, 0, 10) : 0;
  }
  return ++made == refused;
}

void *malloc(size bytes) { return is_refused() ? 0 : __libc_malloc(bytes); }

void *calloc(size count, size bytes) { return is_refused() ? 0 : __libc_calloc(count, bytes); }

void *realloc(void *old, size bytes) { return is_refused() ? 0 : __libc_realloc(old, bytes); }

void *memalign(size alignment, size bytes) { return is_refused() ? 0 : __libc_memalign(alignment, bytes); }

void *aligned_alloc(size alignment, size bytes) { return memalign(alignment, bytes); }

int posix_memalign(void **block, size alignment, size bytes) {
  void *found = memalign(alignment, bytes);
  if (found)
    *block = found;
  return found ? 0 : NO_MEMORY;
}
