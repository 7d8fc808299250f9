/* Preloaded into a program, refuses one growth of memory: number REFUSE_GROWTH, counted from 1 over all threads. It
   then makes the file that REFUSED names. Each later growth is granted. At the end of the process it writes into the
   file that KEPT names how many blocks were never given back, once the C library has given back its own. */
extern void *__libc_malloc(unsigned long size);
extern void *__libc_calloc(unsigned long count, unsigned long size);
extern void *__libc_realloc(void *memory, unsigned long size);
extern void __libc_free(void *memory);
extern void __libc_freeres(void);
extern char *getenv(const char *name);
extern long atol(const char *text);
extern int open(const char *path, int flags, ...);
extern int creat(const char *path, unsigned mode);
extern int dprintf(int file, const char *form, ...);
extern int close(int file);
extern void _Exit(int status) __attribute__((noreturn));

static long left, blocks;

static int is_refused(void) {
  if (__atomic_load_n(&left, __ATOMIC_SEQ_CST) < 1 || __atomic_sub_fetch(&left, 1, __ATOMIC_SEQ_CST) != 0)
    return 0;
  const char *path = getenv("REFUSED");
  if (path)
    close(creat(path, 0600));
  return 1;
}

static void *counted(void *memory) {
  if (memory)
    __atomic_add_fetch(&blocks, 1, __ATOMIC_SEQ_CST);
  return memory;
}

void *malloc(unsigned long size) { return is_refused() ? 0 : counted(__libc_malloc(size)); }

void *calloc(unsigned long count, unsigned long size) { return counted(__libc_calloc(count, size)); }

void *realloc(void *memory, unsigned long size) {
  if (is_refused())
    return 0;
  return memory ? __libc_realloc(memory, size) : counted(__libc_realloc(0, size));
}

void free(void *memory) {
  if (memory)
    __atomic_sub_fetch(&blocks, 1, __ATOMIC_SEQ_CST);
  __libc_free(memory);
}

__attribute__((constructor)) static void begin(void) {
  const char *number = getenv("REFUSE_GROWTH");
  left = number ? atol(number) : 0;
}

/* (the file is opened first: __libc_freeres gives back the environment as well) */
__attribute__((destructor)) static void end(void) {
  const char *path = getenv("KEPT");
  int file = path ? creat(path, 0600) : -1;
  if (file < 0)
    return;
  __libc_freeres();
  dprintf(file, "%ld\n", __atomic_load_n(&blocks, __ATOMIC_SEQ_CST));
  close(file);
}

/* (a program ends by _exit, which calls no destructor) */
__attribute__((noreturn)) void _exit(int status) {
  end();
  _Exit(status);
}
