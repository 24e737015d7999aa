// Refuses one growth of a program's memory, for bench/refusing.py: built as a shared object and named by LD_PRELOAD,
// it is loaded before the C library's calls that give memory, and before the one that makes a thread.
//
//   REFUSE_AT=N     the Nth growth is refused, from 1 on; with 0, or unset, none is
//   REFUSE_ON=1     and every growth behind it
//   REFUSE_TOLD=F   at the end one line goes to the file F: growths, refused, threads, blocks that are still held
//
// A growth is a call from the program's own code; what the C library allocates for itself is left alone, but for the making
// of a thread, which is a growth as well. A growth that is refused answers as the C library does where it has no memory.
// A block that is resized counts as a growth where it gets larger or is moved into one, since only there it may be refused.
#define _GNU_SOURCE
#include <dlfcn.h>
#include <errno.h>
#include <fcntl.h>
#include <link.h>
#include <malloc.h>
#include <pthread.h>
#include <stdatomic.h>
#include <stdint.h>
#include <stdio.h>
#include <stdlib.h>
#include <sys/syscall.h>
#include <unistd.h>

extern void *__libc_malloc(size_t), *__libc_calloc(size_t, size_t), *__libc_realloc(void *, size_t), *__libc_memalign(size_t, size_t);
extern void __libc_free(void *);

static atomic_long growths, refused, threads, held;
static long refuse_at, refuse_on;
static uintptr_t code_start, code_end;

// The first object of all is the program.
static int find_code(struct dl_phdr_info *object, size_t size, void *unused) {
  (void)size, (void)unused;
  for (int i = 0; i < object->dlpi_phnum; i++) {
    const ElfW(Phdr) *part = &object->dlpi_phdr[i];
    if (part->p_type != PT_LOAD || !(part->p_flags & PF_X)) continue;
    code_start = object->dlpi_addr + part->p_vaddr;
    code_end = code_start + part->p_memsz;
  }
  return 1;
}

static long number_of(const char *name) {
  const char *value = getenv(name);
  return value ? atol(value) : 0;
}

__attribute__((constructor)) static void begin(void) {
  refuse_at = number_of("REFUSE_AT");
  refuse_on = number_of("REFUSE_ON");
  dl_iterate_phdr(find_code, NULL);
}

static void tell(void) {
  const char *name = getenv("REFUSE_TOLD");
  int file = name ? open(name, O_WRONLY | O_CREAT | O_TRUNC, 0600) : -1;
  if (file < 0) return;
  char line[100];
  int length = snprintf(line, sizeof line, "%ld %ld %ld %ld\n", growths, refused, threads, held);
  if (write(file, line, length) != length) abort();
  close(file);
}

// A program ends by its main or by this call.
__attribute__((destructor)) static void end(void) { tell(); }

void _exit(int status) {
  tell();
  syscall(SYS_exit_group, status);
  __builtin_unreachable();
}

#define IS_OWN ((uintptr_t)__builtin_return_address(0) - code_start < code_end - code_start)

// Whether this growth is refused.
static int is_refused(void) {
  long number = atomic_fetch_add(&growths, 1) + 1;
  int is = refuse_at > 0 && (number == refuse_at || (refuse_on && number > refuse_at));
  if (is) atomic_fetch_add(&refused, 1), errno = ENOMEM;
  return is;
}

static void *given(void *block) {
  if (block) atomic_fetch_add(&held, 1);
  return block;
}

void *malloc(size_t size) {
  if (!IS_OWN) return __libc_malloc(size);
  return is_refused() ? NULL : given(__libc_malloc(size));
}

void *calloc(size_t count, size_t size) {
  if (!IS_OWN) return __libc_calloc(count, size);
  return is_refused() ? NULL : given(__libc_calloc(count, size));
}

void *realloc(void *block, size_t size) {
  if (!IS_OWN) return __libc_realloc(block, size);
  if (!block) return is_refused() ? NULL : given(__libc_realloc(block, size));
  if (size > malloc_usable_size(block) && is_refused()) return NULL;
  return __libc_realloc(block, size);
}

void *memalign(size_t alignment, size_t size) {
  if (!IS_OWN) return __libc_memalign(alignment, size);
  return is_refused() ? NULL : given(__libc_memalign(alignment, size));
}

void *aligned_alloc(size_t alignment, size_t size) {
  if (!IS_OWN) return __libc_memalign(alignment, size);
  return is_refused() ? NULL : given(__libc_memalign(alignment, size));
}

int posix_memalign(void **place, size_t alignment, size_t size) {
  int is_own = IS_OWN;
  if (is_own && is_refused()) return ENOMEM;
  void *block = __libc_memalign(alignment, size);
  if (!block) return ENOMEM;
  *place = is_own ? given(block) : block;
  return 0;
}

void free(void *block) {
  if (block && IS_OWN) atomic_fetch_sub(&held, 1);
  __libc_free(block);
}

int pthread_create(pthread_t *thread, const pthread_attr_t *how, void *(*run)(void *), void *with) {
  static int (*create)(pthread_t *, const pthread_attr_t *, void *(*)(void *), void *);
  if (!create) create = (int (*)(pthread_t *, const pthread_attr_t *, void *(*)(void *), void *))dlsym(RTLD_NEXT, "pthread_create");
  if (IS_OWN && is_refused()) return EAGAIN;
  atomic_fetch_add(&threads, 1);
  return create(thread, how, run, with);
}
