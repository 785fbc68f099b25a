/* Refuses memory, for scripts/memory-test and scripts/fail-alloc, which load it before the C library. It counts allocations,
   refuses the one of the number REFUSED, all from the number FROM on, all behind the first of MARK bytes, and those that would
   hold more than BOUND bytes at once, and leaves in the file COUNTED their count, the most bytes that were held, and how many
   were asked for behind the mark, or -1 where it was not met. */
#include <errno.h>
#include <malloc.h>
#include <stdio.h>
#include <stdlib.h>
extern void *__libc_malloc(size_t), *__libc_calloc(size_t, size_t), *__libc_realloc(void *, size_t), *__libc_memalign(size_t, size_t);
extern void __libc_free(void *);
static long count, refused = -1, from, bound, mark, marked, held, most;
static long word(const char *name) { const char *text = getenv(name); return text ? atol(text) : 0; }
static int is_refused(size_t size, void *old) {
    if (refused < 0) { refused = word("REFUSED"); from = word("FROM"); bound = word("BOUND"); mark = word("MARK"); }
    long more = (long)size - (old ? (long)malloc_usable_size(old) : 0);
    if (++count && marked) return 1;
    if (mark && (long)size == mark) marked = count;
    return count == refused || (from && count >= from) || (bound && held + more > bound);
}
static void *counted(void *made) {
    if (made) held += malloc_usable_size(made);
    if (held > most) most = held;
    return made;
}
void *malloc(size_t size) { return is_refused(size, NULL) ? NULL : counted(__libc_malloc(size)); }
void *calloc(size_t many, size_t size) { return is_refused(many * size, NULL) ? NULL : counted(__libc_calloc(many, size)); }
void *aligned_alloc(size_t step, size_t size) { return is_refused(size, NULL) ? NULL : counted(__libc_memalign(step, size)); }
void free(void *old) { if (old) held -= malloc_usable_size(old); __libc_free(old); }
void *realloc(void *old, size_t size) {
    if (is_refused(size, old)) return NULL;
    long before = old ? malloc_usable_size(old) : 0;
    void *made = __libc_realloc(old, size);
    if (made) held -= before;
    return counted(made);
}
int posix_memalign(void **to, size_t step, size_t size) {
    if (is_refused(size, NULL)) return ENOMEM;
    *to = counted(__libc_memalign(step, size));
    return *to ? 0 : ENOMEM;
}
__attribute__((destructor)) static void tell(void) {
    long total = count, at_most = most, behind = marked ? count - marked : -1;
    FILE *file = (bound = from = mark = marked = 0, fopen(getenv("COUNTED"), "w"));
    if (file) { fprintf(file, "%ld %ld %ld\n", total, at_most, behind); fclose(file); }
}
