/* For LD_PRELOAD under the program, by `bench/faults`: a server that runs the program again and again without starting it anew, and an allocator
   that refuses. The server stands in front of the program's own initialisation. A request on descriptor 3 has the numbers of the first and the last
   allocation to be refused, counted from 1, and the seven words of the line. A child of the server takes these for its own and runs the program on
   descriptors 0 to 2; it has LONGEST seconds. The answer on descriptor 4 is its wait status and how often it asked for memory. */
#include <errno.h>
#include <stddef.h>
#include <stdlib.h>
#include <string.h>
#include <sys/mman.h>
#include <sys/wait.h>
#include <unistd.h>

extern void *__libc_malloc(size_t);
extern void *__libc_calloc(size_t, size_t);
extern void *__libc_realloc(void *, size_t);
extern void *__libc_memalign(size_t, size_t);

enum { WORDS = 7, LONGEST = 60 };

struct request {
    unsigned long first, last;
    char words[WORDS][24];
};

struct answer {
    unsigned long status, calls;
};

static struct request asked;
static unsigned long *calls;

__attribute__((constructor)) static void serve(int argc, char **argv) {
    if (argc != WORDS + 1) return;
    unsigned long *shared = mmap(NULL, sizeof *shared, PROT_READ | PROT_WRITE, MAP_SHARED | MAP_ANONYMOUS, -1, 0);
    if (shared == MAP_FAILED) _exit(101);
    while (read(3, &asked, sizeof asked) == sizeof asked) {
        *shared = 0;
        pid_t child = fork();
        if (child == 0) {
            for (int i = 0; i < WORDS; i++) argv[i + 1] = asked.words[i];
            close(3);
            close(4);
            alarm(LONGEST);
            calls = shared;
            return;
        }
        int status = 0;
        if (child < 0 || waitpid(child, &status, 0) != child) _exit(102);
        struct answer answer = {(unsigned long)status, *shared};
        if (write(4, &answer, sizeof answer) != sizeof answer) _exit(103);
    }
    _exit(0);
}

/* Whether this call is refused. */
static int refused(void) {
    if (!calls) return 0;
    unsigned long call = ++*calls;
    if (call < asked.first || call > asked.last) return 0;
    errno = ENOMEM;
    return 1;
}

void *malloc(size_t size) { return refused() ? NULL : __libc_malloc(size); }
void *calloc(size_t items, size_t size) { return refused() ? NULL : __libc_calloc(items, size); }
void *realloc(void *block, size_t size) { return refused() ? NULL : __libc_realloc(block, size); }
void *memalign(size_t place, size_t size) { return refused() ? NULL : __libc_memalign(place, size); }
void *aligned_alloc(size_t place, size_t size) { return memalign(place, size); }

int posix_memalign(void **block, size_t place, size_t size) {
    void *got = refused() ? NULL : __libc_memalign(place, size);
    if (!got) return ENOMEM;
    *block = got;
    return 0;
}
