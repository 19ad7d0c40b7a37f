/* Stands between a program and malloc and realloc: of the program's requests for memory, counted from 1, that with the
   number in REFUSED gets none, and with BEHIND none behind it, either. The first that is refused is told on standard
   error. */
#include <errno.h>
#include <stdlib.h>
#include <unistd.h>

#define MARK "[a request for memory is refused]"

extern void *__libc_malloc(size_t);
extern void *__libc_realloc(void *, size_t);

static unsigned long requests, refused;
static int behind;

__attribute__((constructor)) static void read_words(void)
{
    const char *number = getenv("REFUSED");
    refused = number ? strtoul(number, NULL, 10) : 0;
    behind = getenv("BEHIND") != NULL;
}

static int refuses(void)
{
    requests++;
    if (requests == refused && write(STDERR_FILENO, MARK, sizeof MARK - 1) != sizeof MARK - 1)
        _exit(125);
    return requests == refused || (behind && refused && requests > refused);
}

void *malloc(size_t size)
{
    if (!refuses())
        return __libc_malloc(size);
    errno = ENOMEM;
    return NULL;
}

void *realloc(void *block, size_t size)
{
    if (!refuses())
        return __libc_realloc(block, size);
    errno = ENOMEM;
    return NULL;
}
