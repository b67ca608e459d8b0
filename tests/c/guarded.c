#define _DEFAULT_SOURCE /* MAP_ANONYMOUS */

#include "guarded.h"

#include <stdio.h>
#include <stdlib.h>
#include <string.h>
#include <sys/mman.h>
#include <unistd.h>

#define PATTERN 0xA5

static size_t page_size(void)
{
    return (size_t)sysconf(_SC_PAGESIZE);
}

/* What lies between the pages without access. */
static size_t room(void)
{
    return 2 * page_size();
}

static void protect(uint8_t *pages, int access)
{
    if (mprotect(pages, room(), access) != 0) {
        perror("guard: mprotect");
        exit(2);
    }
}

void guarded_map(struct guarded *buffer)
{
    void *pages = mmap(NULL, room() + 2 * page_size(), PROT_NONE, MAP_PRIVATE | MAP_ANONYMOUS, -1, 0);
    if (pages == MAP_FAILED) {
        perror("guard: mmap");
        exit(2);
    }
    buffer->pages = (uint8_t *)pages + page_size();
    buffer->bytes = buffer->pages;
    buffer->length = 0;
    protect(buffer->pages, PROT_READ | PROT_WRITE);
}

void guarded_lay(struct guarded *buffer, enum side side, const uint8_t *content, size_t length)
{
    memset(buffer->pages, PATTERN, room());
    buffer->bytes = side == ENDS_AT_PAGE ? buffer->pages + room() - length : buffer->pages;
    buffer->length = length;
    memcpy(buffer->bytes, content, length);
}

void guarded_forbid_writes(struct guarded *buffer)
{
    protect(buffer->pages, PROT_READ);
}

void guarded_allow_writes(struct guarded *buffer)
{
    protect(buffer->pages, PROT_READ | PROT_WRITE);
}

/* The first byte is the pattern's and each equals the next. */
static bool is_pattern(const uint8_t *bytes, size_t length)
{
    return length == 0 || (bytes[0] == PATTERN && memcmp(bytes, bytes + 1, length - 1) == 0);
}

bool guarded_rest_kept(const struct guarded *buffer)
{
    size_t before = (size_t)(buffer->bytes - buffer->pages);
    size_t behind = room() - before - buffer->length;
    return is_pattern(buffer->pages, before) && is_pattern(buffer->bytes + buffer->length, behind);
}
