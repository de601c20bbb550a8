/* Buffers of exactly the words that are asked for.
 *
 * With GUARD_PAGES a buffer ends where a page begins that nobody may touch, so a read or a write past its end stops the program, in the
 * archive too, which a sanitizer does not see; the unused words before it are filled and must be as they were after the call. Without, it
 * comes from malloc, for the sanitizers. An empty buffer has a pointer that is not null. */
#ifndef LEND_H
#define LEND_H

#include <stddef.h>
#include <stdint.h>
#include <stdio.h>
#include <stdlib.h>

static void no_memory(void)
{
    fputs("no memory\n", stderr);
    exit(2);
}

#ifdef GUARD_PAGES

#include <sys/mman.h>
#include <unistd.h>

#define UNUSED_WORD 0xa5a5a5a5u

static size_t page_words(void)
{
    return (size_t)sysconf(_SC_PAGESIZE) / sizeof(uint32_t);
}

/* Words of all pages of a buffer but the last, which is the guard. */
static size_t open_words(size_t len)
{
    return (len / page_words() + 1) * page_words();
}

static uint32_t *lend_words(size_t len)
{
    size_t open = open_words(len), all = open + page_words();
    uint32_t *pages = mmap(NULL, all * sizeof(uint32_t), PROT_READ | PROT_WRITE, MAP_PRIVATE | MAP_ANONYMOUS, -1, 0);
    if (pages == MAP_FAILED || mprotect(pages + open, page_words() * sizeof(uint32_t), PROT_NONE) != 0)
        no_memory();
    for (size_t i = 0; i < open - len; i++)
        pages[i] = UNUSED_WORD;
    return pages + (open - len);
}

/* Whether nothing was written before the buffer. */
static int untouched_before(const uint32_t *words, size_t len)
{
    size_t before = open_words(len) - len;
    for (size_t i = 1; i <= before; i++)
        if (*(words - i) != UNUSED_WORD)
            return 0;
    return 1;
}

static void give_back_words(uint32_t *words, size_t len)
{
    size_t open = open_words(len);
    munmap(words - (open - len), (open + page_words()) * sizeof(uint32_t));
}

#else

static uint32_t *lend_words(size_t len)
{
    uint32_t *words = malloc(len > 0 ? len * sizeof(uint32_t) : 1);
    if (words == NULL)
        no_memory();
    return words;
}

static int untouched_before(const uint32_t *words, size_t len)
{
    (void)words, (void)len;
    return 1;
}

static void give_back_words(uint32_t *words, size_t len)
{
    (void)len;
    free(words);
}

#endif

#endif
