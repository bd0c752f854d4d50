/* What the tests of the library in C share: see tools/library. */
#include <cuvezhin.h>

#include <stdio.h>
#include <string.h>

static int passed, failed;

#define IS(what, wanted) is(__LINE__, #what, (int64_t)(what), (int64_t)(wanted))
#define T(text) (const uint8_t *)(text), sizeof(text) - 1

static void is(int line, const char *what, int64_t was, int64_t wanted)
{
    passed += was == wanted;
    if (was != wanted) {
        failed++;
        printf("line %d: %s is %lld, not %lld\n", line, what, (long long)was, (long long)wanted);
    }
}

static size_t unhex(const char *text, uint8_t *to)
{
    size_t n = 0;
    unsigned byte;
    for (; *text; text += *text == ' ')
        for (; *text && *text != ' ' && sscanf(text, "%2x", &byte) == 1; text += 2)
            to[n++] = (uint8_t)byte;
    return n;
}

static void bytes_are(int line, const uint8_t *was, size_t size, const char *wanted)
{
    uint8_t those[4096];
    size_t n = unhex(wanted, those);
    if (n == size && memcmp(was, those, n) == 0) {
        passed++;
        return;
    }
    failed++;
    printf("line %d: the bytes are", line);
    for (size_t i = 0; i < size; i++)
        printf("%s%02x", i % 4 ? "" : " ", was[i]);
    printf("\nand not %s\n", wanted);
}
