/* Start and end of a static x86-64 Linux program, its output, and the memory functions that a compiler calls. */
#include "freestanding.h"

#include <string.h>

enum { SYSTEM_WRITE = 1, SYSTEM_EXIT = 60 };

static long system_call(long number, long a, long b, long c)
{
    long answer;
    __asm__ volatile("syscall" : "=a"(answer) : "a"(number), "D"(a), "S"(b), "d"(c) : "rcx", "r11", "memory");
    return answer;
}

/* Entered with the count of arguments at the stack pointer and the arguments after it. */
__attribute__((naked, noreturn, used)) void _start(void)
{
    __asm__("mov %rsp, %rdi\n\tand $-16, %rsp\n\tcall begin");
}

__attribute__((noreturn, used)) void begin(long *stack)
{
    long status = run((int)stack[0], (char **)(stack + 1));
    for (;;)
        system_call(SYSTEM_EXIT, status, 0, 0);
}

void print(const char *text)
{
    system_call(SYSTEM_WRITE, 1, (long)text, (long)strlen(text));
}

void print_number(uint64_t number)
{
    char digits[21] = {0};
    char *digit = digits + 20;
    do {
        *--digit = (char)('0' + number % 10);
        number /= 10;
    } while (number > 0);
    print(digit);
}

uint64_t ticks(void)
{
    uint32_t low, high;
    __asm__ volatile("lfence\n\trdtsc\n\tlfence" : "=a"(low), "=d"(high) : : "memory");
    return (uint64_t)high << 32 | low;
}

void *memcpy(void *restrict to, const void *restrict from, size_t length)
{
    uint8_t *restrict target = to;
    const uint8_t *restrict source = from;
    for (size_t i = 0; i < length; i++)
        target[i] = source[i];
    return to;
}

void *memmove(void *to, const void *from, size_t length)
{
    uint8_t *target = to;
    const uint8_t *source = from;
    if (target <= source)
        for (size_t i = 0; i < length; i++)
            target[i] = source[i];
    else
        for (size_t i = length; i > 0; i--)
            target[i - 1] = source[i - 1];
    return to;
}

void *memset(void *to, int byte, size_t length)
{
    uint8_t *target = to;
    for (size_t i = 0; i < length; i++)
        target[i] = (uint8_t)byte;
    return to;
}

static int order(uint64_t a, uint64_t b)
{
    return a < b ? -1 : a > b;
}

/* By eight bytes, then by four, as big-endian numbers, then byte by byte. */
int memcmp(const void *a, const void *b, size_t length)
{
    const uint8_t *left = a, *right = b;
    for (; length >= 8; length -= 8, left += 8, right += 8) {
        uint64_t x, y;
        __builtin_memcpy(&x, left, sizeof x);
        __builtin_memcpy(&y, right, sizeof y);
        if (x != y)
            return order(__builtin_bswap64(x), __builtin_bswap64(y));
    }
    if (length >= 4) {
        uint32_t x, y;
        __builtin_memcpy(&x, left, sizeof x);
        __builtin_memcpy(&y, right, sizeof y);
        if (x != y)
            return order(__builtin_bswap32(x), __builtin_bswap32(y));
        length -= 4, left += 4, right += 4;
    }
    for (; length > 0; length--, left++, right++)
        if (*left != *right)
            return order(*left, *right);
    return 0;
}

int bcmp(const void *a, const void *b, size_t length)
{
    return memcmp(a, b, length);
}

size_t strlen(const char *text)
{
    size_t length = 0;
    while (text[length])
        length++;
    return length;
}
