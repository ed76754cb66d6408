/* Stands before the C library's read and write, and makes of them a system that is hard to work with. READS and WRITES have a letter for one call after
 * another on standard input and standard output, over and over: f moves few bytes (FEW) at most, i is interrupted before the first byte, e fails. */
#include <errno.h>
#include <stddef.h>

static long ask(long number, int fd, const void *bytes, size_t n) {
    long answer;
    __asm__ volatile("syscall" : "=a"(answer) : "a"(number), "D"(fd), "S"(bytes), "d"(n) : "rcx", "r11", "memory");
    return answer;
}

static long step(char letter, long number, int fd, const void *bytes, size_t n) {
    switch (letter) {
    case 'i': return -EINTR;
    case 'e': return -EIO;
    default: return ask(number, fd, bytes, n < FEW ? n : FEW);
    }
}

static long settle(long answer) {
    if (answer >= 0) return answer;
    errno = (int)-answer;
    return -1;
}

long read(int fd, void *bytes, size_t n) {
    static const char letters[] = READS;
    static size_t calls;
    return settle(fd == 0 ? step(letters[calls++ % (sizeof letters - 1)], 0, fd, bytes, n) : ask(0, fd, bytes, n));
}

long write(int fd, const void *bytes, size_t n) {
    static const char letters[] = WRITES;
    static size_t calls;
    return settle(fd == 1 ? step(letters[calls++ % (sizeof letters - 1)], 1, fd, bytes, n) : ask(1, fd, bytes, n));
}
