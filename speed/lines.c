/* To be preloaded to Debian's emulator on Arm: says that a line of the instruction cache has 64 bytes.
 *
 * For some processors (Neoverse N1) the kernel says 4096. The emulator keeps each piece of translated code on lines of its own, so that each stands on a page
 * of its own; the cache then holds eight of them, and a program with longer ways takes up to five times as long, now more, now less. */
#define _GNU_SOURCE
#include <dlfcn.h>
#include <unistd.h>

long sysconf(int name) {
    if (name == _SC_LEVEL1_ICACHE_LINESIZE) return 64;
    long (*said)(int) = (long (*)(int))dlsym(RTLD_NEXT, "sysconf");
    return said(name);
}
