/* The part of this header that library.c needs, for Windows. */
#include <windows.h>
enum { PROT_NONE, PROT_READ, PROT_WRITE, MAP_PRIVATE = 0, MAP_ANONYMOUS = 0 };
#define MAP_FAILED NULL
#define ALLOWED(may) ((may) & PROT_WRITE ? PAGE_READWRITE : (may) ? PAGE_READONLY : PAGE_NOACCESS)
#define mmap(at, len, may, kind, file, from) VirtualAlloc(at, len, MEM_COMMIT | MEM_RESERVE, ALLOWED(may))
#define munmap(at, len) VirtualFree(at, 0, MEM_RELEASE)
#define mprotect(at, len, may) (VirtualProtect(at, len, ALLOWED(may), &(DWORD){ 0 }) ? 0 : -1)
#define sysconf(name) 4096 /* the size of a page */
