/* What callers take from Linux, on Windows: streams of bytes, and memory between pages that nobody may touch. */
#pragma once
#include <fcntl.h>
#include <io.h>
#include <windows.h>
#define PROT_NONE PAGE_NOACCESS
#define PROT_READ 0
#define PROT_WRITE PAGE_READWRITE
#define MAP_PRIVATE MEM_RESERVE
#define MAP_ANONYMOUS MEM_COMMIT
#define MAP_FAILED NULL
#define mmap(at, size, access, flags, file, offset) VirtualAlloc(at, size, flags, access)
#define mprotect(at, size, access) VirtualProtect(at, size, access, &(DWORD){0})
#define munmap(at, size) VirtualFree(at, 0, MEM_RELEASE)
__attribute__((constructor)) static void use_bytes(void) { _setmode(0, _O_BINARY), _setmode(1, _O_BINARY), _setmode(2, _O_BINARY); }
