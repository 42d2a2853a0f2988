// What a check can read of a boot: bytes written to QEMU's debug console, port 0x403.
#include <efi.h>

// Of the function that flat.lds puts first.
#define ENTRY __attribute__((section(".text.entry")))

static inline void put(UINT8 byte) {
    __asm__ volatile("outb %0, %1" : : "a"(byte), "Nd"((UINT16)0x403));
}

static void say(const char *text) {
    while (*text) put(*text++);
}
