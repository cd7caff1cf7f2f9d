/* Moves the code that is linked after it by 16 bytes, and does nothing else. */
__asm__(".text\n.skip 16, 0x90\n");
