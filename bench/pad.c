// So many times 16 bytes before all other code. The same loop can go at two thirds of its speed where it lies across two lines of the instruction
// cache; with four programs, each moved on by 16 bytes, every loop has its good place in one of them.
#if PAD
__attribute__((used, retain, aligned(16), section(".text.pad"))) static const unsigned char pad[16 * PAD] = {0};
#endif
typedef int none;
