/* The programs' machine on a bare board: start-up, and the host's files by semihosting, which qemu answers and a debugger would. */
#include "machine.h"
#include <string.h>

extern uint32_t data_from[], data_begin[], data_end[], bss_begin[], bss_end[], stack_top[];
int main(void);

/* The operations of Arm's semihosting, which RISC-V has too. */
enum { OPEN = 0x01, CLOSE = 0x02, WRITE = 0x05, READ = 0x06, EXIT_EXTENDED = 0x20 };
enum { READ_BINARY = 1, WRITE_TEXT = 4 };

static uintptr_t ask_host(uintptr_t operation, const void *block)
{
#if defined(__arm__)
    register uintptr_t answer __asm__("r0") = operation;
    register const void *at __asm__("r1") = block;
    __asm__ volatile("bkpt 0xab" : "+r"(answer) : "r"(at) : "memory");
#else
    register uintptr_t answer __asm__("a0") = operation;
    register const void *at __asm__("a1") = block;
    __asm__ volatile(".option push\n.option norvc\n.balign 16\n"
                     "slli x0, x0, 0x1f\nebreak\nsrai x0, x0, 7\n"
                     ".option pop"
                     : "+r"(answer)
                     : "r"(at)
                     : "memory");
#endif
    return answer;
}

static intptr_t opened(const char *name, uintptr_t mode)
{
    uintptr_t block[3] = {(uintptr_t)name, mode, strlen(name)};
    return (intptr_t)ask_host(OPEN, block);
}

void machine_write(const char *bytes, size_t len)
{
    static intptr_t standard_output = -1;
    if (standard_output == -1) standard_output = opened(":tt", WRITE_TEXT);
    uintptr_t block[3] = {(uintptr_t)standard_output, (uintptr_t)bytes, len};
    ask_host(WRITE, block);
}

size_t machine_read(const char *name, char *bytes, size_t room)
{
    intptr_t file = opened(name, READ_BINARY);
    if (file == -1) return 0;
    uintptr_t block[3] = {(uintptr_t)file, (uintptr_t)bytes, room};
    size_t unread = ask_host(READ, block);
    ask_host(CLOSE, block);
    return room - unread;
}

static void ended(int status)
{
    uintptr_t application_exit[2] = {0x20026, (uintptr_t)status};
    ask_host(EXIT_EXTENDED, application_exit);
    for (;;) {}
}

/* Entered with the stack at its top: memory as C wants it, then main. */
void start(void)
{
    uint32_t *from = data_from;
    for (uint32_t *to = data_begin; to != data_end; to++) *to = *from++;
    for (uint32_t *to = bss_begin; to != bss_end; to++) *to = 0;
    ended(main());
}

/* A fault, or a trap of the library's where the proofs say that nothing comes. */
void fault(void)
{
    static const char said[] = "machine: fault\n";
    machine_write(said, sizeof said - 1);
    ended(3);
}

#if defined(__arm__)
__attribute__((section(".vectors"), used)) static void *const vectors[16] = {
    stack_top, (void *)start, (void *)fault, (void *)fault, (void *)fault, (void *)fault, (void *)fault, (void *)fault,
};
#else
__asm__(".section .vectors, \"ax\"\n.option arch, +zicsr\n.global _start\n"
        "_start:\nla sp, stack_top\nla t0, trapped\ncsrw mtvec, t0\nj start\n"
        ".balign 4\ntrapped:\nj fault\n");
#endif
