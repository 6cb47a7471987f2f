/*
 * What a machine without a C library has to bring: the two functions that
 * compilers ask of every environment, and a stack.
 */
#include "boot.h"

/* libbootfw.a needs both, boot.c too. They are single instructions: a
 * compiler may turn a loop that fills or copies bytes into a call of the very
 * function it stands in. */
void *memset(void *to, int byte, size_t size)
{
    void *at = to;

    __asm__ volatile("rep stosb" : "+D"(at), "+c"(size) : "a"(byte) : "memory");
    return to;
}

void *memcpy(void *restrict to, const void *restrict from, size_t size)
{
    void *at = to;

    __asm__ volatile("rep movsb" : "+D"(at), "+S"(from), "+c"(size) : : "memory");
    return to;
}

struct boot_stack boot_stack;

/* Calls the program with the stack pointer at `end`, a multiple of 16, and comes
 * back to the caller's stack, which rbp keeps meanwhile: every function gives
 * rbp back as it was. The arguments arrive in rdi, rsi and rdx; rdi is already
 * where the program expects its own. */
void boot_call_at(struct boot_machine *machine, void (*program)(struct boot_machine *machine),
                  uint8_t *end);

__asm__(".pushsection .text\n"
        ".globl boot_call_at\n"
        ".type boot_call_at, @function\n"
        "boot_call_at:\n"
        "    push %rbp\n"
        "    mov %rsp, %rbp\n"
        "    mov %rdx, %rsp\n"
        "    call *%rsi\n"
        "    mov %rbp, %rsp\n"
        "    pop %rbp\n"
        "    ret\n"
        ".size boot_call_at, . - boot_call_at\n"
        ".popsection\n");

void boot_on_stack(void (*program)(struct boot_machine *machine), struct boot_machine *machine)
{
    boot_call_at(machine, program, boot_stack.bytes + sizeof boot_stack.bytes);
}
