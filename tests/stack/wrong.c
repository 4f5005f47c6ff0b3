/*
 * wrong.c - the twelve entries, reduced to what they do with the stack, to test
 * .ci/check-stack: WRONG=0 is a right program, for which the check must print
 * these numbers (entry, frames, with red zone, where memset begins):
 *
 *   0: sct_take 64 112 0
 *   0: sct_serve 128 176 88
 *   0: sct_give 64 112 0
 *   0: sct_work 8 136 0
 *   0: sct_lock 8 8 0
 *   0: sct_unlock 8 136 0
 *   0: sct_set_visible 24 136 0
 *   0: sct_sample 56 56 0
 *   0: sct_repair 56 104 0
 *   0: sct_save 8 8 8
 *   0: sct_power_on 24 104 0
 *   0: sct_convert 24 24 0
 *
 * Each other number is a wrong program, which it must refuse with these words:
 *
 *   1: recursion (down)
 *   2: recursion (even, odd)
 *   3: a call that is not resolved
 *   4: a jump that is not resolved
 *   5: a jump by a table that is not constant
 *   6: the stack pointer is changed or used in a way that is not followed
 *   7: not below 1024
 *   8: not below 1024
 *   9: not below 1024
 *  10: memcpy is no function of the archive
 *  11: sct_unlock of sct_disk.h is not in the archive
 *  12: the stack pointer is changed or used in a way that is not followed
 *  13: not understood
 *  14: ways meet with the stack pointer at
 *  15: the stack pointer is not where it was
 *  16: the stack pointer is above the return address
 *  17: below the red zone
 *  18: the function is left with bytes reserved
 *  19: falls: the function is left:
 *  20: by_table_out: the function is left:
 *  21: a jump that is not resolved
 *  22: a table that leads to leaf
 *  23: this is no function of the archive
 *  24: not below 1024
 *  25: an operand is not understood
 */
#include <string.h>

#include "sct_disk.h"

/* ---- The right program ------------------------------------------------------- */

/* In assembly, so that its numbers do not depend on a compiler; sct_lock, below, is in C. */

#define FUNCTION(name, body) \
    __asm__(".text\n .globl " #name "\n .type " #name ", @function\n" #name ":\n" body ".text\n")
#define BY_TABLE(table) "lea " table "(%rip), %rax\n movslq (%rax,%rdi,4), %rcx\n add %rax, %rcx\n"

FUNCTION(leaf, "push %rbx\n movb $0, -0x30(%rsp)\n pop %rbx\n ret\n");
FUNCTION(sct_take, "push %rbx\n sub $0x20, %rsp\n call leaf\n add $0x20, %rsp\n pop %rbx\n ret\n");
FUNCTION(sct_serve, "push %rbx\n" BY_TABLE(".Lserve") "jmp *%rcx\n"
         ".Lnothing: pop %rbx\n ret\n"
         ".Lmemset: sub $0x40, %rsp\n call memset\n add $0x40, %rsp\n pop %rbx\n ret\n"
         ".Ldeep: sub $0x60, %rsp\n call leaf\n add $0x60, %rsp\n pop %rbx\n ret\n"
         ".section .rodata\n .balign 4\n"
         ".Lserve: .long .Lnothing - .Lserve, .Lmemset - .Lserve, .Ldeep - .Lserve\n");
FUNCTION(sct_give, "mov $1, %eax\n jmp sct_take\n");                        /* in its place */
FUNCTION(sct_work, "movb $0, 8(%rsp,%rax)\n ret\n");                       /* anywhere in the red zone */
#if WRONG != 11
FUNCTION(sct_unlock, "lea 8(%rsp), %rax\n movb $0, -0x40(%rax)\n ret\n");  /* as well */
#endif
FUNCTION(sct_set_visible, "movb $0, -0x60(%rsp,%rax)\n call leaf\n ret\n");
FUNCTION(sct_sample, "lea -0x28(%rsp), %rsp\n push $1\n add $8, %rsp\n lea 0x28(%rsp), %rsp\n ret\n");
FUNCTION(sct_repair, "push %rbx\n test %edi, %edi\n je .Lmeet\n"
         "sub $0x18, %rsp\n movb $0, 8(%rsp,%rax)\n call leaf\n add $0x18, %rsp\n"
         ".Lmeet: pop %rbx\n ret\n");
FUNCTION(sct_save, "jmp memset\n");
FUNCTION(sct_power_on, "lea -0x60(%rsp), %rax\n call leaf\n ret\n");
FUNCTION(sct_convert, ".Lagain: push %rax\n pop %rax\n dec %edi\n jne .Lagain\n test %esi, %esi\n je .Lunreached\n ret\n"
         ".Lunreached: push %rax\n push %rax\n ud2\n");

/* ---- Wrong functions in assembly ----------------------------------------------- */

#define WRONG_FUNCTION(name, body) FUNCTION(name, body); uint32_t name(void)

WRONG_FUNCTION(by_writable_table, BY_TABLE(".Lwritable") "jmp *%rcx\n"
               ".Lplace: ret\n .data\n .balign 4\n .Lwritable: .long .Lplace - .Lwritable\n");
WRONG_FUNCTION(nearly, "sub $0x3e0, %rsp\n movb $0, -0x20(%rsp)\n add $0x3e0, %rsp\n ret\n");
WRONG_FUNCTION(framed, "push %rbp\n mov %rsp, %rbp\n sub $0x20, %rsp\n leave\n ret\n");
WRONG_FUNCTION(meets, "push %rbx\n test %edi, %edi\n je .Lmet\n push %rbx\n .Lmet: pop %rbx\n ret\n");
WRONG_FUNCTION(keeps, "push %rbx\n ret\n");
WRONG_FUNCTION(pops, "pop %rax\n push %rax\n ret\n");
WRONG_FUNCTION(reaches, "movb $0, -0x81(%rsp)\n ret\n");
WRONG_FUNCTION(jumps, "push %rbx\n jmp leaf\n");
WRONG_FUNCTION(by_table_out, BY_TABLE(".Lout") "jmp *%rcx\n"
               ".section .rodata\n .balign 4\n .Lout: .long .Lmeet - .Lout\n");
WRONG_FUNCTION(by_table_or_not, BY_TABLE(".Lone") "test %esi, %esi\n je .Lgo\n mov %rdx, %rcx\n .Lgo: jmp *%rcx\n"
               ".Lhere: ret\n .section .rodata\n .balign 4\n .Lone: .long .Lhere - .Lone\n");
WRONG_FUNCTION(by_table_of_names, BY_TABLE(".Lnames") "jmp *%rcx\n"
               ".section .rodata\n .balign 4\n .Lnames: .long leaf - .Lnames\n");
WRONG_FUNCTION(inside, "call .Linside\n ret\n .Linside: ret\n");
FUNCTION("a name", "sub $0x400, %rsp\n add $0x400, %rsp\n ret\n");
WRONG_FUNCTION(jumps_there, "jmp \"a name\"\n");
WRONG_FUNCTION(takes_linked, "sub $leaf, %rsp\n add $leaf, %rsp\n ret\n");
WRONG_FUNCTION(falls, "push %rbx\n pop %rbx\n");
FUNCTION(behind, "ret\n");

/* ---- Wrong functions in C ------------------------------------------------------- */

#define APART __attribute__((noinline)) static
#define STAY __asm__ volatile("" : : : "memory")            /* the call before it is not the last thing done */
#define USE(room) __asm__ volatile("" : : "r"(room) : "memory")

APART void down(const uint8_t *p)
{
    if (*p != 0)
        down(p + 1);
    STAY;
}

APART void odd(const uint8_t *p);

APART void even(const uint8_t *p)
{
    if (*p != 0)
        odd(p + 1);
    STAY;
}

APART void odd(const uint8_t *p)
{
    if (*p != 0)
        even(p + 2);
    STAY;
}

APART void third(void)
{
    uint8_t room[400];

    USE(room);
}

APART void second(void)
{
    uint8_t room[400];

    USE(room);
    third();
    STAY;
}

APART void first(void)
{
    uint8_t room[400];

    USE(room);
    second();
    STAY;
}

APART void aligned(void)
{
    uint8_t room[64] __attribute__((aligned(64)));

    USE(room);
}

static uint32_t (*volatile chosen)(uint8_t *, size_t);

/* The entry in which all of them are tried. */
uint32_t sct_lock(uint8_t *device, size_t device_length)
{
    if (WRONG == 1)
        down(device);
    if (WRONG == 2)
        even(device);
    if (WRONG == 3)
        return chosen(device, device_length) + 1;
    if (WRONG == 4)
        return chosen(device, device_length);
    if (WRONG == 5)
        by_writable_table();
    if (WRONG == 6) {
        uint8_t room[device_length];

        USE(room);
    }
    if (WRONG == 7) {
        uint8_t room[1200];

        USE(room);
    }
    if (WRONG == 8)
        first();                /* no frame alone is too large */
    if (WRONG == 9)
        nearly();               /* by the red zone */
    if (WRONG == 10)
        memcpy(device, device + device_length, device_length);
    if (WRONG == 12)
        aligned();
    if (WRONG == 13)
        framed();
    if (WRONG == 14)
        meets();
    if (WRONG == 15)
        keeps();
    if (WRONG == 16)
        pops();
    if (WRONG == 17)
        reaches();
    if (WRONG == 18)
        jumps();
    if (WRONG == 19)
        falls();
    if (WRONG == 20)
        by_table_out();         /* into another function */
    if (WRONG == 21)
        by_table_or_not();
    if (WRONG == 22)
        by_table_of_names();
    if (WRONG == 23)
        inside();               /* no function begins there */
    if (WRONG == 24)
        jumps_there();          /* a function whose name has a blank */
    if (WRONG == 25)
        takes_linked();         /* as many bytes as the linker says */
    return SCT_DONE;
}
