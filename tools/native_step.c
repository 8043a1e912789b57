/*
 * Executes one instruction of each case on the processor itself.
 *
 * A case is a line of words in hexadecimal: the bytes of the instruction, eax, ecx, edx, ebx, esp,
 * ebp, esi, edi, the flags as eflags holds them, and the bytes from 0x400000 on. The answer is a
 * line: next, trap or signal, the signal's number or 0, the registers, eip, the flags, and the bytes.
 *
 * Built with gcc -m32 -static; it runs on an x86 kernel with 32-bit programs, or under qemu-i386.
 */
#define _GNU_SOURCE
#include <signal.h>
#include <stdio.h>
#include <stdlib.h>
#include <string.h>
#include <sys/mman.h>
#include <ucontext.h>

#define TEXT ((unsigned char *)0x10000)
#define DATA ((unsigned char *)0x400000)
#define PAGE 4096
#define KEPT 0x8C1u

static const int order[8] = {REG_EAX, REG_ECX, REG_EDX, REG_EBX, REG_ESP, REG_EBP, REG_ESI, REG_EDI};
static ucontext_t home;
static unsigned regs[8], flags, answer_regs[8], answer_eip, answer_flags;
static int repeated, answer_signal, answer_code;

static void enter(int signal, siginfo_t *info, void *context)
{
    ucontext_t *u = context;
    (void)signal;
    (void)info;
    home = *u;
    for (int i = 0; i < 8; i++)
        u->uc_mcontext.gregs[order[i]] = regs[i];
    u->uc_mcontext.gregs[REG_EIP] = (unsigned)TEXT;
    u->uc_mcontext.gregs[REG_EFL] = (home.uc_mcontext.gregs[REG_EFL] & ~KEPT) | flags | 0x100;
}

static void leave(int signal, siginfo_t *info, void *context)
{
    ucontext_t *u = context;
    if (signal == SIGTRAP && repeated && u->uc_mcontext.gregs[REG_EIP] == (greg_t)TEXT)
        return;
    for (int i = 0; i < 8; i++)
        answer_regs[i] = u->uc_mcontext.gregs[order[i]];
    answer_eip = u->uc_mcontext.gregs[REG_EIP];
    answer_flags = u->uc_mcontext.gregs[REG_EFL] & KEPT;
    answer_signal = signal;
    answer_code = info->si_code;
    memcpy(u->uc_mcontext.gregs, home.uc_mcontext.gregs, sizeof home.uc_mcontext.gregs);
}

static int bytes_of(const char *word, unsigned char *bytes)
{
    int n = 0;
    for (; word[0] && word[1] && word[0] != '-'; word += 2, n++)
        sscanf(word, "%2hhx", &bytes[n]);
    return n;
}

static void handle(int signal, void (*handler)(int, siginfo_t *, void *))
{
    struct sigaction action;
    memset(&action, 0, sizeof action);
    action.sa_sigaction = handler;
    action.sa_flags = SA_SIGINFO | SA_ONSTACK;
    sigaction(signal, &action, NULL);
}

int main(void)
{
    static char stack[65536];
    stack_t alternative = {.ss_sp = stack, .ss_size = sizeof stack};
    char code[64], data[256];
    int protection = PROT_READ | PROT_WRITE;
    sigaltstack(&alternative, NULL);
    if (mmap(TEXT, PAGE, protection | PROT_EXEC, MAP_PRIVATE | MAP_ANONYMOUS | MAP_FIXED, -1, 0) == MAP_FAILED
        || mmap(DATA, PAGE, protection, MAP_PRIVATE | MAP_ANONYMOUS | MAP_FIXED, -1, 0) == MAP_FAILED) {
        perror("mmap");
        return 1;
    }
    handle(SIGUSR1, enter);
    handle(SIGTRAP, leave);
    handle(SIGSEGV, leave);
    handle(SIGFPE, leave);
    handle(SIGILL, leave);
    while (scanf("%63s %x %x %x %x %x %x %x %x %x %255s", code, &regs[0], &regs[1], &regs[2], &regs[3],
                 &regs[4], &regs[5], &regs[6], &regs[7], &flags, data) == 11) {
        unsigned char bytes[32];
        int n = bytes_of(code, bytes), kept;
        mprotect(TEXT, PAGE, protection | PROT_EXEC);
        memset(TEXT, 0x90, PAGE);
        memcpy(TEXT, bytes, n);
        mprotect(TEXT, PAGE, PROT_READ | PROT_EXEC);
        memset(DATA, 0, PAGE);
        kept = bytes_of(data, DATA);
        repeated = bytes[0] == 0xF3;
        raise(SIGUSR1);
        if (answer_signal == SIGTRAP)
            printf("%s 0", answer_code == TRAP_TRACE ? "next" : "trap");
        else
            printf("signal %d", answer_signal);
        for (int i = 0; i < 8; i++)
            printf(" %08x", answer_regs[i]);
        printf(" %08x %03x ", answer_eip, answer_flags);
        for (int i = 0; i < kept; i++)
            printf("%02x", DATA[i]);
        printf("\n");
    }
    return 0;
}
