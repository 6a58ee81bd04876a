/* The loop that `confllvm run` is timed on, as a program of its own for an emulator of user code: gs points to a mapping in which it
   counts its turns. After two seconds it prints how many steps it took a second, in millions. */
#define _GNU_SOURCE
#include <asm/prctl.h>
#include <signal.h>
#include <stdio.h>
#include <sys/mman.h>
#include <sys/syscall.h>
#include <unistd.h>

int main(void) {
    char *segment = mmap(0, 8192, PROT_READ | PROT_WRITE, MAP_SHARED | MAP_ANONYMOUS, -1, 0);
    if (segment == MAP_FAILED || syscall(SYS_arch_prctl, ARCH_SET_GS, segment)) return 1;
    pid_t child = fork();
    if (child < 0) return 1;
    if (child > 0) {
        sleep(2);
        printf("%.1f\n", *(volatile unsigned long *)(segment + 4096) * 6 / 2e6);
        return kill(child, SIGKILL);
    }
    __asm__ volatile("movl $1, %%ecx\n"
                     "1: movl $4096, %%r8d\n"
                     "addr32 movq %%gs:0(%%r8d), %%rax\n"
                     "addq %%rcx, %%rax\n"
                     "addr32 movq %%rax, %%gs:0(%%r8d)\n"
                     "nop\n"
                     "jmp 1b\n" ::: "rax", "rcx", "r8", "memory");
    return 1;
}
