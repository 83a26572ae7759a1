/* A program whose windows can be counted by hand, for tools/benchmark/counting/selftest. */
#include <stdio.h>

__attribute__((naked)) void bench_begin(void) {
    __asm__("ret");
}

__attribute__((naked)) void bench_end(void) {
    __asm__("nop\n\tret");
}

/* 1 + 1 + 2 * 1000 + 1 instructions: the return from bench_begin, the move, the turns, the call of bench_end. */
__attribute__((naked, noipa)) static void turns(void) {
    __asm__("call bench_begin\n\tmov $1000, %ecx\n1:\tdec %ecx\n\tjnz 1b\n\tcall bench_end\n\tret");
}

/* 1 + 1 + 101 + 1: a rep prefix counts once a turn and once at its end. The stack's bytes are copied to where they are. */
__attribute__((naked, noipa)) static void repeated(void) {
    __asm__("mov %rsp, %rsi\n\tmov %rsp, %rdi\n\tcall bench_begin\n\tmov $100, %ecx\n\trep movsb\n\tcall bench_end\n\tret");
}

/* Its output is its first word and the input's first byte, its status 7. */
int main(int count, char **words) {
    turns();
    repeated();
    printf("%s %c\n", count > 1 ? words[1] : "no word", getchar());
    return 7;
}
