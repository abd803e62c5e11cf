// Times Unicorn on an image: unicorn IMAGE STEPS. Makes that many steps one by one, and then with a hook at each
// instruction, and prints the steps a second of both. System calls do nothing.
#include <elf.h>
#include <stdio.h>
#include <stdlib.h>
#include <string.h>
#include <time.h>
#include <unicorn/unicorn.h>

#define PAGE 4096ul
#define STACK 0x7FFE0000ul
#define STACK_SIZE 0x10000ul

static unsigned long left;

static double seconds(void) {
    struct timespec now;
    clock_gettime(CLOCK_MONOTONIC, &now);
    return now.tv_sec + now.tv_nsec / 1e9;
}

static void check(uc_err error) {
    if (error != UC_ERR_OK) {
        fprintf(stderr, "unicorn: %s\n", uc_strerror(error));
        exit(1);
    }
}

static void at_instruction(uc_engine *uc, uint64_t address, uint32_t size, void *data) {
    (void)address, (void)size, (void)data;
    if (--left == 0) {
        uc_emu_stop(uc);
    }
}

static void at_system_call(uc_engine *uc, void *data) { (void)uc, (void)data; }

// An engine with the image and a stack.
static uc_engine *loaded(const unsigned char *file, unsigned long *entry) {
    const Elf64_Ehdr *header = (const Elf64_Ehdr *)file;
    uc_engine *uc;
    uc_hook hook;
    unsigned long stack = STACK + STACK_SIZE - 16;
    check(uc_open(UC_ARCH_X86, UC_MODE_64, &uc));
    for (int i = 0; i < header->e_phnum; i++) {
        const Elf64_Phdr *part = (const Elf64_Phdr *)(file + header->e_phoff) + i;
        if (part->p_type == PT_LOAD && part->p_memsz > 0) {
            unsigned long start = part->p_vaddr & -PAGE;
            unsigned long end = (part->p_vaddr + part->p_memsz + PAGE - 1) & -PAGE;
            check(uc_mem_map(uc, start, end - start, UC_PROT_ALL));
            check(uc_mem_write(uc, part->p_vaddr, file + part->p_offset, part->p_filesz));
        }
    }
    check(uc_mem_map(uc, STACK, STACK_SIZE, UC_PROT_READ | UC_PROT_WRITE));
    check(uc_reg_write(uc, UC_X86_REG_RSP, &stack));
    check(uc_hook_add(uc, &hook, UC_HOOK_INSN, (void *)at_system_call, NULL, 1, 0, UC_X86_INS_SYSCALL));
    *entry = header->e_entry;
    return uc;
}

static double single_steps(const unsigned char *file, unsigned long steps) {
    unsigned long rip;
    uc_engine *uc = loaded(file, &rip);
    double start = seconds();
    for (unsigned long i = 0; i < steps; i++) {
        check(uc_emu_start(uc, rip, 0, 0, 1));
        check(uc_reg_read(uc, UC_X86_REG_RIP, &rip));
    }
    return steps / (seconds() - start);
}

static double hooked_steps(const unsigned char *file, unsigned long steps) {
    unsigned long rip;
    uc_hook hook;
    uc_engine *uc = loaded(file, &rip);
    check(uc_hook_add(uc, &hook, UC_HOOK_CODE, (void *)at_instruction, NULL, 1, 0));
    left = steps;
    double start = seconds();
    check(uc_emu_start(uc, rip, 0, 0, 0));
    return steps / (seconds() - start);
}

int main(int count, char **words) {
    static unsigned char file[16 << 20];
    FILE *in = count == 3 ? fopen(words[1], "rb") : NULL;
    if (in == NULL || fread(file, 1, sizeof file, in) == 0) {
        fprintf(stderr, "usage: unicorn IMAGE STEPS\n");
        return 1;
    }
    unsigned long steps = strtoul(words[2], NULL, 10);
    printf("Unicorn: single steps %.0f a second, hooked %.0f a second\n", single_steps(file, steps),
           hooked_steps(file, steps));
    return 0;
}
