/* Runs a program with one capability refused, as in a strict container, to test the report:

     refuse ptrace | personality | executable-memory PROGRAM WORDS..

   A seccomp filter returns EPERM for ptrace, personality, or mmap of shared executable memory. It needs no root. Status
   2 if the filter can't be set, else the program's status. */
#define _GNU_SOURCE
#include <errno.h>
#include <linux/audit.h>
#include <linux/filter.h>
#include <linux/seccomp.h>
#include <stddef.h>
#include <stdio.h>
#include <string.h>
#include <sys/mman.h>
#include <sys/prctl.h>
#include <sys/syscall.h>
#include <unistd.h>

#define LOAD(what) BPF_STMT(BPF_LD | BPF_W | BPF_ABS, offsetof(struct seccomp_data, what))
#define PASS BPF_STMT(BPF_RET | BPF_K, SECCOMP_RET_ALLOW)
#define REFUSE BPF_STMT(BPF_RET | BPF_K, SECCOMP_RET_ERRNO | EPERM)

static int set_filter(struct sock_filter *filter, unsigned short length)
{
    struct sock_fprog program = {length, filter};
    return prctl(PR_SET_NO_NEW_PRIVS, 1, 0, 0, 0) || prctl(PR_SET_SECCOMP, SECCOMP_MODE_FILTER, &program);
}

static int refuse_call(unsigned int call)
{
    struct sock_filter filter[] = {LOAD(nr), BPF_JUMP(BPF_JMP | BPF_JEQ | BPF_K, call, 0, 1), REFUSE, PASS};
    return set_filter(filter, sizeof filter / sizeof *filter);
}

static int refuse_executable_memory(void)
{
    struct sock_filter filter[] = {
        LOAD(nr),      BPF_JUMP(BPF_JMP | BPF_JEQ | BPF_K, SYS_mmap, 0, 5),
        LOAD(args[2]), BPF_JUMP(BPF_JMP | BPF_JSET | BPF_K, PROT_EXEC, 0, 3),
        LOAD(args[3]), BPF_JUMP(BPF_JMP | BPF_JSET | BPF_K, MAP_SHARED, 0, 1),
        REFUSE,        PASS,
    };
    return set_filter(filter, sizeof filter / sizeof *filter);
}

int main(int count, char **words)
{
    int failed = 1;
    if (count < 3) {
        fprintf(stderr, "refuse ptrace | personality | executable-memory PROGRAM WORDS..\n");
        return 3;
    }
    if (strcmp(words[1], "ptrace") == 0)
        failed = refuse_call(SYS_ptrace);
    else if (strcmp(words[1], "personality") == 0)
        failed = refuse_call(SYS_personality);
    else if (strcmp(words[1], "executable-memory") == 0)
        failed = refuse_executable_memory();
    if (failed) {
        fprintf(stderr, "refuse: %s can't be refused here\n", words[1]);
        return 2;
    }
    execvp(words[2], words + 2);
    fprintf(stderr, "refuse: %s: %s\n", words[2], strerror(errno));
    return 2;
}
