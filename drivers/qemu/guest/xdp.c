/* Attaches an XDP program to an interface, through its driver, for a number of milliseconds:

       xdp INTERFACE pass|drop|tx MILLISECONDS

   Status 0: the program was attached and is detached again; 1: the driver refused it; 125: this kernel doesn't support
   XDP. */
#include <errno.h>
#include <linux/bpf.h>
#include <linux/if_link.h>
#include <net/if.h>
#include <stdint.h>
#include <stdio.h>
#include <stdlib.h>
#include <string.h>
#include <sys/syscall.h>
#include <unistd.h>

enum { NOT_TRIED = 125 };

static int bpf(enum bpf_cmd command, union bpf_attr *what)
{
    return (int)syscall(SYS_bpf, command, what, sizeof *what);
}

/* Loads a program that returns `answer` for every frame. Returns -1 if that fails. */
static int program_that_says(int32_t answer)
{
    const struct bpf_insn steps[] = {{.code = BPF_ALU64 | BPF_MOV | BPF_K, .dst_reg = BPF_REG_0, .imm = answer},
                                     {.code = BPF_JMP | BPF_EXIT}};
    union bpf_attr what;
    memset(&what, 0, sizeof what);
    what.prog_type = BPF_PROG_TYPE_XDP;
    what.insn_cnt = sizeof steps / sizeof *steps;
    what.insns = (uintptr_t)steps;
    what.license = (uintptr_t) "GPL";
    return bpf(BPF_PROG_LOAD, &what);
}

/* Attaches a program until the returned file descriptor is closed. Returns -1 if it was refused. */
static int attach(int program, unsigned int interface)
{
    union bpf_attr what;
    memset(&what, 0, sizeof what);
    what.link_create.prog_fd = (uint32_t)program;
    what.link_create.target_ifindex = interface;
    what.link_create.attach_type = BPF_XDP;
    what.link_create.flags = XDP_FLAGS_DRV_MODE;
    return bpf(BPF_LINK_CREATE, &what);
}

static int answer_named(const char *name)
{
    return strcmp(name, "drop") == 0   ? XDP_DROP
           : strcmp(name, "tx") == 0   ? XDP_TX
           : strcmp(name, "pass") == 0 ? XDP_PASS
                                       : -1;
}

int main(int count, char **words)
{
    int answer = count == 4 ? answer_named(words[2]) : -1;
    unsigned int interface = count == 4 ? if_nametoindex(words[1]) : 0;
    if (answer < 0 || !interface) {
        fprintf(stderr, "xdp INTERFACE pass|drop|tx MILLISECONDS\n");
        return 1;
    }
    int program = program_that_says(answer);
    if (program < 0) {
        fprintf(stderr, "xdp: can't load a program: %s\n", strerror(errno));
        return NOT_TRIED;
    }
    int link = attach(program, interface);
    if (link < 0) {
        fprintf(stderr, "xdp: can't attach a program to %s: %s\n", words[1], strerror(errno));
        return 1;
    }
    usleep((useconds_t)(1000 * atoi(words[3])));
    close(link);
    close(program);
    return 0;
}
