/* Messages from a guest to the server. The input's first byte says whether the guest greets properly. Then each message
   is a byte (its command, and whether it requests a reply), one for its files, two for its length, and its body. */
#define _GNU_SOURCE
#include <sys/eventfd.h>
#include <sys/mman.h>
#include <unistd.h>

#include "guest.h"
#include "input.h"

#define BODY_MOST 4200 /* a transfer and its header */

/* Creates a file of the given kind: memory, an eventfd, an empty file, or a file that can't be mapped. */
static int make_file(const struct guest *it, unsigned int kind)
{
    switch (kind) {
    case 1: return eventfd(0, EFD_CLOEXEC | EFD_NONBLOCK);
    case 2: return memfd_create("empty", MFD_CLOEXEC);
    case 3: return dup(it->socket);
    default: return dup(it->memory_file);
    }
}

static void send_one(struct guest *it, struct input *input)
{
    static uint8_t body[BODY_MOST];
    uint8_t what = input_byte(input), kinds = input_byte(input);
    size_t length = input_short(input) % BODY_MOST;
    unsigned int count = what >> 5 & 3;
    int files[GUEST_FILES];
    input_take(input, body, length);
    for (unsigned int k = 0; k < count; k++)
        files[k] = make_file(it, kinds >> 2 * k & 3);
    guest_send(it, what & 15, what & 16 ? VFU_NO_REPLY : 0, body, length, files, count);
    for (unsigned int k = 0; k < count; k++)
        close(files[k]);
}

static void act(struct guest *it, void *given)
{
    struct input *input = given;
    if (input_byte(input) & 1)
        guest_greet(it);
    while (!input_is_over(input))
        send_one(it, input);
}

int LLVMFuzzerTestOneInput(const uint8_t *bytes, size_t length)
{
    static const char *const words[] = {"--wire=respond", "--hairpin", NULL};
    struct input input = {bytes, length, 0};
    guest_run(words, act, &input);
    return 0;
}
