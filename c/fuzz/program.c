/* Runs a nicbench command on an input: a script, an object, an EEPROM description or image, lines of hex. The input's
   first byte selects the command, and the rest is its standard input. The program is part of this process
   (program_object compiles it, with the counters for a fuzzer): its `main` and the calls that read and write are
   renamed. `main` frees all memory and returns the exit status; a panic ends the process. */
#define _DEFAULT_SOURCE
#include <sys/types.h>
#include <unistd.h>

#include "input.h"

/* No status is above this one: the arguments are valid, and neither memory runs out nor does a write fail. */
enum { MOST_STATUS = 2, MOST_ANSWER = 64 << 20, MOST_WORDS = 3 };

/* The arguments of each command, after the program's name; null after the last. */
static const char *const commands[][MOST_WORDS] = {
    {"run"}, {"asm"}, {"dis"}, {"debug"}, {"eeprom"}, {"eeprom", "--load"}, {"hash"},
};

static struct {
    struct input input;
    size_t answer;
} program;

/* --- the program's calls, and its entry point --- */

ssize_t fuzz_read(int file, void *to, size_t size);
ssize_t fuzz_write(int file, const void *from, size_t size);
int nicbench_main(int count, const char *const *words);

/* (a panic reads files to print where it came from) */
ssize_t fuzz_read(int file, void *to, size_t size)
{
    if (file != STDIN_FILENO)
        return read(file, to, size);
    size_t left = program.input.length - program.input.at, taken = left < size ? left : size;
    input_take(&program.input, to, taken);
    return (ssize_t)taken;
}

/* Checks that the command's output isn't endless. Only a panic writes to another file. */
ssize_t fuzz_write(int file, const void *from, size_t size)
{
    if (file != STDOUT_FILENO)
        return write(file, from, size);
    program.answer += size;
    MUST(program.answer < MOST_ANSWER);
    return (ssize_t)size;
}

/* --- a trial --- */

/* Runs a command, and returns its status. */
static int run(const char *const *command)
{
    const char *words[1 + MOST_WORDS] = {"nicbench"};
    int count = 1;
    while (command[count - 1]) {
        words[count] = command[count - 1];
        count++;
    }
    return nicbench_main(count, words);
}

int LLVMFuzzerTestOneInput(const uint8_t *bytes, size_t length)
{
    program.input = (struct input){bytes, length, 0};
    program.answer = 0;
    int status = run(commands[input_byte(&program.input) % (sizeof commands / sizeof *commands)]);
    MUST(status >= 0 && status <= MOST_STATUS);
    return 0;
}
