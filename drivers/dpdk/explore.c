/* `explore NAME [turn|order] [the explorer's arguments ..]`: searches the schedules of one of DPDK's receive or send
   functions, or of its mailbox, with the explorer. `turn` and `order` plant a bug (enum plant). */
#include <stdio.h>
#include <string.h>

#include "explore.h"

static bool is_planted(const char *word)
{
    planted = !strcmp(word, "turn") ? TURN : !strcmp(word, "order") ? ORDER : NOTHING_PLANTED;
    return planted != NOTHING_PLANTED;
}

int main(int argc, char **argv)
{
    const nicx_scenario *scenario = argc > 1 ? rings_scenario(argv[1]) : NULL;
    if (argc > 1 && !scenario)
        scenario = mailbox_scenario(argv[1]);
    if (!scenario) {
        fprintf(stderr, "explore: name one of recv, recv-bulk, recv-vec, recv-segments, recv-segments-bulk,\n"
                        "recv-segments-vec, xmit, xmit-simple, xmit-vec, mailbox or mailbox-ping\n");
        return 2;
    }
    int taken = argc > 2 && is_planted(argv[2]) ? 2 : 1;
    static char program[1024];
    snprintf(program, sizeof program, "%s %s%s%s", argv[0], argv[1], taken == 2 ? " " : "", taken == 2 ? argv[2] : "");
    argv[taken] = program;
    return nicx_main(argc - taken, argv + taken, scenario);
}
