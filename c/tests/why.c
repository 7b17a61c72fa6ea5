/* Checks what nic_why says about the setups in rust/nic82599/tests/why.cases: `why CASES`. For each setup it
   also checks that the call changes nothing, and that an explanation too long for the buffer is cut at the end of a
   line. `why CASES FILE` writes the explanations into a file, in the format of the cases. */
#include <string.h>

#include "check.h"

enum { MOST_LINES = 64, WIDE = 256, ROOM = 4096, QUEUES = 8 };

/* Lines of a setup; `label` is empty except in the base. */
struct line {
    char label[16], text[WIDE];
};

static struct line base[MOST_LINES], setup[MOST_LINES];
static unsigned of_base, lines, cases;
static char name[WIDE], want[ROOM];
static bool is_alone;

/* --- a setup --- */

static void arrive(nic *n, unsigned last, size_t length, unsigned first)
{
    nic_outcome outcome;
    uint8_t frame[1600] = {2, 0, 0, 0, 0, (uint8_t)last, 2, 0, 0, 0, 0, 9, 8, 0, 0x45};
    if (first)
        memset(frame, (int)first, 5);
    nic_arrive(n, frame, length, &outcome);
}

static void settle(nic *n, uint16_t queues)
{
    nic_outcome outcomes[64];
    size_t count;
    while (nic_settle(n, queues, outcomes, 64, &count) == NIC_MORE)
        ;
}

static void make(nic *n, const char *text)
{
    unsigned long long a = 0, b = 0, c = 0;
    char word[16];
    nic_outcome outcome;
    CHECK(sscanf(text, "%15s %lli %lli %lli", word, (long long *)&a, (long long *)&b, (long long *)&c) >= 1);
    if (!strcmp(word, "w"))
        ANSWERS(NIC_DONE, nic_write32(n, (uint32_t)a, (uint32_t)b));
    else if (!strcmp(word, "vw"))
        ANSWERS(NIC_DONE, nic_vf_write32(n, (uint8_t)a, (uint32_t)b, (uint32_t)c));
    else if (!strcmp(word, "lend"))
        for (; a < b; a++)
            ANSWERS(NIC_DONE, nic_lend(n, (uint32_t)a));
    else if (!strcmp(word, "take"))
        ANSWERS(NIC_DONE, nic_take(n, (uint32_t)a));
    else if (!strcmp(word, "put"))
        nic_put_desc(n, a, 0, (nic_desc){b, c});
    else if (!strcmp(word, "arrive"))
        arrive(n, (unsigned)a, b ? (size_t)b : 60, (unsigned)c);
    else if (!strcmp(word, "settle"))
        settle(n, (uint16_t)a);
    else if (!strcmp(word, "rx"))
        nic_rx_step(n, &outcome);
    else if (!strcmp(word, "int"))
        ANSWERS(NIC_MESSAGE, nic_int_step(n, (uint8_t)a, &outcome));
    else if (!strcmp(word, "link"))
        ANSWERS(NIC_DONE, nic_link(n, a != 0));
    else
        CHECK(!"a malformed line in a setup");
}

/* --- the explanations --- */

/* Returns whether to try this buffer size: around the ends of lines, and some others. */
static bool is_tried(const char *whole, size_t size)
{
    return size < 3 || size % 32 == 0 || size >= strlen(whole) || whole[size - 1] == '\n' || whole[size - 2] == '\n';
}

/* A short buffer gets the whole lines that fit. */
static void is_cut(nic *n, const char *whole)
{
    char text[ROOM];
    size_t length = strlen(whole);
    for (size_t size = 0; size <= length + 1; size++) {
        size_t fits = size ? size - 1 : 0;
        if (!is_tried(whole, size))
            continue;
        memset(text, '#', sizeof text);
        CHECK(nic_why(n, text, size) == length);
        while (fits && whole[fits - 1] != '\n')
            fits--;
        CHECK(size == 0 || text[fits] == 0);
        CHECK(!memcmp(text, whole, fits) && text[size] == '#');
    }
}

/* Returns a hash of the registers, the memory and the waiting frames. */
static uint64_t look(nic *n)
{
    static const uint32_t addresses[] = {
#define ADDRESS(address) address,
#include "addresses.inc"
#undef ADDRESS
    };
    uint64_t sum = 0;
    uint8_t bytes[NIC_BLOCK_BYTES];
    for (size_t k = 0; k < sizeof addresses / sizeof *addresses; k++) {
        uint32_t word = 0;
        nic_peek32(n, addresses[k], &word);
        sum = sum * 31 + word;
    }
    for (uint64_t block = 0; block < 8; block++) {
        memset(bytes, 1, sizeof bytes);
        nic_dma_read(n, block * NIC_BLOCK_BYTES, bytes, sizeof bytes);
        for (size_t k = 0; k < sizeof bytes; k++)
            sum = sum * 31 + bytes[k];
    }
    return sum * 31 + nic_next_out(n);
}

/* Checks that calling nic_why on one of two controllers with the same setup doesn't change how this controller
   continues. */
static void is_unchanged(nic *asked)
{
    nic other;
    nic_outcome left, right;
    uint64_t before = look(asked);
    char text[ROOM];
    ANSWERS(NIC_DONE, nic_open(&other, 2, 8, 8));
    for (unsigned k = 0; k < lines; k++)
        make(&other, setup[k].text);
    nic_why(asked, text, sizeof text);
    CHECK(look(asked) == before && look(&other) == before);
    for (int k = 0; k < 12; k++) {
        memset(&left, 0, sizeof left);
        memset(&right, 0, sizeof right);
        CHECK(nic_rx_step(asked, &left) == nic_rx_step(&other, &right) && left.why == right.why);
        CHECK(nic_tx_step(asked, 0, &left) == nic_tx_step(&other, 0, &right));
        CHECK(nic_int_step(asked, (uint8_t)(k % 3), &left) == nic_int_step(&other, (uint8_t)(k % 3), &right));
        CHECK(nic_queue_step(asked, k & 1, 0, &left) == nic_queue_step(&other, k & 1, 0, &right));
    }
    CHECK(look(asked) == look(&other));
    nic_close(&other);
}

static void try_case(FILE *out)
{
    char text[ROOM];
    nic n;
    ANSWERS(NIC_DONE, nic_open(&n, 2, 8, 8));
    for (unsigned k = 0; k < lines; k++)
        make(&n, setup[k].text);
    nic_why(&n, text, sizeof text);
    if (out)
        fprintf(out, "case %s\n%s\n", name, text);
    else if (strcmp(text, want)) {
        fprintf(stderr, "case %s: nic_why says:\n%sexpected:\n%s", name, text, want);
        exit(1);
    }
    is_cut(&n, text);
    is_unchanged(&n);
    nic_close(&n);
    cases++;
}

/* --- the file --- */

static struct line *labelled(const char *label)
{
    for (unsigned k = 0; k < of_base; k++)
        if (!strcmp(setup[k].label, label))
            return &setup[k];
    return NULL;
}

/* Removes a label, `LABEL: `, from the front of a line. */
static char *take_label(char *text, char label[16])
{
    char *end = strstr(text, ": ");
    if (!end || end - text > 15)
        return text;
    memcpy(label, text, (size_t)(end - text));
    label[end - text] = 0;
    return end + 2;
}

static void take_line(char *text)
{
    char label[16] = "", *rest = take_label(text, label);
    struct line *line = NULL;
    if (sscanf(text, "without %15s", label) == 1)
        rest = "rx";
    if (*label && of_base && !is_alone) {
        line = labelled(label);
        CHECK(line);
    } else {
        CHECK(lines < MOST_LINES);
        line = &setup[lines++];
    }
    strcpy(line->label, label);
    strcpy(line->text, rest);
}

static void begin_case(void)
{
    memcpy(setup, base, sizeof base);
    lines = of_base;
    is_alone = false;
    want[0] = 0;
}

static void take(char *text)
{
    char *comment = *text == '>' ? NULL : strchr(text, '#');
    if (comment)
        *comment = 0;
    for (size_t end = strlen(text); end && (text[end - 1] == ' ' || text[end - 1] == '\n'); end--)
        text[end - 1] = 0;
    if (*text == '>') {
        strcat(want, text + 2);
        strcat(want, "\n");
    } else if (!strcmp(text, "alone")) {
        is_alone = true;
        lines = 0;
    } else if (*text && strcmp(text, "base")) {
        take_line(text);
    }
}

int main(int count, char **words)
{
    char text[WIDE];
    FILE *file = fopen(words[1], "r"), *out = count > 2 ? fopen(words[2], "w") : NULL;
    bool is_base = true;
    CHECK(file);
    while (fgets(text, sizeof text, file)) {
        if (strncmp(text, "case ", 5)) {
            take(text);
            continue;
        }
        if (is_base) {
            memcpy(base, setup, sizeof base);
            of_base = lines;
        } else {
            try_case(out);
        }
        is_base = false;
        begin_case();
        sscanf(text, "case %255[^\n]", name);
    }
    try_case(out);
    fclose(file);
    if (out)
        fclose(out);
    printf("%u set-ups\n", cases);
    return 0;
}
