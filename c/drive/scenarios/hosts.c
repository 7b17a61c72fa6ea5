/* The driver on the physical function, with two virtual functions: their mailboxes. The card plays the virtual
   functions. */
#include "../engine/drive.h"

enum { FUNCTIONS_THERE = 2, PATIENCE = 3 };

static struct {
    uint32_t given[FUNCTIONS_THERE], taken[FUNCTIONS_THERE];   /* sent by virtual functions; received by the driver */
    uint32_t answered[FUNCTIONS_THERE], read[FUNCTIONS_THERE]; /* answers by the driver; messages read by VFs */
    uint32_t wanted;                                           /* messages expected from each virtual function */
} mail;

static uint32_t word(uint8_t vf, bool of_host, uint32_t k, uint32_t number)
{
    return (of_host ? 0xB0000000u : 0xF0000000u) | (uint32_t)vf << 16 | k << 8 | number;
}

/* --- a virtual function --- */

/* Bits that a read of VFMAILBOX clears, kept for later. */
static uint32_t kept[FUNCTIONS_THERE];

static bool was_signalled(uint8_t vf, uint32_t bit)
{
    kept[vf] |= nicx_vf_read32(vf, NIC_VFMAILBOX) & (NIC_PVFMAILBOX_PFSTS | NIC_PVFMAILBOX_PFACK);
    bool is_set = kept[vf] & bit;
    kept[vf] &= ~bit;
    return is_set;
}

static bool function_puts(uint8_t vf, uint32_t k)
{
    nicx_vf_write32(vf, NIC_VFMAILBOX, NIC_PVFMAILBOX_VFU);
    uint32_t value = nicx_vf_read32(vf, NIC_VFMAILBOX);
    kept[vf] |= value & (NIC_PVFMAILBOX_PFSTS | NIC_PVFMAILBOX_PFACK);
    if (!(value & NIC_PVFMAILBOX_VFU))
        return false;
    if (kept[vf] & NIC_PVFMAILBOX_PFSTS) { /* reads the driver's message first */
        nicx_vf_write32(vf, NIC_VFMAILBOX, 0);
        return false;
    }
    for (uint32_t number = 0; number < 2; number++)
        nicx_vf_write32(vf, NIC_VFMBMEM(number), word(vf, false, k, number));
    mail.given[vf]++;
    nicx_vf_write32(vf, NIC_VFMAILBOX, NIC_PVFMAILBOX_REQ);
    return true;
}

static void function_gives(uint8_t vf, uint32_t k)
{
    while (!function_puts(vf, k))
        nicx_wait();
    while (!was_signalled(vf, NIC_PVFMAILBOX_PFACK))
        nicx_wait();
}

static void function0(void)
{
    function_gives(0, 0);
    function_gives(0, 1);
}

static void function1(void *unused)
{
    (void)unused;
    function_gives(1, 0);
    function_gives(1, 1);
}

/* Gives up on its first request, resets itself, and waits for the answer to its second request. */
static void function_withdraws(void)
{
    uint32_t answer = 0;
    while (!function_puts(0, 0))
        nicx_wait();
    for (unsigned k = 0; k < PATIENCE; k++)
        nicx_pause();
    nicx_vf_write32(0, NIC_VFCTRL, NIC_PVFCTRL_RST);
    kept[0] = 0;
    while (!function_puts(0, 1)) {
        was_signalled(0, NIC_PVFMAILBOX_PFSTS); /* drops an answer to the first request */
        nicx_wait();
    }
    while (answer != word(0, true, 1, 0)) {
        while (!was_signalled(0, NIC_PVFMAILBOX_PFSTS))
            nicx_wait();
        answer = nicx_vf_read32(0, NIC_VFMBMEM(0));
    }
    mail.read[0]++;
    nicd_reach(MAIL_GIVEN);
}

static void function_reads_one(uint32_t k)
{
    uint32_t first = nicx_vf_read32(0, NIC_VFMBMEM(0)), second = nicx_vf_read32(0, NIC_VFMBMEM(1));
    if (first != word(0, true, k, 0) || second != word(0, true, k, 1))
        nicd_failed("message %u from the host is read as 0x%08x 0x%08x by the virtual function", (unsigned)k,
                    (unsigned)first, (unsigned)second);
    mail.read[0]++;
    nicd_reach(MAIL_GIVEN);
    nicx_vf_write32(0, NIC_VFMAILBOX, NIC_PVFMAILBOX_ACK);
}

static void function_reads(void)
{
    for (uint32_t k = 0; k < 2; k++) {
        while (!was_signalled(0, NIC_PVFMAILBOX_PFSTS))
            nicx_wait();
        function_reads_one(k);
    }
}

/* Sends one message and reads two from the driver, in any order. */
static void function_does_both(void)
{
    bool has_given = false;
    while (!has_given || mail.read[0] < 2) {
        if (!has_given && function_puts(0, 0))
            has_given = true;
        else if (was_signalled(0, NIC_PVFMAILBOX_PFSTS))
            function_reads_one(mail.read[0]);
        else
            nicx_wait();
    }
}

/* --- the tested driver --- */

/* Receives a message, if there is one, and checks that it is a complete message from the virtual function. Stores its
   number. */
static bool take(uint8_t vf, uint32_t *number)
{
    uint32_t words[NICD_WORDS] = {0};
    if (!nicd_mailbox_receive(vf, words))
        return false;
    *number = words[0] >> 8 & 0xFF;
    if (words[0] != word(vf, false, *number, 0) || words[1] != word(vf, false, *number, 1))
        nicd_failed("a message from virtual function %u is read as 0x%08x 0x%08x: it was mixed or overwritten", vf,
                    (unsigned)words[0], (unsigned)words[1]);
    mail.taken[vf]++;
    nicd_reach(vf ? MAIL_TAKEN_1 : MAIL_TAKEN);
    return true;
}

static void serve(void *unused)
{
    uint32_t number;
    (void)unused;
    for (;;) {
        bool acted = false;
        for (uint8_t vf = 0; vf < FUNCTIONS_THERE; vf++)
            acted |= take(vf, &number);
        if (!acted)
            nicx_wait();
    }
}

static bool answer(uint8_t vf, uint32_t number)
{
    uint32_t words[2] = {word(vf, true, number, 0), word(vf, true, number, 1)};
    return nicd_mailbox_send(vf, words, 2);
}

/* Answers each request. Receives any new request before it answers an earlier one. */
static void serve_and_answer(void *unused)
{
    uint32_t number = 0;
    bool owes = false;
    (void)unused;
    for (;;) {
        bool acted = take(0, &number);
        owes |= acted;
        if (owes && !acted && answer(0, number)) {
            owes = false;
            acted = true;
        }
        if (!acted)
            nicx_wait();
    }
}

/* Sends two messages, the second after the virtual function has read the first. Also receives messages in the
   meantime. */
static void tell_and_serve(void *unused)
{
    uint32_t value = 0, number;
    (void)unused;
    for (;;) {
        bool acted = take(0, &number);
        if (value < 2 && mail.read[0] == value && answer(0, value)) {
            value++;
            acted = true;
        }
        if (!acted)
            nicx_wait();
    }
}

/* While a PF's driver is running, CTRL_EXT.PFRSTD reports the device as ready to the virtual functions. */
static const char *judge_ready(void)
{
    return nicd_peek(NIC_CTRL_EXT) & NIC_CTRL_EXT_PFRSTD ? NULL
                                                         : "CTRL_EXT.PFRSTD is 0: the virtual functions see no host";
}

static const char *judge(void)
{
    for (unsigned vf = 0; vf < FUNCTIONS_THERE; vf++)
        if (mail.taken[vf] < mail.given[vf])
            return nicd_words(
                "message %u from virtual function %u was put into the mailbox, but the host's driver never read it: "
                "PFMBICR(0) is 0x%08x",
                (unsigned)mail.taken[vf], vf, (unsigned)nicd_peek(NIC_PFMBICR(0)));
    return judge_ready();
}

static const char *judge_answer(void)
{
    return mail.read[0] ? judge_ready()
                        : nicd_words("virtual function 0 got no reply to its request: PFMAILBOX(0) is "
                                     "0x%08x, PFMBICR(0) 0x%08x",
                                     (unsigned)nicd_peek(NIC_PFMAILBOX(0)), (unsigned)nicd_peek(NIC_PFMBICR(0)));
}

static void begin(void (*function)(void), const char *name)
{
    mail.given[0] = mail.given[1] = mail.taken[0] = mail.taken[1] = mail.read[0] = mail.read[1] = 0;
    kept[0] = kept[1] = 0;
    nicd_other(name, function, false);
}

static void take_from_two(void)
{
    begin(function0, "function0");
    nicd.cards |= 1u << nicx_task("function1", function1, NULL);
    nicx_service("mailbox", serve, NULL);
}

static void tell_one(void)
{
    begin(function_reads, "function0");
    nicx_service("mailbox", tell_and_serve, NULL);
}

static void collide(void)
{
    begin(function_does_both, "function0");
    nicx_service("mailbox", tell_and_serve, NULL);
}

static void withdraw(void)
{
    begin(function_withdraws, "function0");
    nicx_service("mailbox", serve_and_answer, NULL);
}

#define HOST_ROW(row, what, words, function, judges)                                                                   \
    ROW(row, what, words, "Mailbox", HOST | MAILBOX, .setup = {.functions = FUNCTIONS_THERE}, .begin = function,       \
        .end = judges)

const struct scenario nicd_hosts[] = {
    HOST_ROW("host-takes-messages", "two virtual functions send two messages each",
             "Each virtual function has its own mailbox and PFMBICR bit; it may send again after an acknowledgement",
             take_from_two, judge),
    HOST_ROW("host-sends-messages", "two mailbox messages to a virtual function",
             "A side locks the mailbox before it writes, and writes the next message after the last one is read",
             tell_one, judge_ready),
    HOST_ROW("host-collides", "both sides send at the same time",
             "VFU and PFU are never both 1: the second side retries, and a pending request isn't overwritten", collide,
             judge),
    HOST_ROW("host-withdrawn-request", "a virtual function resets itself and repeats its request",
             "The reply to a withdrawn request doesn't overwrite the next request", withdraw, judge_answer),
    {0}};
