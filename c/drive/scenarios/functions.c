/* The driver of a virtual function: its queues, resets by the PF's driver, its mailbox. The card plays the PF's
   driver. */
#include "../engine/drive.h"

enum { VF = 0, PORT = VF + 1 };

static void close_it(void)
{
    nicd_hold();
    nicd_close();
    for (unsigned queue = 0; queue < nicd.setup.queues; queue++) {
        uint32_t receive = nicd_peek(NIC_RXDCTL(nicd.base + queue)),
                 transmit = nicd_peek(NIC_TXDCTL(nicd.base + queue));
        if ((receive | transmit) & NIC_RXDCTL_ENABLE)
            nicd_failed("queue %u of the virtual function is on although its driver is closed: VFRXDCTL is 0x%08x, "
                        "VFTXDCTL 0x%08x",
                        queue, (unsigned)receive, (unsigned)transmit);
    }
    if (nicd_peek(NIC_PVTEIMS(VF)))
        nicd_failed("the virtual function's causes are enabled although its driver is closed: VTEIMS is 0x%08x",
                    (unsigned)nicd_peek(NIC_PVTEIMS(VF)));
    if (nicd_memory_left())
        nicx_fail(nicd.fault);
}

/* --- the PF's driver resets the pool during traffic, as when it removes the virtual function --- */

static void reset_pool(void)
{
    nicx_write32(NIC_PVFCTRL(VF), NIC_PVFCTRL_RST);
}

static bool pool_was_reset(void *unused)
{
    (void)unused;
    return !(nicd_peek(NIC_RXDCTL(nicd.base)) & NIC_RXDCTL_ENABLE);
}

/* How a driver learns of the reset depends on the PF's driver. This scenario calls the driver's reset directly. */
static void be_reset(void)
{
    nicx_wait_until(pool_was_reset, NULL);
    nicd_hold();
    nicd_reset();
    nicd_go_on();
    for (unsigned k = 0; k < 2 && nicd.driver->send; k++)
        nicd_send_surely(0, 60);
}

static void use_both_queues(void)
{
    nicd_take_frames();
    for (uint16_t queue = 0; queue < 2 && nicd.driver->send; queue++)
        nicd_send_frames(queue, 3, 60);
    nicd_come_flows(NIC_RSS_TCP_IPV4, 6);
}

static void begin_host(void)
{
    nicd_other("host", reset_pool, false);
}

/* --- accesses outside the virtual function --- */

static void see_foreign(const nicxo_step *step, bool is_drivers)
{
    char name[NICXO_NAME];
    if (!is_drivers)
        return;
    if (step->kind == STEP_READ || step->kind == STEP_WRITE)
        nicd_note("the virtual function's driver accesses the physical function's %s",
                  nicxo_register(step->address, name));
    else if ((step->kind == STEP_VF_READ || step->kind == STEP_VF_WRITE) && step->vf != VF)
        nicd_note("the driver of virtual function %u accesses virtual function %u", VF, step->vf);
    else if ((step->kind == STEP_VF_READ || step->kind == STEP_VF_WRITE) && step->status == NIC_STRAY)
        nicd_note("no virtual function register is at offset 0x%04x", (unsigned)step->address);
}

/* --- the mailbox; the card plays the PF's driver --- */

static struct {
    uint32_t taken, sent;     /* messages that the PF's side received and sent */
    uint32_t given, received; /* messages that the driver sent and received */
} mail;

static bool is_asked(void)
{
    if (!(nicx_read32(NIC_PFMBICR(0)) & NIC_PFMBICR_VFREQ_IS(1u << VF)))
        return false;
    nicx_write32(NIC_PFMBICR(0), NIC_PFMBICR_VFREQ_IS(1u << VF));
    return true;
}

/* Word `number` of message k. The words identify the message, and differ between the PF's side and the virtual
   function's. */
static uint32_t word(bool of_host, uint32_t k, uint32_t number)
{
    return (of_host ? 0xB0000000u : 0xF0000000u) | k << 8 | number;
}

static void check_words(const uint32_t *words, bool of_host, uint32_t k)
{
    for (uint32_t number = 0; number < 2; number++)
        if (words[number] != word(of_host, k, number))
            nicd_failed("message %u from the %s is read as 0x%08x 0x%08x: it was mixed or overwritten", (unsigned)k,
                        of_host ? "host" : "virtual function", (unsigned)words[0], (unsigned)words[1]);
}

static bool has_request(void *unused)
{
    (void)unused;
    return nicd_peek(NIC_PFMBICR(0)) & NIC_PFMBICR_VFREQ_IS(1u << VF);
}

static void host_takes_one(void)
{
    if (!is_asked())
        return;
    uint32_t words[2] = {nicx_read32(NIC_PFMBMEM(16 * VF)), nicx_read32(NIC_PFMBMEM(16 * VF + 1))};
    check_words(words, false, mail.taken);
    mail.taken++;
    nicd_reach(MAIL_GIVEN);
    nicx_write32(NIC_PFMAILBOX(VF), NIC_PFMAILBOX_ACK);
}

static void host_takes_messages(void)
{
    for (;;) {
        nicx_wait_until(has_request, NULL);
        host_takes_one();
    }
}

static bool is_free(void *unused)
{
    (void)unused;
    return !(nicd_peek(NIC_PVFMAILBOX(VF)) & NIC_PVFMAILBOX_VFU) && !has_request(NULL);
}

/* Writes message k if the mailbox is free. Returns whether it did. */
static bool host_puts(uint32_t k)
{
    nicx_write32(NIC_PFMAILBOX(VF), NIC_PFMAILBOX_PFU);
    if (!(nicx_read32(NIC_PFMAILBOX(VF)) & NIC_PFMAILBOX_PFU) || has_request(NULL)) {
        nicx_write32(NIC_PFMAILBOX(VF), 0);
        return false;
    }
    for (uint32_t number = 0; number < 2; number++)
        nicx_write32(NIC_PFMBMEM(16 * VF + number), word(true, k, number));
    mail.sent++;
    nicx_write32(NIC_PFMAILBOX(VF), NIC_PFMAILBOX_STS);
    return true;
}

static bool is_acknowledged(void *unused)
{
    (void)unused;
    return nicd_peek(NIC_PFMBICR(0)) & NIC_PFMBICR_VFACK_IS(1u << VF);
}

static void host_sends(uint32_t k)
{
    do
        nicx_wait_until(is_free, NULL);
    while (!host_puts(k));
    nicx_wait_until(is_acknowledged, NULL);
    nicx_write32(NIC_PFMBICR(0), NIC_PFMBICR_VFACK_IS(1u << VF));
}

static void host_sends_two(void)
{
    host_sends(0);
    host_sends(1);
}

/* --- the driver's side --- */

static void give(uint32_t k)
{
    uint32_t words[2] = {word(false, k, 0), word(false, k, 1)};
    while (!nicd_mailbox_send(0, words, 2))
        nicx_wait();
    mail.given++;
}

static void give_two(void *unused)
{
    (void)unused;
    give(0);
    give(1);
}

static void take_two(void *unused)
{
    uint32_t words[NICD_WORDS] = {0};
    (void)unused;
    while (mail.received < 2) {
        if (!nicd_mailbox_receive(0, words)) {
            nicx_wait();
            continue;
        }
        check_words(words, true, mail.received);
        mail.received++;
        nicd_reach(MAIL_TAKEN);
    }
}

/* Serves the driver's mailbox in one thread: sends when it can, and receives what is there. */
static void give_and_take(void *unused)
{
    uint32_t words[NICD_WORDS] = {0};
    (void)unused;
    while (mail.given < 2 || mail.received < 1) {
        uint32_t own[2] = {word(false, mail.given, 0), word(false, mail.given, 1)};
        bool acted = mail.given < 2 && nicd_mailbox_send(0, own, 2);
        mail.given += acted;
        if (nicd_mailbox_receive(0, words)) {
            check_words(words, true, mail.received);
            mail.received++;
            nicd_reach(MAIL_TAKEN);
            acted = true;
        }
        if (!acted)
            nicx_wait();
    }
}

static void begin_mail(void)
{
    mail.taken = mail.sent = mail.given = mail.received = 0;
}

static const char *judge_mail(void)
{
    if (mail.taken < mail.given)
        return nicd_words("message %u from the virtual function was put into the mailbox, but the host never received "
                          "it: VFMAILBOX is "
                          "0x%08x",
                          (unsigned)mail.taken, (unsigned)nicd_peek(NIC_PVFMAILBOX(VF)));
    if (mail.received < mail.sent)
        return nicd_words(
            "message %u from the host was put into the mailbox, but the driver never read it: VFMAILBOX is "
            "0x%08x",
            (unsigned)mail.received, (unsigned)nicd_peek(NIC_PVFMAILBOX(VF)));
    return NULL;
}

static void send_messages(void)
{
    begin_mail();
    nicx_task("mailbox", give_two, NULL);
    nicd_other("host", host_takes_messages, true);
}

static void receive_messages(void)
{
    begin_mail();
    nicx_task("mailbox", take_two, NULL);
    nicd_other("host", host_sends_two, false);
}

static bool has_work(void *unused)
{
    (void)unused;
    return has_request(NULL) || (!mail.sent && is_free(NULL));
}

/* Sends one message as the PF's driver, and serves the virtual function's requests. */
static void host_does_both(void)
{
    for (;;) {
        nicx_wait_until(has_work, NULL);
        if (has_request(NULL))
            host_takes_one();
        else
            host_puts(0);
    }
}

static void collide(void)
{
    begin_mail();
    nicx_task("mailbox", give_and_take, NULL);
    nicd_other("host", host_does_both, true);
}

/* --- a device reset, and the bit that reports that it is complete --- */

static void host_gets_ready(void)
{
    nicx_write32(NIC_CTRL_EXT, NIC_CTRL_EXT_PFRSTD);
}

static void wait_for_ready(void *unused)
{
    (void)unused;
    while (!nicd_mailbox_ready())
        nicx_wait();
    nicx_check(nicd_peek(NIC_CTRL_EXT) & NIC_CTRL_EXT_PFRSTD,
               "mailbox_ready returned true, but the host hasn't set CTRL_EXT.PFRSTD since the reset");
    nicd_reach(IS_READY);
}

/* Another thread of the driver, which polls for messages at the same time. */
static void look_for_messages(void *unused)
{
    uint32_t words[NICD_WORDS] = {0};
    (void)unused;
    for (unsigned k = 0; k < 3; k++) {
        nicd_mailbox_receive(0, words);
        nicx_point();
    }
}

static void be_ready_once(void)
{
    nicd.by_card = true;
    nicx_write32(NIC_CTRL, NIC_CTRL_RST);
    nicd_set_up_host(VF, false);
    nicd.by_card = false;
    nicx_task("ready", wait_for_ready, NULL);
    nicx_task("look", look_for_messages, NULL);
    nicd_other("host", host_gets_ready, false);
}

const struct scenario nicd_functions[] = {
    ROW("function-both-ways", "a virtual function receives and sends frames",
        "A virtual function accesses its queues at its own offsets", "Virtual Function Registers", FUNCTIONS | RECEIVES,
        .setup = {.port = PORT}, .takes = true, .sends = 4, .comes = 5, .see = see_foreign),
    ROW("function-wrap", "frames in every slot of a virtual function's rings",
        "A virtual function's rings work like the physical function's", "Virtual Function Registers",
        FUNCTIONS | RECEIVES, .setup = {.port = PORT}, .takes = true, .rings = 1, .comes = 4, .see = see_foreign),
    ROW("function-interrupts", "a virtual function's interrupts",
        "A virtual function has its own causes and masks; the driver re-enables what a message masked",
        "Virtual Function Interrupt Registers", FUNCTIONS | RECEIVES | INTERRUPTS,
        .setup = {.port = PORT, .interrupts = true}, .takes = true, .sends = 4, .comes = 5, .see = see_foreign),
    ROW("function-two-queues", "a virtual function with both queues of its pool",
        "A virtual function has the queues of its pool", "Virtual Function Registers", FUNCTIONS | RECEIVES,
        .setup = {.port = PORT, .queues = 2}, .begin = use_both_queues, .see = see_foreign),
    ROW("function-close", "a virtual function closes during traffic",
        "A queue being disabled may receive and send until ENABLE reads 0; only then does software own its memory",
        "Dynamic Disabling of Receive Queues", FUNCTIONS | RECEIVES, .ways = LOSSY | DROPS, .setup = {.port = PORT},
        .control = close_it, .takes = true, .sends = 4, .comes = 5, .see = see_foreign),
    ROW("function-reset-under-it", "the host resets the virtual function's pool during traffic",
        "A pool reset disables the pool's queues; the virtual function's driver sets them up again",
        "Virtual Function Reset", FUNCTIONS | RECEIVES | RESET, .ways = LOSSY | DROPS, .setup = {.port = PORT},
        .control = be_reset, .begin = begin_host, .takes = true, .comes = 3, .late = 2, .see = see_foreign),
    ROW("mailbox-function-sends", "two mailbox messages to the host",
        "A side locks the mailbox before it writes, and writes the next message after the last one is acknowledged",
        "Mailbox", FUNCTIONS | MAILBOX, .setup = {.port = PORT}, .begin = send_messages, .end = judge_mail,
        .see = see_foreign),
    ROW("mailbox-function-receives", "two mailbox messages from the host",
        "One read clears PFSTS, so software keeps what it read", "Mailbox", FUNCTIONS | MAILBOX,
        .setup = {.port = PORT}, .begin = receive_messages, .end = judge_mail, .see = see_foreign),
    ROW("mailbox-function-collides", "both sides send at the same time",
        "VFU and PFU are never both 1: the second side retries", "Mailbox", FUNCTIONS | MAILBOX,
        .setup = {.port = PORT}, .begin = collide, .end = judge_mail, .see = see_foreign),
    ROW("mailbox-ready-once", "the device's reset completes while another thread reads the mailbox",
        "One read clears RSTD, whichever thread does it", "Mailbox", FUNCTIONS | MAILBOX | READY_BIT,
        .setup = {.port = PORT}, .begin = be_ready_once, .see = see_foreign),
    {0}};
