#include "offload.h"

#include <stdlib.h>
#include <string.h>

#include "nic82599.h"

/* fields of a context descriptor */
#define CONTEXT_IP_LENGTH(first) ((uint16_t)((first)&0x1FF))
#define CONTEXT_MAC_LENGTH(first) ((uint8_t)((first) >> 9 & 0x7F))
#define CONTEXT_TAG(first) ((uint16_t)((first) >> 16))
#define CONTEXT_IS_IPV4(second) ((second) >> 10 & 1)
#define CONTEXT_L4_TYPE(second) ((uint8_t)((second) >> 11 & 3))
#define CONTEXT_INDEX(second) ((unsigned int)((second) >> 36 & 1))
#define CONTEXT_L4_LENGTH(second) ((uint8_t)((second) >> 40))
#define CONTEXT_MSS(second) ((uint16_t)((second) >> 48))

/* POPTS of a data descriptor */
#define SUM_IP 1u
#define SUM_L4 2u
#define DONE_HERE NIC_TXD_POPTS_IS(SUM_IP | SUM_L4)

enum l4_type { UDP, TCP, SCTP };

#define ADDRESSES 12u /* in an Ethernet header */
#define TAG_BYTES 4u
#define IP_SUM 10u
#define TCP_FLAGS 13u
#define FIN_PSH 0x09u
#define CWR 0x80u

static uint32_t crc_of(uint32_t byte)
{
    for (int bit = 0; bit < 8; bit++)
        byte = byte >> 1 ^ (byte & 1 ? UINT32_C(0x82F63B78) : 0);
    return byte;
}

struct offload *offload_new(void)
{
    struct offload *it = calloc(1, sizeof *it);
    for (uint32_t byte = 0; it && byte < sizeof it->crc / sizeof *it->crc; byte++)
        it->crc[byte] = crc_of(byte);
    return it;
}

void offload_free(struct offload *it)
{
    for (unsigned int queue = 0; it && queue < OFFLOAD_QUEUES; queue++)
        free(it->queues[queue].bytes);
    free(it);
}

static bool copy_bytes(struct offload_queue *it, const struct offload_queue *from)
{
    it->bytes = from->bytes ? malloc(from->room) : NULL;
    if (it->bytes)
        memcpy(it->bytes, from->bytes, from->length);
    return it->bytes || !from->bytes;
}

struct offload *offload_copy(const struct offload *it)
{
    struct offload *copy = malloc(sizeof *copy);
    bool fits = copy != NULL;
    if (!copy)
        return NULL;
    *copy = *it;
    for (unsigned int queue = 0; queue < OFFLOAD_QUEUES; queue++)
        fits &= copy_bytes(&copy->queues[queue], &it->queues[queue]);
    if (fits)
        return copy;
    offload_free(copy);
    return NULL;
}

void offload_become(struct offload *it, struct offload *copy)
{
    const struct offload_counts counts = it->counts;
    for (unsigned int queue = 0; queue < OFFLOAD_QUEUES; queue++)
        free(it->queues[queue].bytes);
    *it = *copy;
    it->counts = counts;
    free(copy);
}

void offload_give_up(struct offload *it, unsigned int queue)
{
    it->queues[queue].is_partial = it->queues[queue].is_ready = false;
}

void offload_forget(struct offload *it, unsigned int queue)
{
    struct offload_queue *of = &it->queues[queue];
    it->counts.given_up += of->cut != 0;
    *of = (struct offload_queue){.bytes = of->bytes, .room = of->room};
}

/* ---- requests ---- */

void offload_context(struct offload *it, unsigned int queue, uint64_t first, uint64_t second)
{
    uint64_t *context = it->queues[queue].contexts[CONTEXT_INDEX(second)];
    context[0] = first;
    context[1] = second;
}

static void begin(struct offload_queue *it, uint64_t second)
{
    const uint64_t *context = it->contexts[CONTEXT_INDEX(second)];
    unsigned int options = (unsigned int)((second & NIC_TXD_POPTS) >> NIC_TXD_POPTS_SHIFT);
    it->job = (struct offload_job){.sums_ip = (options & SUM_IP) != 0,
                                   .sums_l4 = (options & SUM_L4) != 0,
                                   .is_large = (second & NIC_TXD_TSE) != 0,
                                   .has_tag = (second & NIC_TXD_VLE) != 0,
                                   .ip_length = CONTEXT_IP_LENGTH(context[0]),
                                   .mac_length = CONTEXT_MAC_LENGTH(context[0]),
                                   .tag = CONTEXT_TAG(context[0]),
                                   .l4_type = CONTEXT_L4_TYPE(context[1]),
                                   .l4_length = CONTEXT_L4_LENGTH(context[1]),
                                   .mss = CONTEXT_MSS(context[1])};
    if (it->job.is_large)
        it->job.sums_ip |= CONTEXT_IS_IPV4(context[1]);
    it->length = 0;
}

/* Appends bytes to a TSO packet. Returns false if there is no room; the packet is then dropped when the device sends
   its short frame. */
static bool gather(struct offload_queue *it, const uint8_t *bytes, size_t length)
{
    if (length > OFFLOAD_LARGEST - it->length)
        return false;
    if (it->length + length > it->room) {
        uint8_t *more = realloc(it->bytes, OFFLOAD_LARGEST);
        if (!more)
            return false;
        it->bytes = more;
        it->room = OFFLOAD_LARGEST;
    }
    memcpy(it->bytes + it->length, bytes, length);
    it->length += length;
    return true;
}

/* For a TSO packet, the device gets a short frame with the last descriptor, and context descriptors, which it skips,
   before that. */
static uint64_t stand_in(uint64_t second, size_t *length)
{
    second &= ~(NIC_TXD_DTALEN | NIC_TXD_PAYLEN);
    if (!(second & NIC_TXD_EOP)) {
        *length = 0;
        return (second & ~NIC_TXD_DTYP) | NIC_TXD_DTYP_IS(2);
    }
    *length = *length < OFFLOAD_STAND_IN ? *length : OFFLOAD_STAND_IN;
    return second | NIC_TXD_DTALEN_IS(*length);
}

uint64_t offload_data(struct offload *it, unsigned int queue, uint64_t second, const uint8_t *bytes, size_t *length,
                      const struct legacy_sum *legacy, uint16_t tag)
{
    struct offload_queue *of = &it->queues[queue];
    if (!of->is_partial)
        begin(of, second);
    if (legacy) {
        of->job.has_tag |= (second & NIC_TXD_VLE) != 0;
        of->job.tag = tag;
        if (legacy->is_wanted)
            of->job.legacy = *legacy;
    }
    of->is_partial = !(second & NIC_TXD_EOP);
    of->is_ready = !of->is_partial;
    if (second & NIC_TXD_POPTS & ~DONE_HERE) /* the device reports the fault, and ends the frame */
        return second;
    if (of->job.is_large) {
        if (!gather(of, bytes, *length))
            of->job.mss = 0;
        second = stand_in(second, length);
    }
    return second & ~(NIC_TXD_POPTS | NIC_TXD_TSE | NIC_TXD_VLE);
}

/* ---- checksums ---- */

static void put16(uint8_t *to, uint32_t value)
{
    to[0] = (uint8_t)(value >> 8);
    to[1] = (uint8_t)value;
}

static uint32_t get16(const uint8_t *at)
{
    return (uint32_t)at[0] << 8 | at[1];
}

static uint32_t get32(const uint8_t *at)
{
    return get16(at) << 16 | get16(at + 2);
}

static uint32_t sum_of(uint32_t sum, const uint8_t *bytes, size_t length)
{
    for (size_t i = 0; i + 1 < length; i += 2)
        sum += get16(bytes + i);
    return length % 2 ? sum + ((uint32_t)bytes[length - 1] << 8) : sum;
}

static uint32_t folded(uint32_t sum)
{
    while (sum >> 16)
        sum = (sum & 0xFFFF) + (sum >> 16);
    return ~sum & 0xFFFF;
}

static uint32_t crc32c(const struct offload *it, const uint8_t *bytes, size_t length)
{
    uint32_t crc = UINT32_MAX;
    for (size_t i = 0; i < length; i++)
        crc = crc >> 8 ^ it->crc[(crc ^ bytes[i]) & 0xFF];
    return ~crc;
}

static void sum_ip(const struct offload_job *job, uint8_t *frame, size_t length)
{
    uint8_t *ip = frame + job->mac_length;
    if (job->ip_length < IP_SUM + 2 || (size_t)job->mac_length + job->ip_length > length)
        return;
    put16(ip + IP_SUM, folded(sum_of(0, ip, job->ip_length)));
}

/* Completes the checksum in a field. The driver has stored the pseudo header's sum there; `more` is the part of the sum
   that depends on the length. */
static void sum_l4(const struct offload *it, const struct offload_job *job, uint8_t *frame, size_t length,
                   uint32_t more)
{
    static const uint8_t places[] = {[UDP] = 6, [TCP] = 16, [SCTP] = 8}, ends[] = {[UDP] = 8, [TCP] = 18, [SCTP] = 12};
    size_t at = (size_t)job->mac_length + job->ip_length;
    uint8_t *l4 = frame + at;
    if (job->l4_type > SCTP || at > length || length - at < ends[job->l4_type])
        return;
    uint8_t *field = l4 + places[job->l4_type];
    if (job->l4_type == SCTP) {
        memset(field, 0, 4);
        uint32_t crc = crc32c(it, l4, length - at);
        for (int i = 0; i < 4; i++)
            field[i] = (uint8_t)(crc >> 8 * i);
        return;
    }
    uint32_t sum = folded(sum_of(more, l4, length - at));
    put16(field, job->l4_type == UDP && sum == 0 ? 0xFFFF : sum);
}

/* Returns the length of the frame up to the end of the IP packet. Bytes after that are padding, which no checksum
   includes. */
static size_t without_padding(const struct offload_job *job, const uint8_t *frame, size_t length)
{
    const uint8_t *ip = frame + job->mac_length;
    if ((size_t)job->mac_length + 20 > length)
        return length;
    size_t all = job->mac_length + (ip[0] >> 4 == 4 ? get16(ip + 2) : get16(ip + 4) + 40);
    return all < length && all > job->mac_length + 20u ? all : length;
}

static void sum_legacy(const struct offload_job *job, uint8_t *frame, size_t length)
{
    const struct legacy_sum *sum = &job->legacy;
    if (sum->is_wanted && sum->start < length && sum->at + 2u <= length)
        put16(frame + sum->at, folded(sum_of(0, frame + sum->start, length - sum->start)));
}

/* ---- frames ---- */

/* Passes the frame in it->frame to the sink, with its tag. */
static void put_out(struct offload *it, const struct offload_job *job, size_t length, offload_sink *sink, void *to)
{
    if (job->has_tag && length >= ADDRESSES && length + TAG_BYTES <= sizeof it->frame) {
        memmove(it->frame + ADDRESSES + TAG_BYTES, it->frame + ADDRESSES, length - ADDRESSES);
        put16(it->frame + ADDRESSES, 0x8100);
        put16(it->frame + ADDRESSES + 2, job->tag);
        it->counts.tags++;
        length += TAG_BYTES;
    }
    sink(to, it->frame, length);
}

/* Writes the headers of a TSO packet's segment. The segment contains `many` bytes, starting at offset `at` of the
   packet. */
static void put_headers(struct offload *it, const struct offload_queue *of, size_t head, size_t at, size_t many)
{
    const struct offload_job *job = &of->job;
    uint8_t *ip = it->frame + job->mac_length, *l4 = ip + job->ip_length;
    uint32_t l4_bytes = (uint32_t)(job->l4_length + many);
    if (ip[0] >> 4 == 4) {
        put16(ip + 2, job->ip_length + l4_bytes);
        put16(ip + 4, get16(ip + 4) + of->segment);
    } else {
        put16(ip + 4, job->ip_length - 40u + l4_bytes);
    }
    if (job->l4_type == TCP) {
        uint32_t sequence = get32(l4 + 4) + (uint32_t)(at - head);
        put16(l4 + 4, sequence >> 16);
        put16(l4 + 6, sequence & 0xFFFF);
        l4[TCP_FLAGS] &= (uint8_t) ~(of->length - at > many ? FIN_PSH : 0);
        l4[TCP_FLAGS] &= (uint8_t) ~(of->segment ? CWR : 0);
    } else if (job->l4_type == UDP) {
        put16(l4 + 4, l4_bytes);
    }
}

/* Builds the next segment. Returns the length of its frame. */
static size_t cut_one(struct offload *it, struct offload_queue *of, size_t head)
{
    const struct offload_job *job = &of->job;
    size_t left = of->length - of->cut, many = left < job->mss ? left : job->mss;
    memcpy(it->frame, of->bytes, head);
    memcpy(it->frame + head, of->bytes + of->cut, many);
    put_headers(it, of, head, of->cut, many);
    if (job->sums_ip)
        sum_ip(job, it->frame, head + many);
    sum_l4(it, job, it->frame, head + many, (uint32_t)(job->l4_length + many));
    it->counts.segments++;
    of->segment++;
    of->cut = many < left ? of->cut + many : 0;
    return head + many;
}

static size_t head_of(const struct offload_job *job)
{
    return (size_t)job->mac_length + job->ip_length + job->l4_length;
}

/* Called when the device has sent the short frame in a TSO packet's place. */
static void begin_to_cut(struct offload *it, struct offload_queue *of)
{
    const struct offload_job *job = &of->job;
    size_t head = head_of(job);
    it->counts.large++;
    if (job->mss == 0 || head >= of->length || job->ip_length < 20 || job->l4_length < 8 ||
        (job->l4_type == TCP && job->l4_length < 20) || head + job->mss + TAG_BYTES > sizeof it->frame) {
        it->counts.dropped++;
        return;
    }
    of->cut = head;
    of->segment = 0;
}

bool offload_is_cutting(const struct offload *it, unsigned int queue)
{
    return it->queues[queue].cut != 0;
}

void offload_cut(struct offload *it, unsigned int queue, struct budget *budget, offload_sink *sink, void *to)
{
    struct offload_queue *of = &it->queues[queue];
    while (of->cut && !budget_is_spent(budget)) {
        size_t length = cut_one(it, of, head_of(&of->job));
        budget_spend(budget, BUDGET_STEP + length);
        put_out(it, &of->job, length, sink, to);
    }
}

void offload_sent(struct offload *it, unsigned int queue, const uint8_t *frame, size_t length, offload_sink *sink,
                  void *to)
{
    struct offload_queue *of = &it->queues[queue];
    const struct offload_job *job = &of->job;
    bool is_plain = !job->is_large && !job->sums_ip && !job->sums_l4 && !job->has_tag && !job->legacy.is_wanted;
    bool is_ready = of->is_ready;
    of->is_ready = false;
    if (!is_ready || is_plain || length > sizeof it->frame - TAG_BYTES) {
        sink(to, frame, length);
        return;
    }
    if (job->is_large) {
        begin_to_cut(it, of);
        return;
    }
    memcpy(it->frame, frame, length);
    size_t all = without_padding(job, frame, length);
    it->counts.sums += job->sums_ip || job->sums_l4 || job->legacy.is_wanted;
    if (job->sums_ip)
        sum_ip(job, it->frame, all);
    if (job->sums_l4)
        sum_l4(it, job, it->frame, all, 0);
    sum_legacy(job, it->frame, length);
    put_out(it, job, length, sink, to);
}
