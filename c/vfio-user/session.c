#include "session.h"

#include <errno.h>
#include <inttypes.h>
#include <stddef.h>
#include <stdio.h>
#include <string.h>

#include "budget.h"
#include "closer.h"
#include "log.h"

#define CAPABILITIES_MOST 200 /* maximum size of the JSON string in bytes */

/* The message being answered. `reply` is the number of bytes in the reply's body. */
struct work {
    struct session *session;
    struct message *message;
    unsigned int reply;
    uint64_t began; /* start of its turn, by budget_time */
};

#define GOES_ON (-1) /* instead of an error: the remaining part of the message waits for another turn */

/* ---- common checks ---- */

/* Returns whether `count` items from `first` on are within `all` items. The session checks every range here. */
static bool is_inside(uint64_t first, uint64_t count, uint64_t all)
{
    return count <= all && first <= all - count;
}

static void *body(struct work *it)
{
    return it->message->body.bytes;
}

/* Takes ownership of a file in the message. Returns -1 if the message has no such file. */
static int take_file(struct message *message, unsigned int index)
{
    int file = index < message->file_count ? message->files[index] : -1;
    if (index < message->file_count)
        message->files[index] = -1;
    return file;
}

/* ---- commands: each returns 0, an error of errno.h, or GOES_ON ---- */

static int version(struct work *it)
{
    struct vfu_version *asked = body(it);
    if (asked->major != 0)
        return EINVAL;
    asked->minor = 0;
    int length = snprintf((char *)asked + sizeof *asked, CAPABILITIES_MOST,
                          "{\"capabilities\":{\"max_msg_fds\":16,\"max_data_xfer_size\":4096,\"pgsizes\":4096,"
                          "\"max_dma_maps\":%u,\"write_multiple\":true}}",
                          memory_map_limits()->ranges);
    it->reply = (unsigned int)sizeof *asked + (unsigned int)length + 1;
    it->session->has_version = true;
    return 0;
}

/* Reports, once for each client, memory without a file, because the server can't access RAM that isn't shared. Other
   memory without a file, such as a display's, is refused too, which clients tolerate. */
static void tell_of_memory(struct session *it, const struct vfu_dma_map *asked)
{
    if (it->has_reported_memory)
        return;
    it->has_reported_memory = true;
    log_client(it->channel.owner, LOG_MESSAGE,
               "%s: memory at 0x%" PRIx64 ", 0x%" PRIx64
               " bytes, isn't shared, so the card can't access it. If it is the "
               "guest's RAM, start QEMU with -object memory-backend-memfd,id=ram,size=SIZE,share=on "
               "-machine memory-backend=ram",
               it->name, asked->address, asked->size);
}

/* Reports the memory of a valid request whose file the server refuses to map. */
static void tell_of_file(const struct session *it, const struct vfu_dma_map *asked, int error)
{
    if (error == EPERM)
        log_client(it->channel.owner, LOG_MESSAGE,
                   "%s: memory at 0x%" PRIx64 " is refused: its file system could block the server. Use "
                   "memory-backend-memfd, tmpfs or hugetlbfs; --trust-files accepts any file",
                   it->name, asked->address);
    else if (error == ENOSPC)
        log_client(it->channel.owner, LOG_MESSAGE,
                   "%s: memory at 0x%" PRIx64 " is refused: a client may map at most %u ranges", it->name,
                   asked->address, memory_map_limits()->ranges);
    else if (error == EFBIG)
        log_client(it->channel.owner, LOG_MESSAGE,
                   "%s: memory at 0x%" PRIx64 " is refused: a client may map at most %" PRIu64
                   " MiB; --client-memory=GIB allows more",
                   it->name, asked->address, memory_map_limits()->bytes >> 20);
    else if (error == EMFILE)
        log_client(it->channel.owner, LOG_MESSAGE,
                   "%s: memory at 0x%" PRIx64 " is refused: a client may map at most %u files", it->name,
                   asked->address, memory_map_limits()->files);
    else if (error == ENOBUFS)
        log_client(it->channel.owner, LOG_MESSAGE,
                   "%s: memory at 0x%" PRIx64 " is refused: a client may map files in at most %u pieces", it->name,
                   asked->address, memory_map_limits()->windows);
}

static int dma_map(struct work *it)
{
    const struct vfu_dma_map *asked = body(it);
    struct memory_range range = {.address = asked->address,
                                 .size = asked->size,
                                 .is_readable = (asked->flags & VFU_MAP_READ) != 0,
                                 .is_writable = (asked->flags & VFU_MAP_WRITE) != 0};
    bool has_file = it->message->file_count != 0;
    if (!has_file && range.is_writable)
        tell_of_memory(it->session, asked);
    it->session->counts.maps++;
    int error = memory_map_add(&it->session->map, &range, has_file ? it->message->files[0] : -1, asked->offset);
    if (error == 0)
        it->session->calls->remapped(it->session->function);
    else
        tell_of_file(it->session, asked, error);
    return error;
}

static int dma_unmap(struct work *it)
{
    const struct vfu_dma_unmap *asked = body(it);
    int error = 0;
    it->session->counts.unmaps++;
    if (asked->flags & VFU_UNMAP_ALL)
        memory_map_clear(&it->session->map);
    else
        error = memory_map_remove(&it->session->map, asked->address, asked->size);
    it->session->calls->remapped(it->session->function);
    it->reply = sizeof *asked;
    return error;
}

static int device_info(struct work *it)
{
    struct vfu_device_info info = {
        .argsz = sizeof info, .flags = VFU_DEVICE_RESETS | VFU_DEVICE_PCI, .regions = VFU_REGIONS, .irqs = VFU_IRQS};
    memcpy(body(it), &info, sizeof info);
    it->reply = sizeof info;
    return 0;
}

static int region_info(struct work *it)
{
    struct vfu_region_info *asked = body(it);
    if (asked->index >= VFU_REGIONS)
        return EINVAL;
    uint64_t bytes = it->session->calls->region_bytes(it->session->function, asked->index);
    struct vfu_region_info info = {.argsz = sizeof info,
                                   .flags = bytes ? VFU_REGION_READABLE | VFU_REGION_WRITABLE : 0,
                                   .index = asked->index,
                                   .size = bytes};
    memcpy(asked, &info, sizeof info);
    it->reply = sizeof info;
    return 0;
}

static struct vectors *vectors_of(struct session *it, uint32_t index)
{
    switch (index) {
    case VFU_INTX: return &it->line.pin;
    case VFU_MSI: return &it->line.msi;
    case VFU_MSIX: return &it->vectors;
    default: return NULL;
    }
}

/* Returns the number of interrupts of a kind. Errors and release requests count as one, but are never raised, so their
   files are dropped. */
static unsigned int irq_count(struct session *it, uint32_t index)
{
    const struct vectors *vectors = vectors_of(it, index);
    return vectors ? vectors->count : index < VFU_IRQS;
}

static int irq_info(struct work *it)
{
    struct vfu_irq_info *asked = body(it);
    if (asked->index >= VFU_IRQS)
        return EINVAL;
    struct vfu_irq_info info = {.argsz = sizeof info,
                                .flags = VFU_IRQ_EVENTFD | (asked->index == VFU_INTX ? VFU_IRQ_LEVEL : 0),
                                .index = asked->index,
                                .count = irq_count(it->session, asked->index)};
    memcpy(asked, &info, sizeof info);
    it->reply = sizeof info;
    return 0;
}

/* Returns whether other clients have their turn before this message is continued. */
static bool may_not_go_on(const struct work *it)
{
    return budget_is_late(it->began) || !it->session->calls->may_go_on(it->session->function);
}

static int give_files(struct work *it, struct vectors *to, uint32_t start, uint32_t count)
{
    int error = 0;
    for (uint32_t i = 0; i < count; i++) {
        int file = take_file(it->message, i);
        if (vectors_set(to, start + i, file))
            continue;
        error = EINVAL;
        if (i < it->message->file_count)
            it->message->files[i] = file; /* closed together with the message's other files */
    }
    return error;
}

/* Sets the vectors' files, and sends the messages that waited for them. */
static int set_files(struct work *it, struct vectors *to, uint32_t start, uint32_t count)
{
    struct session *session = it->session;
    if (session->done++ == 0)
        session->error = give_files(it, to, start, count);
    while (vectors_flush_one(to))
        if (may_not_go_on(it))
            return GOES_ON;
    return session->error;
}

/* Raises all vectors in the range, or only those that the request names. */
static int raise_each(struct work *it, struct vectors *to, uint32_t start, uint32_t count, const uint8_t *named)
{
    uint64_t *done = &it->session->done;
    while (*done < count) {
        uint32_t i = (uint32_t)(*done)++;
        if (named && !named[i])
            continue;
        vectors_raise(to, start + i);
        if (*done < count && may_not_go_on(it))
            return GOES_ON;
    }
    return 0;
}

/* Sets the eventfd with which the client unmasks the line. If the message contains none, removes the current one. */
static int give_unmask(struct work *it)
{
    int file = take_file(it->message, 0);
    if (!line_unmask_by(&it->session->line, file)) {
        it->message->files[0] = file; /* closed together with the message's other files */
        return EINVAL;
    }
    it->session->calls->rearmed(it->session->function);
    return 0;
}

/* Masks or unmasks the line. The client unmasks it after an interrupt, and is notified again if the level is still
   high. */
static int mask_line(struct work *it, const struct vfu_irq_set *asked, bool is_masked)
{
    uint32_t how = asked->flags & VFU_SET_DATA;
    const uint8_t *each = (const uint8_t *)asked + sizeof *asked;
    if (asked->index == VFU_INTX && asked->count == 1 && how == VFU_SET_EVENTFD && !is_masked)
        return give_unmask(it);
    if (asked->index != VFU_INTX || (how != VFU_SET_NONE && how != VFU_SET_BOOL))
        return EINVAL;
    if (asked->count == 0 || (how == VFU_SET_BOOL && !each[0]))
        return 0;
    line_mask(&it->session->line, is_masked);
    it->session->calls->rearmed(it->session->function);
    return 0;
}

/* Sets or removes the files of the vectors in the range, or raises the vectors for the client. */
static int trigger(struct work *it, const struct vfu_irq_set *asked, struct vectors *vectors)
{
    const uint8_t *each = (const uint8_t *)asked + sizeof *asked;
    uint32_t how = asked->flags & VFU_SET_DATA, start = asked->start, count = asked->count;
    if (count == 0 && how != VFU_SET_NONE)
        return EINVAL;
    if (count != 0 && (how == VFU_SET_NONE || how == VFU_SET_BOOL))
        return raise_each(it, vectors, start, count, how == VFU_SET_BOOL ? each : NULL);
    if (count != 0 && how != VFU_SET_EVENTFD)
        return EINVAL;
    if (asked->index == VFU_INTX)
        line_mask(&it->session->line, false);
    it->session->calls->rearmed(it->session->function);
    if (count != 0)
        return set_files(it, vectors, start, count);
    if (asked->index == VFU_INTX)
        line_clear_pin(&it->session->line);
    else
        vectors_clear(vectors);
    return 0;
}

static int set_irqs(struct work *it)
{
    const struct vfu_irq_set *asked = body(it);
    uint32_t start = asked->start, count = asked->count;
    if (asked->index >= VFU_IRQS || !is_inside(start, count, irq_count(it->session, asked->index)))
        return EINVAL;
    if ((asked->flags & VFU_SET_DATA) == VFU_SET_BOOL && it->message->length < sizeof *asked + count)
        return EINVAL;
    struct vectors *vectors = vectors_of(it->session, asked->index);
    switch (asked->flags & VFU_SET_ACTION) {
    case VFU_SET_TRIGGER: return vectors ? trigger(it, asked, vectors) : 0;
    case VFU_SET_MASK:
    case VFU_SET_UNMASK: return mask_line(it, asked, (asked->flags & VFU_SET_MASK) != 0);
    default: return EINVAL;
    }
}

/* Performs an access to a region. Returns false, and does nothing, if it isn't inside an existing region. */
static bool access_region(struct session *it, const struct vfu_access *asked, uint8_t *bytes, bool write)
{
    uint64_t all = asked->region < VFU_REGIONS ? it->calls->region_bytes(it->function, asked->region) : 0;
    return asked->count != 0 && is_inside(asked->offset, asked->count, all) &&
           it->calls->access(it->function, asked->region, asked->offset, bytes, asked->count, write);
}

static int region_read(struct work *it)
{
    struct vfu_access *asked = body(it);
    uint8_t *bytes = (uint8_t *)asked + sizeof *asked;
    it->session->counts.reads++;
    if (asked->count > VFU_TRANSFER_MOST || !access_region(it->session, asked, bytes, false))
        return EINVAL;
    it->reply = (unsigned int)sizeof *asked + asked->count;
    return 0;
}

static int region_write(struct work *it)
{
    struct vfu_access *asked = body(it);
    it->session->counts.writes++;
    if (asked->count > VFU_TRANSFER_MOST || it->message->length - sizeof *asked < asked->count ||
        !access_region(it->session, asked, (uint8_t *)asked + sizeof *asked, true))
        return EINVAL;
    it->reply = sizeof *asked;
    return 0;
}

static int write_multiple(struct work *it)
{
    struct vfu_writes *asked = body(it);
    struct vfu_write *each = (struct vfu_write *)((uint8_t *)asked + sizeof *asked);
    uint64_t *done = &it->session->done;
    it->session->counts.multiple += *done == 0;
    if (asked->count > (it->message->length - sizeof *asked) / sizeof *each)
        return EINVAL;
    while (*done < asked->count) {
        const struct vfu_write *next = &each[(*done)++];
        const struct vfu_access one = {next->offset, next->region, next->count};
        uint8_t bytes[sizeof next->data];
        memcpy(bytes, next->data, sizeof bytes);
        it->session->counts.writes++;
        if (one.count > sizeof bytes || !access_region(it->session, &one, bytes, true))
            return EINVAL;
        if (*done < asked->count && may_not_go_on(it))
            return GOES_ON;
    }
    it->reply = sizeof *asked;
    return 0;
}

static int device_reset(struct work *it)
{
    it->session->calls->reset(it->session->function);
    return 0;
}

/* The minimum length of a command's body, and the C function that executes the command; null if the command isn't
   supported. */
static const struct {
    unsigned int least;
    int (*answer)(struct work *it);
} commands[VFU_COMMANDS] = {
    [VFU_VERSION] = {sizeof(struct vfu_version), version},
    [VFU_DMA_MAP] = {sizeof(struct vfu_dma_map), dma_map},
    [VFU_DMA_UNMAP] = {sizeof(struct vfu_dma_unmap), dma_unmap},
    [VFU_DEVICE_GET_INFO] = {sizeof(struct vfu_device_info), device_info},
    [VFU_DEVICE_GET_REGION_INFO] = {sizeof(struct vfu_region_info), region_info},
    [VFU_DEVICE_GET_IRQ_INFO] = {sizeof(struct vfu_irq_info), irq_info},
    [VFU_DEVICE_SET_IRQS] = {sizeof(struct vfu_irq_set), set_irqs},
    [VFU_REGION_READ] = {sizeof(struct vfu_access), region_read},
    [VFU_REGION_WRITE] = {sizeof(struct vfu_access), region_write},
    [VFU_DEVICE_RESET] = {0, device_reset},
    [VFU_REGION_WRITE_MULTI] = {sizeof(struct vfu_writes), write_multiple},
};

static int answer(struct work *it)
{
    unsigned int command = it->message->head.command;
    if (command >= VFU_COMMANDS || !commands[command].answer)
        return ENOTSUP;
    if (command != VFU_VERSION && !it->session->has_version)
        return EPROTO;
    if (it->message->length < commands[command].least)
        return EINVAL;
    return commands[command].answer(it);
}

static enum channel_state reply(struct work *it, int error)
{
    struct message *message = it->message;
    it->session->counts.refused += error != 0;
    if (message->head.flags & VFU_NO_REPLY)
        return CHANNEL_OPEN;
    message->head.flags = VFU_REPLY | (error ? VFU_ERROR : 0);
    message->head.error = (uint32_t)error;
    message->head.size = (uint32_t)sizeof message->head + (error ? 0 : it->reply);
    /* alignment separates the body from the header; this copy lets one call send both */
    uint8_t bytes[VFU_MESSAGE_MOST];
    memcpy(bytes, &message->head, sizeof message->head);
    memcpy(bytes + sizeof message->head, message->body.bytes, message->head.size - sizeof message->head);
    return channel_send(&it->session->channel, bytes, message->head.size);
}

/* Serves the session's current message, or continues it. */
static enum channel_state serve_one(struct session *it, uint64_t began)
{
    struct work work = {.session = it, .message = &it->message, .began = began};
    it->counts.messages += !it->is_continued;
    it->is_continued = false;
    if ((it->message.head.flags & VFU_TYPE) != 0) {
        message_drop_files(&it->message);
        return CHANNEL_WRONG;
    }
    int error = answer(&work);
    it->is_continued = error == GOES_ON;
    if (it->is_continued)
        return CHANNEL_OPEN;
    it->done = 0;
    message_drop_files(&it->message);
    return reply(&work, error);
}

/* Drops a message without a reply, because its client no longer waits for one. */
static void drop_message(struct session *it)
{
    if (it->is_continued)
        message_drop_files(&it->message);
    it->is_continued = false;
    it->done = 0;
}

/* ---- a client ---- */

void session_begin(struct session *it, const struct session_calls *calls, void *function, unsigned int vectors,
                   bool has_line, unsigned int owner)
{
    channel_begin(&it->channel, -1, owner);
    memory_map_begin(&it->map, owner);
    vectors_begin(&it->vectors, vectors, owner);
    line_begin(&it->line, has_line, owner);
    it->calls = calls;
    it->function = function;
    it->has_version = it->has_reported_memory = it->is_stalled = it->is_paused = it->is_continued = false;
    it->done = 0;
    it->counts = (struct session_counts){0};
}

void session_open(struct session *it, int file)
{
    channel_begin(&it->channel, file, it->channel.owner);
    it->has_version = it->has_reported_memory = it->is_stalled = it->is_paused = false;
}

bool session_is_open(const struct session *it)
{
    return it->channel.file >= 0;
}

bool session_is_ready(const struct session *it)
{
    return channel_waiting(&it->channel) <= CHANNEL_KEPT && !session_is_busy(it);
}

bool session_is_busy(const struct session *it)
{
    return memory_map_is_busy(&it->map) || closer_is_full(it->channel.owner);
}

bool session_is_paused(const struct session *it)
{
    return it->is_paused;
}

void session_close(struct session *it)
{
    it->is_paused = false;
    drop_message(it);
    channel_end(&it->channel);
    memory_map_clear(&it->map);
    vectors_clear(&it->vectors);
    line_clear(&it->line);
}

bool session_give_back(struct session *it)
{
    return memory_map_give_back(&it->map);
}

void session_end(struct session *it)
{
    memory_map_end(&it->map);
}

static bool end_unless_open(struct session *it, enum channel_state state)
{
    if (state == CHANNEL_OPEN)
        return true;
    if (state == CHANNEL_WRONG)
        log_client(it->channel.owner, LOG_MESSAGE, "%s: the client violates the protocol and is disconnected",
                   it->name);
    session_close(it);
    return false;
}

/* Also serves messages that a client sent before it disconnected, unless they have to wait. */
bool session_serve(struct session *it)
{
    uint64_t began = budget_time();
    enum channel_state state = channel_receive(&it->channel);
    it->is_stalled = it->is_paused = false;
    while (state != CHANNEL_WRONG) {
        it->is_stalled = !session_is_ready(it);
        if (it->is_stalled)
            break;
        enum channel_state now = CHANNEL_OPEN;
        if (!it->is_continued && !channel_next(&it->channel, &it->message, &now)) {
            state = now == CHANNEL_OPEN ? state : now;
            break;
        }
        now = serve_one(it, began);
        state = now == CHANNEL_OPEN ? state : now;
        if (now != CHANNEL_OPEN)
            break;
        it->is_paused = it->is_continued || !it->calls->may_serve(it->function) || budget_is_late(began);
        if (it->is_paused)
            return true;
    }
    return end_unless_open(it, state);
}

void session_unmask(struct session *it)
{
    if (session_is_open(it) && line_take_unmask(&it->line))
        it->calls->rearmed(it->function);
}

bool session_flush(struct session *it)
{
    return end_unless_open(it, channel_flush(&it->channel));
}
