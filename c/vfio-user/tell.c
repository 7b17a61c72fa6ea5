#define _POSIX_C_SOURCE 200809L
#include "tell.h"

#include <inttypes.h>

#include "absent.h"

static void tell_function(const struct function *it, FILE *to)
{
    const struct session_counts *counts = &it->session.counts;
    if (!counts->messages)
        return;
    fprintf(to,
            "%s: %" PRIu64 " messages, %" PRIu64 " refused; regions: %" PRIu64 " reads, %" PRIu64 " writes, of which "
            "configuration %" PRIu64 " and %" PRIu64 "; memory: %" PRIu64 " maps, %" PRIu64 " unmaps; interrupts:",
            it->path, counts->messages, counts->refused, counts->reads, counts->writes, it->counts.config_reads,
            it->counts.config_writes, counts->maps, counts->unmaps);
    for (unsigned int vector = 0; vector < it->session.vectors.count; vector++)
        if (it->session.vectors.sent[vector])
            fprintf(to, " %u:%" PRIu64, vector, it->session.vectors.sent[vector]);
    if (it->session.line.pin.sent[0])
        fprintf(to, " INTx:%" PRIu64, it->session.line.pin.sent[0]);
    if (it->session.line.unmasked)
        fprintf(to, " (unmasked by an eventfd %" PRIu64 ")", it->session.line.unmasked);
    if (it->session.line.msi.sent[0])
        fprintf(to, " MSI:%" PRIu64, it->session.line.msi.sent[0]);
    if (it->counts.lost_messages)
        fprintf(to, "; lost, with MSI-X off: %" PRIu64, it->counts.lost_messages);
    fputc('\n', to);
}

static void tell_whys(FILE *to, const char *what, const uint64_t *whys, const char *(*name)(uint8_t))
{
    uint64_t all = 0;
    for (unsigned int i = 0; i < 16; i++)
        all += whys[i];
    if (!all)
        return;
    fprintf(to, "%s:", what);
    for (unsigned int i = 0; i < 16; i++)
        if (whys[i])
            fprintf(to, " %s %" PRIu64, name((uint8_t)i), whys[i]);
    fputc('\n', to);
}

static void tell_wire(const struct wire_counts *it, FILE *to)
{
    fprintf(to, "wire: out %" PRIu64 " frames, %" PRIu64 " bytes; in %" PRIu64 " frames, %" PRIu64 " bytes", it->out,
            it->out_bytes, it->in, it->in_bytes);
    if (it->replies || it->hairpins || it->played)
        fprintf(to, ", of which replies %" PRIu64 ", hairpin %" PRIu64 ", played %" PRIu64, it->replies, it->hairpins,
                it->played);
    fprintf(to, "\nwire: lost: no other end %" PRIu64 ", other end full %" PRIu64 ", too long %" PRIu64 "\n",
            it->lost_nobody, it->lost_full, it->too_long);
}

static void tell_output(const struct output *it, FILE *to, const char *name)
{
    if (it->lost)
        fprintf(to, "%s: %" PRIu64 " records were lost because nothing read them\n", name, it->lost);
}

void tell_counts(const struct server *it, FILE *to)
{
    const struct bus_counts *bus = bus_counts(it->card.bus);
    const struct rings_counts *rings = rings_counts(it->card.rings);
    for (unsigned int i = 0; i < it->function_count; i++)
        tell_function(&it->functions[i], to);
    tell_wire(&it->wire.counts, to);
    tell_output(&it->wire.capture, to, "capture");
    tell_output(&it->trace, to, "trace");
    fprintf(to,
            "device: received %" PRIu64 " frames in %" PRIu64 " descriptors, sent %" PRIu64 " from %" PRIu64
            "; faults %" PRIu64 "\n",
            bus->frames_in, bus->receive_steps, bus->frames_out, bus->transmit_steps, bus->faults);
    tell_whys(to, "not accepted", bus->arrive_whys, nic_why_name);
    tell_whys(to, "dropped", bus->drop_whys, nic_why_name);
    tell_whys(to, "faults", bus->fault_whys, nic_fault_name);
    fprintf(to,
            "answers in the device's place: SWSM %" PRIu64 ", ANLP1 %" PRIu64 ", EICS %" PRIu64 ", EERD %" PRIu64
            ", ABSENT %" PRIu64 ", FWSM %" PRIu64 ", RXPBSIZE %" PRIu64 ", IPSEC %" PRIu64 ", SW_FW_SYNC %" PRIu64 "\n",
            bus->answered[0], bus->answered[1], bus->answered[2], bus->answered[3], bus->answered[4], bus->answered[5],
            bus->answered[6], bus->answered[7], bus->answered[8]);
    fprintf(to,
            "rings: %" PRIu64 " descriptors, read ahead %" PRIu64 ", %" PRIu64 " bytes of frames; at most %" PRIu32
            " KB of rings; accesses "
            "refused %" PRIu64 ", of which tails outside %" PRIu64 ", rings without room %" PRIu64
            "; tails in rings that are off %" PRIu64 ", writes lost in resets %" PRIu64 ", rings stopped %" PRIu64 "\n",
            rings->descriptors, rings->ahead, rings->frames_bytes, rings->blocks_most * 2, rings->refused,
            rings->tails_outside, rings->without_room, rings->tails_off, it->card.lost_writes, rings->stopped);
    absent_tell(it->card.bus, to, " by the host", " (--strays=FILE lists each)");
    if (it->card.offload) {
        const struct offload_counts *offload = &it->card.offload->counts;
        fprintf(to,
                "offloads: checksums in %" PRIu64 " frames, tags in %" PRIu64 "; %" PRIu64 " TSO sends in %" PRIu64
                " segments, dropped %" PRIu64 ", given up %" PRIu64 "; received longer by a tag %" PRIu64 "\n",
                offload->sums, offload->tags, offload->large, offload->segments, offload->dropped, offload->given_up,
                it->card.long_by_tag);
    }
    if (memory_map_cuts())
        fprintf(to, "memory: %lu times a client truncated a file that it had shared\n", memory_map_cuts());
    fflush(to);
}
