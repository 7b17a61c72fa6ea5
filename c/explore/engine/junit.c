#include "junit.h"

#include <inttypes.h>
#include <stdio.h>

#include "words.h"

/* Writes a byte. A character that XML 1.0 doesn't allow becomes a question mark. */
static void put(FILE *file, int byte)
{
    switch (byte) {
    case '&': fputs("&amp;", file); break;
    case '<': fputs("&lt;", file); break;
    case '>': fputs("&gt;", file); break;
    case '"': fputs("&quot;", file); break;
    default: fputc((byte >= ' ' && byte < 0x7F) || byte == '\n' || byte == '\t' ? byte : '?', file);
    }
}

static void put_text(FILE *file, const char *text)
{
    while (*text)
        put(file, (unsigned char)*text++);
}

static void put_file(FILE *file, const char *path)
{
    FILE *from = fopen(path, "r");
    if (!from)
        return;
    for (int byte = fgetc(from); byte != EOF; byte = fgetc(from))
        put(file, byte);
    fclose(from);
}

static void ignore(void *argument, const char *line)
{
    (void)argument;
    (void)line;
}

static void put_line(void *argument, const char *line)
{
    put_text(argument, line);
    fputc('\n', argument);
}

static void put_never(void *argument, const char *line)
{
    fputs("    <property name=\"never\" value=\"", argument);
    put_text(argument, line);
    fputs("\"/>\n", argument);
}

static void put_properties(FILE *file, const struct junit *junit)
{
    const struct totals *totals = junit->totals;
    fputs("  <properties>\n", file);
    fprintf(file, "    <property name=\"schedules\" value=\"%" PRIu64 "\"/>\n", totals->runs);
    fprintf(file, "    <property name=\"points\" value=\"%" PRIu64 "\"/>\n", totals->points);
    if (junit->has_distinct)
        fprintf(file, "    <property name=\"distinct\" value=\"%s%" PRIu64 "\"/>\n", totals->is_exact ? "" : "about ",
                totals->distinct);
    fprintf(file, "    <property name=\"faults\" value=\"%" PRIu64 "\"/>\n", totals->coverage.faults);
    nicxi_never(&totals->coverage, put_never, file);
    fputs("  </properties>\n", file);
}

static void begin_case(FILE *file, const struct junit *junit, uint32_t number)
{
    fprintf(file, "  <testcase classname=\"%s\" name=\"%s", nicxi.scenario->name, junit->name);
    if (number)
        fprintf(file, " %" PRIu32, number + 1);
    fprintf(file, "\" time=\"%.3f\">", number ? 0 : junit->totals->seconds);
}

static void put_failed_case(FILE *file, const struct junit *junit, uint32_t number)
{
    const struct junit_failure *failure = &junit->failures[number];
    begin_case(file, junit, number);
    fprintf(file, "\n    <failure type=\"%s\" message=\"", nicxi_outcome_name(failure->result->outcome));
    put_text(file, failure->result->words);
    fputs("\">", file);
    put_file(file, failure->schedule);
    fputs("</failure>\n  </testcase>\n", file);
}

static void put_case(FILE *file, const struct junit *junit, bool is_vacuous)
{
    begin_case(file, junit, 0);
    if (is_vacuous) {
        fputs("\n    <failure type=\"vacuous\" message=\"part of the scenario never ran\">", file);
        nicxi_never(&junit->totals->coverage, put_line, file);
        fputs("</failure>\n  ", file);
    }
    fputs("</testcase>\n", file);
}

bool nicxi_write_junit(const struct junit *junit)
{
    bool is_vacuous = junit->options->is_strict && !junit->count && nicxi_never(&junit->totals->coverage, ignore, NULL);
    FILE *file = fopen(junit->options->junit, "w");
    if (!file)
        return false;
    fprintf(file, "<?xml version=\"1.0\" encoding=\"UTF-8\"?>\n");
    fprintf(file, "<testsuite name=\"%s\" tests=\"%" PRIu32 "\" failures=\"%" PRIu32 "\" errors=\"0\" time=\"%.3f\">\n",
            nicxi.scenario->name, junit->count ? junit->count : 1, junit->count + is_vacuous, junit->totals->seconds);
    put_properties(file, junit);
    for (uint32_t k = 0; k < junit->count; k++)
        put_failed_case(file, junit, k);
    if (!junit->count)
        put_case(file, junit, is_vacuous);
    fputs("</testsuite>\n", file);
    bool is_written = !ferror(file);
    return fclose(file) == 0 && is_written;
}
