#include <croner.h>
#include <inttypes.h>
#include <stdio.h>
#include <stdlib.h>
#include <string.h>
#include <time.h>

/* How far a clock is ahead of UTC at a second. */
static int32_t ahead_at(const croner_clock *clock, int64_t second)
{
    int32_t ahead = clock->ahead;
    for (size_t i = 0; i < clock->count && clock->changes[i].second <= second; i++) ahead = clock->changes[i].ahead;
    return ahead;
}

/* The second at which a clock shows what UTC shows at `shown`; one of the two, if the clock shows it twice. */
static int64_t second_of(const croner_clock *clock, int64_t shown)
{
    return shown - ahead_at(clock, shown - ahead_at(clock, shown));
}

/* Prints what a clock shows at a second: 2026-03-29T03:00:00+02:00. */
static void show(const croner_clock *clock, int64_t second)
{
    int32_t ahead = ahead_at(clock, second);
    int minutes = abs(ahead) / 60;
    time_t shown = (time_t)(second + ahead);
    char date[32];
    strftime(date, sizeof date, "%Y-%m-%dT%H:%M:%S", gmtime(&shown));
    printf("%s%c%02d:%02d", date, ahead < 0 ? '-' : '+', minutes / 60, minutes % 60);
}

/* Prints when Debian's cron starts the job of a line, and how often, after a second and up to another. */
static croner_status print_starts(const char *line, size_t length, const croner_clock *clock, int64_t after, int64_t until)
{
    croner_line parts = {.size = sizeof parts};
    croner_start starts[100];
    size_t count = 100;
    croner_status status = croner_crontab_line(line, length, CRONER_SYSTEM_TABLE, &parts);
    if (status != CRONER_OK || parts.kind != CRONER_JOB) return status;
    while (count == 100) { /* more may follow, as there was room for no more */
        status = croner_crontab_starts(line, length, CRONER_SYSTEM_TABLE, clock, after, until, starts, 100, &count);
        if (status != CRONER_OK && status != CRONER_LIMIT) return status;
        for (size_t i = 0; i < count; i++) {
            show(clock, after = starts[i].second);
            printf(" %" PRIu32 " %.*s\n", starts[i].times, (int)(parts.command_end - parts.command_begin), line + parts.command_begin);
        }
    }
    return CRONER_OK;
}

/* What UTC shows at the answer: a date, as in 2026-03-29T00:00. */
static int64_t shown_of(const char *date)
{
    struct tm parts = {.tm_year = 70};
    if (sscanf(date, "%d-%d-%dT%d:%d", &parts.tm_year, &parts.tm_mon, &parts.tm_mday, &parts.tm_hour, &parts.tm_min) != 5) exit(1);
    parts.tm_year -= 1900;
    parts.tm_mon -= 1;
    return timegm(&parts);
}

/* Does so for a line of a system's crontab: crontab_starts LINE AFTER UNTIL, with dates on the machine's clock, which cron uses. */
int main(int argc, char **argv)
{
    static uint8_t zone[1000000];
    static croner_change changes[1000];
    croner_clock clock = {.size = sizeof clock, .changes = changes};
    if (argc != 4) return 1;
    FILE *file = fopen("/etc/localtime", "rb");
    if (file == NULL) return 1;
    size_t length = fread(zone, 1, sizeof zone, file);
    fclose(file);
    int64_t after = shown_of(argv[2]), until = shown_of(argv[3]);
    clock.first = after - 86400; /* a clock is at most a day ahead of UTC, or behind it */
    clock.last = until + 86400;
    if (croner_clock_of_tzif(zone, length, clock.first, clock.last, changes, 1000, &clock.ahead, &clock.count) != CRONER_OK) return 1;
    return print_starts(argv[1], strlen(argv[1]), &clock, second_of(&clock, after), second_of(&clock, until)) != CRONER_OK;
}
