#include <croner.h>
#include <stdio.h>
#include <string.h>
#include <time.h>

/* Prints the next run of a pattern on the clock of Paris, as a second since 1970 and in UTC. */
int main(void)
{
    const char *pattern = "0 9 * * MON-FRI";
    static uint8_t zone[1000000];
    croner_change changes[64];
    croner_clock clock = {.size = sizeof clock, .changes = changes};
    int64_t run;
    FILE *file = fopen("/usr/share/zoneinfo/Europe/Paris", "rb");
    if (file == NULL) return 1;
    size_t length = fread(zone, 1, sizeof zone, file);
    fclose(file);
    clock.first = time(NULL); /* the window: ten years from now on */
    clock.last = clock.first + INT64_C(315360000);
    if (croner_clock_of_tzif(zone, length, clock.first, clock.last, changes, 64, &clock.ahead, &clock.count) != CRONER_OK) return 1;
    if (croner_next(pattern, strlen(pattern), 0, &clock, clock.first, 0, &run) != CRONER_OK) return 1;
    time_t second = (time_t)run;
    char shown[32];
    strftime(shown, sizeof shown, "%Y-%m-%dT%H:%M:%SZ", gmtime(&second));
    printf("@%lld %s\n", (long long)run, shown);
    return 0;
}
