// Asks busybox' crond: the reader and the search of its own source, miscutils/crond.c, as crond_source.c beside this file in its place.
//
// Questions and answers are those of ask_cron.c; the first word is the folder in which the crontab of root is written, the second the
// last second. A line of which the reader complains stays a job, with what was read of it: it is refused where it never starts.
#include "libbb.h"

static int is_refused;

#define bb_error_msg(...) (is_refused = 1)
#define crond_main crond_main_of_source
#include "crond_source.c"
#undef crond_main

static CronLine *read_crontab(const char *line) {
    FILE *file = xfopen_for_write("root");
    fprintf(file, "%s x\n", line);
    fclose(file);
    is_refused = 0;
    load_crontab("root");
    return G.cron_files ? G.cron_files->cf_lines : NULL;
}

static int starts(CronLine *job, time_t after, time_t last) {
    job->cl_pid = 0;
    flag_starting_jobs(after, last);
    return job->cl_pid == START_ME_NORMAL;
}

// Whether the same job with all minutes and hours starts at a midnight: a day on which it doesn't is passed over.
static int fits_day(CronLine *job, time_t midnight) {
    CronLine kept = *job;
    memset(job->cl_Mins, 1, sizeof job->cl_Mins);
    memset(job->cl_Hrs, 1, sizeof job->cl_Hrs);
    int fits = starts(job, midnight - 1, midnight);
    memcpy(job->cl_Mins, kept.cl_Mins, sizeof job->cl_Mins);
    memcpy(job->cl_Hrs, kept.cl_Hrs, sizeof job->cl_Hrs);
    return fits;
}

// The first start in (after, end), at a clock in UTC; 0 where there is none.
static time_t first_start(CronLine *job, time_t after, time_t end) {
    time_t minute;
    for (minute = after - after % 60 + 60; minute < end; minute += 60) {
        if (minute % 86400 == 0 && !fits_day(job, minute)) minute += 86400 - 60;
        else if (starts(job, minute - 1, minute)) return minute;
    }
    return 0;
}

int crond_main(int argc, char **argv) MAIN_EXTERNALLY_VISIBLE;
int crond_main(int argc UNUSED_PARAM, char **argv) {
    static char question[4096], line[4096];
    long long second, end = atoll(argv[2]);
    INIT_G();
    xchdir(argv[1]);
    while (fgets(question, sizeof question, stdin)) {
        sscanf(question, "%lld\t%4095[^\n]", &second, line);
        CronLine *job = read_crontab(line);
        time_t next = job ? first_start(job, second, end) : 0;
        if (next && next < end) printf("%lld\n", (long long)next);
        else puts(job && !is_refused ? "never" : "refused");
        fflush(stdout);
    }
    return 0;
}
