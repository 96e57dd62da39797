// Asks Debian's cron: the reader and the search for jobs of its own source, compiled here.
//
//     cc -w -DDEBIAN -I SOURCE cron.c SOURCE/entry.c SOURCE/env.c SOURCE/misc.c -o cron
//
// Standard input has questions, "SECOND<TAB>LINE": when does this line start next, after this second? The answer is a second, `never` or
// `refused`. Its loop isn't asked (its clock here is UTC, which has no changes): a minute is handed to find_jobs, as the loop does it. A
// day on which the same job with all minutes and hours doesn't start at midnight is passed over.
#define main cron_main
#include "cron.c"
#undef main

static int is_refused, is_started;

void job_add(entry *e, user *u) { is_started = 1; }
int job_runqueue(void) { return 0; }
void check_orphans(cron_db *db) {}
void load_database(cron_db *db) {}
static void refuse(char *why) { is_refused = 1; }

static entry *read_line(const char *line, struct passwd *owner) {
    FILE *file = tmpfile();
    char **variables = env_init();
    entry *job;
    fprintf(file, "%s x\n", line);
    rewind(file);
    Set_LineNum(1)
    is_refused = 0;
    job = load_entry(file, refuse, owner, variables);
    fclose(file);
    env_free(variables);
    return is_refused ? NULL : job;
}

static int starts(entry *job, long long minute) {
    user one = {.crontab = job};
    cron_db all = {.head = &one, .tail = &one};
    is_started = 0;
    find_jobs(minute, &all, TRUE, TRUE);
    return is_started;
}

// The first minute of a start from `minute` on, before `end`; 0 where there is none.
static long long first_start(entry *job, long long minute, long long end) {
    entry any_time = *job;
    bit_nset(any_time.minute, 0, LAST_MINUTE - FIRST_MINUTE);
    bit_nset(any_time.hour, 0, LAST_HOUR - FIRST_HOUR);
    any_time.next = NULL;
    for (; minute < end; minute++) {
        if (minute % 1440 == 0 && !starts(&any_time, minute)) minute += 1439;
        else if (starts(job, minute)) return minute;
    }
    return 0;
}

int main(int count, char *words[]) {
    static char question[4096], line[4096];
    long long second, end = atoll(words[1]) / 60;
    struct passwd *owner = getpwuid(0);
    ProgramName = words[0];
    while (fgets(question, sizeof question, stdin)) {
        sscanf(question, "%lld\t%4095[^\n]", &second, line);
        entry *job = read_line(line, owner);
        long long minute = job ? first_start(job, second / 60 + 1, end) : 0;
        if (minute) printf("%lld\n", minute * 60);
        else puts(job ? "never" : "refused");
        fflush(stdout);
        if (job) free_entry(job);
    }
    return 0;
}
