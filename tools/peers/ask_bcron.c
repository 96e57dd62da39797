// Asks bcron: the reader and the search of its own source, compiled here.
//
//     cc -w -I SOURCE bcron.c SOURCE/{crontab,job,ministat,time,timespec-next,timespec-parse}.c -lbg -o bcron
//
// Questions and answers are those of cron.c. bcron-sched asks for the next start of a job from a second on.
#include <limits.h>
#include <setjmp.h>
#include <signal.h>
#include <stdio.h>
#include <stdlib.h>
#include <string.h>
#include <sys/time.h>
#include <bglibs/msg.h>
#include "bcron.h"

const char program[] = "bcron";
const int msg_show_pid = 0;
int msg_debug_bits = 0;

static sigjmp_buf before;

static void give_up(int signal) { siglongjmp(before, 1); }

int main(int count, char *words[]) {
    struct itimerval tenth = {.it_value = {.tv_usec = 100000}};
    static char question[4096], line[4096];
    long long second, end = atoll(words[1]);
    signal(SIGVTALRM, give_up);
    timespec_next_init();
    while (fgets(question, sizeof question, stdin)) {
        struct crontab crontab = {.jobs = 0};
        str text = {0};
        sscanf(question, "%lld\t%4095[^\n]", &second, line);
        str_copys(&text, line);
        str_cats(&text, " x\n");
        if (sigsetjmp(before, 1)) {
            puts("hangs");
            fflush(stdout);
            continue;
        }
        setitimer(ITIMER_VIRTUAL, &tenth, NULL);
        crontab_parse(&crontab, &text, "nobody");
        time_t first = second + 60;
        time_t next = crontab.jobs ? timespec_next(&crontab.jobs->times, first, localtime(&first)) : 0;
        if (!crontab.jobs) puts("refused");
        else if (next == INT_MAX || next >= end) puts("never");
        else printf("%lld\n", (long long)next);
        fflush(stdout);
    }
    return 0;
}
