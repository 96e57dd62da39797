# Asks Schedule::Cron. Questions and answers are those of ask_cron.c.
#
#     perl ask.pl
use strict;
use warnings;
use Schedule::Cron;

$| = 1;
local $SIG{__WARN__} = sub { };
while (my $question = <STDIN>) {
    chomp $question;
    my ($after, $line) = split /\t/, $question, 2;
    my $cron = Schedule::Cron->new(sub { });
    if (!eval { $cron->add_entry($line); 1 }) {
        print "refused\n";
        next;
    }
    my $next = eval { $cron->get_next_execution_time($line, $after) };
    print defined $next ? "$next\n" : $@ =~ /suitable|years|found/ ? "never\n" : "refused\n";
}
