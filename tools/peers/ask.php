<?php
// Asks php's cron-expression. Questions and answers are those of ask_cron.c.
//
//     php ask.php
require_once 'Cron/autoload.php';
date_default_timezone_set(getenv('TZ') ?: 'UTC');
while (($question = fgets(STDIN)) !== false) {
    [$after, $line] = explode("\t", rtrim($question, "\n"), 2);
    try {
        $job = new Cron\CronExpression($line);
        try {
            echo $job->getNextRunDate('@' . $after, 0, false, getenv('TZ') ?: 'UTC')->getTimestamp(), "\n";
        } catch (RuntimeException $never) {
            echo "never\n";
        }
    } catch (Throwable $refusal) {
        echo "refused\n";
    }
}
