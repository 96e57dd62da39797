use croner_proved::{ClockTable, Cron, CronError, TableTime};

fn main() -> Result<(), CronError> {
    let job: Cron = "0 9 * * MON-FRI".parse()?;
    let paris = ClockTable::of_zone("Europe/Paris", 0, 4_102_444_799)?; // 1970 to 2099
    let run = job.find_next_occurrence(&TableTime::now(&paris)?, false)?; // true: the start itself may be the run
    println!("{run}");
    Ok(())
}
