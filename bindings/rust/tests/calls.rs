//! Each call on its happy path, and its errors.

use croner_proved::parser::{Seconds, Year};
use croner_proved::{ClockTable, Cron, CronError, CronParser, Direction, Kind, Language, TableTime, Unit};
use std::collections::HashSet;
use std::thread;
use std::time::{Duration, UNIX_EPOCH};

const PARIS: &str = "CET-1CEST,M3.5.0,M10.5.0/3";

fn paris() -> ClockTable {
    ClockTable::of_posix(PARIS, 0, 4_102_444_799).unwrap()
}

fn cron(text: &str) -> Cron {
    text.parse().unwrap()
}

fn shown<'t>(runs: impl Iterator<Item = TableTime<'t>>) -> Vec<String> {
    runs.map(|it| it.to_string()).collect()
}

#[test]
fn the_next_and_the_previous_run() {
    let paris = paris();
    let job = cron("0 9 * * MON-FRI");
    let start = TableTime::new(&paris, 1_720_216_800).unwrap();
    let next = job.find_next_occurrence(&start, false).unwrap();
    assert_eq!(next.to_string(), "2024-07-08T09:00:00+02:00");
    assert_eq!(next.civil(), (2024, 7, 8, 9, 0, 0));
    assert_eq!(job.find_next_occurrence(&next, true), Ok(next));
    assert_eq!(
        job.find_next_occurrence(&next, false).unwrap().to_string(),
        "2024-07-09T09:00:00+02:00"
    );
    assert_eq!(
        job.find_previous_occurrence(&next, false).unwrap().to_string(),
        "2024-07-05T09:00:00+02:00"
    );
    assert_eq!(job.is_time_matching(&next), Ok(true));
    assert_eq!(job.is_time_matching(&start), Ok(false));
}

#[test]
fn both_changes_of_paris() {
    let paris = paris();
    let spring = TableTime::new(&paris, 1_711_760_400).unwrap();
    let fixed = cron("30 2 * * *");
    let runs = shown(fixed.iter_after(spring).take(3));
    let wanted = [
        "2024-03-30T02:30:00+01:00",
        "2024-03-31T03:00:00+02:00",
        "2024-04-01T02:30:00+02:00",
    ];
    assert_eq!(runs, wanted);
    let autumn = TableTime::new(&paris, 1_729_983_600).unwrap();
    let runs = shown(cron("*/30 2 * * *").iter_from(autumn, Direction::Forward).take(4));
    let wanted = [
        "2024-10-27T02:00:00+02:00",
        "2024-10-27T02:30:00+02:00",
        "2024-10-27T02:00:00+01:00",
        "2024-10-27T02:30:00+01:00",
    ];
    assert_eq!(runs, wanted);
}

#[test]
fn lists_of_more_than_a_chunk() {
    let utc = ClockTable::utc();
    let start = TableTime::new(&utc, 0).unwrap();
    let job = cron("*/7 * * * *");
    let forward: Vec<_> = job.iter_after(start).take(500).collect();
    assert!(forward.windows(2).all(|it| it[0] < it[1]));
    let last = *forward.last().unwrap();
    let mut backward: Vec<_> = job.iter_before(last).take(499).collect();
    backward.reverse();
    assert_eq!(forward[..499], backward[..]);
    let mut one = start;
    for run in &forward {
        one = job.find_next_occurrence(&one, false).unwrap();
        assert_eq!(one, *run);
    }
}

#[test]
fn an_end() {
    let utc = ClockTable::utc();
    let start = TableTime::new(&utc, 1_700_000_000).unwrap();
    let job = cron("0 0 0 1 1 * 2025");
    let mut runs = job.iter_after(start);
    assert_eq!(runs.next().unwrap().to_string(), "2025-01-01T00:00:00+00:00");
    assert_eq!((runs.next(), runs.fault()), (None, None));
    assert_eq!(runs.next(), None);
    assert_eq!(
        job.find_previous_occurrence(&start, false),
        Err(CronError::TimeSearchLimitExceeded)
    );
    let narrow = ClockTable::of_posix(PARIS, 1_700_000_000, 1_710_000_000).unwrap();
    let job = cron("0 0 1 * *");
    let mut runs = job.iter_after(TableTime::new(&narrow, 1_700_000_000).unwrap());
    assert_eq!(runs.by_ref().count(), 4);
    assert_eq!(runs.fault(), Some(&CronError::OutsideWindow));
}

#[test]
fn refusals() {
    for (text, begin, end, field, kind) in [
        ("60 * * * *", 0, 2, Some(Unit::Minute), Kind::BadField),
        ("0 9 * *", 0, 7, None, Kind::FieldCount),
        (" ", 0, 1, None, Kind::Empty),
    ] {
        match text.parse::<Cron>() {
            Err(CronError::InvalidPattern(fault)) => {
                assert_eq!((fault.field, fault.kind), (field, kind), "{text}: {fault}");
                assert!(
                    fault.begin <= fault.end
                        && fault.end <= text.len()
                        && begin <= fault.begin
                        && fault.end <= end.max(7)
                );
            }
            other => panic!("{text}: {other:?}"),
        }
    }
}

#[test]
fn settings() {
    let quartz = CronParser::builder()
        .seconds(Seconds::Required)
        .alternative_weekdays(true)
        .build();
    let utc = ClockTable::utc();
    let start = TableTime::new(&utc, 1_720_000_000).unwrap();
    let run = quartz
        .parse("0 0 9 ? * 2")
        .unwrap()
        .find_next_occurrence(&start, false)
        .unwrap();
    assert_eq!(run.to_string(), "2024-07-08T09:00:00+00:00");
    assert!(quartz.parse("0 9 * * *").is_err());
    let five = CronParser::builder()
        .seconds(Seconds::Disallowed)
        .year(Year::Disallowed)
        .build();
    assert!(five.parse("0 0 9 * * *").is_err());
    assert!(CronParser::builder()
        .year(Year::Required)
        .build()
        .parse("0 0 9 * * *")
        .is_err());
    let both = CronParser::builder().dom_and_dow(true).sloppy_ranges(true).build();
    let run = both
        .parse("5/10 0 13 * FRI")
        .unwrap()
        .find_next_occurrence(&start, false)
        .unwrap();
    assert_eq!(run.to_string(), "2024-09-13T00:05:00+00:00");
}

#[test]
fn words() {
    let job = cron("5 9 * * MON");
    assert_eq!(job.describe().unwrap(), "At 09:05, on Monday.");
    assert_eq!(
        job.describe_lang(Language::Swedish).unwrap(),
        "Klockan 09:05, på måndag."
    );
    let job = cron("0-20/3 9 * * *");
    assert_eq!(
        job.summary(Language::English).unwrap(),
        "Every 3 minutes from 09:00 to 09:18"
    );
    assert_eq!(
        job.summary(Language::Swedish).unwrap(),
        "Var 3:e minut från kl. 09:00 till 09:18"
    );
    let years: Vec<String> = (1..500).map(|it| (it * 3).to_string()).collect();
    let long = cron(&format!("0 0 9 * * * {}", years.join(",")));
    assert!(long.describe().unwrap().contains(" 1497"));
}

#[test]
fn clocks() {
    assert_eq!(ClockTable::fixed(90_000), Err(CronError::NotCalm));
    assert_eq!(ClockTable::of_posix("nothing", 0, 1), Err(CronError::InvalidZone));
    assert_eq!(ClockTable::of_tzif(b"TZif", 0, 1), Err(CronError::InvalidZone));
    let turned = ClockTable::of_posix("UTC0", 10, 0).unwrap_err();
    assert_eq!(turned, CronError::InvalidTime);
    assert!(turned.to_string().ends_with("a window ends before it begins"));
    for name in ["", "/etc/passwd", "../zoneinfo/UTC", "Europe/Nowhere"] {
        assert_eq!(ClockTable::of_zone(name, 0, 1), Err(CronError::InvalidZone), "{name}");
    }
    let table = ClockTable::new(
        3_600,
        &[(1_711_846_800, 7_200), (1_729_990_800, 3_600)],
        0,
        1_735_689_600,
    )
    .unwrap();
    assert_eq!(table.changes().count(), 2);
    assert_eq!((table.first_offset(), table.window()), (3_600, (0, 1_735_689_600)));
    let turned = [(1_729_990_800, 3_600), (1_711_846_800, 7_200)];
    assert_eq!(ClockTable::new(3_600, &turned, 0, 1), Err(CronError::NotCalm));
    let india = ClockTable::fixed(19_800).unwrap();
    assert_eq!(
        TableTime::new(&india, -1).unwrap().to_string(),
        "1970-01-01T05:29:59+05:30"
    );
    assert_eq!(TableTime::new(&india, i64::MAX), Err(CronError::InvalidTime));
    let time = TableTime::of_system(&india, UNIX_EPOCH - Duration::from_millis(1_500)).unwrap();
    assert_eq!(
        (time.second(), time.to_system()),
        (-2, Some(UNIX_EPOCH - Duration::from_secs(2)))
    );
    assert!(TableTime::now(&india).unwrap().second() > 1_700_000_000);
    let rule = format!("UTC0{}", " ".repeat(1_000));
    assert_eq!(ClockTable::of_posix(&rule, 0, 1), Err(CronError::InvalidZone));
    let file = vec![0; 1_000_001];
    assert_eq!(ClockTable::of_tzif(&file, 0, 1), Err(CronError::InvalidZone));
    let utc = ClockTable::utc();
    for (second, wanted) in [
        (-62_135_596_801, "0000-12-31T23:59:59+00:00"),
        (-62_167_219_201, "-0001-12-31T23:59:59+00:00"),
        (-377_610_508_800, "-9996-01-01T00:00:00+00:00"),
        (253_307_692_799, "9996-12-31T23:59:59+00:00"),
    ] {
        assert_eq!(TableTime::new(&utc, second).unwrap().to_string(), wanted);
    }
}

#[test]
fn the_years_that_are_searched() {
    let utc = ClockTable::utc();
    let start = TableTime::new(&utc, 1_700_000_000).unwrap();
    let none = Err(CronError::TimeSearchLimitExceeded);
    let next = |text| cron(text).find_next_occurrence(&start, false).map(|it| it.to_string());
    let previous = |text| {
        cron(text)
            .find_previous_occurrence(&start, false)
            .map(|it| it.to_string())
    };
    assert_eq!(next("0 0 0 31 12 * 4999"), Ok("4999-12-31T00:00:00+00:00".to_owned()));
    assert_eq!(next("0 0 0 1 1 * 5000"), Ok("5000-01-01T00:00:00+00:00".to_owned()));
    assert_eq!(next("0 0 0 2 1 * 5000"), none);
    assert_eq!(previous("0 0 0 1 1 * 2"), Ok("0002-01-01T00:00:00+00:00".to_owned()));
    assert_eq!(previous("0 0 0 1 1 * 1"), none);
    assert!(none.unwrap_err().to_string().contains("before year 5000"));
}

#[test]
fn a_fault_is_a_piece_of_its_text() {
    for text in [
        "ä 9 * * *",
        "0 9 ää, * *",
        "0 9 * * MÖN",
        "\u{2009}0 9 * * €",
        "60é 9 * * *",
        "\0",
        "0 9 * * *\0",
    ] {
        match text.parse::<Cron>() {
            Err(CronError::InvalidPattern(fault)) => assert!(text.get(fault.begin..fault.end).is_some(), "{text:?}"),
            other => panic!("{text:?}: {other:?}"),
        }
    }
}

#[test]
fn equality() {
    let jobs: HashSet<Cron> = ["0 9 * * *", "0 9 * * *", "0 10 * * *"]
        .iter()
        .map(|it| cron(it))
        .collect();
    assert_eq!(jobs.len(), 2);
    assert!(cron("0 1 * * *") < cron("0 2 * * *"));
    assert_eq!(cron("0 1 * * *").as_str(), "0 1 * * *");
    assert_eq!(cron("0 1 * * *").to_string(), "0 1 * * *");
    assert_eq!(croner_proved::library_version() >> 16, 1);
}

#[test]
fn twelve_threads() {
    let paris = paris();
    let job = cron("*/30 2 * * *");
    let list = |from| {
        let start = TableTime::new(&paris, from).unwrap();
        job.iter_after(start)
            .take(200)
            .map(|it| it.second())
            .collect::<Vec<_>>()
    };
    let alone: Vec<_> = (0..12).map(|it| list(1_700_000_000 + it * 10_000_000)).collect();
    let together: Vec<_> = thread::scope(|scope| {
        let list = &list;
        let begun: Vec<_> = (0..12)
            .map(|it| scope.spawn(move || (0..50).map(|_| list(1_700_000_000 + it * 10_000_000)).last()))
            .collect();
        begun.into_iter().map(|it| it.join().unwrap().unwrap()).collect()
    });
    assert_eq!(alone, together);
}
