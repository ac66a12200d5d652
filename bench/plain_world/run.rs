//! What a run file says: one crontab in UTC, of whose fields only minutes and hours are given.
pub const DAY: i64 = 1440;

pub struct Run {
    pub window: String,
    pub members: usize,
    pub from: i64,
    pub until: i64,
    pub grace: i64,
    pub label: String,
    /// The due instants of each job.
    pub dues: Vec<Vec<i64>>,
    pub script: Vec<Vec<String>>,
}

/// The days from 1970-01-01 to a date.
fn days_to(year: i64, month: i64, day: i64) -> i64 {
    let (year, month) = if month > 2 { (year, month - 3) } else { (year - 1, month + 9) };
    let (era, of_era) = (year.div_euclid(400), year.rem_euclid(400));
    let of_year = (153 * month + 2) / 5 + day - 1;
    era * 146_097 + of_era * 365 + of_era / 4 - of_era / 100 + of_year - 719_468
}

fn date_of(days: i64) -> (i64, i64, i64) {
    let year = (0..).map(|more| 1970 + more).find(|year| days_to(year + 1, 1, 1) > days).unwrap();
    let month = (1..=12).rev().find(|month| days_to(year, *month, 1) <= days).unwrap();
    (year, month, days - days_to(year, month, 1) + 1)
}

pub fn minute_of(stamp: &str) -> i64 {
    let number = |at: usize, size: usize| stamp[at..at + size].parse::<i64>().expect("a stamp");
    days_to(number(0, 4), number(5, 2), number(8, 2)) * DAY + number(11, 2) * 60 + number(14, 2)
}

/// The instant of a launch, as its name has it.
pub fn basic_stamp(minute: i64) -> String {
    let (year, month, day) = date_of(minute.div_euclid(DAY));
    let time = minute.rem_euclid(DAY);
    format!("{year:04}{month:02}{day:02}T{:02}{:02}Z", time / 60, time % 60)
}

fn values(field: &str, count: i64) -> Vec<i64> {
    if field == "*" {
        return (0..count).collect();
    }
    field.split(',').map(|value| value.parse().expect("a number")).collect()
}

fn dues_of(line: &str, from: i64, until: i64) -> Vec<i64> {
    let fields: Vec<&str> = line.split(' ').collect();
    assert!(fields[2..5] == ["*"; 3], "a job of each day: {line}");
    let (minutes, hours) = (values(fields[0], 60), values(fields[1], 24));
    let is_due = |minute: &i64| minutes.contains(&(minute % 60)) && hours.contains(&(minute % DAY / 60));
    (from..until).filter(is_due).collect()
}

impl Run {
    pub fn read(text: &str) -> Run {
        let lines: Vec<&str> = text.lines().collect();
        let words: Vec<Vec<&str>> = lines.iter().map(|line| line.split(' ').collect()).collect();
        let (from, until) = (minute_of(words[2][1]), minute_of(words[2][2]));
        let [kind, label, zone, count] = words[4][..] else { panic!("no crontab: {}", lines[4]) };
        assert!((kind, zone) == ("crontab", "UTC"), "one crontab in UTC");
        let end = 5 + count.parse::<usize>().expect("how many lines");
        assert!(lines[end] == "script" && lines[lines.len() - 1] == "end", "a script");
        let script = words[end + 1..words.len() - 1].iter();
        Run {
            window: lines[2].to_string(),
            members: words[1][1].parse().expect("how many replicas"),
            from,
            until,
            grace: words[3][1].parse().expect("a grace"),
            label: label.to_string(),
            dues: lines[5..end].iter().map(|line| dues_of(line, from, until)).collect(),
            script: script.map(|words| words.iter().map(|word| word.to_string()).collect()).collect(),
        }
    }
}
