//! What the times were taken on, when, and with which compilers.
use std::process::Command;
use std::thread::available_parallelism;
use std::time::{SystemTime, UNIX_EPOCH};

/// Year, month and day of a day counted from 1970-01-01, by the calendar's rule for leap years.
fn date_of(mut day: u64) -> (u64, usize, u64) {
    let leap = |year: u64| year.is_multiple_of(4) && (!year.is_multiple_of(100) || year.is_multiple_of(400));
    let mut year = 1970;
    while day >= 365 + leap(year) as u64 {
        day -= 365 + leap(year) as u64;
        year += 1;
    }
    let months = [31, 28 + leap(year) as u64, 31, 30, 31, 30, 31, 31, 30, 31, 30, 31];
    let mut month = 0;
    while day >= months[month] {
        day -= months[month];
        month += 1;
    }
    (year, month + 1, day + 1)
}

pub fn today() -> String {
    let seconds = SystemTime::now().duration_since(UNIX_EPOCH).map_or(0, |since| since.as_secs());
    let (year, month, day) = date_of(seconds / 86_400);
    format!("{year}-{month:02}-{day:02}")
}

/// The processor's name as the system gives it, and how many cores there are.
pub fn processor() -> String {
    let listed = Command::new("lscpu").output().map(|output| String::from_utf8_lossy(&output.stdout).into_owned());
    let listed = listed.unwrap_or_default();
    let named = listed.lines().find_map(|line| line.strip_prefix("Model name:")).unwrap_or("unknown processor").trim();
    let cores = available_parallelism().map_or(1, |cores| cores.get());
    format!("{named}, {}, {cores} cores", std::env::consts::ARCH)
}

/// How many programs wanted to run in the last minute, this one among them.
pub fn load() -> String {
    let read = std::fs::read_to_string("/proc/loadavg").unwrap_or_default();
    read.split(' ').next().unwrap_or("unknown").to_string()
}

/// The kit compiles the archive, for each processor.
fn built_with() -> String {
    "the kit's archive: the kit's clang, -O3".to_string()
}

/// What each contender was built with.
pub fn compilers() -> [(&'static str, String); 3] {
    [
        ("outlines", built_with()),
        ("the same rules in C, the limit", format!("{}, -O3", env!("BUILT_WITH_CLANG"))),
        ("the same rules in Rust, the peers", format!("{}, opt-level 3", env!("BUILT_WITH_RUSTC"))),
    ]
}

#[cfg(test)]
mod tests {
    use super::date_of;

    #[test]
    fn dates_at_the_ends_of_years_and_months() {
        assert_eq!(date_of(0), (1970, 1, 1));
        assert_eq!(date_of(364), (1970, 12, 31));
        assert_eq!(date_of(19_782), (2024, 2, 29));
        assert_eq!(date_of(20_089), (2025, 1, 1));
    }
}
