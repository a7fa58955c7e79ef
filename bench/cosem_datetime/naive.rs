// The plain loop over a day's seconds in Rust, for comparison: rustc -O naive.rs
use std::hint::black_box;
use std::time::Instant;

#[derive(Clone, Copy)]
enum Day { Any, Number(u8), SecondLast, Last }

struct Entry { hour: Option<u8>, minute: Option<u8>, second: Option<u8>, year: Option<u16>, month: Option<u8>, day: Day, weekday: Option<u8> }

// The year, month and day of a number of days since 1 January 2000.
fn civil(days: i64) -> (i64, i64, i64) {
    let z = days + 719_468 + 10_957;
    let era = z.div_euclid(146_097);
    let doe = z.rem_euclid(146_097);
    let yoe = (doe - doe / 1460 + doe / 36_524 - doe / 146_096) / 365;
    let doy = doe - (365 * yoe + yoe / 4 - yoe / 100);
    let mp = (5 * doy + 2) / 153;
    let m = if mp < 10 { mp + 3 } else { mp - 9 };
    (yoe + era * 400 + i64::from(m <= 2), m, doy - (153 * mp + 2) / 5 + 1)
}

// The number of days of a month.
fn length(y: i64, m: i64) -> i64 {
    match m {
        2 => if y % 4 == 0 && (y % 100 != 0 || y % 400 == 0) { 29 } else { 28 },
        4 | 6 | 9 | 11 => 30,
        _ => 31,
    }
}

// Whether a field has a value, or may have any.
fn is<T: Into<i64> + Copy>(field: Option<T>, n: i64) -> bool { field.map_or(true, |f| f.into() == n) }

// Whether the year, month and day of an entry match a day, whatever its weekday.
fn holds(e: &Entry, n: i64) -> bool {
    let (y, m, d) = civil(n);
    is(e.year, y) && is(e.month, m) && match e.day {
        Day::Any => true,
        Day::Number(k) => i64::from(k) == d,
        Day::SecondLast => d + 1 == length(y, m),
        Day::Last => d == length(y, m),
    }
}

// Whether the date of an entry matches a day.
fn date(e: &Entry, n: i64) -> bool {
    is(e.weekday, (n + 5).rem_euclid(7) + 1) && match (e.day, e.weekday) {
        (Day::Last, Some(_)) => { let (y, m, d) = civil(n); is(e.year, y) && is(e.month, m) && length(y, m) < d + 7 }
        (Day::Number(_), Some(_)) if e.year.is_none() || e.month.is_none() => (0..7).any(|k| holds(e, n - k)),
        _ => holds(e, n),
    }
}

// Whether an entry matches a second since 1 January 2000.
fn matches(e: &Entry, s: u32) -> bool {
    let t = i64::from(s % 86_400);
    date(e, i64::from(s / 86_400)) && is(e.hour, t / 3600) && is(e.minute, t / 60 % 60) && is(e.second, t % 60)
}

fn main() {
    let last = |year, month, day, weekday| Entry { hour: Some(23), minute: Some(59), second: Some(59), year, month, day, weekday };
    let entries = [
        ("any second of any day", Entry { hour: None, minute: None, second: None, year: None, month: None, day: Day::Any, weekday: None }),
        ("the last second of any day", last(None, None, Day::Any, None)),
        ("the last second of a month", last(None, None, Day::Last, None)),
        ("the last second of a Sunday from the 25th on", last(None, None, Day::Number(25), Some(7))),
        ("second 59 of a last Sunday in March", Entry { hour: None, minute: None, second: Some(59), year: None, month: Some(3), day: Day::Last, weekday: Some(7) }),
        ("the second last second of 2136", last(Some(2136), Some(12), Day::SecondLast, None)),
    ];
    for (name, entry) in &entries {
        let start = Instant::now();
        let mut count = 0;
        for day in 1..100u32 {
            if (86_400 * day..86_400 * day + 86_400).any(|s| matches(black_box(entry), black_box(s))) { count += 1; }
        }
        println!("{name}: {} ns a day by seconds, plain Rust ({count})", start.elapsed().as_nanos() / 99);
    }
}
