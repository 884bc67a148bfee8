//! How long a call takes, in nanoseconds: `rivals [RUNS [OPERATIONS [PICTURE]]]`; or openings alone: `rivals open [RUNS]`.

mod checking;
mod layout;
mod opening;
mod pages;
mod plot;
mod proved;
mod rival;
mod schedule;
mod second;

use std::env::args;
use std::fs::{read_to_string, write};
use std::time::Instant;

use ghazfulit::Way;
use layout::{Columns, Structs};
use opening::openings;
use plot::{svg, Table};
use proved::Proved;
use rival::Rival;
use schedule::{run, with_blank_tags, with_others, with_ways, Outcome, Program, Schedule};
use second::Second;

/// A program by name, as a function from a schedule to its nanoseconds a call and its outcome.
type Timed = (&'static str, fn(&Schedule) -> (f64, Outcome));

/// All programs; the first is the one that the others are compared with.
const PROGRAMS: [Timed; 6] = [
    ("proved", timed::<Proved>),
    (
        "refuses the same, one struct a slot",
        timed::<Rival<Structs, true>>,
    ),
    (
        "refuses the same, in columns",
        timed::<Rival<Columns, true>>,
    ),
    (
        "tests nothing, one struct a slot",
        timed::<Rival<Structs, false>>,
    ),
    ("tests nothing, in columns", timed::<Rival<Columns, false>>),
    ("the second program", timed::<Second>),
];

/// Nanoseconds that this thread has had a processor for, so that other work on the machine does not count. Where the system
/// does not say, the clock serves.
fn now(start: &Instant) -> u64 {
    let stat = read_to_string("/proc/thread-self/schedstat").unwrap_or_default();
    let first = stat.split(' ').next().and_then(|word| word.parse().ok());
    first.unwrap_or_else(|| start.elapsed().as_nanos() as u64)
}

/// The proved one and its rivals, without the second program.
const RIVALS: &[Timed] = PROGRAMS.split_at(5).0;

/// Runs a schedule once: the pool is filled first, and only what follows is timed.
fn timed<P: Program>(schedule: &Schedule) -> (f64, Outcome) {
    let mut program = P::fresh(schedule.k, schedule.n);
    run(&mut program, 1, &schedule.filling);
    let clock = Instant::now();
    let start = now(&clock);
    let (answers, calls, waiting) = run(&mut program, schedule.slots, &schedule.ops);
    let time = (now(&clock) - start) as f64 / calls as f64;
    let left = program.left();
    (
        time,
        Outcome {
            answers,
            calls,
            waiting,
            left,
        },
    )
}

/// The medians of several runs of each program; all must answer the same and leave the same words.
fn medians(schedule: &Schedule, runs: usize, programs: &[Timed]) -> Vec<f64> {
    let mut times = vec![Vec::new(); programs.len()];
    let mut first: Option<Outcome> = None;
    for _ in 0..runs {
        for ((name, program), times) in programs.iter().zip(&mut times) {
            let (time, outcome) = program(schedule);
            times.push(time);
            match &first {
                Some(first) if *first != outcome => panic!("{name} answers otherwise"),
                Some(_) => {}
                None => first = Some(outcome),
            }
        }
    }
    times
        .into_iter()
        .map(|mut times| {
            times.sort_by(f64::total_cmp);
            times[times.len() / 2]
        })
        .collect()
}

fn main() {
    let words: Vec<String> = args().skip(1).collect();
    let number = |i: usize| words.get(i).and_then(|word| word.parse().ok());
    if words.first().is_some_and(|word| word == "open") {
        return openings(number(1).unwrap_or(11));
    }
    let runs = number(0).unwrap_or(5);
    let count = number(1).unwrap_or(100_000);
    println!("nanoseconds a call, medians of {runs} runs; nine searches to one update; same answers, same words");
    println!("\nk = 16, 1,024 pages, 16 slots, {count} operations");
    let schedule = Schedule::draw(16, 1024, 16, count, 1);
    compare(&schedule);
    let all = medians(&schedule, runs, &PROGRAMS);
    for ((name, _), time) in PROGRAMS.iter().zip(&all) {
        println!("{time:8.1}  {name:40} proved / this {:6.2}", all[0] / time);
    }
    // the proved one's answers are everybody's, so that the calls are too
    let (_, outcome) = timed::<Proved>(&schedule);
    let calls = outcome.calls as f64 / count as f64;
    println!(
        "{calls:.2} calls an operation, {:.0} nanoseconds the proved one's",
        calls * all[0]
    );
    println!("\nproved, then the four rivals in the same order");
    let pages = table("pages", &[64, 128, 256, 512, 1024], |n| {
        medians(&Schedule::draw(16, n, 16, count / 4, 2), runs, RIVALS)
    });
    let slots = table("open slots", &[1, 2, 4, 8, 16], |slots| {
        medians(&Schedule::draw(16, 1024, slots, count / 4, 3), runs, RIVALS)
    });
    by_way(runs, count);
    openings(runs);
    if let Some(file) = words.get(2) {
        let names: Vec<&str> = RIVALS.iter().map(|(name, _)| *name).collect();
        write(file, svg(&[pages, slots], &names)).expect("the picture is written");
    }
}

/// The next lot, regradings and all ways together: compared, and not timed. In pages of one or two lots updates of the second way often begin
/// again, and where page 0 is the only page each one does. Then blank tags among them, with those programs that refuse something.
fn compare(schedule: &Schedule) {
    let count = schedule.ops.len();
    let small = [64, 1].map(|n| Schedule::draw_with(1, [1, n, 16], count, 5));
    let refusing = [PROGRAMS[0], PROGRAMS[1], PROGRAMS[2], PROGRAMS[5]];
    for schedule in small.iter().chain([schedule]) {
        let schedule = with_others(schedule);
        medians(&schedule, 1, &PROGRAMS);
        medians(&with_blank_tags(&schedule), 1, &refusing);
    }
}

/// The ways of updates, each alone and all in turn.
const WAYS: [(&str, &[Way]); 4] = [
    ("first", &[Way::First]),
    ("second", &[Way::Second]),
    ("third", &[Way::Third]),
    ("all in turn", &Way::ALL),
];

/// What each way costs an operation: calls, steps that wait, and nanoseconds.
fn by_way(runs: usize, count: usize) {
    println!("\nby the way of updates, an operation: calls, steps answered Waiting, and nanoseconds, proved and then the four rivals");
    for (searches, mix) in [(9, "nine searches to one update"), (1, "one to one")] {
        println!("{mix}");
        let drawn = Schedule::draw_with(searches, [16, 1024, 16], count, 4);
        for (name, ways) in WAYS {
            let schedule = with_ways(&drawn, ways);
            let times = medians(&schedule, runs, RIVALS);
            let (_, outcome) = timed::<Proved>(&schedule);
            let each = |all: u64| all as f64 / count as f64;
            let calls = each(outcome.calls);
            let times: Vec<String> = times
                .iter()
                .map(|time| format!("{:8.0}", calls * time))
                .collect();
            let waiting = each(outcome.waiting);
            println!("{name:14} {calls:6.2} {waiting:6.2} {}", times.join(" "));
        }
    }
}

/// A table, printed row by row.
fn table(by: &'static str, numbers: &[u32], times: impl Fn(u32) -> Vec<f64>) -> Table {
    println!("\nby the number of {by}");
    let row = |&number: &u32| {
        let times = times(number);
        let each: Vec<String> = times.iter().map(|time| format!("{time:8.1}")).collect();
        println!("{number:6} {}", each.join(" "));
        (number, times)
    };
    let rows = numbers.iter().map(row).collect();
    Table { by, rows }
}
