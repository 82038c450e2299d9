// The native side of the benchmark.
mod by_hand;
mod cases;
mod hashing;

use cases::{Case, Verdict};
use std::hint::black_box;
use std::time::Instant;

// Judges once to warm up, then as often as asked.
fn measure(case: &Case, times: usize, mut judge: impl FnMut(&Case) -> Verdict) {
    let mut timed = || {
        let start = Instant::now();
        let verdict = judge(black_box(case));
        (verdict, start.elapsed().as_nanos())
    };
    let (verdict, mut quickest) = timed();
    for _ in 0..times {
        quickest = quickest.min(timed().1);
    }
    println!("{verdict} {quickest}");
}

// The positions, the steps and the rounds of a case, after both comparers gave the same answer.
fn facts(case: &Case) {
    let mut comparer = by_hand::Comparer::default();
    let verdict = comparer.judge(&case.source, case.left, case.right);
    let other = hashing::judge(&case.source, case.left, case.right);
    assert!(
        verdict == other,
        "by_hand says {verdict}, hashing says {other}"
    );
    let (positions, steps, rounds) = comparer.facts();
    let system = hashing::surrounded(&case.source);
    assert!((positions, steps) == (system.len(), system.iter().map(Vec::len).sum()));
    println!("{positions} {steps} {rounds}");
}

// `names` lists the cases and `emit CASE TIMES` writes one; `facts`, `by_hand` and `hashing` read one from standard input and print its
// size, or the verdict and the nanoseconds of the quickest judgement.
fn main() {
    let args: Vec<String> = std::env::args().skip(1).collect();
    let words: Vec<&str> = args.iter().map(String::as_str).collect();
    let read = || cases::read(std::io::stdin().lock()).expect("a case");
    match words[..] {
        ["names"] => println!("{}", cases::NAMES.join(" ")),
        ["emit", name, times] => cases::write(
            &cases::case(name).expect("no such case"),
            times.parse().expect("a number"),
        ),
        ["facts"] => facts(&read().0),
        ["by_hand"] => {
            let (case, times) = read();
            let mut comparer = by_hand::Comparer::default();
            measure(&case, times, |c| comparer.judge(&c.source, c.left, c.right));
        }
        ["hashing"] => {
            let (case, times) = read();
            measure(&case, times, |c| hashing::judge(&c.source, c.left, c.right));
        }
        _ => panic!("usage: native names | emit CASE TIMES | facts | by_hand | hashing"),
    }
}
