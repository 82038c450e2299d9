// The cases that are timed, made by a fixed generator of random numbers, and their text.
use crate::by_hand::Comparer;
use std::fmt;
use std::io::BufRead;

#[derive(Clone, Copy, PartialEq)]
pub struct Transition {
    pub from: usize,
    pub label: usize,
    pub to: usize,
}

// A sheet as the proved one holds it: its steps in noting order.
#[derive(Clone)]
pub struct Sheet {
    pub states: usize,
    pub signals: usize,
    pub steps: Vec<Transition>,
}

pub enum Source {
    Join(Sheet, Sheet),
    Fullest,
}

pub struct Case {
    pub source: Source,
    pub left: usize,
    pub right: usize,
}

#[derive(Clone, Copy, PartialEq)]
pub enum Verdict {
    Alike,
    Apart { round: usize },
}

impl fmt::Display for Verdict {
    fn fmt(&self, f: &mut fmt::Formatter) -> fmt::Result {
        match self {
            Verdict::Alike => write!(f, "alike"),
            Verdict::Apart { round } => write!(f, "apart {round}"),
        }
    }
}

// The fullest source: 96 states, 5 signals, 4,096 steps from each state. A state p leads to the states up to p / 2, to each with
// every label; only state 0 has inner steps alone.
pub const FULLEST_STATES: usize = 96;
pub const FULLEST_SIGNALS: usize = 5;
pub const FULLEST_STEPS: usize = 4096;

pub fn fullest(state: usize, place: usize) -> Transition {
    let label = if state == 0 { 0 } else { place % 7 };
    Transition {
        from: state,
        label,
        to: place / 7 % (state / 2 + 1),
    }
}

impl Source {
    pub fn states(&self) -> usize {
        match self {
            Source::Join(left, right) => left.states + right.states,
            Source::Fullest => FULLEST_STATES,
        }
    }

    pub fn signals(&self) -> usize {
        match self {
            Source::Join(left, right) => left.signals.max(right.signals),
            Source::Fullest => FULLEST_SIGNALS,
        }
    }

    // Hands each step to the caller; the right sheet's states come after the left one's.
    pub fn each_step(&self, mut take: impl FnMut(Transition)) {
        match self {
            Source::Join(left, right) => {
                let n = left.states;
                left.steps.iter().for_each(|&s| take(s));
                right.steps.iter().for_each(|s| {
                    take(Transition {
                        from: n + s.from,
                        label: s.label,
                        to: n + s.to,
                    })
                });
            }
            Source::Fullest => {
                for state in 0..FULLEST_STATES {
                    (0..FULLEST_STEPS).for_each(|place| take(fullest(state, place)));
                }
            }
        }
    }
}

impl Sheet {
    fn new(states: usize, signals: usize) -> Sheet {
        Sheet {
            states,
            signals,
            steps: Vec::new(),
        }
    }

    // A sheet holds no step twice.
    fn note(&mut self, from: usize, label: usize, to: usize) {
        let step = Transition { from, label, to };
        if !self.steps.contains(&step) {
            self.steps.push(step);
        }
    }
}

// splitmix64
struct Random(u64);

impl Random {
    fn below(&mut self, n: usize) -> usize {
        self.0 = self.0.wrapping_add(0x9E37_79B9_7F4A_7C15);
        let x = (self.0 ^ (self.0 >> 30)).wrapping_mul(0xBF58_476D_1CE4_E5B9);
        let x = (x ^ (x >> 27)).wrapping_mul(0x94D0_49BB_1331_11EB);
        ((x ^ (x >> 31)) % n as u64) as usize
    }
}

pub const NAMES: [&str; 5] = ["mill", "mill_changed", "chain", "full", "limit"];

// A case by its name; `random_N_A` has two equal random sheets of N states, A signals and 10 steps per state.
pub fn case(name: &str) -> Option<Case> {
    let (source, left, right) = match name {
        "mill" => joined(mill(), split(&mill())),
        "mill_changed" => joined(mill(), changed(&mill(), &split(&mill()))),
        "chain" => joined(chain(48), chain(47)),
        "full" => joined(banded(), changed(&banded(), &banded())),
        "limit" => (Source::Fullest, 63, 95),
        _ => {
            let (states, signals) = name.strip_prefix("random_")?.split_once('_')?;
            let sheet = random(states.parse().ok()?, signals.parse().ok()?);
            joined(sheet.clone(), sheet)
        }
    };
    Some(Case {
        source,
        left,
        right,
    })
}

// State 0 of the left sheet is compared with state 0 of the right one.
fn joined(left: Sheet, right: Sheet) -> (Source, usize, usize) {
    let n = left.states;
    (Source::Join(left, right), 0, n)
}

// A sheet as mill stands have them: 40 states, each reached from an earlier one, and 100 steps.
fn mill() -> Sheet {
    let mut random = Random(40);
    let mut sheet = Sheet::new(40, 5);
    for state in 1..40usize {
        let from = state.saturating_sub(1 + random.below(4));
        sheet.note(from, random.below(7), state);
    }
    while sheet.steps.len() < 100 {
        sheet.note(random.below(40), random.below(7), random.below(40));
    }
    sheet
}

// The same behaviour with four states split in two: steps into such a state go to one of its halves, and both halves go on alike.
fn split(old: &Sheet) -> Sheet {
    let mut random = Random(44);
    let mut new = Sheet::new(old.states + 4, old.signals);
    let twin = |state: usize| (state % 9 == 4 && state < 36).then_some(old.states + state / 9);
    for step in &old.steps {
        for from in [Some(step.from), twin(step.from)].into_iter().flatten() {
            let to = twin(step.to)
                .filter(|_| random.below(2) == 1)
                .unwrap_or(step.to);
            new.note(from, step.label, to);
        }
    }
    new
}

// The new sheet with one step relabelled: the one that takes the most rounds to tell.
fn changed(old: &Sheet, new: &Sheet) -> Sheet {
    let mut comparer = Comparer::default();
    let mut best = (0, new.clone());
    for place in 0..new.steps.len() {
        let mut sheet = new.clone();
        let step = &mut sheet.steps[place];
        step.label = (step.label + 1) % 7;
        if new.steps.contains(step) {
            continue;
        }
        let (source, left, right) = joined(old.clone(), sheet.clone());
        if let Verdict::Apart { round } = comparer.judge(&source, left, right) {
            if round > best.0 {
                best = (round, sheet);
            }
        }
    }
    best.1
}

fn chain(states: usize) -> Sheet {
    let mut sheet = Sheet::new(states, 1);
    for state in 1..states {
        sheet.note(state - 1, 2, state);
    }
    sheet
}

// A full sheet whose steps lead to the same state or one of the next three, so that a change far on is told late.
fn banded() -> Sheet {
    let mut random = Random(48);
    let mut sheet = Sheet::new(48, 5);
    while sheet.steps.len() < 512 {
        let from = random.below(48);
        sheet.note(from, random.below(7), (from + random.below(4)).min(47));
    }
    sheet
}

fn random(states: usize, signals: usize) -> Sheet {
    let mut random = Random((states * 8 + signals) as u64);
    let mut sheet = Sheet::new(states, signals);
    while sheet.steps.len() < 10 * states {
        let from = sheet.steps.len() / 10;
        sheet.note(from, random.below(signals + 2), random.below(states));
    }
    sheet
}

// The text of a case, as the proved program reads it too.
pub fn write(case: &Case, times: usize) {
    if let Source::Join(left, right) = &case.source {
        for sheet in [left, right] {
            println!("sheet {} {}", sheet.states, sheet.signals);
            for step in &sheet.steps {
                println!("step {} {} {}", step.from, step.label, step.to);
            }
        }
    }
    let word = if matches!(case.source, Source::Fullest) {
        "limit"
    } else {
        "ask"
    };
    println!("{word} {} {} {times}", case.left, case.right);
}

// Reads such a text: the case, and how often it is to be judged.
pub fn read(input: impl BufRead) -> Option<(Case, usize)> {
    let mut sheets = Vec::new();
    for line in input.lines() {
        let line = line.ok()?;
        let (word, rest) = line.split_once(' ')?;
        let numbers: Vec<usize> = rest
            .split(' ')
            .map(|n| n.parse().ok())
            .collect::<Option<_>>()?;
        match (word, &numbers[..]) {
            ("sheet", &[states, signals]) => sheets.push(Sheet::new(states, signals)),
            ("step", &[from, label, to]) => sheets.last_mut()?.note(from, label, to),
            ("ask", &[left, right, times]) => {
                let new = sheets.pop()?;
                let source = Source::Join(sheets.pop()?, new);
                return Some((
                    Case {
                        source,
                        left,
                        right,
                    },
                    times,
                ));
            }
            ("limit", &[left, right, times]) => {
                return Some((
                    Case {
                        source: Source::Fullest,
                        left,
                        right,
                    },
                    times,
                ));
            }
            _ => return None,
        }
    }
    None
}
