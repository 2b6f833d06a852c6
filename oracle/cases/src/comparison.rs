//! The loop of a comparison: cases are drawn, both sides answer, and the first
//! difference ends it.

use std::{
    env,
    io::{IsTerminal, stderr},
    process::ExitCode,
    time::{Duration, Instant},
};

use crate::trap;

/// Named values, in the order in which they are compared.
pub type Answer = Vec<(&'static str, i128)>;

#[derive(Default)]
pub struct Answers {
    /// The judge's answer.
    pub expected: Answer,
    pub proved: Answer,
}

impl Answers {
    pub fn are_equal(&self) -> bool {
        self.expected == self.proved
    }

    pub fn add(&mut self, name: &'static str, expected: impl Into<i128>, proved: impl Into<i128>) {
        self.expected.push((name, expected.into()));
        self.proved.push((name, proved.into()));
    }
}

/// A case as it is told. It is its numbers and nothing else, so any can be replayed.
pub struct Told {
    /// Its kind, and the kind as which it is replayed.
    pub drawn_as: &'static str,
    pub kind: &'static str,
    pub numbers: Vec<String>,
}

/// A program that compares. An error is a wrong use of it, in words.
pub trait Comparison: Sized {
    /// Its command, below oracle/.
    const COMMAND: &'static str;

    type Case;

    /// Draws from the seed, and cases of that kind alone, if one is named.
    fn new(seed: u64, kind: Option<&str>) -> Result<Self, String>;

    /// The case of that number; cases are drawn in turn, from 0 on.
    fn draw(&mut self, number: usize) -> Self::Case;

    /// The case of a kind's numbers.
    fn case(kind: &str, numbers: Vec<i128>) -> Result<Self::Case, String>;

    fn told(case: &Self::Case) -> Told;

    /// The names of the case's numbers.
    fn columns(case: &Self::Case) -> Vec<&'static str>;

    /// Both answers, counted; None where the numbers are no case of their kind.
    fn run(&mut self, case: &Self::Case) -> Option<Answers>;

    /// Prints what was covered.
    fn print(&self);

    /// What must come up and did not.
    fn never(&self) -> Option<String>;
}

fn replay_line<C: Comparison>(told: &Told) -> String {
    let (command, kind, numbers) = (C::COMMAND, told.kind, told.numbers.join(" "));
    format!("oracle/{command} --replay {kind} {numbers}")
}

fn show(answer: &Answer) -> String {
    let fields = answer.iter().map(|(name, value)| format!("{name} {value}"));
    fields.collect::<Vec<_>>().join(" ")
}

fn print_answers(answers: &Answers) {
    println!("  expected: {}", show(&answers.expected));
    println!("  proved:   {}", show(&answers.proved));
}

fn compare<C: Comparison>(mut comparison: C, cases: usize) -> ExitCode {
    let mut said = stderr().is_terminal().then(Instant::now);
    for number in 0..cases {
        let case = comparison.draw(number);
        let told = C::told(&case);
        let replay = replay_line::<C>(&told);
        trap::under_way(&replay);
        let answers = comparison.run(&case);
        let answers = answers.expect("a drawn case is one of its kind");
        if !answers.are_equal() {
            println!("different: case {number}, {}", told.drawn_as);
            for (name, number) in C::columns(&case).iter().zip(&told.numbers) {
                println!("  {name} {number}");
            }
            print_answers(&answers);
            println!("  replay: {replay}");
            return ExitCode::from(1);
        }
        if said.is_some_and(|at| at.elapsed() >= Duration::from_secs(2)) {
            eprintln!("{} of {cases}", number + 1);
            said = Some(Instant::now());
        }
    }
    comparison.print();
    if let Some(what) = comparison.never() {
        println!("never {what}: more cases are needed");
        return ExitCode::from(1);
    }
    println!("equal {cases} of {cases}");
    ExitCode::SUCCESS
}

fn replay<C: Comparison>(case: &C::Case) -> Result<ExitCode, String> {
    let told = C::told(case);
    trap::under_way(&replay_line::<C>(&told));
    let Some(answers) = C::new(0, None)?.run(case) else {
        let (kind, columns) = (told.kind, C::columns(case).join(" "));
        return Err(format!("no case of {kind}; its numbers are {columns}"));
    };
    print_answers(&answers);
    let equal = answers.are_equal();
    println!("{}", if equal { "equal 1 of 1" } else { "different" });
    Ok(ExitCode::from(u8::from(!equal)))
}

/// Does what the program's words ask for.
fn obey<C: Comparison>(words: &[&str]) -> Result<ExitCode, String> {
    let (seed, cases, kind) = match *words {
        ["--replay", kind, ref numbers @ ..] => {
            let numbers: Result<_, _> = numbers.iter().map(|n| n.parse()).collect();
            let numbers = numbers.map_err(|_| "a case is whole numbers")?;
            return replay::<C>(&C::case(kind, numbers)?);
        }
        ["--seed", seed, "--cases", cases] => (seed, cases, None),
        ["--seed", seed, "--cases", cases, "--kind", kind] => (seed, cases, Some(kind)),
        _ => return Err("arguments missing or unknown".into()),
    };
    let (Ok(seed), Ok(cases)) = (seed.parse(), cases.parse()) else {
        return Err("a seed and a number of cases are whole numbers".into());
    };
    Ok(compare(C::new(seed, kind)?, cases))
}

/// The whole program, with status 0 where all is equal, 1 where not, 2 for a wrong use.
pub fn run<C: Comparison>() -> ExitCode {
    trap::set();
    let words: Vec<String> = env::args().skip(1).collect();
    let words: Vec<&str> = words.iter().map(String::as_str).collect();
    obey::<C>(&words).unwrap_or_else(|why| {
        eprintln!("{}: {why}", C::COMMAND);
        ExitCode::from(2)
    })
}
