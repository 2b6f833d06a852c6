//! Times the published Rust, the same with a SAD kernel in the processor's own
//! instructions, and the proved code, on the same frames; and grid files.

mod clock;
mod column;
mod columns;
mod files;
mod fragments;
mod frames;
mod lent;
mod load;
mod loops;
mod ours;
mod pairs;
mod published;
mod rounds;
mod rows;
mod sads;
mod searches;

use std::{env, process::ExitCode};

use crate::{
    clock::Summary,
    columns::NAMES,
    rounds::{ROUNDS, Times},
    rows::{GROWTH, Row, check_cropped},
    sads::sads,
};

/// Ours, the last column, to each of the others.
fn ratios(times: &[Summary]) -> Vec<f64> {
    let (ours, others) = times.split_last().unwrap();
    let ratio = |other: &Summary| ours.median / other.median;
    others.iter().map(ratio).collect()
}

/// The heading of the ratios.
const RATIOS: &str = "    3/1    3/2";

fn heading(what: &str, names: &[&str], last: &str) {
    println!("\n{what}: median of {ROUNDS} rounds, and (third quartile - first) / median");
    let names: Vec<_> = names.iter().map(|name| format!("{name:>14}")).collect();
    println!("{:24} {}{last}", "", names.join(" "));
}

/// A line of times in a unit of so many nanoseconds.
fn line(name: &str, times: &[Summary], unit: f64) {
    let mut shown: Vec<_> = times.iter().map(|summary| summary.show(unit)).collect();
    shown.extend(ratios(times).iter().map(|ratio| format!("{ratio:6.3}")));
    println!("{name:24} {}", shown.join(" "));
}

/// Times rows, and prints those of the table as they come.
fn frame_runs(table: &[Row], rest: &[Row]) -> Result<Vec<(Row, Times)>, String> {
    let mut timed = Vec::new();
    if !table.is_empty() {
        heading("frame runs, milliseconds", &NAMES, RATIOS);
    }
    for &row in table {
        let times = row.time()?;
        line(&row.name(), &times, 1e6);
        timed.push((row, times));
    }
    for &row in rest {
        timed.push((row, row.time()?));
    }
    Ok(timed)
}

fn print_growth(timed: &[(Row, Times)]) {
    let place = |row: &Row| GROWTH.iter().position(|content| *content == row.content);
    let in_growth = |(row, _): &&(Row, Times)| !row.previous && place(row).is_some();
    let mut rows: Vec<_> = timed.iter().filter(in_growth).collect();
    rows.sort_by_key(|(row, _)| (place(row), row.width));
    if !rows.is_empty() {
        heading("growth, nanoseconds a pixel", &NAMES, RATIOS);
    }
    for (row, times) in rows {
        line(&row.name(), times, row.pixels());
    }
}

fn print_sads() -> Result<(), String> {
    heading("16x16 SAD, nanoseconds", &NAMES, "");
    for (name, columns) in sads()? {
        let shown = columns.map(|column| match column {
            Some(summary) => summary.show(1.0),
            None => format!("{:>14}", "-"),
        });
        println!("{name:24} {}", shown.join(" "));
    }
    Ok(())
}

fn print_searches(rows: &[searches::Row]) -> Result<(), String> {
    if !rows.is_empty() {
        heading("single searches on 256x256, nanoseconds", &NAMES, RATIOS);
    }
    for row in rows {
        line(&row.name(), &row.time()?, 1.0);
    }
    Ok(())
}

fn print_files(rows: &[files::Row]) -> Result<(), String> {
    if !rows.is_empty() {
        let what = "a grid file of 256x256 cells, microseconds";
        heading(what, &files::NAMES, RATIOS);
    }
    for (name, times) in rows {
        line(name, &times()?, 1e3);
    }
    Ok(())
}

fn print_fragments(rows: &[fragments::Row]) -> Result<(), String> {
    if !rows.is_empty() {
        let what = "a grid file of 256x256 cells in fragments, microseconds";
        heading(what, &fragments::NAMES, "    2/1");
    }
    for &(name, bytes) in rows {
        line(name, &fragments::times(bytes)?, 1e3);
    }
    Ok(())
}

/// The rows that are asked for.
struct Asked {
    table: Vec<Row>,
    rest: Vec<Row>,
    with_sads: bool,
    searches: Vec<searches::Row>,
    files: Vec<files::Row>,
    fragments: Vec<fragments::Row>,
}

impl Asked {
    fn new(only: &str) -> Self {
        let mut asked = Asked {
            table: Row::table(),
            rest: Row::growth(),
            with_sads: "sad".contains(only),
            searches: searches::Row::all(),
            files: [&files::ROWS[..], &[pairs::ROW]].concat(),
            fragments: fragments::ROWS.to_vec(),
        };
        asked.table.retain(|row| row.name().contains(only));
        asked.rest.retain(|row| row.name().contains(only));
        asked.searches.retain(|row| row.name().contains(only));
        asked.files.retain(|(name, _)| name.contains(only));
        asked.fragments.retain(|(name, _)| name.contains(only));
        asked
    }

    fn is_empty(&self) -> bool {
        let no_frames = self.table.is_empty() && self.rest.is_empty() && !self.with_sads;
        let no_files = self.files.is_empty() && self.fragments.is_empty();
        no_frames && self.searches.is_empty() && no_files
    }
}

/// Prints everything; or says what the columns differ on.
fn bench(asked: &Asked) -> Result<(), String> {
    let (cropped, small) = (check_cropped()?, files::check()?);
    fragments::check()?;
    println!("equal      the grids of all three, on {cropped} frames with cropped blocks,");
    println!("           answers and cells of {small} small grid files, whole and not,");
    println!("           in one piece and in fragments,");
    println!("           and after every piece that is timed below");
    let timed = frame_runs(&asked.table, &asked.rest)?;
    print_growth(&timed);
    if asked.with_sads {
        print_sads()?;
    }
    print_searches(&asked.searches)?;
    print_files(&asked.files)?;
    print_fragments(&asked.fragments)?;
    let worst = [0, 1].map(|other| {
        let ratios = timed.iter().map(|(_, times)| ratios(times)[other]);
        let most = ratios.reduce(f64::max);
        most.map_or("-".to_string(), |ratio| format!("{ratio:.3}"))
    });
    println!("\nworst {}", worst.join(" "));
    Ok(())
}

fn usage(why: &str) -> ExitCode {
    eprintln!("bench: {why}");
    ExitCode::from(2)
}

fn main() -> ExitCode {
    let words: Vec<String> = env::args().skip(1).collect();
    let words: Vec<&str> = words.iter().map(String::as_str).collect();
    let only = match words[..] {
        [] => "",
        ["--only", only] => only,
        _ => return usage("arguments missing or unknown"),
    };
    let asked = Asked::new(only);
    if asked.is_empty() {
        return usage(&format!("no row has {only:?} in its name"));
    }
    match bench(&asked) {
        Ok(()) => ExitCode::SUCCESS,
        Err(what) => {
            println!("different: {what}");
            ExitCode::from(1)
        }
    }
}
