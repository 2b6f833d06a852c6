//! Writes a fixed list of the published Rust's answers, for a program that has
//! no Rust to ask.

mod frames;
mod lists;
mod searches;

use std::{env, fs, path::Path, process::ExitCode};

use oracle::Search;

use crate::{
    frames::frames,
    lists::{SEED, candidate},
    searches::{refine, search},
};

fn text(what: &str, columns: &str, lines: &[String]) -> String {
    format!(
        "# {what}\n# Made by oracle/answers from the published Rust, seed {SEED}.\n# {columns}\n{}\n",
        lines.join("\n")
    )
}

fn main() -> ExitCode {
    let words: Vec<String> = env::args().skip(1).collect();
    let [folder] = &words[..] else {
        eprintln!("usage: answers OUT_DIR");
        return ExitCode::from(2);
    };
    let columns = "kind width height level refined bx by content seed row col weight out_row out_col sad cost";
    let files = [
        (
            "candidate.txt",
            text(
                "The SAD and the cost of a candidate.",
                columns,
                &candidate(),
            ),
        ),
        (
            "diamond.txt",
            text(
                "What the diamond search finds.",
                columns,
                &search(Search::Diamond),
            ),
        ),
        (
            "hexagon.txt",
            text(
                "What the hexagon search finds.",
                columns,
                &search(Search::Hexagon),
            ),
        ),
        (
            "multi_hexagon.txt",
            text(
                "What the uneven multi-hexagon search finds.",
                columns,
                &search(Search::UnevenMultiHexagon),
            ),
        ),
        (
            "refine.txt",
            text(
                "What a refinement finds round the stored vector, at its level's shift.",
                columns,
                &refine(),
            ),
        ),
        (
            "frame.txt",
            text(
                "One cell that a frame run leaves, and a sum over all of its cells.",
                "kind width height - present bx by content seed - - - row col sad sum",
                &frames(),
            ),
        ),
    ];
    for (name, text) in files {
        let path = Path::new(folder).join(name);
        if let Err(why) = fs::write(&path, text) {
            eprintln!("answers: {}: {why}", path.display());
            return ExitCode::from(1);
        }
    }
    ExitCode::SUCCESS
}
