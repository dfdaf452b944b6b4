//! Times the library's cut and join beside the second program's best loops, gfshare and ssss, its pick beside
//! the joins that it takes, both halves of a move beside its own cut and join, its comparison of trays beside
//! memcmp, and its reading of letters and sealing of a block alone. Reads the facts about this run, and writes
//! the machine's own section of the page and its picture. Ends with 1 if a limit is not met, and with another
//! number than 0 if nothing was written.

mod case;
mod comparing;
mod docs;
mod gfshare;
mod kinds;
mod library;
mod limits;
mod moving;
mod numbers;
mod page;
mod picking;
mod picture;
mod programs;
mod race;
mod races;
mod sealing;
mod sides;
mod ssss;
#[cfg(target_arch = "x86_64")]
mod v3;

use std::io::{read_to_string, stdin};
use std::process::ExitCode;

use kinds::{OTHER, OWN};
use races::Races;

const PAGE: &str = "BENCHMARK.md";

fn main() -> ExitCode {
    match run() {
        Ok(met) => ExitCode::from(u8::from(!met)),
        Err(wrong) => {
            eprintln!("bench: {wrong}");
            ExitCode::from(2)
        }
    }
}

/// Whether every limit is met.
fn run() -> Result<bool, String> {
    let other = other_section()?;
    let told = read_to_string(stdin()).map_err(|error| format!("no facts: {error}"))?;
    println!("{told}");
    let races = Races::run();
    let limits = limits::limits(&races);
    println!("{}\n{}", page::times(&races), page::limits(&limits));

    let facts = told + &found(&races);
    let section = page::section(&facts, &races, &limits);
    docs::put(&[
        (OWN.picture, picture::picture(&facts, &races)),
        (PAGE, page::page(&section, &other)),
    ])?;
    Ok(limits.iter().all(|limit| limit.met))
}

/// The section of the other kind of machine, as the page has it.
fn other_section() -> Result<String, String> {
    let Some(page) = docs::read(PAGE)? else {
        return Ok("Not measured yet.".to_string());
    };
    let section = page::section_of(&page, OTHER).map(str::to_string);
    section.ok_or_else(|| {
        let heading = OTHER.name;
        format!("docs/{PAGE} should have one section '## {heading}', to be kept, and has none or several")
    })
}

/// The facts that only this program can tell.
fn found(races: &Races) -> String {
    let start = numbers::time(ssss::start());
    let facts = format!("- To start `ssss-split` and have it do nothing: {start}\n");
    if cfg!(target_arch = "x86_64") && !races.have_v3() {
        facts + "- Left out: the code for x86-64-v3, which this processor cannot run\n"
    } else {
        facts
    }
}
