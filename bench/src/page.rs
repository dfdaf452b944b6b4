//! The page: page.md, with a section for each kind of machine. That of the machine at hand is section.md
//! with what was found in its places; the other is kept as it stands.

use crate::kinds::{Kind, KINDS, OWN};
use crate::limits::Limit;
use crate::numbers::{ratio, time};
use crate::race::Best;
use crate::races::Races;

const PAGE: &str = include_str!("../page.md");
const SECTION: &str = include_str!("../section.md");

/// The page with this section of the machine's own kind, and the other section of the page as it was.
pub fn page(own: &str, other: &str) -> String {
    let section = |kind: &Kind| if kind == OWN { own } else { other };
    let fill = |page: String, kind| page.replace(&place(kind), section(kind).trim());
    KINDS.iter().fold(PAGE.to_string(), fill)
}

fn place(kind: &Kind) -> String {
    format!("{{{}}}", kind.name)
}

/// The section of a page that stands under this kind's name, unless it has none or several.
pub fn section_of<'a>(page: &'a str, kind: &Kind) -> Option<&'a str> {
    let heading = format!("\n## {}\n", kind.name);
    let mut parts = page.split(&heading);
    let (_, section, None) = (parts.next()?, parts.next()?, parts.next()) else {
        return None;
    };
    section.split("\n## ").next()
}

pub fn section(facts: &str, races: &Races, limits: &[Limit]) -> String {
    SECTION
        .replace("{picture}", OWN.picture)
        .replace("{times}", times(races).trim_end())
        .replace("{limits}", self::limits(limits).trim_end())
        .replace("{facts}", facts.trim_end())
}

pub fn times(races: &Races) -> String {
    let libraries: Vec<_> = races.cut.libraries().collect();
    let takes: String = libraries.iter().map(|own| format!(" {} takes |", own.name)).collect();
    let right = "--:|".repeat(libraries.len());
    let mut table = format!("| work | by | bytes | time | time a byte |{takes}\n");
    table += &format!("|---|---|--:|--:|--:|{right}\n");
    for race in races.all() {
        for (i, best) in race.bests.iter().enumerate() {
            let work = if i == 0 { race.work } else { "" };
            let (name, bytes, per_byte) = (best.name, best.bytes, time(best.per_byte()));
            let times: String = race.libraries().map(|own| compared(own, best)).collect();
            let time = time(best.time);
            table += &format!("| {work} | {name} | {bytes} | {time} | {per_byte} |{times}\n");
        }
    }
    table
}

fn compared(own: &Best, best: &Best) -> String {
    if own.name == best.name {
        "  |".to_string()
    } else {
        format!(" {} times this |", ratio(own.times(best)))
    }
}

pub fn limits(limits: &[Limit]) -> String {
    let mut table = String::from("| limit | in this run | met |\n|---|--:|---|\n");
    for Limit { says, measured, met } in limits {
        let met = if *met { "yes" } else { "NO" };
        table += &format!("| {says} | {measured} | {met} |\n");
    }
    table
}
