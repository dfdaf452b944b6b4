//! The picture: a group of bars for each race, drawn to a scale of its own.

use crate::numbers::time;
use crate::race::{Best, Race};
use crate::races::Races;

const WIDTH: usize = 860;
const MARGIN: usize = 28;
const HEADING: usize = 104;
const TITLE: usize = 30;
const ROW: usize = 26;
const BAR: usize = 18;
const BAR_START: usize = 270;
const BAR_LONGEST: usize = 480;
const GROUP_GAP: usize = 16;

/// The card has a ground of its own, so that it can be read on any page.
const STYLE: &str = "
.card { fill: #ffffff; stroke: #d5dae1 }
text { fill: #1d2530; font: 14px system-ui, sans-serif }
.title { font-size: 20px; font-weight: 600 }
.work { font-weight: 600 }
.note { fill: #5b6675; font-size: 13px }
.own { fill: #1f6feb }
.other { fill: #a9b4c2 }
@media (prefers-color-scheme: dark) {
.card { fill: #14191f; stroke: #343c46 }
text { fill: #e4e9ef }
.note { fill: #9aa6b4 }
.own { fill: #4d94ff }
.other { fill: #5f6b79 }
}
";

pub fn picture(facts: &str, races: &Races) -> String {
    let mut top = HEADING;
    let mut groups = String::new();
    for race in races.all() {
        groups += &group(race, top);
        top += TITLE + race.bests.len() * ROW + GROUP_GAP;
    }
    framed(top, &(heading(facts, races) + &groups))
}

fn heading(facts: &str, races: &Races) -> String {
    let machine = facts.lines().find_map(|line| line.strip_prefix("- Machine: ")).unwrap_or("?");
    let v3 = if races.have_v3() {
        " v3: compiled for x86-64-v3, processors that have AVX2."
    } else {
        ""
    };
    text("title", MARGIN, 42, "A secret of 952 bytes: the shorter bar is faster")
        + &text("note", MARGIN, 66, &format!("Best times on {machine}."))
        + &text("note", MARGIN, 86, &format!("Each group has a scale of its own.{v3}"))
}

fn framed(height: usize, inside: &str) -> String {
    let (inner_width, inner_height) = (WIDTH - 1, height - 1);
    format!(
        r#"<svg xmlns="http://www.w3.org/2000/svg" viewBox="0 0 {WIDTH} {height}" width="{WIDTH}" height="{height}">
<style>{STYLE}</style>
<rect class="card" x="0.5" y="0.5" width="{inner_width}" height="{inner_height}" rx="10"/>
{inside}</svg>
"#
    )
}

fn text(class: &str, x: usize, y: usize, words: &str) -> String {
    let words = words.replace('&', "&amp;").replace('<', "&lt;");
    format!("<text class=\"{class}\" x=\"{x}\" y=\"{y}\">{words}</text>\n")
}

fn group(race: &Race, top: usize) -> String {
    let same_work = |best: &&Best| best.bytes == race.library().bytes;
    let times = race.bests.iter().filter(same_work).map(|best| best.time);
    let longest = times.fold(0.0, f64::max);
    let mut drawn = text("work", MARGIN, top + 14, race.work);
    for (i, best) in race.bests.iter().enumerate() {
        let y = top + TITLE + i * ROW;
        let part = best.time / longest;
        let length = (part.min(1.0) * BAR_LONGEST as f64).round() as usize;
        let class = if best.is_library() { "own" } else { "other" };
        drawn += &text("by", MARGIN, y + 14, best.name);
        drawn += &bar(class, y, length, part > 1.0);
        drawn += &text("time", BAR_START + length + 8, y + 14, &time(best.time));
    }
    drawn
}

/// A bar too long for the scale is broken by a slanting gap.
fn bar(class: &str, y: usize, length: usize, broken: bool) -> String {
    let (start, end, below) = (BAR_START, BAR_START + length, y + BAR);
    if !broken {
        return format!("<path class=\"{class}\" d=\"M{start} {y}H{end}V{below}H{start}Z\"/>\n");
    }
    let (gap, after) = (end - 60, end - 54);
    format!(
        "<path class=\"{class}\" d=\"M{start} {y}H{}L{gap} {below}H{start}Z\
         M{} {y}H{end}V{below}H{after}Z\"/>\n",
        gap + 8,
        after + 8
    )
}
