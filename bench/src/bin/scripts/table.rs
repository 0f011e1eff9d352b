//! The table of the scripts of every kind.
use crate::both::Times;
use crate::kinds::kinds;
use crate::processes::{least, Timed};

const MOST: f64 = 1.3;
const USUAL: f64 = 1.1;
const HEAD: &str = "| scripts | how many | lines | proved / unproved | lent / unproved | proved, ns a line | lent, ns a line | unproved, ns a line |
|---|---|---|---|---|---|---|---|";

fn sum(scripts: &[Timed]) -> Timed {
    let times = scripts.iter().fold(Times::default(), |sum, s| sum.plus(s.times));
    Timed { lines: scripts.iter().map(|s| s.lines).sum(), times }
}

/// Prints the row of some scripts; their ratio as it is printed, in hundredths.
fn row(name: &str, scripts: &[Timed]) -> f64 {
    let Timed { lines, times: total } = sum(scripts);
    let each = total.each(lines);
    let ratios = [total.ratio(), total.lent_ratio()].map(|r| format!("{r:.2}")).join(" | ");
    let times = [each.proved, each.lent, each.unproved].map(|t| format!("{t:.1}")).join(" | ");
    println!("| {name} | {} | {lines} | {ratios} | {times} |", scripts.len());
    (100.0 * total.ratio()).round() / 100.0
}

/// How many ratios are within the two targets, and those beyond the first.
fn verdict(ratios: &[(&str, f64)]) -> String {
    let within = |most: f64| ratios.iter().filter(|(_, r)| *r <= most).count();
    let over: Vec<String> = ratios.iter().filter(|(_, r)| *r > MOST).map(|(name, r)| format!("{name} ({r:.2})")).collect();
    let above = if over.is_empty() { String::new() } else { format!(" Above {MOST:.1}: {}.", over.join("; ")) };
    format!("In this run {} of {} kinds are at most {MOST:.1}, {} at most {USUAL:.1}.{above}", within(MOST), ratios.len(), within(USUAL))
}

pub fn report() {
    let kinds = kinds();
    let scripts = least(kinds.iter().map(|k| k.scripts.len()).sum());
    println!("{HEAD}");
    let mut ratios = Vec::new();
    let mut rest = &scripts[..];
    for kind in &kinds {
        let (first, others) = rest.split_at(kind.scripts.len());
        ratios.push((kind.name, row(kind.name, first)));
        rest = others;
    }
    row("all", &scripts);
    println!("\n{}", verdict(&ratios));
}
