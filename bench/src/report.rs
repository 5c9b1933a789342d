//! What is printed.

use crate::trial::{Figure, Measured};

/// Prints what a trial gave, a line for each contender.
pub fn list(measured: &Measured) {
    println!("\n{}", measured.title);
    println!(
        "  {:32} {:>12} {:>12} {:>8}   {}",
        "", "ns", "million/s", "ratio", "of the rounds"
    );
    for figure in &measured.figures {
        let Figure {
            name,
            nanoseconds,
            ratio,
            range: (low, high),
            ..
        } = figure;
        println!(
            "  {name:32} {nanoseconds:12.2} {:12.2} {ratio:8.2}   {low:.2} to {high:.2}{}",
            1_000.0 / nanoseconds,
            remarks(figure),
        );
    }
    println!("  each per {}", measured.unit);
}

fn remarks(figure: &Figure) -> &'static str {
    match (figure.right, figure.in_order) {
        (true, true) => "",
        (true, false) => ", any order within a tick",
        (false, _) => ", WRONG SUM",
    }
}

/// Prints all trials of the same contenders as one table: nanoseconds, and the ratio.
pub fn table(trials: &[Measured]) {
    let Some(first) = trials.first() else {
        return;
    };
    print!("\n| ns (ratio) |");
    for trial in trials {
        print!(" {} |", trial.title);
    }
    println!("\n|---|{}", "---|".repeat(trials.len()));
    for (i, Figure { name, in_order, .. }) in first.figures.iter().enumerate() {
        print!("| {name}{} |", if *in_order { "" } else { " *" });
        for trial in trials {
            let figure = &trial.figures[i];
            print!(" {} ({:.2}) |", digits(figure.nanoseconds), figure.ratio);
        }
        println!();
    }
    if first.figures.iter().any(|figure| !figure.in_order) {
        println!("\n\\* fires the timers of one tick in any order");
    }
}

// A number with three digits.
fn digits(number: f64) -> String {
    if number < 10.0 {
        format!("{number:.2}")
    } else if number < 100.0 {
        format!("{number:.1}")
    } else {
        format!("{number:.0}")
    }
}

/// Prints by how much the time of each contender grew between trials of the same rounds that have this in their titles.
pub fn growth(trials: &[Measured], from: &str, to: &str) {
    let named = |part: &str| trials.iter().find(|trial| trial.title.contains(part));
    let (Some(less), Some(more)) = (named(from), named(to)) else {
        return;
    };
    println!("\ngrowth from {} to {}", less.title, more.title);
    for (before, after) in less.figures.iter().zip(&more.figures) {
        println!("  {:32} {:8.2} times", before.name, before.growth(after));
    }
}
