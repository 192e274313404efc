//! The figures of the calls as a table, in Markdown.

use super::program::Which;
use super::runs::Figure;
use super::work::Work;

const HEAD: &str = "\
| each of 16 members, 4 queues | archive, ns | of the plain card | of the fastest plain Rust | instructions: archive | plain card | fastest |
|---|---|---|---|---|---|---|
";

/// The table of these works, with their figures by program.
pub fn markdown(works: &[Work], figures: &[Vec<Figure>]) -> String {
    let rows = works.iter().zip(figures).map(|(work, figures)| row(work, figures));
    HEAD.to_string() + &rows.collect::<String>()
}

fn row(work: &Work, figures: &[Figure]) -> String {
    let of = |which| {
        let at = work.programs.iter().position(|program| *program == which)?;
        figures.get(at)
    };
    let [archive, plain, fastest] = [Which::Archive, Which::Plain, Which::Fastest].map(of);
    let cells = [
        work.name.clone(),
        archive.map_or("".into(), |figure| nanoseconds(figure.nanoseconds)),
        plain.map_or("".into(), ratio),
        fastest.map_or("".into(), ratio),
        instructions(archive),
        instructions(plain),
        instructions(fastest),
    ];
    format!("| {} |\n", cells.join(" | "))
}

/// With one digit behind the point below a hundred.
fn nanoseconds(time: f64) -> String {
    match time < 100.0 {
        true => format!("{time:.1}"),
        false => grouped(time.round() as u64),
    }
}

/// The median, and the range of the runs.
fn ratio(figure: &Figure) -> String {
    let [median, least, most] = figure.ratio;
    format!("{median:.2} ({least:.2} to {most:.2})")
}

fn instructions(figure: Option<&Figure>) -> String {
    figure.and_then(|figure| figure.instructions).map_or("".into(), grouped)
}

/// A number with a comma before each three digits.
pub fn grouped(number: u64) -> String {
    let digits = number.to_string();
    let groups = digits.as_bytes().rchunks(3).rev();
    groups.map(String::from_utf8_lossy).collect::<Vec<_>>().join(",")
}

#[cfg(test)]
mod tests {
    use super::*;
    use crate::bench::work::capture;

    #[test]
    fn numbers_are_grouped() {
        let shown = [0, 999, 1000, 27_034, 1_000_001].map(grouped);
        assert_eq!(shown, ["0", "999", "1,000", "27,034", "1,000,001"]);
        assert_eq!([99.94, 100.0, 2345.6].map(nanoseconds), ["99.9", "100", "2,346"]);
    }

    #[test]
    fn a_row_has_a_cell_for_each_column() {
        let figure =
            |instructions| Figure { nanoseconds: 84.04, ratio: [0.345, 0.3, 0.4], instructions };
        let all = [figure(Some(1788)), figure(Some(5000)), figure(None)];
        assert_eq!(
            row(&capture(), &all),
            "| parts get of all parts | 84.0 | 0.34 (0.30 to 0.40) | 0.34 (0.30 to 0.40) | 1,788 | 5,000 |  |\n"
        );
        let columns = |line: &str| line.matches('|').count();
        assert!(markdown(&[capture()], &[all.to_vec()]).lines().all(|line| columns(line) == 8));
    }
}
