//! How cost grows, as an SVG: one panel for each call and what grows.

use super::growth::Growth;
use super::program::Which;
use super::runs::Figure;
use super::table::grouped;

/// The panels of a row.
const COLUMNS: usize = 3;
/// The size of a panel, with all that is written around it.
const PANEL: [f64; 2] = [312.0, 230.0];
/// Where the axes of a panel start: left and top.
const START: [f64; 2] = [48.0, 44.0];
/// The width and height between the axes.
const SPACE: [f64; 2] = [160.0, 130.0];
/// The least distance of two labels.
const APART: f64 = 13.0;

/// Colours of middle brightness, to be read on white and on black.
const STYLE: &str = "\
text { font: 11px sans-serif; fill: #6e7781 }
.title { font-weight: bold }
.axis { stroke: #6e7781; stroke-opacity: 0.6 }
.archive { fill: #2f81f7 }
.plain { fill: #d1703c }
.fastest { fill: #2da44e }
polyline { stroke-width: 2 }
polyline.archive { fill: none; stroke: #2f81f7 }
polyline.plain { fill: none; stroke: #d1703c }
polyline.fastest { fill: none; stroke: #2da44e }
@media (prefers-color-scheme: dark) { text { fill: #9da7b1 } .axis { stroke: #9da7b1 } }
";

/// A panel: a call, what grows, and nanoseconds by program at each number.
pub struct Panel {
    call: &'static str,
    along: &'static str,
    numbers: Vec<f64>,
    lines: Vec<(Which, Vec<f64>)>,
}

/// The panels of what was timed, with the figures of all their points in order.
pub fn panels(all: &[Growth], figures: &[Vec<Figure>]) -> Vec<Panel> {
    let mut rest = figures;
    let panel = |growth: &Growth| {
        let (here, behind) = rest.split_at(growth.points.len());
        rest = behind;
        let programs = growth.points.first().map_or(&[][..], |(_, work)| work.programs);
        let line = |by: usize| here.iter().map(|figures| figures[by].nanoseconds).collect();
        let lines = programs.iter().enumerate().map(|(by, which)| (*which, line(by))).collect();
        let numbers = growth.points.iter().map(|(number, _)| *number as f64).collect();
        Panel { call: growth.call, along: growth.along, numbers, lines }
    };
    all.iter().map(panel).collect()
}

/// The picture.
pub fn svg(panels: &[Panel]) -> String {
    let width = PANEL[0] * COLUMNS as f64;
    let height = PANEL[1] * panels.len().div_ceil(COLUMNS) as f64;
    let place = |(at, panel): (usize, &Panel)| {
        let (x, y) = (PANEL[0] * (at % COLUMNS) as f64, PANEL[1] * (at / COLUMNS) as f64);
        format!("<g transform=\"translate({x} {y})\">\n{}</g>\n", panel.svg())
    };
    format!(
        "<svg xmlns=\"http://www.w3.org/2000/svg\" viewBox=\"0 0 {width} {height}\" \
         width=\"{width}\" height=\"{height}\" role=\"img\">\n\
         <title>Nanoseconds a call by the archive and by plain Rust</title>\n<style>\n{STYLE}</style>\n\
         {}</svg>\n",
        panels.iter().enumerate().map(place).collect::<String>()
    )
}

impl Panel {
    fn svg(&self) -> String {
        let most = self.lines.iter().flat_map(|line| &line.1).fold(0.0, |a: f64, b| a.max(*b));
        let step = step(most);
        let top = step * (most / step).ceil();
        let across = Scale {
            from: [0.0, self.numbers.last().copied().unwrap_or(1.0)],
            to: [START[0], START[0] + SPACE[0]],
        };
        let up = Scale { from: [0.0, top], to: [START[1] + SPACE[1], START[1]] };
        let mut ends: Vec<f64> =
            self.lines.iter().map(|line| up.at(line.1.last().copied().unwrap_or(0.0))).collect();
        spread(&mut ends);
        let lines =
            self.lines.iter().zip(ends).map(|((which, times), end)| {
                line(*which, &self.numbers, times, [&across, &up], end)
            });
        self.words() + &axes(&self.numbers, step, [&across, &up]) + &lines.collect::<String>()
    }

    /// What the panel shows, and what stands along its axes.
    fn words(&self) -> String {
        let below = START[1] + SPACE[1] + 34.0;
        text(START[0], 18.0, "title", "start", self.call)
            + &text(START[0], 34.0, "", "start", "ns for one member")
            + &text(START[0] + SPACE[0] / 2.0, below, "", "middle", self.along)
    }
}

/// A line with its points and, behind its last one, its name and value.
fn line(
    which: Which,
    numbers: &[f64],
    times: &[f64],
    [across, up]: [&Scale; 2],
    end: f64,
) -> String {
    let (class, name) = match which {
        Which::Archive => ("archive", "archive"),
        Which::Plain => ("plain", "plain card"),
        Which::Fastest => ("fastest", "fastest"),
    };
    let points: Vec<(f64, f64)> =
        numbers.iter().zip(times).map(|(x, y)| (across.at(*x), up.at(*y))).collect();
    let path: Vec<String> = points.iter().map(|(x, y)| format!("{x:.1},{y:.1}")).collect();
    let dots = points.iter().map(|(x, y)| {
        format!("<circle class=\"{class}\" cx=\"{x:.1}\" cy=\"{y:.1}\" r=\"2.5\"/>\n")
    });
    let value = grouped(times.last().copied().unwrap_or(0.0).round() as u64);
    format!("<polyline class=\"{class}\" points=\"{}\"/>\n", path.join(" "))
        + &dots.collect::<String>()
        + &text(across.to[1] + 8.0, end + 4.0, class, "start", &format!("{name} {value}"))
}

/// Both axes, with a tick for each number and each step.
fn axes(numbers: &[f64], step: f64, [across, up]: [&Scale; 2]) -> String {
    let ([left, right], [bottom, top]) = (across.to, up.to);
    let mut all = stroke([left, bottom], [right, bottom]) + &stroke([left, bottom], [left, top]);
    for number in numbers {
        let x = across.at(*number);
        all += &stroke([x, bottom], [x, bottom + 4.0]);
        all += &text(x, bottom + 17.0, "", "middle", &grouped(*number as u64));
    }
    for index in 0..=(up.from[1] / step).round() as usize {
        let value = step * index as f64;
        let y = up.at(value);
        all += &stroke([left - 4.0, y], [left, y]);
        all += &text(left - 7.0, y + 4.0, "", "end", &grouped(value as u64));
    }
    all
}

fn stroke([x1, y1]: [f64; 2], [x2, y2]: [f64; 2]) -> String {
    format!("<line class=\"axis\" x1=\"{x1:.1}\" y1=\"{y1:.1}\" x2=\"{x2:.1}\" y2=\"{y2:.1}\"/>\n")
}

fn text(x: f64, y: f64, class: &str, anchor: &str, words: &str) -> String {
    format!("<text x=\"{x:.1}\" y=\"{y:.1}\" class=\"{class}\" text-anchor=\"{anchor}\">{words}</text>\n")
}

/// From a range of numbers to one of places.
struct Scale {
    from: [f64; 2],
    to: [f64; 2],
}

impl Scale {
    fn at(&self, number: f64) -> f64 {
        let ([low, high], [start, end]) = (self.from, self.to);
        start + (number - low) / (high - low) * (end - start)
    }
}

/// A step of 1, 2 or 5 and zeros, of which two to five make up this number.
fn step(most: f64) -> f64 {
    let power = 10f64.powf((most / 2.0).log10().floor());
    [5.0, 2.0, 1.0]
        .map(|digit| digit * power)
        .into_iter()
        .find(|step| 2.0 * step <= most)
        .unwrap_or(power)
}

/// Moves places that are too near to each other apart, in their order.
fn spread(places: &mut [f64]) {
    let mut order: Vec<usize> = (0..places.len()).collect();
    order.sort_by(|a, b| places[*a].total_cmp(&places[*b]));
    for pair in order.windows(2) {
        let missing = APART - (places[pair[1]] - places[pair[0]]);
        if missing > 0.0 {
            places[pair[0]] -= missing / 2.0;
            places[pair[1]] += missing / 2.0;
        }
    }
}

#[cfg(test)]
mod tests {
    use super::*;

    #[test]
    fn a_scale_keeps_its_ends() {
        let up = Scale { from: [0.0, 400.0], to: [170.0, 40.0] };
        assert_eq!([0.0, 100.0, 400.0].map(|number| up.at(number)), [170.0, 137.5, 40.0]);
    }

    #[test]
    fn steps_are_round() {
        let steps = [2.0, 9.0, 10.0, 39.0, 85.0, 250.0, 6100.0].map(step);
        assert_eq!(steps, [1.0, 2.0, 5.0, 10.0, 20.0, 100.0, 2000.0]);
    }

    #[test]
    fn labels_keep_apart() {
        let mut places = [50.0, 48.0];
        spread(&mut places);
        assert_eq!(places, [55.5, 42.5]);
        let mut far = [10.0, 90.0];
        spread(&mut far);
        assert_eq!(far, [10.0, 90.0]);
    }

    #[test]
    fn every_line_is_labelled_with_its_last_value() {
        let lines = vec![(Which::Archive, vec![20.0, 85.4]), (Which::Plain, vec![60.0, 1250.0])];
        let panel = Panel { call: "a call", along: "members", numbers: vec![1.0, 16.0], lines };
        let picture = svg(&[panel]);
        for label in ["archive 85", "plain card 1,250", "a call", "members"] {
            assert_eq!(picture.matches(&format!(">{label}<")).count(), 1, "{label}");
        }
    }
}
