//! A picture of times against the number of keys, as SVG: a panel for each call, drawn by hand, so that nothing has to be installed for it.

use std::fmt::Write;

use crate::cases::{full, grouped, Case, Load, PLACES, SETS};
use crate::timing::{both_lookups, changes, Changes, Lookups, CHANGES};

const TITLE: &str = "What a call takes, against the number of keys";

const R: u32 = 1_024;
/// The numbers of keys that are measured.
const KEYS: [usize; 11] = [12, 128, 256, 512, 768, 1_024, 1_280, 1_536, 1_792, 2_000, full(R)];
/// Turns of each board.
const ROUNDS: usize = 30;
/// Turns of the lookups.
const LOOKUPS: usize = 300;

/// The whole picture, and a panel's frame: where the first one begins, how large it is, and how far it is to the next.
const SIZE: [f64; 2] = [960.0, 760.0];
const ORIGIN: [f64; 2] = [80.0, 168.0];
const FRAME: [f64; 2] = [370.0, 230.0];
const STEP: [f64; 2] = [470.0, 310.0];

/// Who a line is about. Colours that are told apart by all eyes, and a mark of its own for each.
struct Who {
    name: &'static str,
    colour: &'static str,
    mark: char,
}

const LIBRARY: Who = Who { name: "library", colour: "#0072b2", mark: 'o' };
const PLAIN: Who = Who { name: "plain twin", colour: "#d55e00", mark: 's' };
const RANKS: Who = Who { name: "ranks twin", colour: "#008060", mark: 't' };
const TWINS: Who = Who { name: "both twins", colour: "#7b3294", mark: 's' };
const MAP: Who = Who { name: "std HashMap", colour: "#666666", mark: 'd' };

/// A line of a panel: a value for each of `KEYS`.
struct Line {
    who: &'static Who,
    dashed: bool,
    values: Vec<f64>,
}

/// The lines of one call.
struct Panel {
    title: &'static str,
    lines: Vec<Line>,
}

/// How far apart the ticks of an axis up to `most` are: 1, 2 or 5 times a power of ten, at most six of them.
fn tick_step(most: f64) -> f64 {
    let power = 10f64.powf((most / 6.0).log10().floor());
    let steps = [1.0, 2.0, 5.0, 10.0].map(|step| step * power);
    steps.into_iter().find(|step| most / step <= 6.0).unwrap_or(10.0 * power)
}

/// A text at a place; `more` are further attributes.
fn text(svg: &mut String, [x, y]: [f64; 2], more: &str, text: &str) {
    writeln!(svg, r#"<text x="{x:.1}" y="{y:.1}" {more}>{text}</text>"#).expect("a string");
}

fn stroke(svg: &mut String, [x1, y1]: [f64; 2], [x2, y2]: [f64; 2], more: &str) {
    writeln!(svg, r#"<path d="M{x1:.1} {y1:.1}L{x2:.1} {y2:.1}" {more}/>"#).expect("a string");
}

/// The mark of a line at a point: a disc, a square, a triangle or a diamond.
fn mark(svg: &mut String, who: &Who, [x, y]: [f64; 2]) {
    let shape = match who.mark {
        's' => "m-3.5 -3.5h7v7h-7z",
        't' => "m0 -4.5l4.5 8h-9z",
        'd' => "m0 -4.5l4.5 4.5l-4.5 4.5l-4.5 -4.5z",
        _ => "m-3.8 0a3.8 3.8 0 1 0 7.6 0a3.8 3.8 0 1 0 -7.6 0z",
    };
    writeln!(svg, r#"<path d="M{x:.1} {y:.1}{shape}" fill="{}"/>"#, who.colour).expect("a string");
}

/// A sample of somebody's line with the name behind it.
fn sample(svg: &mut String, who: &Who, [x, y]: [f64; 2]) {
    stroke(svg, [x, y], [x + 34.0, y], &line_style(who, false));
    mark(svg, who, [x + 17.0, y]);
    text(svg, [x + 41.0, y + 4.5], "", who.name);
}

fn line_style(who: &Who, dashed: bool) -> String {
    let dashes = if dashed { r#" stroke-dasharray="5 4""# } else { "" };
    format!(r#"fill="none" stroke="{}" stroke-width="2"{dashes}"#, who.colour)
}

impl Panel {
    fn draw(&self, svg: &mut String, [left, top]: [f64; 2]) {
        let [width, height] = FRAME;
        let values = self.lines.iter().flat_map(|line| &line.values);
        let most = 1.05 * values.copied().fold(0.0, f64::max);
        let across = |keys: f64| left + width * keys / (1.03 * full(R) as f64);
        let up = |value: f64| top + height * (1.0 - value / most);
        text(svg, [left, top - 12.0], r#"font-size="15" font-weight="bold""#, self.title);
        let step = tick_step(most);
        let ticks = (0..).map(|i| f64::from(i) * step).take_while(|value| *value <= most);
        for value in ticks {
            stroke(svg, [left, up(value)], [left + width, up(value)], r##"stroke="#dddddd""##);
            let place = [left - 8.0, up(value) + 4.5];
            text(svg, place, r#"text-anchor="end""#, &value.to_string());
        }
        for keys in (0..=2_000u32).step_by(500) {
            let x = across(f64::from(keys));
            stroke(svg, [x, top + height], [x, top + height + 5.0], r##"stroke="#444444""##);
            text(svg, [x, top + height + 20.0], r#"text-anchor="middle""#, &grouped(keys));
        }
        let frame = r##"stroke="#444444" fill="none""##;
        stroke(svg, [left, top], [left, top + height], frame);
        stroke(svg, [left, top + height], [left + width, top + height], frame);
        let below = [left + width / 2.0, top + height + 38.0];
        text(svg, below, r#"text-anchor="middle""#, "keys in the set");
        for line in &self.lines {
            let points: Vec<[f64; 2]> =
                KEYS.iter().zip(&line.values).map(|(n, v)| [across(*n as f64), up(*v)]).collect();
            let way: Vec<String> = points.iter().map(|[x, y]| format!("{x:.1} {y:.1}")).collect();
            let style = line_style(line.who, line.dashed);
            writeln!(svg, r#"<path d="M{}" {style}/>"#, way.join("L")).expect("a string");
            points.into_iter().for_each(|point| mark(svg, line.who, point));
        }
    }
}

/// The panels of insert, remove and check, each partner's time in µs.
fn change_panels(found: &[Changes]) -> Vec<Panel> {
    let panel = |call: usize| {
        let line = |(i, who): (usize, &'static Who)| {
            let values = found.iter().map(|found| found.nanoseconds[i][call] / 1_000.0).collect();
            Line { who, dashed: false, values }
        };
        let lines = [&LIBRARY, &PLAIN, &RANKS].into_iter().enumerate().map(line).collect();
        Panel { title: ["insert, µs", "remove, µs", "check, µs"][call], lines }
    };
    (0..CHANGES.len()).map(panel).collect()
}

/// The panel of lookup in ns: of the set's keys, and dashed of others.
fn lookup_panel(found: &[[Lookups; 2]]) -> Panel {
    let line = |which: usize, (i, who): (usize, &'static Who)| {
        let values = found.iter().map(|both| both[which].nanoseconds[i]).collect();
        Line { who, dashed: which == 1, values }
    };
    let seekers = || [&LIBRARY, &TWINS, &MAP].into_iter().enumerate();
    let lines = [0, 1].into_iter().flat_map(|which| seekers().map(move |who| line(which, who)));
    Panel { title: "lookup, ns", lines: lines.collect() }
}

/// A row of samples: which calls, then whose line is which.
fn legend(svg: &mut String, y: f64, calls: &str, lines: &[&Who]) {
    text(svg, [ORIGIN[0], y + 4.5], r#"font-weight="bold""#, calls);
    for (i, who) in lines.iter().enumerate() {
        sample(svg, who, [ORIGIN[0] + 170.0 + 155.0 * i as f64, y]);
    }
}

fn svg(panels: &[Panel]) -> String {
    let [width, height] = SIZE;
    let mut svg = format!(
        concat!(
            r#"<svg xmlns="http://www.w3.org/2000/svg" viewBox="0 0 {w} {h}" width="{w}" height="{h}" "#,
            r#"font-family="DejaVu Sans, Verdana, sans-serif" font-size="13" fill="{ink}" role="img">"#,
            "\n<title>{title}</title>\n",
            r#"<rect width="{w}" height="{h}" fill="{paper}"/>"#,
            "\n"
        ),
        w = width,
        h = height,
        ink = "#222222",
        paper = "#ffffff",
        title = TITLE,
    );
    text(&mut svg, [ORIGIN[0], 34.0], r#"font-size="19" font-weight="bold""#, TITLE);
    let below = format!(
        "r = {}, s = {PLACES}, house book; the shortest of {ROUNDS} runs, mean of {SETS} random sets (lookup: of {LOOKUPS}, one set)",
        grouped(R)
    );
    text(&mut svg, [ORIGIN[0], 57.0], r##"fill="#555555""##, &below);
    legend(&mut svg, 86.0, "insert, remove, check", &[&LIBRARY, &PLAIN, &RANKS]);
    legend(&mut svg, 112.0, "lookup", &[&LIBRARY, &TWINS, &MAP]);
    text(&mut svg, [ORIGIN[0] + 650.0, 116.5], "", "dashed: keys not in the set");
    for (i, panel) in panels.iter().enumerate() {
        let [column, row] = [i % 2, i / 2].map(|i| i as f64);
        panel.draw(&mut svg, [ORIGIN[0] + STEP[0] * column, ORIGIN[1] + STEP[1] * row]);
    }
    svg + "</svg>\n"
}

/// Takes the times and writes the picture to a file.
pub fn draw(file: &str) {
    let cases: Vec<Case> =
        KEYS.iter().map(|count| Case::new(R, Load::Keys(*count), SETS)).collect();
    let found: Vec<Changes> = cases.iter().map(|case| changes(case, ROUNDS)).collect();
    let lookups: Vec<[Lookups; 2]> = cases.iter().map(|case| both_lookups(case, LOOKUPS)).collect();
    let mut panels = change_panels(&found);
    panels.push(lookup_panel(&lookups));
    std::fs::write(file, svg(&panels)).expect("the picture's file");
}
