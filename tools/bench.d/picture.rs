//! The ratios of the table as a picture (SVG): bars from 1.00 on a logarithmic axis, the operations in groups.

use crate::run::Row;

/// What was aimed at, in times of libm for one call; docs/BENCH.md says so in words.
const AIMS: [(f64, &[&str]); 2] = [
    (1.5, &["trunc64", "trunc32", "floor64", "floor32", "scalbn64", "scalbn32"]),
    (1.3, &["fma64", "fmod64", "fmod32", "reduce64", "reduce32"]),
];

/// Each kind of calls: its name in the table, what it is, the bar's colour, and how far right its ratio ends. The first two
/// have a head above their ratios.
const KINDS: [(&str, &str, &str, u32); 3] = [
    ("independent", "independent calls", "#2b6cb0", 870),
    ("dependent", "calls that wait for the last answer", "#d97706", 940),
    ("list", "one call for a list, by the place", "#2f855a", 870),
];

const WIDTH: u32 = 960;
/// Where the words stand, and from where to where the axis goes.
const WORDS: [u32; 2] = [20, 168];
const AXIS: [f64; 2] = [258.0, 786.0];
/// The height of a bar, of the line of one set, and of the space between two groups.
const BAR: u32 = 9;
const LINE: u32 = 2 * BAR + 5;
const SPACE: u32 = 7;
const TICKS: [f64; 13] = [0.01, 0.02, 0.05, 0.1, 0.2, 0.5, 1.0, 2.0, 5.0, 10.0, 20.0, 50.0, 100.0];

const INK: &str = "#1f2933";
const FAINT: &str = "#52606d";

pub fn svg(rows: &[Row], captions: &[String]) -> String {
    let scale = Scale::of(rows);
    let top = 70 + 18 * captions.len() as u32 + 24;
    let (groups, bottom) = groups(rows, &scale, top);
    let height = bottom + 34;
    let mut text = format!(
        "<?xml version=\"1.0\" encoding=\"UTF-8\"?>\n\
         <svg xmlns=\"http://www.w3.org/2000/svg\" width=\"{WIDTH}\" height=\"{height}\" viewBox=\"0 0 {WIDTH} {height}\" \
         font-family=\"Helvetica, Arial, sans-serif\" font-size=\"12\" fill=\"{INK}\">\n\
         <title>{}</title>\n\
         <rect width=\"{WIDTH}\" height=\"{height}\" fill=\"#ffffff\"/>\n",
        escaped(&captions.join("; "))
    );
    text += &heading(captions);
    text += &groups;
    text += &scale.numbers(top, bottom);
    text + "</svg>\n"
}

/// The captions, the first of them large, and what the marks mean.
fn heading(captions: &[String]) -> String {
    let mut text = String::new();
    for (place, caption) in captions.iter().enumerate() {
        let (size, fill) = if place == 0 { (17, INK) } else { (12, FAINT) };
        let y = 32 + 20 * place.min(1) + 18 * place.saturating_sub(1);
        text += &format!("<text x=\"20\" y=\"{y}\" font-size=\"{size}\" fill=\"{fill}\">{}</text>\n", escaped(caption));
    }
    let y = 46 + 18 * captions.len() as u32;
    let mut x = WORDS[0];
    for (_, meaning, colour, _) in KINDS {
        text += &format!("<rect x=\"{x}\" y=\"{}\" width=\"18\" height=\"{BAR}\" fill=\"{colour}\"/>\n", y - BAR);
        text += &format!("<text x=\"{}\" y=\"{y}\">{meaning}</text>\n", x + 24);
        x += 44 + 6 * meaning.len() as u32;
    }
    text += &aim_line((x + 3).into(), y - 11, y + 2);
    text + &format!("<text x=\"{}\" y=\"{y}\">what was aimed at</text>\n", x + 12)
}

/// The groups from the top down, and where they end.
fn groups(rows: &[Row], scale: &Scale, top: u32) -> (String, u32) {
    let (mut text, mut y) = (String::new(), top);
    for (place, group) in rows.chunk_by(|one, other| one.operation == other.operation).enumerate() {
        let sets: Vec<&[Row]> = group.chunk_by(|one, other| one.set == other.set).collect();
        let height = LINE * sets.len() as u32 + SPACE;
        let shade = if place % 2 == 0 { "#f3f5f8" } else { "#ffffff" };
        text += &format!("<g>\n<rect x=\"8\" y=\"{y}\" width=\"{}\" height=\"{height}\" fill=\"{shade}\"/>\n", WIDTH - 16);
        text += &scale.grid(y, y + height);
        let name = group[0].operation;
        text += &format!("<text x=\"{}\" y=\"{}\" font-weight=\"bold\">{name}</text>\n", WORDS[0], y + 19);
        for (line, set) in sets.iter().enumerate() {
            text += &drawn_set(set, scale, y + 4 + LINE * line as u32);
        }
        for (aim, _) in AIMS.iter().filter(|(_, names)| names.contains(&name)) {
            text += &aim_line(scale.x(*aim), y, y + height);
        }
        text += "</g>\n";
        y += height;
    }
    (text, y)
}

/// A set's bars, one below the other, and their ratios beside each other.
fn drawn_set(rows: &[Row], scale: &Scale, y: u32) -> String {
    let middle = y + 15;
    let mut text = format!("<text x=\"{}\" y=\"{middle}\" fill=\"{FAINT}\">{}</text>\n", WORDS[1], rows[0].set);
    for (place, row) in rows.iter().enumerate() {
        let (_, _, colour, end) =
            KINDS.into_iter().find(|kind| kind.0 == row.calls).expect("each row has a kind of calls that the picture knows");
        let (one, at) = (scale.x(1.0), scale.x(row.ratio()));
        let (left, width) = (one.min(at), (one - at).abs().max(2.0));
        let (name, set, calls, ratio) = (row.operation, row.set, row.calls, row.ratio_text());
        // Two bars fill the line, and one stands in the middle of it.
        let top = if rows.len() == 1 { y + 7 } else { y + 2 + place as u32 * (BAR + 1) };
        text += &format!(
            "<rect class=\"bar\" x=\"{left:.1}\" y=\"{top}\" width=\"{width:.1}\" height=\"{BAR}\" fill=\"{colour}\">\
             <title>{name}, {set}, {calls}: {ratio}</title></rect>\n"
        );
        text += &format!("<text class=\"ratio\" x=\"{end}\" y=\"{middle}\" text-anchor=\"end\">{ratio}</text>\n");
    }
    text
}

fn aim_line(x: f64, top: u32, bottom: u32) -> String {
    line(x, top, bottom, "stroke=\"#b91c1c\" stroke-dasharray=\"4 3\"")
}

fn line(x: f64, top: u32, bottom: u32, how: &str) -> String {
    format!("<line x1=\"{x:.1}\" y1=\"{top}\" x2=\"{x:.1}\" y2=\"{bottom}\" {how}/>\n")
}

/// The axis goes from one tick to another, with 1.00 and all ratios between them.
struct Scale {
    ticks: Vec<f64>,
}

impl Scale {
    fn of(rows: &[Row]) -> Scale {
        let least = rows.iter().map(Row::ratio).fold(0.5, f64::min);
        let most = rows.iter().map(Row::ratio).fold(2.0, f64::max);
        let from = TICKS.iter().rposition(|tick| *tick <= least).unwrap_or(0);
        let to = TICKS.iter().position(|tick| *tick >= most).unwrap_or(TICKS.len() - 1);
        Scale { ticks: TICKS[from..=to].to_vec() }
    }
    fn x(&self, ratio: f64) -> f64 {
        let (low, high) = (self.ticks[0], self.ticks[self.ticks.len() - 1]);
        let part = (ratio.clamp(low, high) / low).ln() / (high / low).ln();
        AXIS[0] + part * (AXIS[1] - AXIS[0])
    }
    /// A thin line at each tick, and a strong one at 1.00.
    fn grid(&self, top: u32, bottom: u32) -> String {
        let thin = self.ticks.iter().map(|tick| line(self.x(*tick), top, bottom, "stroke=\"#d5dbe3\""));
        thin.collect::<String>() + &line(self.x(1.0), top, bottom, &format!("stroke=\"{INK}\" stroke-width=\"1.4\""))
    }
    /// The numbers at both ends of the lines, and the heads of the ratios.
    fn numbers(&self, top: u32, bottom: u32) -> String {
        let mut text = String::new();
        for y in [top - 10, bottom + 20] {
            for tick in &self.ticks {
                let number = if *tick == 1.0 { "1.00".to_string() } else { tick.to_string() };
                text += &format!("<text x=\"{:.1}\" y=\"{y}\" text-anchor=\"middle\" fill=\"{FAINT}\">{number}</text>\n", self.x(*tick));
            }
        }
        for (name, _, colour, end) in &KINDS[..2] {
            let y = top - 10;
            text += &format!("<text x=\"{end}\" y=\"{y}\" text-anchor=\"end\" font-size=\"11\" fill=\"{colour}\">{name}</text>\n");
        }
        text
    }
}

fn escaped(text: &str) -> String {
    text.replace('&', "&amp;").replace('<', "&lt;").replace('>', "&gt;").replace('"', "&quot;")
}
