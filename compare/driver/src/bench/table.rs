//! The table of the bench, as text and as a drawing.

use crate::BATCHES;
use std::fmt::Write;
use std::fs;

/// A row: the work, its blocks by the rules and as measured, and nanoseconds of the library, the crate and the others.
pub struct Row {
    what: String,
    blocks: Option<u32>,
    measured: Option<f64>,
    times: Vec<Option<f64>>,
}

impl Row {
    pub fn new(what: String, blocks: Option<u32>, measured: Option<f64>, times: Vec<Option<f64>>) -> Row {
        Row { what, blocks, measured, times }
    }

    /// A contender's time as a part of the crate's.
    fn ratio(&self, i: usize) -> Option<f64> {
        Some(self.times.get(i).copied()?? / self.times[1]?)
    }
}

/// Writes both into a folder, and prints the text.
pub fn write(folder: &str, names: &[String], rows: &[Row]) {
    let text = text(names, rows);
    print!("{text}");
    fs::write(format!("{folder}/bench.md"), text).expect("bench.md is written");
    fs::write(format!("{folder}/bench.svg"), drawing(names, rows)).expect("bench.svg is written");
}

/// The processor, where the system says it.
fn processor() -> String {
    let said = fs::read_to_string("/proc/cpuinfo").unwrap_or_default();
    let name = said.lines().find_map(|line| line.strip_prefix("model name")?.split_once(": "));
    name.map_or_else(|| String::from("one machine"), |(_, name)| String::from(name))
}

fn number(x: Option<f64>, digits: usize) -> String {
    x.map_or_else(|| String::from("-"), |x| format!("{x:.digits$}"))
}

fn text(names: &[String], rows: &[Row]) -> String {
    let mut text = String::from("# Speed\n\n");
    let cpu = processor();
    writeln!(text, "Nanoseconds, the best of {BATCHES} batches in which all took turns on the same inputs, in one run on {cpu}.").unwrap();
    writeln!(text, "`make bench` writes this page and its [drawing](bench.svg).\n").unwrap();
    writeln!(text, "| Work | Blocks | Measured | {} | library / crate |", names.join(" | ")).unwrap();
    writeln!(text, "|---|{}", "---:|".repeat(names.len() + 3)).unwrap();
    for row in rows {
        let mut cells = vec![row.what.clone(), number(row.blocks.map(f64::from), 0), number(row.measured, 1)];
        cells.extend((0..names.len()).map(|i| number(row.times.get(i).copied().flatten(), 0)));
        cells.push(number(row.ratio(0), 2));
        writeln!(text, "| {} |", cells.join(" | ")).unwrap();
    }
    text.push_str(NOTES);
    if rows.iter().any(|row| row.what.starts_with("lister")) {
        text.push_str(NOTE_ON_LISTER);
    }
    text
}

const NOTES: &str = "
The library's entries take the key with each call, and it exports nothing else. So every row without a star is a key set-up and the work, for
the crate and the others too: they do a call's work by a CBC that turns only the blocks that are needed. *Blocks* says how many that are:
a read of one byte looks at the record's first block and deciphers one more; a patch of the page's last byte does that and enciphers one. The
list's bytes are their pages' middle; the library looks at each record twice, to judge the list and again to patch it.
*Measured* is the library's time, less its set-up, over its time for a block enciphered.

(*) A block under a key that was set before. The library's times are differences: 16 blocks lie between a seal and the call on one block,
15 between a read of a page and a read of a byte. Crypto++ sets a key for each direction by itself, so its set-up counts twice.
";

const NOTE_ON_LISTER: &str = "
(**) The whole run of the program over its 65,536 records, its reading and writing included; the crate does the same in one process.
";

const COLOURS: [&str; 7] = ["#1b6ca8", "#c0392b", "#7f8c8d", "#27ae60", "#8e44ad", "#d68910", "#17a589"];

/// Bars in proportion to the crate's time, those that are longer than the drawing cut off.
fn drawing(names: &[String], rows: &[Row]) -> String {
    const LEFT: usize = 320;
    const ONE: f64 = 400.0;
    const MOST: f64 = 500.0;
    let lines: usize = rows.iter().map(|row| row.times.iter().flatten().count()).sum();
    let height = 60 + 13 * lines + 10 * rows.len();
    let mut svg = format!(
        "<svg xmlns=\"http://www.w3.org/2000/svg\" width=\"900\" height=\"{height}\" font-family=\"sans-serif\" font-size=\"11\">\n\
         <rect width=\"900\" height=\"{height}\" fill=\"white\"/>\n\
         <text x=\"10\" y=\"18\" font-size=\"14\">Time of each, the crate's being 1 (nanoseconds at the bars, which are cut at 1.25)</text>\n"
    );
    let mut x = 10;
    for (name, colour) in names.iter().zip(COLOURS) {
        writeln!(svg, "<rect x=\"{x}\" y=\"28\" width=\"10\" height=\"10\" fill=\"{colour}\"/>").unwrap();
        writeln!(svg, "<text x=\"{}\" y=\"37\">{name}</text>", x + 14).unwrap();
        x += 100;
    }
    let mut y = 50;
    for row in rows {
        writeln!(svg, "<text x=\"{}\" y=\"{}\" text-anchor=\"end\">{}</text>", LEFT - 8, y + 10, row.what).unwrap();
        for (i, colour) in COLOURS.iter().enumerate() {
            let (Some(ratio), Some(time)) = (row.ratio(i), row.times.get(i).copied().flatten()) else {
                continue;
            };
            let long = (ONE * ratio).clamp(1.0, MOST);
            writeln!(svg, "<rect x=\"{LEFT}\" y=\"{}\" width=\"{long:.0}\" height=\"11\" fill=\"{colour}\"/>", y + 1).unwrap();
            writeln!(svg, "<text x=\"{:.0}\" y=\"{}\">{time:.0}</text>", LEFT as f64 + long + 5.0, y + 10).unwrap();
            y += 13;
        }
        y += 10;
    }
    svg.push_str("</svg>\n");
    svg
}
