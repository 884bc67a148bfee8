//! The two tables as one picture.

/// A table: what it goes by, and a row of times for each number.
pub struct Table {
    pub by: &'static str,
    pub rows: Vec<(u32, Vec<f64>)>,
}

const COLOURS: [&str; 5] = ["#b5403a", "#2f5d8a", "#5f9ea0", "#8a7a2f", "#9a9a9a"];
const WIDTH: f64 = 420.0;
const HEIGHT: f64 = 260.0;
const LEFT: f64 = 48.0;
const TOP: f64 = 36.0;

/// The tables side by side, with the names of the programs below.
pub fn svg(tables: &[Table], names: &[&str]) -> String {
    let most = tables
        .iter()
        .flat_map(|table| table.rows.iter().flat_map(|(_, times)| times))
        .fold(1.0, |most: f64, &time| most.max(time));
    let width = tables.len() as f64 * (WIDTH + LEFT) + LEFT;
    let height = TOP + HEIGHT + 40.0 + 18.0 * names.len() as f64;
    let mut text = format!(
        "<svg xmlns=\"http://www.w3.org/2000/svg\" viewBox=\"0 0 {width} {height}\" font-family=\"sans-serif\" font-size=\"12\">\n"
    );
    for (i, table) in tables.iter().enumerate() {
        let left = LEFT + i as f64 * (WIDTH + LEFT);
        text += &drawn(table, left, most);
    }
    for (i, (name, colour)) in names.iter().zip(COLOURS).enumerate() {
        let y = TOP + HEIGHT + 44.0 + 18.0 * i as f64;
        text += &format!("<rect x=\"{LEFT}\" y=\"{}\" width=\"14\" height=\"4\" fill=\"{colour}\"/><text x=\"{}\" y=\"{y}\">{name}</text>\n", y - 6.0, LEFT + 22.0);
    }
    text + "</svg>\n"
}

/// One table: a line for each program.
fn drawn(table: &Table, left: f64, most: f64) -> String {
    let x = |i: usize| left + (WIDTH - 20.0) * i as f64 / (table.rows.len() as f64 - 1.0);
    let y = |time: f64| TOP + HEIGHT * (1.0 - time / most);
    let bottom = TOP + HEIGHT;
    let mut text = format!(
        "<text x=\"{left}\" y=\"18\">nanoseconds a call, by {}</text>\n<path d=\"M{left} {TOP}V{bottom}H{}\" fill=\"none\" stroke=\"#444\"/>\n",
        table.by,
        left + WIDTH - 20.0
    );
    for part in 0..5 {
        let time = most * f64::from(part) / 4.0;
        text += &format!(
            "<text x=\"{}\" y=\"{:.1}\" text-anchor=\"end\">{time:.0}</text>\n",
            left - 6.0,
            y(time) + 4.0
        );
    }
    for (i, (number, _)) in table.rows.iter().enumerate() {
        text += &format!(
            "<text x=\"{:.1}\" y=\"{}\" text-anchor=\"middle\">{number}</text>\n",
            x(i),
            bottom + 16.0
        );
    }
    for (program, colour) in COLOURS.iter().enumerate() {
        let points: Vec<String> = table
            .rows
            .iter()
            .enumerate()
            .map(|(i, (_, times))| format!("{:.1},{:.1}", x(i), y(times[program])))
            .collect();
        text += &format!(
            "<polyline points=\"{}\" fill=\"none\" stroke=\"{colour}\" stroke-width=\"2\"/>\n",
            points.join(" ")
        );
    }
    text
}
