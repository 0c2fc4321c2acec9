// The picture of docs/BENCHMARKS.md: for each image a bar for each engine, in ns a step.

const ENGINES: [(&str, &str); 3] = [("Rust", "#b0b0b0"), ("ours", "#2060a0"), ("C", "#e0a030")];

pub fn svg(rows: &[(String, [f64; 3])]) -> String {
    let most = rows.iter().flat_map(|(_, ns)| ns).fold(1.0, |a: f64, b| a.max(*b));
    let (left, width, bar, gap) = (150.0, 620.0, 11.0, 12.0);
    let height = 40.0 + rows.len() as f64 * (3.0 * bar + gap);
    let mut out = format!(
        "<svg xmlns=\"http://www.w3.org/2000/svg\" width=\"840\" height=\"{height}\" font-family=\"sans-serif\" font-size=\"11\">\n"
    );
    out += "<rect width=\"100%\" height=\"100%\" fill=\"white\"/>\n<text x=\"150\" y=\"16\">ns a step, shorter is better:</text>\n";
    for (i, (name, colour)) in ENGINES.iter().enumerate() {
        let x = 330 + 70 * i;
        out += &format!(
            "<rect x=\"{x}\" y=\"7\" width=\"10\" height=\"10\" fill=\"{colour}\"/><text x=\"{}\" y=\"16\">{name}</text>\n",
            x + 14
        );
    }
    for (i, (name, ns)) in rows.iter().enumerate() {
        let y = 30.0 + i as f64 * (3.0 * bar + gap);
        out += &format!("<text x=\"{}\" y=\"{:.0}\" text-anchor=\"end\">{name}</text>\n", left - 6.0, y + 1.8 * bar);
        for (k, value) in ns.iter().enumerate() {
            let (top, long) = (y + k as f64 * bar, value / most * width);
            out +=
                &format!("<rect x=\"{left}\" y=\"{top:.0}\" width=\"{long:.1}\" height=\"{:.0}\" fill=\"{}\"/>", bar - 1.0, ENGINES[k].1);
            out += &format!("<text x=\"{:.1}\" y=\"{:.0}\" font-size=\"9\">{value:.2}</text>\n", left + long + 3.0, top + bar - 2.0);
        }
    }
    out + "</svg>\n"
}
