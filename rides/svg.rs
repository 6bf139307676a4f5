//! The few shapes of SVG that a chart needs. Lines lie below marks, and marks below words.

pub const BLACK: &str = "#222";
pub const GREY: &str = "#767676";
pub const LIGHT: &str = "#c8c8c8";
pub const DATA: &str = "#1f5fa8";
pub const REPLY: &str = "#b35000";
pub const GREEN: &str = "#1d7a3a";

#[derive(Default)]
pub struct Picture {
    lines: String,
    marks: String,
    words: String,
}

/// Where a text stands to its point.
#[derive(Clone, Copy)]
pub enum Anchor {
    Start,
    Middle,
    End,
}

pub fn escaped(text: &str) -> String {
    text.replace('&', "&amp;").replace('<', "&lt;").replace('>', "&gt;").replace('"', "&quot;")
}

impl Picture {
    pub fn line(&mut self, from: (usize, usize), to: (usize, usize), colour: &str, more: &str) {
        let ((x1, y1), (x2, y2)) = (from, to);
        self.lines += &format!("<line x1=\"{x1}\" y1=\"{y1}\" x2=\"{x2}\" y2=\"{y2}\" stroke=\"{colour}\"{more}/>\n");
    }

    /// The line of a message; replies are dashed, so that they can be told without colours.
    pub fn message(&mut self, from: (usize, usize), to: (usize, usize), reply: bool, arrow: bool) {
        let (colour, name) = if reply { (REPLY, "reply") } else { (DATA, "data") };
        let dashed = if reply { " stroke-dasharray=\"6 3\"" } else { "" };
        let head = if arrow { format!(" marker-end=\"url(#{name})\"") } else { String::new() };
        self.line(from, to, colour, &format!(" stroke-width=\"1.5\"{dashed}{head}"));
    }

    pub fn cross(&mut self, (x, y): (usize, usize)) {
        let d = format!("M{} {}l6 6m0 -6l-6 6", x - 3, y - 3);
        self.marks += &format!("<path d=\"{d}\" stroke=\"#c00\" stroke-width=\"2\" fill=\"none\"/>\n");
    }

    pub fn circle(&mut self, (x, y): (usize, usize), r: usize, fill: &str, stroke: &str) {
        self.marks += &format!("<circle cx=\"{x}\" cy=\"{y}\" r=\"{r}\" fill=\"{fill}\" stroke=\"{stroke}\"/>\n");
    }

    pub fn square(&mut self, (x, y): (usize, usize), fill: &str) {
        let (x, y) = (x - 4, y - 4);
        self.marks += &format!("<rect x=\"{x}\" y=\"{y}\" width=\"8\" height=\"8\" fill=\"{fill}\" stroke=\"{GREEN}\"/>\n");
    }

    /// A text whose middle is at the height of the point.
    pub fn text(&mut self, (x, y): (usize, usize), anchor: Anchor, size: usize, colour: &str, text: &str) {
        let anchor = match anchor {
            Anchor::Start => "",
            Anchor::Middle => " text-anchor=\"middle\"",
            Anchor::End => " text-anchor=\"end\"",
        };
        let (y, text) = (y + 4, escaped(text));
        self.words += &format!("<text x=\"{x}\" y=\"{y}\" font-size=\"{size}\" fill=\"{colour}\"{anchor}>{text}</text>\n");
    }

    pub fn file(&self, width: usize, height: usize, title: &str) -> String {
        let head = |name: &str, colour: &str| {
            format!(
                "<marker id=\"{name}\" markerWidth=\"9\" markerHeight=\"8\" refX=\"8\" refY=\"4\" orient=\"auto\" \
                 markerUnits=\"userSpaceOnUse\"><path d=\"M0 0L9 4L0 8z\" fill=\"{colour}\"/></marker>\n"
            )
        };
        format!(
            "<svg xmlns=\"http://www.w3.org/2000/svg\" width=\"{width}\" height=\"{height}\" \
             viewBox=\"0 0 {width} {height}\" font-family=\"Helvetica, Arial, sans-serif\">\n\
             <title>{}</title>\n<defs>\n{}{}</defs>\n\
             <rect width=\"{width}\" height=\"{height}\" fill=\"white\"/>\n{}{}{}</svg>\n",
            escaped(title),
            head("data", DATA),
            head("reply", REPLY),
            self.lines,
            self.marks,
            self.words
        )
    }
}
