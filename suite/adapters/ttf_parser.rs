//! ttf-parser as a tool under test (Debian: librust-ttf-parser-dev): characters, advances, and outlines as paths. It runs no programs and draws
//! no pixels, and its outlines are in FUnits, which are scaled here. Built by `ttf_parser` beside this file.
use std::io::{BufRead, Write};
use ttf_parser::{Face, GlyphId, OutlineBuilder};

/// Writes the steps of a path, scaled to 1/64 pixel and moved along x.
struct Steps {
    scale: f64,
    moved: f64,
    words: Vec<String>,
}

impl Steps {
    fn add(&mut self, word: &str, places: &[(f32, f32)]) {
        let mut text = format!("[\"{}\"", word);
        for (x, y) in places {
            text += &format!(", {:.3}, {:.3}", f64::from(*x) * self.scale + self.moved, f64::from(*y) * self.scale);
        }
        self.words.push(text + "]");
    }
}

impl OutlineBuilder for Steps {
    fn move_to(&mut self, x: f32, y: f32) {
        self.add("move", &[(x, y)]);
    }
    fn line_to(&mut self, x: f32, y: f32) {
        self.add("line", &[(x, y)]);
    }
    fn quad_to(&mut self, cx: f32, cy: f32, x: f32, y: f32) {
        self.add("quad", &[(cx, cy), (x, y)]);
    }
    fn curve_to(&mut self, _: f32, _: f32, _: f32, _: f32, _: f32, _: f32) {}
    fn close(&mut self) {}
}

/// The text after a key of a request, which is one line of JSON with known keys.
fn after<'a>(line: &'a str, key: &str) -> Option<&'a str> {
    let word = format!("\"{}\": ", key);
    line.find(&word).map(|at| &line[at + word.len()..])
}

fn number(line: &str, key: &str) -> Option<u32> {
    after(line, key)?.split(|c: char| !c.is_ascii_digit()).next()?.parse().ok()
}

fn text(line: &str, key: &str) -> String {
    after(line, key).and_then(|it| it.split('"').nth(1)).unwrap_or("").to_string()
}

fn answer(line: &str) -> String {
    if after(line, "hinted").map_or(false, |it| it.starts_with("true")) {
        return "\"unsupported\": \"hinting\"".into();
    }
    if !after(line, "dropout").map_or(false, |it| it.starts_with("false")) {
        return "\"unsupported\": \"drop-out control\"".into();
    }
    let data = std::fs::read(text(line, "font")).unwrap_or_default();
    let face = match Face::from_slice(&data, number(line, "face").unwrap_or(0)) {
        Ok(face) => face,
        Err(fault) => return format!("\"refusal\": {{\"text\": \"{}\"}}", fault),
    };
    let glyph = match number(line, "char") {
        Some(code) => match char::from_u32(code).and_then(|it| face.glyph_index(it)) {
            Some(GlyphId(0)) | None => return "\"missing\": true".into(),
            Some(glyph) => glyph,
        },
        None => GlyphId(number(line, "glyph").unwrap_or(0) as u16),
    };
    let scale = f64::from(number(line, "ppem").unwrap_or(0)) * 64.0 / f64::from(face.units_per_em());
    let mut steps = Steps { scale, moved: 0.0, words: Vec::new() };
    // A glyph is moved by its left side bearing, as a caller would.
    let bearing = f64::from(face.glyph_hor_side_bearing(glyph).unwrap_or(0));
    let least = face.glyph_bounding_box(glyph).map_or(bearing, |it| f64::from(it.x_min));
    steps.moved = (bearing - least) * scale;
    let _box = face.outline_glyph(glyph, &mut steps);
    let advance = (f64::from(face.glyph_hor_advance(glyph).unwrap_or(0)) * scale).round();
    format!("\"advance\": {}, \"path\": [{}]", advance, steps.words.join(", "))
}

fn main() {
    let mut out = std::io::stdout();
    writeln!(out, "{{\"protocol\": 2}}").unwrap();
    for line in std::io::stdin().lock().lines() {
        let line = line.unwrap();
        writeln!(out, "{{\"id\": \"{}\", {}}}", text(&line, "id"), answer(&line)).unwrap();
        out.flush().unwrap();
    }
}
