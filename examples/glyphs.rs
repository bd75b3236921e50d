//! Glyphs of a font from Rust, behind a safe wrapper.
//!
//! rustc -O glyphs.rs -lmkstrike && ./glyphs FONT PPEM TEXT
//! In a checkout: rustc -O examples/glyphs.rs -L. -lmkstrike && ./glyphs FONT PPEM TEXT
//! docs/LIBRARY.md says how to make libmkstrike.a there.

mod sys {
    #[repr(C)]
    #[derive(Clone, Copy, Debug, Default)]
    pub struct Refused {
        pub number: u32,
        pub table: u32,
        pub glyph: u32,
        pub during: u32,
        pub program: u32,
        pub opcode: u32,
        pub index: u32,
        pub code: u32,
        pub address: u64,
    }

    #[repr(C)]
    #[derive(Clone, Copy, Debug, Default)]
    pub struct GlyphInfo {
        pub width: u32,
        pub height: u32,
        pub left: i32,
        pub bottom: i32,
        pub stride: u32,
        pub dwidth: i32,
        pub swidth: i32,
    }

    extern "C" {
        pub fn mkstrike_reason(number: u32, text: *mut u8, text_len: usize) -> usize;
        pub fn mkstrike_glyph(
            font: *const u8, font_len: usize, face: u32, ppem: u16, mode: u32, code: u32,
            pixels: *mut u8, pixels_len: usize, info: *mut GlyphInfo, refused: *mut Refused,
        ) -> u32;
    }
}

pub use sys::{GlyphInfo, Refused};

/// Bits of a mode: the font's programs run; gaps are closed by the left pixel, by the nearer one, or as the font asks. Pixels are a byte
/// each here, so that the bit for packed ones is not for callers.
pub const HINTED: u32 = 1;
pub const DROPOUT: u32 = 2;
pub const DROPOUT_NEAR: u32 = 4;
pub const DROPOUT_FONT: u32 = 8;

/// The name of a number that a call returned.
pub fn reason(number: u32) -> String {
    let mut text = [0; 24];
    // The buffer is as long as is said.
    let len = unsafe { sys::mkstrike_reason(number, text.as_mut_ptr(), text.len()) };
    String::from_utf8_lossy(&text[..len.min(text.len() - 1)]).into_owned()
}

/// The numbers of a character's glyph, and its pixels row by row from the top, a byte each; none if the font lacks it.
pub fn glyph(font: &[u8], ppem: u16, mode: u32, code: u32) -> Result<Option<(GlyphInfo, Vec<u8>)>, Refused> {
    let (mut glyph, mut refused, mut pixels) = (GlyphInfo::default(), Refused::default(), vec![0; 4096]);
    loop {
        // A slice's pointer is never null; the buffers are apart, as each is borrowed alone, and as long as is said.
        let status = unsafe {
            sys::mkstrike_glyph(font.as_ptr(), font.len(), 0, ppem, mode, code, pixels.as_mut_ptr(), pixels.len(), &mut glyph,
                &mut refused)
        };
        let size = glyph.stride as usize * glyph.height as usize;
        match status {
            0 if size <= pixels.len() => {
                pixels.truncate(size);
                return Ok(Some((glyph, pixels)));
            }
            0 => pixels.resize(size, 0),
            1 => return Ok(None),
            _ => return Err(refused),
        }
    }
}

fn main() {
    let words: Vec<String> = std::env::args().collect();
    if words.len() != 4 {
        eprintln!("usage: glyphs FONT PPEM TEXT");
        std::process::exit(2);
    }
    let font = std::fs::read(&words[1]).expect("a font");
    let ppem = words[2].parse().expect("a size");
    for c in words[3].chars() {
        match glyph(&font, ppem, HINTED | DROPOUT_FONT, c as u32) {
            Err(refused) => panic!("refused: {} {}", refused.number, reason(refused.number)),
            Ok(None) => println!("U+{:04X} missing", c as u32),
            Ok(Some((glyph, pixels))) => {
                println!("U+{:04X} advance {}", c as u32, glyph.dwidth);
                for row in pixels.chunks(glyph.stride.max(1) as usize) {
                    println!("{}", row.iter().map(|p| if *p == 0 { '.' } else { '#' }).collect::<String>());
                }
            }
        }
    }
}
