//! Lines of a text, and what is shown of one with a mark.

use std::ops::Range;

/// So many bytes of a line are shown before the one that is marked, and so many from that one on.
pub const REACH: usize = 36;

/// A line as it is shown.
pub struct View {
    pub shown: Vec<u8>,
    /// How many columns stand before the mark.
    pub mark: usize,
    /// Whether a ? stands for another byte.
    pub replaced: bool,
}

pub fn line(text: &[u8], offset: usize) -> usize {
    text[..offset].iter().filter(|byte| **byte == b'\n').count() + 1
}

pub fn byte(text: &[u8], offset: usize) -> usize {
    offset - line_of(text, offset).start + 1
}

/// The bytes around an offset without a line end.
pub fn line_of(text: &[u8], offset: usize) -> Range<usize> {
    let ends = |byte: &u8| *byte == b'\n';
    let start = text[..offset].iter().rposition(ends).map_or(0, |end| end + 1);
    let end = text[offset..].iter().position(ends);
    start..end.map_or(text.len(), |length| offset + length)
}

pub fn view(line: &[u8], at: usize) -> View {
    view_by([REACH, REACH], printing, line, at)
}

/// The view of up to so many bytes before the mark and from it on, each shown as `shows` has it.
pub fn view_by([before, from]: [usize; 2], shows: fn(u8) -> u8, line: &[u8], at: usize) -> View {
    let window = at.saturating_sub(before)..line.len().min(at + from);
    let dots = |left_out: usize| if left_out > 0 { "..".as_bytes() } else { b"" };
    let [left, right] = [window.start, line.len() - window.end].map(dots);
    let bytes: Vec<u8> = line[window.clone()].iter().map(|byte| shows(*byte)).collect();
    View {
        mark: left.len() + at - window.start,
        replaced: bytes != line[window],
        shown: [left, &bytes, right].concat(),
    }
}

/// The byte itself where it is a printing one, otherwise what stands for it.
pub fn printing(byte: u8) -> u8 {
    match byte {
        b' '..=b'~' => byte,
        _ => b'?',
    }
}
