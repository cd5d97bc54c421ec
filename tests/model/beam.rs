//! The beam: where it is, what it reports and where it goes.

use super::timing::in_window;

/// Where the beam is.
#[repr(C)]
#[derive(Clone, Copy, PartialEq, Eq, Debug)]
pub struct Position {
    pub x: u32,
    pub y: u32,
}

/// What one dot reports.
#[derive(Clone, Copy, PartialEq, Eq, Debug)]
pub struct Signals {
    pub hsync: bool,
    pub vsync: bool,
    pub blank: bool,
}

/// What control words 1 to 5 say.
pub struct Timings {
    pub total_width: u32,
    pub total_lines: u32,
    hsync: Window,
    vsync: Window,
    hblank: Window,
    vblank: Window,
}

impl Timings {
    pub fn new(control: &[u32; 9]) -> Self {
        let (width_less_1, lines_less_1) = fields(control[1]);
        Self {
            total_width: width_less_1 + 1,
            total_lines: lines_less_1 + 1,
            hsync: Window::new(control[2]),
            vsync: Window::new(control[3]),
            hblank: Window::new(control[4]),
            vblank: Window::new(control[5]),
        }
    }

    pub fn signals(&self, at: Position) -> Signals {
        Signals {
            hsync: self.hsync.holds(at.x),
            vsync: self.vsync.holds(at.y),
            blank: self.column_blanked(at.x) || self.line_blanked(at.y),
        }
    }

    pub fn column_blanked(&self, x: u32) -> bool {
        self.hblank.holds(x)
    }

    pub fn line_blanked(&self, y: u32) -> bool {
        self.vblank.holds(y)
    }

    /// The position one dot on.
    pub fn next(&self, at: Position) -> Position {
        if at.x + 1 < self.total_width {
            Position { x: at.x + 1, y: at.y }
        } else if at.y + 1 < self.total_lines {
            Position { x: 0, y: at.y + 1 }
        } else {
            Position { x: 0, y: 0 }
        }
    }
}

struct Window {
    on: u32,
    off: u32,
}

impl Window {
    fn new(word: u32) -> Self {
        let (on, off) = fields(word);
        Self { on, off }
    }

    fn holds(&self, p: u32) -> bool {
        in_window(self.on, self.off, p)
    }
}

/// The two fields of a control word, low and high.
fn fields(word: u32) -> (u32, u32) {
    (word & 0xFFF, word >> 16 & 0xFFF)
}
