//! The blocks of a store.

/// The bits that a colour has.
pub const COLOUR: u32 = 0x00FF_FFFF;

/// Colours that a byte picks from.
pub type Palette = [u32; 256];

/// The bank whose colours the overlay shows.
const OVERLAY_BANK: usize = 17;

/// The blocks of a store, in its order.
#[derive(Clone, Copy)]
pub struct Maps<'a> {
    pub windows: &'a [u32; 32],
    pub colours: &'a [u32; 4608],
    pub gamma: &'a Palette,
    pub glyph: &'a [u32; 64],
    pub cursor_colours: &'a [u32; 3],
}

impl<'a> Maps<'a> {
    /// None where the store has a wrong length.
    pub fn new(store: &'a [u32]) -> Option<Self> {
        let (windows, store) = store.split_first_chunk()?;
        let (colours, store) = store.split_first_chunk()?;
        let (gamma, store) = store.split_first_chunk()?;
        let (glyph, store) = store.split_first_chunk()?;
        Some(Self { windows, colours, gamma, glyph, cursor_colours: store.try_into().ok()? })
    }

    /// One of 18 banks of the colour map.
    pub fn bank(&self, number: usize) -> &'a Palette {
        &self.colours.as_chunks().0[number]
    }

    /// What a byte of the overlay picks from.
    pub fn overlay_bank(&self) -> &'a Palette {
        self.bank(OVERLAY_BANK)
    }

    /// The part of the colour map that 12 bits pick from.
    pub fn first_4096(&self) -> &'a [u32; 4096] {
        self.colours.first_chunk().expect("the map is longer")
    }
}
