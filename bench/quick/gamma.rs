//! Gamma.

use std::cell::OnceCell;

use super::maps::Palette;

/// The gamma words that N values of a channel pick, split by channel, each where it stands in a colour.
pub struct Channels<const N: usize> {
    red: [u32; N],
    green: [u32; N],
    blue: [u32; N],
}

impl<const N: usize> Channels<N> {
    /// Of channels that are widened first.
    fn new(map: &Palette, widened: fn(usize) -> usize) -> Self {
        let channel = |bits| std::array::from_fn(|value| map[widened(value)] & bits);
        Self { red: channel(0xFF_0000), green: channel(0x00_FF00), blue: channel(0x00_00FF) }
    }

    /// The colour of three values, of which the lowest bits count.
    #[inline(always)]
    pub fn colour(&self, red: usize, green: usize, blue: usize) -> u32 {
        self.red[red % N] | self.green[green % N] | self.blue[blue % N]
    }
}

impl Channels<256> {
    /// A colour corrected.
    #[inline(always)]
    pub fn corrected(&self, colour: u32) -> u32 {
        self.colour((colour >> 16) as usize, (colour >> 8) as usize, colour as usize)
    }
}

/// The gamma map split for channels of 8, 5 and 4 bits, each at most once a line.
pub struct Gamma<'a> {
    map: &'a Palette,
    of_8: OnceCell<Channels<256>>,
    of_5: OnceCell<Channels<32>>,
    of_4: OnceCell<Channels<16>>,
}

impl<'a> Gamma<'a> {
    /// A map that nothing was split of yet.
    pub fn new(map: &'a Palette) -> Self {
        Self { map, of_8: OnceCell::new(), of_5: OnceCell::new(), of_4: OnceCell::new() }
    }

    /// For channels of 8 bits.
    pub fn of_8(&self) -> &Channels<256> {
        self.of_8.get_or_init(|| Channels::new(self.map, |value| value))
    }

    /// For channels of 5 bits.
    pub fn of_5(&self) -> &Channels<32> {
        self.of_5.get_or_init(|| Channels::new(self.map, |value| value << 3 | value >> 2))
    }

    /// For channels of 4 bits.
    pub fn of_4(&self) -> &Channels<16> {
        self.of_4.get_or_init(|| Channels::new(self.map, |value| 17 * value))
    }

    /// A palette with each colour corrected.
    pub fn palette(&self, palette: &Palette) -> Palette {
        let channels = self.of_8();
        palette.map(|colour| channels.corrected(colour))
    }

    /// Corrects what was drawn.
    pub fn correct(&self, output: &mut [u32]) {
        let channels = self.of_8();
        let (fours, rest) = output.as_chunks_mut::<4>();
        for four in fours {
            *four = four.map(|colour| channels.corrected(colour));
        }
        for colour in rest {
            *colour = channels.corrected(*colour);
        }
    }
}
