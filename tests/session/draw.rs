//! Random sessions, as their records.

use super::recorded;
use super::tables;
use crate::model::colour::defined;
use crate::model::registers::CONTROL_KEPT;
use crate::numbers::Numbers;

/// Bits of control word 0.
const OVERLAY_ON: u32 = 1;
const IDS_ON: u32 = 2;
const DEPTH_32: u32 = 16;

/// The most dots of a record.
const MOST_DOTS: u32 = 16_777_216;

/// Windows that mostly have an entry of their own.
const WINDOWS: u32 = 6;

/// Values that channels mostly have, so that gamma words are met that were written.
const CHANNELS: [u32; 8] = [0, 36, 73, 109, 146, 182, 219, 255];

/// A session in which many lines are drawn.
pub fn session(numbers: &mut Numbers) -> Vec<Vec<u8>> {
    let mut draw = Draw { numbers, records: Vec::new(), width: 1, height: 1, switches: 0 };
    if !draw.numbers.one_in(16) {
        draw.screen();
        draw.colours();
    }
    for _ in 0..draw.numbers.below(40) {
        draw.step();
    }
    let mut records = draw.records;
    if !numbers.one_in(8) {
        records.push(recorded::END.to_vec());
    }
    records
}

/// A session that grows, and what its writes have made of the screen.
struct Draw<'a> {
    numbers: &'a mut Numbers,
    records: Vec<Vec<u8>>,
    width: u32,
    height: u32,
    switches: u32,
}

impl Draw<'_> {
    fn step(&mut self) {
        match self.numbers.below(24) {
            0 if self.numbers.one_in(5) => self.fill_queue(),
            0..=3 => self.colour(),
            4..=6 => self.dots(),
            7 => self.control_word(),
            8 => self.window(),
            9 => self.gamma_or_cursor(),
            10..=11 => self.faulty_write(),
            12..=14 => self.rows(),
            15 => self.any_row(),
            16 => self.table(),
            17 if self.numbers.one_in(4) => self.screen(),
            _ => self.line(),
        }
    }

    /// An address mostly as it is; else with other bits above its 24.
    fn write(&mut self, address: u32, value: u32) {
        let above = if self.numbers.one_in(8) { self.numbers.next() & 0xFF00_0000 } else { 0 };
        self.records.push(recorded::write(address | above, value));
    }

    /// Sizes, switches and blank windows, and all that a line needs then.
    fn screen(&mut self) {
        self.width = match self.numbers.below(64) {
            0 => 2048 - self.numbers.below(3),
            1 => 1 + self.numbers.below(300),
            _ => 1 + self.numbers.below(12),
        };
        let any = 1 + self.numbers.below(2048);
        self.height = self.numbers.pick(&[1, 2, 3, 40, 2048, any]);
        self.switches = self.numbers.below(32);
        let (ox, total_width) = self.origin_and_total(self.width);
        let (oy, total_lines) = self.origin_and_total(self.height);
        self.write(0x00, self.switches);
        self.write(0x04, fields(total_width - 1, total_lines - 1));
        self.write(0x18, fields(ox, oy));
        self.write(0x1C, fields(self.width - 1, self.height - 1));
        let cursor = fields(self.numbers.below(self.width + 33), self.numbers.below(40));
        self.write(0x20, cursor);
        for address in [0x10, 0x14] {
            let window = fields(self.numbers.below(total_width + 1), self.numbers.below(total_width + 1));
            self.write(address, window & 0x0FFF_0FFF);
        }
        for id in 0..WINDOWS {
            let entry = self.entry();
            self.write(0x01_0000 + 4 * id, entry);
        }
        if self.switches & IDS_ON != 0 {
            self.table();
        }
        self.rows();
    }

    /// An origin and a total that a size fits into, mostly.
    fn origin_and_total(&mut self, size: u32) -> (u32, u32) {
        let origin = self.numbers.pick(&[0, 0, 1, 5]);
        let room = self.numbers.below(8);
        let total = origin + size + room;
        (origin, if self.numbers.one_in(32) { total - room - 1 } else { total }.max(1))
    }

    /// A window entry that is mostly defined, mostly past gamma.
    fn entry(&mut self) -> u32 {
        let depth = if self.switches & DEPTH_32 != 0 { 32 } else { 16 };
        loop {
            let bypass = if self.numbers.one_in(3) { 0 } else { 0x200 };
            let entry = self.numbers.below(0x2000) & !0x200 | bypass;
            if defined(entry, depth) || self.numbers.one_in(200) {
                return entry;
            }
        }
    }

    /// Gamma for the usual channels, cursor colours and part of a glyph, and colour writes that blanked dots apply.
    fn colours(&mut self) {
        for channel in CHANNELS {
            let word = self.numbers.next() & 0xFF_FFFF;
            self.write(0x03_0000 + 4 * channel, word);
        }
        for _ in 0..8 {
            self.gamma_or_cursor();
        }
        for _ in 0..self.numbers.below(40) {
            self.colour();
        }
        self.dots();
    }

    /// A colour write for an entry that a sample or an overlay byte may well name.
    fn colour(&mut self) {
        let bank = self.numbers.below(18);
        let entry = 256 * self.numbers.pick(&[0, bank, bank, 17]) + self.numbers.below(16);
        let colour = (0..3).fold(0, |colour, _| colour << 8 | self.numbers.pick(&CHANNELS));
        self.write(0x02_0000 + 4 * entry, colour);
    }

    fn fill_queue(&mut self) {
        for _ in 0..60 + self.numbers.below(10) {
            self.colour();
        }
    }

    fn dots(&mut self) {
        let any = self.numbers.below(6000);
        let count = match self.numbers.below(1500) {
            0 => self.numbers.below(MOST_DOTS + 1),
            1 => MOST_DOTS,
            2..=5 => MOST_DOTS + 1,
            6..=9 => MOST_DOTS + 1 + any,
            _ => self.numbers.pick(&[0, 1, 1, 2, any % 7, any % 100, any]),
        };
        self.records.push(recorded::dots(count));
    }

    /// Any control word but the sizes; the switches mostly stay.
    fn control_word(&mut self) {
        let word = self.numbers.pick(&[0, 2, 3, 4, 5, 8]);
        let value = self.numbers.next() & CONTROL_KEPT[word as usize];
        if word == 0 {
            self.switches = value;
        }
        self.write(4 * word, value);
    }

    fn window(&mut self) {
        let (id, entry) = (self.numbers.below(WINDOWS), self.entry());
        self.write(0x01_0000 + 4 * id, entry);
    }

    fn gamma_or_cursor(&mut self) {
        let gamma = 0x03_0000 + 4 * self.numbers.pick(&CHANNELS);
        let glyph = 0x04_0000 + 4 * self.numbers.below(64);
        let cursor_colour = 0x04_1000 + 4 * self.numbers.below(3);
        let address = self.numbers.pick(&[gamma, glyph, glyph, cursor_colour]);
        let value = self.numbers.next() & if address == glyph { u32::MAX } else { 0xFF_FFFF };
        self.write(address, value);
    }

    /// A write that is mostly refused by 1, 2 or 3.
    fn faulty_write(&mut self) {
        let block = self.numbers.pick(&[0, 0x01_0000, 0x02_0000, 0x03_0000, 0x04_0000, 0x04_1000]);
        let (any, near) = (self.numbers.next(), block + self.numbers.below(0x500));
        let (inside, past) =
            (block + 4 * self.numbers.below(3), block + 4 * self.numbers.pick(&[11, 32, 4608, 256, 64, 3]));
        let address = self.numbers.pick(&[any, near, inside, inside, inside, past, 0x24, 0x28]);
        let value = self.numbers.next() >> self.numbers.pick(&[0, 7, 8, 18, 19]);
        self.write(address, value);
    }

    /// Rows as the screen wants them.
    fn rows(&mut self) {
        let bytes = if self.switches & DEPTH_32 != 0 { 4 } else { 2 };
        let row = self.row(bytes * self.width);
        self.records.push(recorded::normal(&row));
        if self.switches & OVERLAY_ON != 0 {
            let row = self.row(self.width);
            self.records.push(recorded::overlay(&row));
        }
    }

    /// Mostly low bytes, many of them 0.
    fn row(&mut self, length: u32) -> Vec<u8> {
        let most = self.numbers.pick(&[16, 16, 256]);
        (0..length).map(|_| (self.numbers.below(most) * self.numbers.below(2)) as u8).collect()
    }

    /// A row that may be of a wrong length.
    fn any_row(&mut self) {
        let length = self.numbers.below(2 * self.width + 3);
        let row = self.row(length);
        let record = self.numbers.pick(&[recorded::normal, recorded::overlay])(&row);
        self.records.push(record);
    }

    fn table(&mut self) {
        let table = tables::table(self.numbers, self.width);
        let cut = if self.numbers.one_in(3) { self.numbers.below(table.len() as u32 + 1) as usize } else { 0 };
        let (first, second) = table.split_at(cut);
        self.records.extend([recorded::table(first), recorded::table(second)]);
    }

    fn line(&mut self) {
        let any = self.numbers.next();
        let y = self.numbers.pick(&[0, 0, any % self.height, any % self.height, self.height - 1, any % 40]);
        let y = if self.numbers.one_in(20) { self.numbers.pick(&[self.height, any]) } else { y };
        self.records.push(recorded::line(y as u16));
    }
}

/// A control word of two fields.
fn fields(low: u32, high: u32) -> u32 {
    low | high << 16
}
