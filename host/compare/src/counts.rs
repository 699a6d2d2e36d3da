//! What was compared, for one line of print.

use crate::light::Light;
use std::fmt;

#[derive(Clone, Debug)]
pub struct Counts {
    /// Calls made on both sides, and those that both refused.
    pub calls: u64,
    pub refused: u64,
    /// Accepted strips and rows of bands whose levels were compared, those with a white point, their pixels, and those levels whose
    /// distance was measured.
    pub pages: u64,
    pub white: u64,
    pub pixels: u64,
    pub levels: u64,
    /// Dark ones, and those, dark or accepted, of which one lit pixel more or fewer decides.
    pub dark: u64,
    pub edge: u64,
    /// The greatest distance of a level from the exact value.
    pub worst: f64,
    /// Pages whose mean was checked exactly, and how far it lay above the reported average, or below where that is negative.
    pub means: u64,
    pub mean_low: f64,
    pub mean_high: f64,
}

impl Counts {
    pub fn none() -> Counts {
        Counts {
            calls: 0,
            refused: 0,
            pages: 0,
            white: 0,
            pixels: 0,
            levels: 0,
            dark: 0,
            edge: 0,
            worst: 0.0,
            means: 0,
            mean_low: f64::INFINITY,
            mean_high: f64::NEG_INFINITY,
        }
    }

    pub fn add(&mut self, other: &Counts) {
        self.calls += other.calls;
        self.refused += other.refused;
        self.pages += other.pages;
        self.white += other.white;
        self.pixels += other.pixels;
        self.levels += other.levels;
        self.dark += other.dark;
        self.edge += other.edge;
        self.worst = self.worst.max(other.worst);
        self.means += other.means;
        self.mean_low = self.mean_low.min(other.mean_low);
        self.mean_high = self.mean_high.max(other.mean_high);
    }

    pub fn light(&mut self, light: Light) {
        self.dark += light.is_dark() as u64;
        self.edge += light.is_at_edge() as u64;
    }

    pub fn mean(&mut self, above: f64) {
        self.means += 1;
        self.mean_low = self.mean_low.min(above);
        self.mean_high = self.mean_high.max(above);
    }
}

impl fmt::Display for Counts {
    fn fmt(&self, f: &mut fmt::Formatter) -> fmt::Result {
        write!(f, "{} calls ({} refused)", self.calls, self.refused)?;
        if self.pages > 0 {
            write!(
                f,
                ", {} pages ({} with a white point), {} pixels",
                self.pages, self.white, self.pixels
            )?;
        }
        if self.dark + self.edge > 0 {
            write!(f, ", {} dark, {} at the edge", self.dark, self.edge)?;
        }
        if self.levels > 0 {
            write!(f, ", {} levels within {:.4}", self.levels, self.worst)?;
        }
        if self.means > 0 {
            write!(
                f,
                ", {} means {:.4} to {:.4} steps above the average",
                self.means, self.mean_low, self.mean_high
            )?;
        }
        Ok(())
    }
}
