//! A lent buffer between guard cells, each cell with its own poison value, so that a written cell shows.
const GUARD: usize = 8;

pub trait Cell: Copy {
    fn poison(i: usize) -> Self;
    fn bits(self) -> u64;
}

impl Cell for f64 {
    fn poison(i: usize) -> f64 {
        f64::from_bits(0x7ff4_dead_0000_0000 | i as u64)
    }
    fn bits(self) -> u64 {
        self.to_bits()
    }
}

impl Cell for u64 {
    fn poison(i: usize) -> u64 {
        0xdead_0000_dead_0000 | i as u64
    }
    fn bits(self) -> u64 {
        self
    }
}

pub struct Lent<T: Cell> {
    cells: Vec<T>,
    /// how many of the lent cells were given a value
    given: usize,
}

impl<T: Cell> Lent<T> {
    /// `len` poisoned cells.
    pub fn new(len: usize) -> Self {
        Self { cells: (0..len + 2 * GUARD).map(T::poison).collect(), given: 0 }
    }

    /// These cells and `over` poisoned ones.
    pub fn of(values: &[T], over: usize) -> Self {
        let mut lent = Self::new(values.len() + over);
        lent.cells[GUARD..GUARD + values.len()].copy_from_slice(values);
        lent.given = values.len();
        lent
    }

    pub fn cells(&mut self) -> &mut [T] {
        let n = self.cells.len();
        &mut self.cells[GUARD..n - GUARD]
    }

    pub fn read(&self) -> &[T] {
        &self.cells[GUARD..self.cells.len() - GUARD]
    }

    /// No guard cell was written.
    pub fn guarded(&self) -> bool {
        let n = self.cells.len();
        (0..GUARD).chain(n - GUARD..n).all(|i| self.cells[i].bits() == T::poison(i).bits())
    }

    /// The first cells have these values; all others, guard cells too, have their poison.
    pub fn begins(&self, values: &[T]) -> bool {
        let read = self.read();
        self.guarded()
            && values.len() <= read.len()
            && read.iter().zip(values).all(|(x, v)| x.bits() == v.bits())
            && (values.len()..read.len()).all(|i| read[i].bits() == T::poison(i + GUARD).bits())
    }

    /// The cells that were given a value still have it; all others, guard cells too, have their poison.
    pub fn untouched(&self, values: &[T]) -> bool {
        assert_eq!(values.len(), self.given);
        self.begins(values)
    }

    /// Every cell from `from` on is zero (the double plus zero), and no guard cell was written.
    pub fn zero(&self, from: usize) -> bool {
        self.guarded() && self.read()[from..].iter().all(|x| x.bits() == 0)
    }
}
