//! The six house profiles and their four functions, straight from the definitions.

use crate::fault::Fault;
use crate::message::Width;
use crate::ring::Ring;

/// How the two ends come to the same key bits.
#[derive(Clone, Copy, Debug, PartialEq, Eq)]
pub enum Reconciler {
    Ding,
    Okcn,
}

/// A number set with a reconciler.
#[derive(Clone, Copy, Debug, PartialEq, Eq)]
pub struct Profile {
    name: &'static str,
    /// How a message's head names the numbers.
    numbers_byte: u8,
    ring: Ring,
    /// The bits of a rounded value.
    value_width: Width,
    reconciler: Reconciler,
}

/// What reconciling gives.
#[derive(Clone, Copy, Debug, PartialEq, Eq)]
pub struct Reconciled {
    pub signal: u8,
    pub key_bit: u8,
}

impl Profile {
    /// All six, in the order of their indices.
    pub const HOUSE: [Profile; 6] = [
        Profile::new("T Ding", 1, 4, 257, 6, Reconciler::Ding),
        Profile::new("T OKCN", 1, 4, 257, 6, Reconciler::Okcn),
        Profile::new("S Ding", 2, 512, 12289, 12, Reconciler::Ding),
        Profile::new("S OKCN", 2, 512, 12289, 12, Reconciler::Okcn),
        Profile::new("W Ding", 3, 256, 8380417, 14, Reconciler::Ding),
        Profile::new("W OKCN", 3, 256, 8380417, 14, Reconciler::Okcn),
    ];

    const fn new(
        name: &'static str,
        numbers_byte: u8,
        n: usize,
        q: u32,
        value_bits: u32,
        reconciler: Reconciler,
    ) -> Profile {
        let ring = Ring::new(n, q).expect("a house profile has a ring");
        let value_width = Width::new(value_bits).expect("a house profile's rounded values have a width");
        Profile { name, numbers_byte, ring, value_width, reconciler }
    }

    /// The house profile of this index, from 0 to 5.
    pub fn house(index: u8) -> Option<Profile> {
        Profile::HOUSE.get(usize::from(index)).copied()
    }

    pub fn name(&self) -> &'static str {
        self.name
    }

    pub fn ring(&self) -> Ring {
        self.ring
    }

    pub fn n(&self) -> usize {
        self.ring.n()
    }

    pub fn q(&self) -> u32 {
        self.ring.q()
    }

    /// The largest rounded value.
    pub fn p(&self) -> u32 {
        self.value_width.largest()
    }

    /// The bits of a rounded value.
    pub fn value_width(&self) -> Width {
        self.value_width
    }

    /// The bits of a signal.
    pub fn signal_width(&self) -> Width {
        let bits = match self.reconciler {
            Reconciler::Ding => 1,
            Reconciler::Okcn => 2,
        };
        Width::new(bits).expect("signals have a width")
    }

    /// How a message's head names the numbers.
    pub fn numbers_byte(&self) -> u8 {
        self.numbers_byte
    }

    /// How a message's head names the reconciler.
    pub fn reconciler_byte(&self) -> u8 {
        match self.reconciler {
            Reconciler::Ding => 1,
            Reconciler::Okcn => 2,
        }
    }

    /// What errors and rounding distances are multiples of.
    pub fn step(&self) -> u32 {
        match self.reconciler {
            Reconciler::Ding => 2,
            Reconciler::Okcn => 1,
        }
    }

    /// How many coins there are.
    pub fn coins(&self) -> u8 {
        2
    }

    /// How many signals there are.
    pub fn signals(&self) -> u8 {
        match self.reconciler {
            Reconciler::Ding => 2,
            Reconciler::Okcn => 4,
        }
    }

    /// The y in 0 ..= p of the class of x whose recovered integer is nearest to x, the smaller one at a tie.
    pub fn round(&self, x: u32) -> Result<u32, Fault> {
        self.check_residue(x)?;
        // The class of x is first, first + step, ..; recovered integers grow along it. So the nearest is the last one
        // that recovers to x or less, or the first one that recovers to more.
        let step = self.step();
        let first = x % step;
        let member = |i: u32| first + i * step;
        let count = (self.p() - first) / step + 1;
        let more = first_index(count, |i| self.recovered(member(i)) > x);
        let nearest = (more.saturating_sub(1)..count.min(more + 1))
            .map(member)
            .min_by_key(|&y| (self.recovered(y).abs_diff(x), y))
            .expect("the class of x is not empty");
        Ok(nearest)
    }

    /// The least integer t >= floor(y q / p) for which t - y is a multiple of step.
    pub fn recover(&self, y: u32) -> Result<u32, Fault> {
        if y > self.p() {
            return Err(Fault::OutOfRange(0));
        }
        Ok(self.recovered(y))
    }

    fn recovered(&self, y: u32) -> u32 {
        let quotient = (u64::from(y) * u64::from(self.q()) / u64::from(self.p())) as u32;
        let in_class = |t: u32| t.abs_diff(y).is_multiple_of(self.step());
        (quotient..).find(|&t| in_class(t)).expect("one of any two integers is in the class")
    }

    pub fn reconcile(&self, x: u32, coin: u8) -> Result<Reconciled, Fault> {
        self.check_residue(x)?;
        if coin >= self.coins() {
            return Err(Fault::CoinOutOfRange(0));
        }
        Ok(match self.reconciler {
            Reconciler::Ding => {
                let r = i64::from(self.q() / 4);
                let coin = i64::from(coin);
                let inner = -r + coin..=r + coin;
                let signal = u8::from(!inner.contains(&self.signed(x.into())));
                Reconciled { signal, key_bit: self.key_bit(x, signal) }
            }
            Reconciler::Okcn => {
                let z = 2 * x + u32::from(coin);
                let signal = (4 * (z % self.q()) / self.q()) as u8;
                let key_bit = (z / self.q()) as u8;
                Reconciled { signal, key_bit }
            }
        })
    }

    /// The key bit that a residue and a signal give.
    pub fn read(&self, y: u32, signal: u8) -> Result<u8, Fault> {
        self.check_residue(y)?;
        if signal >= self.signals() {
            return Err(Fault::OutOfRange(0));
        }
        Ok(self.key_bit(y, signal))
    }

    fn key_bit(&self, y: u32, signal: u8) -> u8 {
        let (y, signal, q) = (i64::from(y), i64::from(signal), i64::from(self.q()));
        let number = match self.reconciler {
            Reconciler::Ding => self.signed(y + signal * (q - 1) / 2),
            Reconciler::Okcn => (16 * y + q * (3 - 2 * signal)).div_euclid(8 * q),
        };
        number.rem_euclid(2) as u8
    }

    /// The signed form, in -(q-1)/2 ..= (q-1)/2, of the residue of x.
    fn signed(&self, x: i64) -> i64 {
        let q = i64::from(self.q());
        let residue = x.rem_euclid(q);
        if residue <= (q - 1) / 2 { residue } else { residue - q }
    }

    fn check_residue(&self, x: u32) -> Result<(), Fault> {
        if x < self.q() { Ok(()) } else { Err(Fault::OutOfRange(0)) }
    }
}

/// The first index below `count` from which on the condition holds, or `count`.
fn first_index(count: u32, holds: impl Fn(u32) -> bool) -> u32 {
    let (mut low, mut high) = (0, count);
    while low < high {
        let middle = low.midpoint(high);
        if holds(middle) {
            high = middle;
        } else {
            low = middle + 1;
        }
    }
    low
}

#[cfg(test)]
mod tests {
    use super::*;
    use crate::random::Random;

    const T_DING: Profile = Profile::HOUSE[0];
    const T_OKCN: Profile = Profile::HOUSE[1];

    fn reconciled(profile: Profile, x: u32, coin: u8) -> (u8, u8) {
        let Reconciled { signal, key_bit } = profile.reconcile(x, coin).unwrap();
        (signal, key_bit)
    }

    #[test]
    fn worked_values_of_ding_at_t() {
        let signal = |x, coin| reconciled(T_DING, x, coin).0;
        assert_eq!([64, 193, 65, 192].map(|x| signal(x, 0)), [0, 0, 1, 1]);
        assert_eq!([65, 66, 193].map(|x| signal(x, 1)), [0, 1, 1]);
        assert_eq!(T_DING.read(256, 0), Ok(1));
        assert_eq!(reconciled(T_DING, 65, 1), (0, 1));
        assert_eq!(T_DING.read(127, 0), Ok(1));
        assert_eq!(T_DING.read(129, 0), Ok(0));
        for (x, y, t) in [(1, 1, 5), (256, 62, 252), (255, 63, 257)] {
            assert_eq!(T_DING.round(x), Ok(y));
            assert_eq!(T_DING.recover(y), Ok(t));
        }
    }

    #[test]
    fn worked_values_of_okcn_at_t() {
        assert_eq!(reconciled(T_OKCN, 128, 0), (3, 0));
        assert_eq!(reconciled(T_OKCN, 128, 1), (0, 1));
        assert_eq!(T_OKCN.read(0, 3), Ok(1));
    }

    #[test]
    fn refusals() {
        for profile in Profile::HOUSE {
            let (q, p) = (profile.q(), profile.p());
            for x in [q, q + 1, u32::MAX] {
                assert_eq!(profile.round(x), Err(Fault::OutOfRange(0)));
                assert_eq!(profile.reconcile(x, 0), Err(Fault::OutOfRange(0)));
                assert_eq!(profile.reconcile(x, 2), Err(Fault::OutOfRange(0)));
                assert_eq!(profile.read(x, 0), Err(Fault::OutOfRange(0)));
            }
            assert_eq!(profile.recover(p + 1), Err(Fault::OutOfRange(0)));
            assert_eq!(profile.reconcile(q - 1, 2), Err(Fault::CoinOutOfRange(0)));
            assert_eq!(profile.read(q - 1, profile.signals()), Err(Fault::OutOfRange(0)));
        }
    }

    #[test]
    fn rounding_is_what_a_search_through_all_values_gives() {
        let mut random = Random::new(3);
        for profile in Profile::HOUSE {
            let (q, p) = (profile.q(), profile.p());
            let residues: Vec<u32> = if q < 20000 {
                (0..q).collect()
            } else {
                let drawn = random.numbers(300, q);
                (0..300).chain(q - 300..q).chain(drawn).collect()
            };
            for x in residues {
                let nearest = (0..=p)
                    .filter(|y| y.abs_diff(x).is_multiple_of(profile.step()))
                    .min_by_key(|&y| (profile.recovered(y).abs_diff(x), y));
                assert_eq!(profile.round(x).ok(), nearest, "{}: round({x})", profile.name());
            }
        }
    }

    /// The largest rounding distance R and the tolerance tau, as the tables have them.
    const BOUNDS: [(u32, i64); 6] = [(4, 63), (2, 47), (4, 3071), (2, 2303), (512, 2095103), (256, 1571327)];

    #[test]
    fn rounding_distances_stay_in_their_bounds() {
        for (profile, (bound, _)) in Profile::HOUSE.into_iter().zip(BOUNDS) {
            for x in (0..profile.q()).step_by(if profile.q() > 20000 { 7 } else { 1 }) {
                let recovered = profile.recover(profile.round(x).unwrap()).unwrap();
                let distance = recovered.abs_diff(x);
                assert!(distance <= bound && distance.is_multiple_of(profile.step()));
            }
        }
    }

    #[test]
    fn both_ends_read_the_same_key_bit() {
        let mut random = Random::new(4);
        for (profile, (_, tolerance)) in Profile::HOUSE.into_iter().zip(BOUNDS) {
            let q = i64::from(profile.q());
            let step = i64::from(profile.step());
            let steps = tolerance / step;
            for _ in 0..20000 {
                let x = random.below(profile.q());
                let coin = random.below(2) as u8;
                let far = random.below(2 * steps as u32 + 1);
                let difference = step * random.pick(&[-steps, i64::from(far) - steps, steps]);
                let y = (i64::from(x) + difference).rem_euclid(q) as u32;
                let (signal, key_bit) = reconciled(profile, x, coin);
                assert_eq!(profile.read(y, signal), Ok(key_bit), "{}: {x} and {y}", profile.name());
            }
        }
    }

    #[test]
    fn key_bits_are_even_to_within_one() {
        for profile in &Profile::HOUSE[..4] {
            for coin in 0..profile.coins() {
                let mut counts = [[0_i32; 2]; 4];
                for x in 0..profile.q() {
                    let (signal, key_bit) = reconciled(*profile, x, coin);
                    counts[usize::from(signal)][usize::from(key_bit)] += 1;
                }
                assert!(counts.iter().all(|[zeros, ones]| (zeros - ones).abs() <= 1));
            }
        }
    }
}
