// Natural numbers of any size: the exact arithmetic everything else here rests on.

use std::cmp::Ordering;

/// Words of 64 bits, least first. The top word is never zero, so zero has no
/// words and two equal numbers have equal words.
#[derive(Clone, Debug, PartialEq, Eq)]
pub struct Big {
    words: Vec<u64>,
}

impl Big {
    pub fn zero() -> Big {
        Big { words: Vec::new() }
    }

    pub fn from(word: u64) -> Big {
        Big::trimmed(vec![word])
    }

    /// word * 2^shift, built in one go because the search builds many of them.
    pub fn placed(word: u64, shift: u32) -> Big {
        let (whole, bits) = ((shift / 64) as usize, shift % 64);
        let wide = (word as u128) << bits;
        let mut words = Vec::with_capacity(whole + 2);
        words.resize(whole, 0);
        words.push(wide as u64);
        words.push((wide >> 64) as u64);
        Big::trimmed(words)
    }

    fn trimmed(mut words: Vec<u64>) -> Big {
        while words.last() == Some(&0) {
            words.pop();
        }
        Big { words }
    }

    pub fn is_zero(&self) -> bool {
        self.words.is_empty()
    }

    pub fn is_odd(&self) -> bool {
        self.low_word() & 1 == 1
    }

    /// The number modulo 2^64.
    pub fn low_word(&self) -> u64 {
        self.words.first().copied().unwrap_or(0)
    }

    /// How many binary digits the number has; none for zero.
    pub fn bits(&self) -> u32 {
        match self.words.last() {
            None => 0,
            Some(top) => self.words.len() as u32 * 64 - top.leading_zeros(),
        }
    }

    /// How often two divides the number; zero is counted as 0 times.
    pub fn twos(&self) -> u32 {
        match self.words.iter().position(|word| *word != 0) {
            None => 0,
            Some(place) => place as u32 * 64 + self.words[place].trailing_zeros(),
        }
    }

    pub fn add(&self, other: &Big) -> Big {
        let length = self.words.len().max(other.words.len());
        let mut words = Vec::with_capacity(length + 1);
        let mut carry = 0u128;
        for place in 0..length {
            let sum = self.word(place) as u128 + other.word(place) as u128 + carry;
            words.push(sum as u64);
            carry = sum >> 64;
        }
        words.push(carry as u64);
        Big::trimmed(words)
    }

    /// self - other; there is no answer when other is the greater.
    pub fn sub(&self, other: &Big) -> Big {
        assert!(*self >= *other, "a natural number would go below zero");
        let mut words = Vec::with_capacity(self.words.len());
        let mut borrow = false;
        for place in 0..self.words.len() {
            let (first, under) = self.words[place].overflowing_sub(other.word(place));
            let (second, under_again) = first.overflowing_sub(borrow as u64);
            words.push(second);
            borrow = under || under_again;
        }
        Big::trimmed(words)
    }

    /// Zero words are passed over: most numbers here are a short run of digits
    /// far above a long run of zeros.
    pub fn mul(&self, other: &Big) -> Big {
        let mut words = vec![0u64; self.words.len() + other.words.len()];
        for (low, first) in self.words.iter().enumerate() {
            if *first == 0 {
                continue;
            }
            let mut carry = 0u128;
            for (place, second) in other.words.iter().enumerate() {
                if *second == 0 && carry == 0 {
                    continue;
                }
                let sum = *first as u128 * *second as u128 + words[low + place] as u128 + carry;
                words[low + place] = sum as u64;
                carry = sum >> 64;
            }
            words[low + other.words.len()] = carry as u64;
        }
        Big::trimmed(words)
    }

    pub fn shl(&self, shift: u32) -> Big {
        let (whole, bits) = ((shift / 64) as usize, shift % 64);
        let mut words = vec![0u64; whole];
        let mut carry = 0u128;
        for word in &self.words {
            let wide = ((*word as u128) << bits) | carry;
            words.push(wide as u64);
            carry = wide >> 64;
        }
        words.push(carry as u64);
        Big::trimmed(words)
    }

    /// The whole part of self / 2^shift.
    pub fn shr(&self, shift: u32) -> Big {
        let (whole, bits) = ((shift / 64) as usize, shift % 64);
        let mut words = Vec::new();
        for place in whole..self.words.len() {
            let wide = ((self.word(place + 1) as u128) << 64) | self.word(place) as u128;
            words.push((wide >> bits) as u64);
        }
        Big::trimmed(words)
    }

    /// The whole part of self / 2^shift, modulo 2^64.
    pub fn word_from(&self, shift: u32) -> u64 {
        let (whole, bits) = ((shift / 64) as usize, shift % 64);
        let wide = ((self.word(whole + 1) as u128) << 64) | self.word(whole) as u128;
        (wide >> bits) as u64
    }

    /// Whole quotient and remainder; the divisor must not be zero.
    pub fn div_rem(&self, divisor: &Big) -> (Big, Big) {
        assert!(!divisor.is_zero(), "a division by zero was asked for");
        if *self < *divisor {
            return (Big::zero(), self.clone());
        }
        // 2^k a = q (2^k b) + 2^k r: factors of two common to both leave the
        // quotient alone, and without them the divisor is mostly one word.
        let twos = self.twos().min(divisor.twos());
        let (number, by) = (self.shr(twos), divisor.shr(twos));
        let (quotient, rest) = match by.words[..] {
            [word] => number.div_rem_by_word(word),
            _ => number.div_rem_by_bits(&by),
        };
        (quotient, rest.shl(twos))
    }

    /// Division by one word, a word of the number at a time.
    pub fn div_rem_by_word(&self, divisor: u64) -> (Big, Big) {
        let by = divisor as u128;
        let mut words = vec![0u64; self.words.len()];
        let mut rest = 0u128;
        for place in (0..self.words.len()).rev() {
            let wide = (rest << 64) | self.words[place] as u128;
            words[place] = (wide / by) as u64;
            rest = wide % by;
        }
        (Big::trimmed(words), Big::from(rest as u64))
    }

    /// Division by any number, a binary digit of the quotient at a time.
    pub fn div_rem_by_bits(&self, divisor: &Big) -> (Big, Big) {
        let (mut quotient, mut rest) = (Big::zero(), self.clone());
        let places = (self.bits() + 1).saturating_sub(divisor.bits());
        for place in (0..places).rev() {
            quotient = quotient.shl(1);
            let part = divisor.shl(place);
            if rest >= part {
                rest = rest.sub(&part);
                quotient = quotient.add(&Big::from(1));
            }
        }
        (quotient, rest)
    }

    fn word(&self, place: usize) -> u64 {
        self.words.get(place).copied().unwrap_or(0)
    }
}

impl Ord for Big {
    fn cmp(&self, other: &Big) -> Ordering {
        let lengths = self.words.len().cmp(&other.words.len());
        lengths.then_with(|| self.words.iter().rev().cmp(other.words.iter().rev()))
    }
}

impl PartialOrd for Big {
    fn partial_cmp(&self, other: &Big) -> Option<Ordering> {
        Some(self.cmp(other))
    }
}
