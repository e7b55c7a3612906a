//! Numbers as words, and what images cut off them.

use crate::raw;
use crate::refusal::{answered, Refusal};
use std::cmp::Ordering;
use std::fmt;
use std::str::FromStr;

/// The bits of a mantissa in a word.
const MANTISSA_BITS: u32 = 52;

/// The largest exponent of a number in normal form; the smallest is its negative. A word holds the exponent with this added.
const EXPONENT_LIMIT: i32 = 99;

/// The most digits of a number.
const PRECISION: usize = 13;

/// A number as one word: its sign, its mantissa m and its exponent e. The magnitude is m × 10^(e - 12).
///
/// In normal form it is zero, or has 10^12 ≤ m < 10^13 and -99 ≤ e ≤ 99. The constructors give such numbers alone; [`Number::from_word`] takes
/// any word, and calls refuse one that is not in normal form with 3. Two numbers in normal form are equal in value if their words are.
///
/// ```
/// use hulgyevan::Number;
/// let number: Number = "-12.195".parse()?;
/// assert!(number.is_negative());
/// assert_eq!((number.mantissa(), number.exponent()), (1_219_500_000_000, 1));
/// # Ok::<(), hulgyevan::Refusal>(())
/// ```
#[repr(transparent)]
#[derive(Clone, Copy, PartialEq, Eq, Hash)]
pub struct Number(u64);

impl Number {
    /// Zero in normal form.
    pub const ZERO: Number = Number((EXPONENT_LIMIT as u64) << MANTISSA_BITS);

    /// The largest magnitude: (10^13 - 1) × 10^87.
    pub const LARGEST: Number = Number(((2 * EXPONENT_LIMIT as u64) << MANTISSA_BITS) | 9_999_999_999_999);

    /// Gives the number of a word: bit 63 is the sign, bits 52 to 62 have e + 99, bits 0 to 51 m. Every word is a number, in normal form or not.
    ///
    /// ```
    /// use hulgyevan::Number;
    /// assert_eq!(Number::from_word(99 << 52), Number::ZERO);
    /// assert!(!Number::from_word(0).is_normal());
    /// ```
    pub const fn from_word(word: u64) -> Number {
        Number(word)
    }

    /// Gives the word.
    ///
    /// ```
    /// assert_eq!(hulgyevan::Number::ZERO.word(), 99 << 52);
    /// ```
    pub const fn word(self) -> u64 {
        self.0
    }

    /// Makes a number of a sign, a mantissa m and an exponent e. Refused with 3 where that is not in normal form.
    ///
    /// ```
    /// use hulgyevan::Number;
    /// assert_eq!(Number::from_parts(true, 1_219_500_000_000, 1)?, "-12.195".parse()?);
    /// assert!(Number::from_parts(false, 1, 0).is_err());
    /// assert!(Number::from_parts(false, 1_219_500_000_000, 100).is_err());
    /// # Ok::<(), hulgyevan::Refusal>(())
    /// ```
    pub fn from_parts(negative: bool, mantissa: u64, exponent: i64) -> Result<Number, Refusal> {
        let mut number = Number::ZERO;
        let answer = raw::from_parts(negative, mantissa, exponent, &mut number);
        answered(answer, number)
    }

    /// Makes a number of a whole count of wheel steps. Refused with 3 from 10^13 steps on, on either side of zero.
    ///
    /// ```
    /// use hulgyevan::Number;
    /// assert_eq!(Number::from_steps(16_777_217)?.to_string(), "16777217");
    /// assert_eq!(Number::from_steps(-5)?.to_string(), "-5");
    /// assert!(Number::from_steps(10_000_000_000_000).is_err());
    /// # Ok::<(), hulgyevan::Refusal>(())
    /// ```
    pub fn from_steps(steps: i64) -> Result<Number, Refusal> {
        Number::from_signed_steps(steps < 0, steps.unsigned_abs())
    }

    /// Makes a number of a sign and a whole count of wheel steps; zero is plus. Refused with 3 from 10^13 steps on.
    ///
    /// ```
    /// use hulgyevan::Number;
    /// assert_eq!(Number::from_signed_steps(true, 0)?, Number::ZERO);
    /// assert!(Number::from_signed_steps(true, u64::MAX).is_err());
    /// # Ok::<(), hulgyevan::Refusal>(())
    /// ```
    pub fn from_signed_steps(negative: bool, steps: u64) -> Result<Number, Refusal> {
        let mut number = Number::ZERO;
        let answer = raw::from_steps(negative, steps, &mut number);
        answered(answer, number)
    }

    /// Tells whether the number has a minus.
    pub const fn is_negative(self) -> bool {
        self.0 >> 63 != 0
    }

    /// Gives the mantissa m.
    pub const fn mantissa(self) -> u64 {
        self.0 & ((1 << MANTISSA_BITS) - 1)
    }

    /// Gives the exponent e: the power of ten of the first digit, where the number is in normal form.
    pub const fn exponent(self) -> i32 {
        (self.0 >> MANTISSA_BITS & 2047) as i32 - EXPONENT_LIMIT
    }

    /// Tells whether the number is in normal form.
    ///
    /// ```
    /// use hulgyevan::Number;
    /// assert!(Number::ZERO.is_normal() && Number::LARGEST.is_normal());
    /// assert!(!Number::from_word(99 << 52 | 1 << 63).is_normal());
    /// ```
    pub fn is_normal(self) -> bool {
        self.compare(self).is_ok()
    }

    /// Compares by value. Refused with 3 for a number that is not in normal form, with place 0 for the first, 1 for the second.
    ///
    /// ```
    /// use hulgyevan::Number;
    /// use std::cmp::Ordering;
    /// let (first, second) = (Number::from_steps(-5)?, Number::from_steps(3)?);
    /// assert_eq!(first.compare(second)?, Ordering::Less);
    /// assert_eq!(first.compare(Number::from_word(0)).unwrap_err().place, 1);
    /// # Ok::<(), hulgyevan::Refusal>(())
    /// ```
    pub fn compare(self, other: Number) -> Result<Ordering, Refusal> {
        let mut order = 1;
        let answer = raw::compare(self, other, &mut order);
        answered(answer, order.cmp(&1))
    }
}

/// Gives the significant digits of a mantissa of 13 digits: those before the zeros at its end.
fn significant(mantissa: u64) -> String {
    mantissa.to_string().trim_end_matches('0').to_string()
}

/// Writes a number in normal form that isn't zero, without its sign: plain where that has at most 13 digits, else with E.
fn magnitude_text(digits: &str, exponent: i32) -> String {
    let count = digits.len();
    let places = exponent.unsigned_abs() as usize;
    if exponent < 0 && places + count <= PRECISION {
        return format!("0.{}{digits}", "0".repeat(places - 1));
    }
    if exponent < 0 || places >= PRECISION {
        let (first, rest) = digits.split_at(1);
        let point = if rest.is_empty() { "" } else { "." };
        return format!("{first}{point}{rest}E{exponent}");
    }
    if count <= places + 1 {
        return format!("{digits}{}", "0".repeat(places + 1 - count));
    }
    let (whole, fraction) = digits.split_at(places + 1);
    format!("{whole}.{fraction}")
}

impl fmt::Display for Number {
    /// Writes the number with all of its digits, as a text number that converts to the same number. One that is not in normal form is written
    /// as its mantissa, E and a power of ten, which is no text number if either is too long.
    fn fmt(&self, f: &mut fmt::Formatter) -> fmt::Result {
        if *self == Number::ZERO {
            return f.write_str("0");
        }
        if self.is_negative() {
            f.write_str("-")?;
        }
        if self.is_normal() {
            f.write_str(&magnitude_text(&significant(self.mantissa()), self.exponent()))
        } else {
            write!(f, "{}E{}", self.mantissa(), self.exponent() - (PRECISION as i32 - 1))
        }
    }
}

impl fmt::Debug for Number {
    /// Writes Number and the number's text in brackets.
    fn fmt(&self, f: &mut fmt::Formatter) -> fmt::Result {
        write!(f, "Number({self})")
    }
}

impl Default for Number {
    /// Zero.
    fn default() -> Number {
        Number::ZERO
    }
}

impl TryFrom<&[u8]> for Number {
    type Error = Refusal;

    /// Converts the whole of a text. Refused with 8 where it is no text number, else with 5 where its exponent is outside its limits.
    fn try_from(text: &[u8]) -> Result<Number, Refusal> {
        let mut number = Number::ZERO;
        let answer = raw::convert(text, &mut number);
        answered(answer, number)
    }
}

impl TryFrom<&str> for Number {
    type Error = Refusal;

    /// Converts the whole of a text, as its bytes.
    fn try_from(text: &str) -> Result<Number, Refusal> {
        Number::try_from(text.as_bytes())
    }
}

impl FromStr for Number {
    type Err = Refusal;

    /// Converts the whole of a text, as its bytes.
    fn from_str(text: &str) -> Result<Number, Refusal> {
        Number::try_from(text.as_bytes())
    }
}

impl TryFrom<i64> for Number {
    type Error = Refusal;

    /// Makes a number of wheel steps, as [`Number::from_steps`] does.
    fn try_from(steps: i64) -> Result<Number, Refusal> {
        Number::from_steps(steps)
    }
}

/// What an image cut off a number, as one word: r × 10^power, where the truncated magnitude plus this is the magnitude.
///
/// ```
/// use hulgyevan::{pack_with_remainders, Remainder};
/// let (mut body, mut cut) = ([0; 2], [Remainder::ZERO]);
/// pack_with_remainders(b"\x01\x03###", &["12.195".parse()?], &mut body, &mut cut)?;
/// assert_eq!((cut[0].whole(), cut[0].power()), (19_500_000_000, -11));
/// # Ok::<(), hulgyevan::Refusal>(())
/// ```
#[repr(transparent)]
#[derive(Clone, Copy, PartialEq, Eq, Hash)]
pub struct Remainder(u64);

impl Remainder {
    /// The remainder of zero: r and the power are 0.
    pub const ZERO: Remainder = Remainder(111 << MANTISSA_BITS);

    /// Gives the remainder of a word, which has r where a number's word has m, and the power plus 111 where that has e + 99.
    pub const fn from_word(word: u64) -> Remainder {
        Remainder(word)
    }

    /// Gives the word.
    pub const fn word(self) -> u64 {
        self.0
    }

    /// Gives the whole number r.
    pub const fn whole(self) -> u64 {
        Number(self.0).mantissa()
    }

    /// Gives the power of ten.
    pub const fn power(self) -> i32 {
        Number(self.0).exponent() - (PRECISION as i32 - 1)
    }
}

impl fmt::Display for Remainder {
    /// Writes r, E and the power.
    fn fmt(&self, f: &mut fmt::Formatter) -> fmt::Result {
        write!(f, "{}E{}", self.whole(), self.power())
    }
}

impl fmt::Debug for Remainder {
    /// Writes Remainder and the remainder's text in brackets.
    fn fmt(&self, f: &mut fmt::Formatter) -> fmt::Result {
        write!(f, "Remainder({self})")
    }
}

impl Default for Remainder {
    /// The remainder of zero.
    fn default() -> Remainder {
        Remainder::ZERO
    }
}
