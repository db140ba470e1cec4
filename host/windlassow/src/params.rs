//! The parameters of a slot call.

use crate::{MAX_ARCHIVE_LEN, MAX_LOWEST, MAX_WIDTH, MIN_LOWEST, MIN_WIDTH, Refusal};

/// What the words of a block are.
#[derive(Clone, Copy, Debug, PartialEq, Eq, Hash)]
pub enum Kind {
    /// Two's complement integers of 32 bits.
    Integers,
    /// IEEE 754 binary32 patterns, as [`f32::to_bits`] gives them.
    Floats,
}

/// The shape of a block.
#[derive(Clone, Copy, Debug, PartialEq, Eq, Hash)]
pub enum Dimension {
    /// Four values in a line.
    One,
    /// Four rows of four values; column i of row j is at place i + 4j.
    Two,
    /// A cube of four squares; column i of row j of square k is at place i + 4j + 16k.
    Three,
    /// Four cubes, one after the other; what is at place i + 4j + 16k of cube l is at i + 4j + 16k + 64l.
    Four,
}

/// Whether a block comes back bit for bit.
#[derive(Clone, Copy, Debug, PartialEq, Eq, Hash)]
pub enum Mode {
    /// The code is cut where the slot or the planes end, of floats also at the lowest exponent.
    Lossy,
    /// The block comes back as it was, or is refused as too long for the slot.
    Exact,
}

impl Kind {
    const fn number(self) -> u32 {
        match self {
            Kind::Integers => 0,
            Kind::Floats => 1,
        }
    }

    const fn from_number(number: u32) -> Result<Kind, Refusal> {
        match number {
            0 => Ok(Kind::Integers),
            1 => Ok(Kind::Floats),
            _ => Err(Refusal::InvalidKind),
        }
    }
}

impl Dimension {
    /// N, the words of a block: 4, 16, 64 or 256.
    pub const fn block_len(self) -> usize {
        4usize.pow(self.number())
    }

    const fn number(self) -> u32 {
        match self {
            Dimension::One => 1,
            Dimension::Two => 2,
            Dimension::Three => 3,
            Dimension::Four => 4,
        }
    }

    const fn from_number(number: u32) -> Result<Dimension, Refusal> {
        match number {
            1 => Ok(Dimension::One),
            2 => Ok(Dimension::Two),
            3 => Ok(Dimension::Three),
            4 => Ok(Dimension::Four),
            _ => Err(Refusal::InvalidDimension),
        }
    }
}

impl Mode {
    const fn number(self) -> u32 {
        match self {
            Mode::Lossy => 0,
            Mode::Exact => 1,
        }
    }

    const fn from_number(number: u32) -> Result<Mode, Refusal> {
        match number {
            0 => Ok(Mode::Lossy),
            1 => Ok(Mode::Exact),
            _ => Err(Refusal::InvalidMode),
        }
    }
}

/// The parameters with which an archive is written. It must be read with the same ones.
///
/// Numbers out of range are allowed here and refused by the calls.
///
/// ```
/// use windlassow::{Dimension, Kind, Mode, Params, Refusal};
///
/// let exact = Params::exact_floats(Dimension::One);
/// assert_eq!(exact.kind(), Ok(Kind::Floats));
/// assert_eq!(exact.mode(), Ok(Mode::Exact));
/// assert_eq!(exact.block_len(), Ok(4));
/// assert_eq!(exact.slot_bits(), Ok(146));
/// assert_eq!(exact.archive_len(1000), Ok(18_250));
/// assert_eq!(Params::exact_floats(Dimension::Four).slot_bits(), Ok(8_462));
///
/// assert_eq!(exact.width(), 0);
/// assert_eq!(exact, Params::from_numbers(1, 1, 1, 32, 0, -300));
/// // Slots of 8N bits, as a width of 0 once had them.
/// assert_eq!(exact.with_width(32).slot_bits(), Ok(32));
/// assert_eq!(Params::from_numbers(2, 1, 1, 32, 0, -300).kind(), Err(Refusal::InvalidKind));
/// ```
#[derive(Clone, Copy, Debug, PartialEq, Eq, Hash)]
pub struct Params {
    pub(crate) kind: u32,
    pub(crate) dimension: u32,
    pub(crate) mode: u32,
    pub(crate) planes: u32,
    pub(crate) width: u32,
    pub(crate) lowest: i32,
}

/// All planes of a word.
const ALL_PLANES: u32 = 32;

/// The largest q from [`MIN_LOWEST`] to [`MAX_LOWEST`] with 1.5 x 2^q at most this number, if there is one.
const fn largest_exponent(number: f64) -> Option<i32> {
    if number.is_nan() || number <= 0.0 {
        return None;
    }
    // The exponent field less its bias, and one less again if the number is below 1.5 of that power of two. Of a subnormal number
    // that is below all q, of the infinity above all.
    let field = (number.to_bits() >> 52) as i32 - 1023;
    let from_half = (number.to_bits() >> 51 & 1) as i32;
    let exponent = field - 1 + from_half;
    if exponent < MIN_LOWEST {
        None
    } else if exponent > MAX_LOWEST {
        Some(MAX_LOWEST)
    } else {
        Some(exponent)
    }
}

impl Params {
    /// Integers that come back bit for bit. The width is 0, which stands for slots of 33N + 14 bits; every block fits them.
    /// (Integers fit 33N + 4 bits too, the width that this constructor named before; `with_width` opens such an archive.)
    pub const fn exact_integers(dimension: Dimension) -> Params {
        Params::new(Kind::Integers, dimension, Mode::Exact, ALL_PLANES, 0)
    }

    /// Float patterns that come back bit for bit, NaNs and -0 too. The width is 0, which stands for slots of 33N + 14 bits;
    /// every block fits them.
    pub const fn exact_floats(dimension: Dimension) -> Params {
        Params::new(Kind::Floats, dimension, Mode::Exact, ALL_PLANES, 0)
    }

    /// Integers of which at most `planes` planes (1 to 32) are kept, in slots of `width` bits. With all 32 planes and a width of
    /// 131 or more, four values (dimension 1) up to 2^30 - 1 in magnitude come back like this: the first at most two too low and
    /// at most one too high, the second exact, the third at most one and the fourth at most two too low, neither ever too high;
    /// that is proved, see docs/LOSSY.md.
    pub const fn lossy_integers(dimension: Dimension, planes: u32, width: u32) -> Params {
        Params::new(Kind::Integers, dimension, Mode::Lossy, planes, width)
    }

    /// Floats of which at most `planes` planes (1 to 32) are kept, in slots of `width` bits. Infinities and NaNs
    /// are refused.
    pub const fn lossy_floats(dimension: Dimension, planes: u32, width: u32) -> Params {
        Params::new(Kind::Floats, dimension, Mode::Lossy, planes, width)
    }

    /// Floats with a tolerance: as many planes as it takes for values to come back so close, in slots of 33N + 14 bits, which
    /// cut no block. The lowest exponent is the largest q from [`MIN_LOWEST`] to [`MAX_LOWEST`] with 1.5 x 2^q at most the
    /// tolerance. Infinities and NaNs are refused when they are stored.
    ///
    /// **How close values come back is measured and not proved.** In the measurements no value came back off by 1.5 x 2^q where
    /// m - q + 2 x (dimension + 1) is at most 32, that is where all values of the block are below 2^(q + 30 - 2 x dimension)
    /// in magnitude, and below 2^126, and none by more than 2^q where one of them is 2^(q - 1) or more; see docs/LOSSY.md. Larger
    /// values have more than 32 planes down to q, of which 32 are kept, and can be further off.
    ///
    /// # Errors
    /// [`Refusal::InvalidLowest`] if there is no such q: the tolerance is below 1.5 x 2^-300, zero, negative or not a number.
    ///
    /// ```
    /// use windlassow::{Block, Dimension, Params, Refusal, read_block, store_block};
    ///
    /// // Half a tenth of a degree: 1.5 x 2^-5 is 0.047. In dimension 1 that is for values below 2^23.
    /// let params = Params::lossy_floats_within(Dimension::One, 0.05)?;
    /// assert_eq!((params.lowest(), params.slot_bits()), (-5, Ok(146)));
    ///
    /// let readings = [36.6f32, 36.6, 36.7, 36.8];
    /// let mut archive = vec![0; params.archive_len(1)?];
    /// let lossy = store_block(params, &mut archive, 0, &readings)?;
    /// let back: Block<f32, 4> = read_block(params, &archive, 0)?;
    /// for (value, reading) in back.values.into_iter().zip(readings) {
    ///     assert!((value - reading).abs() <= 0.05);
    /// }
    ///
    /// // It takes fewer bits than the exact code.
    /// let exact = store_block(Params::exact_floats(Dimension::One), &mut archive, 0, &readings)?;
    /// assert!(lossy.count < exact.count);
    ///
    /// assert_eq!(Params::lossy_floats_within(Dimension::One, 0.0), Err(Refusal::InvalidLowest));
    /// # Ok::<(), Refusal>(())
    /// ```
    pub const fn lossy_floats_within(dimension: Dimension, tolerance: f64) -> Result<Params, Refusal> {
        match largest_exponent(tolerance) {
            Some(lowest) => {
                let width = 33 * dimension.block_len() as u32 + 14;
                Ok(Params::lossy_floats(dimension, ALL_PLANES, width).with_lowest(lowest))
            }
            None => Err(Refusal::InvalidLowest),
        }
    }

    /// Any kind, dimension and mode, with [`MIN_LOWEST`] as the lowest exponent.
    pub const fn new(kind: Kind, dimension: Dimension, mode: Mode, planes: u32, width: u32) -> Params {
        Params::from_numbers(kind.number(), dimension.number(), mode.number(), planes, width, MIN_LOWEST)
    }

    /// Any numbers, as they stand in a file. (The first line of a listing has the last one with 300 added.)
    pub const fn from_numbers(
        kind: u32,
        dimension: u32,
        mode: u32,
        planes: u32,
        width: u32,
        lowest: i32,
    ) -> Params {
        Params { kind, dimension, mode, planes, width, lowest }
    }

    /// The same with another width in bits: [`MIN_WIDTH`] to [`MAX_WIDTH`], or 0 for 33N + 14 in exact mode and 8N in lossy
    /// mode.
    pub const fn with_width(self, width: u32) -> Params {
        Params { width, ..self }
    }

    /// The same with another number of planes, 1 to 32. Exact mode takes no notice of it.
    pub const fn with_planes(self, planes: u32) -> Params {
        Params { planes, ..self }
    }

    /// The same with another lowest exponent q, [`MIN_LOWEST`] to [`MAX_LOWEST`]. Of a block of lossy floats at most
    /// m - q + 2 x (dimension + 1) planes are kept, where m is the least number from -126 on such that all its values are below
    /// 2^m in magnitude. [`MIN_LOWEST`] keeps all, up to the number of planes. Other kinds and modes take no notice of a good
    /// one.
    ///
    /// ```
    /// use windlassow::{Dimension, Done, Params, bit_count};
    ///
    /// // Four times 1.0: m is 1, so there are 5 - q planes.
    /// let floats = Params::lossy_floats(Dimension::One, 32, 64);
    /// let ones = [1.0f32.to_bits(); 4];
    /// assert_eq!(bit_count(floats.with_lowest(2), &ones), Ok(Done { count: 15, planes: 3 }));
    /// assert_eq!(bit_count(floats.with_lowest(4), &ones), Ok(Done { count: 10, planes: 1 }));
    /// // None: the block is a single 0, and reads as zeros.
    /// assert_eq!(bit_count(floats.with_lowest(5), &ones), Ok(Done { count: 1, planes: 0 }));
    /// ```
    pub const fn with_lowest(self, lowest: i32) -> Params {
        Params { lowest, ..self }
    }

    /// The kind of the words.
    ///
    /// # Errors
    /// [`Refusal::InvalidKind`] if the number given is not 0 or 1.
    pub const fn kind(self) -> Result<Kind, Refusal> {
        Kind::from_number(self.kind)
    }

    /// The dimension of a block.
    ///
    /// # Errors
    /// [`Refusal::InvalidDimension`] if the number given is not from 1 to 4.
    pub const fn dimension(self) -> Result<Dimension, Refusal> {
        Dimension::from_number(self.dimension)
    }

    /// The mode.
    ///
    /// # Errors
    /// [`Refusal::InvalidMode`] if the number given is not 0 or 1.
    pub const fn mode(self) -> Result<Mode, Refusal> {
        Mode::from_number(self.mode)
    }

    /// The planes as they were given.
    pub const fn planes(self) -> u32 {
        self.planes
    }

    /// The width as it was given, 0 too. [`Params::slot_bits`] gives the bits that it stands for.
    pub const fn width(self) -> u32 {
        self.width
    }

    /// The lowest exponent as it was given.
    pub const fn lowest(self) -> i32 {
        self.lowest
    }

    /// N, the words of a block.
    ///
    /// # Errors
    /// [`Refusal::InvalidDimension`] if the dimension is not from 1 to 4.
    pub const fn block_len(self) -> Result<usize, Refusal> {
        match self.dimension() {
            Ok(dimension) => Ok(dimension.block_len()),
            Err(refusal) => Err(refusal),
        }
    }

    /// W, the bits of a slot: the width given; where that is 0, 33N + 14 in exact mode and 8N in lossy mode.
    ///
    /// # Errors
    /// [`Refusal::InvalidDimension`] if the dimension is not from 1 to 4, [`Refusal::InvalidMode`] if the mode is not 0 or 1,
    /// [`Refusal::InvalidWidth`] if the width is neither 0 nor from [`MIN_WIDTH`] to [`MAX_WIDTH`].
    pub const fn slot_bits(self) -> Result<usize, Refusal> {
        match (self.block_len(), self.mode(), self.width) {
            (Err(refusal), _, _) | (_, Err(refusal), _) => Err(refusal),
            (Ok(n), Ok(Mode::Exact), 0) => Ok(33 * n + 14),
            (Ok(n), Ok(Mode::Lossy), 0) => Ok(8 * n),
            (Ok(_), Ok(_), MIN_WIDTH..=MAX_WIDTH) => Ok(self.width as usize),
            _ => Err(Refusal::InvalidWidth),
        }
    }

    /// The bytes of the shortest archive with so many slots.
    ///
    /// # Errors
    /// Those of [`Params::slot_bits`]; [`Refusal::ArchiveTooLong`] if it would be longer than [`MAX_ARCHIVE_LEN`].
    pub const fn archive_len(self, slots: usize) -> Result<usize, Refusal> {
        match self.slot_bits() {
            Err(refusal) => Err(refusal),
            Ok(bits) if slots <= 8 * MAX_ARCHIVE_LEN / bits => Ok((slots * bits).div_ceil(8)),
            Ok(_) => Err(Refusal::ArchiveTooLong),
        }
    }
}
