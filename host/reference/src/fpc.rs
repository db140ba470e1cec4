//! "FPC stream": the predictors, the writer and the reader.

use crate::reply::FpcReply;

/// "FPC input above 4,096 doubles (writing)"
pub const MOST_DOUBLES: usize = 4_096;
/// "or 65,536 bytes (reading)"
pub const MOST_BYTES: usize = 65_536;

/// "An odd run ends with half byte 6 and a byte 00".
pub(crate) const ODD_END: u8 = 6;

/// The two predictors: tables, hashes and the last value.
#[derive(Clone, Debug)]
pub struct Predictors {
    f: Vec<u64>,
    d: Vec<u64>,
    h: u64,
    g: u64,
    last: u64,
}

impl Predictors {
    /// "Tables, both hashes and the last value start at zero."
    pub fn new(size: usize) -> Predictors {
        Predictors { f: vec![0; size], d: vec![0; size], h: 0, g: 0, last: 0 }
    }

    /// What the fcm side predicts: `f = F[h]`.
    pub fn fcm(&self) -> u64 {
        self.f[self.h as usize]
    }

    /// What the dfcm side predicts: `d = D[g] + last`, "modulo 2^64".
    pub fn dfcm(&self) -> u64 {
        self.d[self.g as usize].wrapping_add(self.last)
    }

    /// Takes in the true value. Both sides are updated, whichever was taken.
    pub fn update(&mut self, v: u64) {
        let size = self.f.len() as u64;
        // "Then F[h] = v, h = ((h x 64) xor (v / 2^48)) mod size"
        self.f[self.h as usize] = v;
        self.h = ((self.h * 64) ^ (v >> 48)) % size;
        // "t = v - last, D[g] = t, g = ((g x 4) xor (t / 2^40)) mod size; last = v"
        let t = v.wrapping_sub(self.last);
        self.d[self.g as usize] = t;
        self.g = ((self.g * 4) ^ (t >> 40)) % size;
        self.last = v;
    }

    /// The half byte of a double and its remaining bytes, lowest first.
    pub fn code(&self, v: u64) -> (u8, Vec<u8>) {
        let by_fcm = v ^ self.fcm();
        let by_dfcm = v ^ self.dfcm();
        // "The dfcm side is taken exactly if (v xor d) < (v xor f)."
        let (side, xor) = if by_dfcm < by_fcm { (1, by_dfcm) } else { (0, by_fcm) };
        let code = code_of_zero_bytes(xor.leading_zeros() / 8);
        let bytes = xor.to_le_bytes()[..remaining_bytes(code)].to_vec();
        // "A half byte is 8 x side + code (fcm 0, dfcm 1)."
        (8 * side + code, bytes)
    }

    /// The double that a half byte and its remaining bytes stand for. Whether the writer would write it so is
    /// another question.
    pub(crate) fn double(&self, half: u8, bytes: &[u8]) -> u64 {
        let mut xor = [0; 8];
        xor[..bytes.len()].copy_from_slice(bytes);
        let prediction = if half < 8 { self.fcm() } else { self.dfcm() };
        prediction ^ u64::from_le_bytes(xor)
    }

    /// Leaves both tables in those that are lent, which have the same length.
    pub fn copy_tables(&self, f: &mut [u64], d: &mut [u64]) {
        f.copy_from_slice(&self.f);
        d.copy_from_slice(&self.d);
    }
}

/// "Leading zero bytes 0,1,2,3,5,6,7,8 of the xor have codes 0..7; four counts as three."
fn code_of_zero_bytes(zero_bytes: u32) -> u8 {
    match zero_bytes {
        0..=3 => zero_bytes as u8,
        4 => 3,
        _ => zero_bytes as u8 - 1,
    }
}

/// The bytes of the xor that are written for a code.
pub(crate) fn remaining_bytes(code: u8) -> usize {
    8 - [0, 1, 2, 3, 5, 6, 7, 8][code as usize]
}

/// The stream of a run, and the predictors after its last double.
pub fn stream_of(size: usize, doubles: &[u64]) -> (Vec<u8>, Predictors) {
    let mut predictors = Predictors::new(size);
    let mut out = Vec::new();
    for pair in doubles.chunks(2) {
        let (first, first_bytes) = predictors.code(pair[0]);
        predictors.update(pair[0]);
        let (second, second_bytes) = match pair.get(1) {
            Some(&v) => {
                let coded = predictors.code(v);
                predictors.update(v);
                coded
            }
            // "which touches no table"
            None => (ODD_END, vec![0]),
        };
        // "Each pair is one byte, first double in the high half, then the remaining bytes of the first xor and
        // of the second, lowest byte first."
        out.push(first << 4 | second);
        out.extend(first_bytes);
        out.extend(second_bytes);
    }
    (out, predictors)
}

/// The one run that can have this stream. None if the bytes end too early or hold too many doubles.
fn candidate(size: usize, stream: &[u8]) -> Option<Vec<u64>> {
    let mut predictors = Predictors::new(size);
    let mut doubles = Vec::new();
    let mut rest = stream;
    while let Some((&pair, after)) = rest.split_first() {
        rest = after;
        for half in [pair >> 4, pair & 15] {
            let is_second = doubles.len() % 2 == 1;
            if is_second && half == ODD_END && rest == [0] {
                return Some(doubles);
            }
            let (bytes, others) = rest.split_at_checked(remaining_bytes(half % 8))?;
            rest = others;
            let v = predictors.double(half, bytes);
            predictors.update(v);
            doubles.push(v);
        }
        if doubles.len() > MOST_DOUBLES {
            return None;
        }
    }
    Some(doubles)
}

/// The run whose stream this is, if there is one of at most 4,096 doubles.
///
/// The candidate is the run whose stream it is, if any has it; coding it again decides.
pub fn run_of(size: usize, stream: &[u8]) -> Option<(Vec<u64>, Predictors)> {
    let doubles = candidate(size, stream)?;
    let (again, predictors) = stream_of(size, &doubles);
    (doubles.len() <= MOST_DOUBLES && again == stream).then_some((doubles, predictors))
}

/// Writes the stream of a run: rows 20, 21, 22. Done returns its bytes.
pub fn fpc_write(f: &mut [u64], d: &mut [u64], doubles: &[u64], out: &mut [u8]) -> FpcReply {
    if !good_tables(f, d) {
        return FpcReply::refused(20);
    }
    if doubles.len() > MOST_DOUBLES {
        return FpcReply::refused(21);
    }
    let (stream, predictors) = stream_of(f.len(), doubles);
    finish(f, d, &predictors, &stream, out)
}

/// Reads the run of a stream: rows 20, 21, 23, 22. Done returns its doubles.
pub fn fpc_read(f: &mut [u64], d: &mut [u64], stream: &[u8], doubles: &mut [u64]) -> FpcReply {
    if !good_tables(f, d) {
        return FpcReply::refused(20);
    }
    if stream.len() > MOST_BYTES {
        return FpcReply::refused(21);
    }
    match run_of(f.len(), stream) {
        Some((run, predictors)) => finish(f, d, &predictors, &run, doubles),
        None => {
            zero(f, d);
            FpcReply::refused(23)
        }
    }
}

/// Row 20: "FPC tables unequal in length, or not a power of two from 16 to 1,024".
pub(crate) fn good_tables(f: &[u64], d: &[u64]) -> bool {
    let size = f.len();
    size == d.len() && size.is_power_of_two() && (16..=1024).contains(&size)
}

/// Row 22, or the output and the tables: "On success the tables stand as after the last double, and output past
/// the end is unchanged."
fn finish<T: Copy>(
    f: &mut [u64],
    d: &mut [u64],
    predictors: &Predictors,
    result: &[T],
    out: &mut [T],
) -> FpcReply {
    if result.len() > out.len() {
        zero(f, d);
        return FpcReply::needs(22, result.len());
    }
    out[..result.len()].copy_from_slice(result);
    predictors.copy_tables(f, d);
    FpcReply::done(result.len())
}

/// "22 and 23 leave the output unchanged and both tables zero."
fn zero(f: &mut [u64], d: &mut [u64]) {
    f.fill(0);
    d.fill(0);
}
