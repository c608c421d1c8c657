//! Crisp values in thousandths, degrees in millionths, and the one rounding.

/// Degree 1 in millionths.
pub const M: i64 = 1_000_000;

/// Crisp values lie between -CRISP and CRISP thousandths.
pub const CRISP: i64 = 1_000_000_000;

/// The whole number nearest to n / d, a half toward plus; d is positive.
pub fn nearest(n: i64, d: i64) -> i64 {
    (2 * n + d).div_euclid(2 * d)
}

/// The nearest thousandth of a finite REAL's exact value, within the crisp bounds.
pub fn thousandths(x: f32) -> Option<i32> {
    let bits = x.to_bits();
    let exponent = (bits >> 23 & 0xff) as i32;
    let fraction = i64::from(bits & 0x7f_ffff);
    // |x| is significand * 2^power.
    let (significand, power) = match exponent {
        255 => return None,
        0 => (fraction, -149),
        _ => (fraction | 1 << 23, exponent - 150),
    };
    let signed = if x.is_sign_negative() { -significand } else { significand };
    if power >= 0 {
        // At least 2^23 in size, which is above a million.
        return Some((signed.signum() * CRISP) as i32);
    }
    // 1000 * significand is below 2^34, so from 2^-36 on nothing is left.
    if power <= -36 {
        return Some(0);
    }
    let whole = nearest(1000 * signed, 1 << -power);
    Some(whole.clamp(-CRISP, CRISP) as i32)
}

pub fn is_crisp(x: i64) -> bool {
    (-CRISP..=CRISP).contains(&x)
}

/// Text gives degrees in thousandths.
pub fn is_written_degree(d: i64) -> bool {
    (0..=M).contains(&d) && d % 1000 == 0
}
