//! 32-bit floats as sheets write them: decimal, or `bits:7fc00000` for what has no decimal.

/// Why a text is no float.
#[derive(Clone, Copy, Debug, PartialEq, Eq)]
pub enum NoFloat {
    Form,
    TooLarge,
}

fn digits(text: &str) -> bool {
    !text.is_empty() && text.bytes().all(|byte| byte.is_ascii_digit())
}

/// Digits, then perhaps a point and digits, then perhaps e and an exponent of at most two digits.
fn is_decimal(text: &str) -> bool {
    let unsigned = text.strip_prefix(['+', '-']).unwrap_or(text);
    let (mantissa, exponent) = unsigned.split_once(['e', 'E']).unwrap_or((unsigned, "0"));
    let exponent = exponent.strip_prefix(['+', '-']).unwrap_or(exponent);
    let (whole, fraction) = mantissa.split_once('.').unwrap_or((mantissa, "0"));
    digits(whole) && digits(fraction) && digits(exponent) && exponent.len() <= 2
}

/// The bits of the float nearest a decimal, even bits on a tie, or those written out.
pub fn bits(text: &str) -> Result<u32, NoFloat> {
    if let Some(hex) = text.strip_prefix("bits:") {
        let good = hex.len() == 8 && hex.bytes().all(|byte| byte.is_ascii_hexdigit());
        return if good { u32::from_str_radix(hex, 16).map_err(|_| NoFloat::Form) } else { Err(NoFloat::Form) };
    }
    if !is_decimal(text) {
        return Err(NoFloat::Form);
    }
    match text.parse::<f32>() {
        Ok(value) if value.is_finite() => Ok(value.to_bits()),
        Ok(_) => Err(NoFloat::TooLarge),
        Err(_) => Err(NoFloat::Form),
    }
}

/// The shortest decimal that reads back as these bits; the bits themselves for NaN and infinity.
pub fn text(bits: u32) -> String {
    let value = f32::from_bits(bits);
    if !value.is_finite() {
        return format!("bits:{bits:08x}");
    }
    let plain = value == 0.0 || (1e-6..1e9).contains(&value.abs());
    if plain { format!("{value}") } else { format!("{value:e}") }
}

#[cfg(test)]
mod tests {
    use super::*;

    #[test]
    fn texts_are_short() {
        for text_of_it in ["0.9", "0.02", "0", "-0", "1", "1000", "0.00001", "1e-45"] {
            assert_eq!(text(bits(text_of_it).unwrap()), text_of_it);
        }
    }

    /// 1 + 2^-24 lies midway between 1 and the next float, 1 + 3 x 2^-24 between an odd and an even one. The last is a hair above
    /// midway: read as a double first it would come out as 1.
    #[test]
    fn decimals_round_to_the_nearest_even() {
        assert_eq!(bits("1.000000059604644775390625"), Ok(0x3f80_0000));
        assert_eq!(bits("1.000000178813934326171875"), Ok(0x3f80_0002));
        assert_eq!(bits("1.000000059604644775390626"), Ok(0x3f80_0001));
    }

    #[test]
    fn forms() {
        for bad in ["", ".5", "5.", "0,9", "nan", "inf", "1e100", "0x1", "bits:7fc0000", "bits:7fc0000g", "1 000"] {
            assert_eq!(bits(bad), Err(NoFloat::Form), "{bad}");
        }
        assert_eq!(bits("1e39"), Err(NoFloat::TooLarge));
        assert_eq!(bits("+0.5"), Ok(0x3f00_0000));
        assert_eq!(bits("bits:7FC00001"), Ok(0x7fc0_0001));
    }

    proptest::proptest! {
        #[test]
        fn every_float_comes_back(word: u32) {
            proptest::prop_assert_eq!(bits(&text(word)), Ok(word));
        }
    }
}
