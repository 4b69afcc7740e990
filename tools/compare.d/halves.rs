//! The known difference of floor, ceil and trunc, half-says-ok: the operands of which libm says OK though it changes them,
//! as their fraction field is zero.

use crate::format::Format;

/// A normal power of two below one, of either sign.
pub fn is_power_below_one(format: Format, x: u64) -> bool {
    format.fraction_field(x) == 0 && (1..format.bias()).contains(&format.exponent_field(x))
}

#[cfg(test)]
mod tests {
    use super::*;
    use crate::faults_whole::WHOLES;
    use crate::format::{WIDTH_32, WIDTH_64};
    use crate::plain::exact;
    use crate::request::Request;
    use crate::run::operation_of;
    use crate::table;

    /// Every exponent field of either sign, with fractions of no digit, of one at either end, and of all.
    fn patterns(format: Format) -> Vec<u64> {
        let (normal, last) = (format.smallest_normal(), format.all_ones() >> format.fraction_bits);
        let fields = (0..=last).map(|field| field << format.fraction_bits);
        fields.flat_map(|field| [0, 1, normal >> 1, normal - 1].map(|one| field | one)).collect()
    }

    #[test]
    fn there_are_as_many_as_exponents_below_that_of_one_and_signs() {
        for (format, count) in [(WIDTH_32, 2 * 126), (WIDTH_64, 2 * 1022)] {
            let struck = patterns(format).into_iter().filter(|x| is_power_below_one(format, *x));
            assert_eq!(struck.count(), count);
        }
    }
    #[test]
    fn the_crate_has_another_status_on_them_and_on_signalling_nans_alone() {
        let rows = WHOLES.iter().filter_map(|name| table::find(name));
        for row in rows.filter(|_| oracle::api::STATUSES) {
            let operation = operation_of(row);
            for x in patterns(operation.format) {
                let request = Request::word(x);
                let libms = row.others(&request).unwrap();
                let differs = libms.number != exact(operation, &request).number;
                let is_known = is_power_below_one(operation.format, x)
                    || operation.format.is_signalling(x);
                assert_eq!(differs, is_known, "{} {x:x}", row.name);
            }
        }
    }
}
