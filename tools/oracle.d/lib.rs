//! The root of the oracle: declares libm's files where they stand, and nothing of their text.
//!
//! tools/oracle lays this file, api.rs and libm's files out as one tree. None of the settings that would let the
//! crate use a processor's instruction or the compiler's own functions is made, so its software routines are what runs.
#![no_std]
#![allow(dead_code, unused_imports, unused_macros, unexpected_cfgs, unstable_name_collisions)]

/// What libm computes for the processor's flags alone is computed here too, and dropped.
macro_rules! force_eval {
    ($value:expr) => {
        core::hint::black_box($value)
    };
}

pub mod api;
pub mod math {
    #[macro_use]
    pub mod support {
        #[macro_use]
        pub mod macros;
        mod big;
        mod env;
        mod float_traits;
        pub mod hex_float;
        mod int_traits;
        mod modular;

        pub use big::{i256, u256};
        pub(crate) use cfg_if;
        pub use env::{FpResult, Round, Status};
        pub(crate) use float_traits::{f32_from_bits, f64_from_bits};
        pub use float_traits::{DFloat, Float, HFloat, IntTy};
        pub use int_traits::{CastFrom, CastInto, DInt, HInt, Int, MinInt, NarrowingDiv};
        pub use modular::linear_mul_reduction;

        /// A mark for the compiler, and never more than that.
        pub fn cold_path() {}
    }
    pub mod generic {
        mod ceil;
        mod copysign;
        mod fabs;
        mod floor;
        mod fma;
        mod fma_wide;
        mod fmod;
        mod frexp;
        mod ilogb;
        mod scalbn;
        mod sqrt;
        mod trunc;

        pub use ceil::ceil_status;
        pub use copysign::copysign;
        pub use fabs::fabs;
        pub use floor::floor_status;
        pub use fma::fma_round;
        pub use fma_wide::fma_wide_round;
        pub use fmod::fmod;
        pub use frexp::frexp;
        pub use ilogb::ilogb;
        pub use scalbn::scalbn;
        pub use sqrt::sqrt_round;
        pub use trunc::trunc_status;
    }
    mod frexp;
    mod ilogb;
    mod modf;
    mod modff;
    mod nextafter;
    mod nextafterf;
    mod remquo;

    pub use frexp::frexp;
    pub use ilogb::ilogb;
    pub use modf::modf;
    pub use modff::modff;
    pub use nextafter::nextafter;
    pub use nextafterf::nextafterf;
    pub use remquo::remquo;
    // Some of the generic files say `super::super::Float`.
    use support::{CastFrom, Float, MinInt};

    // The float traits name these two; with no setting made, the public functions are these calls.
    pub fn fma(x: f64, y: f64, z: f64) -> f64 {
        generic::fma_round(x, y, z, support::Round::Nearest).val
    }
    pub fn fmaf(x: f32, y: f32, z: f32) -> f32 {
        generic::fma_wide_round(x, y, z, support::Round::Nearest).val
    }
}
// libm's files say `crate::support`.
pub use math::*;
