//! The Rust that was ported, as its own files say it, beside it the 8x8 inverse and the range of the values inside both inverses, which they do not
//! have, and around all of it the rules of docs/RULES.md: what a call is refused for, what a mode reads, the turn list, the check of an order, and a driver
//! over whole pictures that makes the same checks in the same order as the port.
include!(concat!(env!("OUT_DIR"), "/modules.rs"));

pub mod driver;
pub mod halfway;
pub mod inverse_8x8;
pub mod orders;
pub mod reads;
pub mod rules;
pub mod turns;

/// Stands in for the crate's own module: its `inverse_core` is that of transform_quant.rs. What only `reconstruct_4x4_scan_into` needs,
/// which was not ported, is declared and never called.
pub mod transform {
    pub use crate::transform_quant::inverse_core_of as inverse_core;

    pub struct DequantQp;

    impl DequantQp {
        pub fn apply(&self, _raster: &[i32; 16]) -> [i32; 16] {
            unreachable!()
        }
    }
}

/// Declared for `reconstruct_4x4_scan_into` and never called.
pub mod cavlc {
    pub fn un_scan_4x4_ac_into(_scan: &[i32], _raster: &mut [i32; 16]) {
        unreachable!()
    }

    pub fn un_scan_4x4_dcac(_scan: &[i32; 16]) -> [i32; 16] {
        unreachable!()
    }
}

/// The profiler's scopes, switched off.
pub mod prof {
    pub enum Stage {
        IntraPred,
        Reconstruct,
    }

    pub struct Guard;

    #[inline(always)]
    pub fn scope(_stage: Stage) -> Guard {
        Guard
    }
}
