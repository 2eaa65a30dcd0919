//! pico-dvi-rs as published, its three files unchanged, with what they lean on and the repository does not hold.
#![allow(dead_code, unused)]

/// Stands for fugit's clock type, of which the files use the constructor alone.
#[derive(Clone, Copy)]
pub struct KilohertzU32(pub u32);

impl KilohertzU32 {
    #[allow(non_snake_case)]
    pub const fn kHz(kilohertz: u32) -> Self {
        KilohertzU32(kilohertz)
    }
}

pub mod dvi {
    include!(concat!(env!("OUT_DIR"), "/modules.rs"));

    pub mod data_island {
        // Shadows the `core` of the prelude: on a host `asm!` is an empty macro, so `clear_data_packet` compiles and does nothing.
        mod core {
            pub use ::core::mem;
            pub mod arch {
                macro_rules! asm { ($($t:tt)*) => {}; }
                pub(crate) use asm;
            }
        }
        include!(concat!(env!("OUT_DIR"), "/data_island.rs"));

        /// The private parity function, for the comparison.
        pub fn parity(block: &[u8]) -> u8 {
            compute_bch(block)
        }
    }

    /// RP2350 datasheet, HSTX command expander: raw words, as many as the count says.
    pub const fn hstx_cmd_raw(count: u32) -> u32 {
        count
    }

    /// RP2350 datasheet, HSTX command expander: one raw word, repeated.
    pub const fn hstx_cmd_raw_repeat(count: u32) -> u32 {
        count | 0x1000
    }
}
