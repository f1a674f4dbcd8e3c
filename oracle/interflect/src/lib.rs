//! The six source files, as build.rs left them. Shared with the package `interflect_formula`.

pub mod acos;
pub mod differences;

macro_rules! source {
    ($($file:ident)*) => {
        $(
            #[allow(dead_code, clippy::all)]
            pub mod $file {
                include!(concat!(env!("OUT_DIR"), "/", stringify!($file), ".rs"));
            }
        )*

        /// The text of each file, as it was compiled.
        pub const TEXTS: &[(&str, &str)] =
            &[$((stringify!($file), include_str!(concat!(env!("OUT_DIR"), "/", stringify!($file), ".rs")))),*];
    };
}

source! { sdf bvh scene ltc trace shade }
