//! The proved traits of maps, for the maps here: each call hands on to the proved map inside.

#[cfg(feature = "structures")]
mod tables;
#[cfg(feature = "runs")]
mod runs;
