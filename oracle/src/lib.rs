//! The second program: document 01 once more, as document 02 amends it, written apart from the engine
//! and from these papers alone, so that the two can be compared.
//! Sentences in quotation marks are document 01's own, but where document 02 is named.

mod blocks;
mod cells;
mod cosines;
mod fourier;
mod listing;
mod quiet;
mod refusal;
mod saving;
mod scaled;
mod search;
mod smoothing;
mod table;
mod trace;

pub use blocks::{backward, direct, forward, halves, E};
pub use cells::{
    backward_bytes, bound_bytes, fetch_bytes, forward_bytes, nearest_bytes, parts_bytes, power_bytes, save_bytes,
    scaled_bytes, smooth_bytes, strongest_bytes, table_bytes,
};
pub use cosines::{fine_cosine, table_cosine};
pub use fourier::{parts, power};
pub use listing::listing;
pub use quiet::{bound, bound_at, largest_magnitude};
pub use refusal::Refusal;
pub use saving::save;
pub use scaled::{scaled, Fraction, Scaled};
pub use search::{nearest, strongest};
pub use smoothing::smooth;
pub use table::{table, table_text};
pub use trace::{contents, fetch, Contents};
