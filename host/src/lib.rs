//! Verified cleaning of grey images.
//!
//! A [`Plate`] is a grey image of 16-bit greys, from 0 to its greatest grey. [`Plate::clean`] takes away the patches of a
//! [`Side`], light or dark, that are smaller than a limit and do not reach the border of the plate;
//! [`Plate::regional_maxima`] marks maxima; [`Plate::nodes`] lists the nodes of the component tree (max-tree).
//! [`Plate::from_pgm`] and [`Plate::to_pgm`] read and write plate files; a [`Roll`] is several of them one after the
//! other; [`Plate::seeded`] is a test plate. A [`Record`] is the canonical description of a plate: it can be read back,
//! cut at any limit and turned into a [`SizeList`]. It has an old and a new [`RecordForm`], and is converted by
//! [`Record::to_form`].
//!
//! Every answer comes from a function that is proved against its definition. This crate lends those functions buffers
//! of the right sizes and turns their refusals into [`Refusal`]. It checks nothing a second time, except that a record
//! that is too short for the pixels that it promises is refused ahead of lending it their space. A [`WorkSpace`] serves
//! many operations; [`lent`] has the functions over buffers of your own.
//!
//! ```
//! use livukoe::{Connectivity, Plate, Side};
//!
//! let plate = Plate::new(4, 3, 255, vec![10, 10, 10, 10, 10, 50, 30, 10, 10, 10, 10, 90]);
//! let clean = plate.clean(Side::Light, Connectivity::Four, 2)?;
//! assert_eq!(clean.greys(), [10, 10, 10, 10, 10, 30, 30, 10, 10, 10, 10, 90]);
//! # Ok::<(), livukoe::Refusal>(())
//! ```

mod connectivity;
mod fields;
mod form;
mod ink;
mod joint;
pub mod lent;
pub mod pictures;
mod plate;
mod record;
mod refusal;
mod roll;
mod side;
mod sizes;
mod work;

pub use connectivity::Connectivity;
pub use fields::{Fault, Head};
pub use form::RecordForm;
pub use ink::ink_percentage;
pub use joint::Joint;
pub use lent::Node;
pub use plate::Plate;
pub use record::Record;
pub use refusal::{Refusal, UnknownRefusal};
pub use roll::{PlateFile, Plates, Roll};
pub use side::Side;
pub use sizes::{Size, SizeList};
pub use work::{work_space, WorkSpace};

/// The greatest width and height of a plate.
pub const MAX_EXTENT: u32 = 32_768;

/// The greatest number of pixels of a plate.
pub const MAX_PIXELS: usize = 16_777_216;

/// The greatest grey that a plate may have as its greatest.
pub const MAX_GREATEST: u32 = 65_535;

/// The greatest grey of a plate whose greys are bytes, and of every record in the old form.
pub const BYTE_GREATEST: u32 = 255;
