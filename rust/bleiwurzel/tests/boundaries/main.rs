//! Both sides of each line of the rules, through the whole check: what is changed in an image that is permitted, and the number that is
//! answered then. A refusal has the passing side beside it, or the image as it was is that side. The check in ordinary Rust is held to
//! the same numbers.
//!
//! Where rules 14 to 20 hold but the tables map another number of pages than MLE Size says, 21 shows that they hold.

#[path = "../common/by_c.rs"]
mod by_c;
#[path = "../common/mod.rs"]
mod common;
mod heap;
mod image;
mod limits;
mod lists;
mod module;
mod order;
mod places;
mod protection;
mod record;
mod regions;
mod reserved;
mod stm;
#[path = "../common/stored_image.rs"]
mod stored_image;
mod tables;
mod walk;
