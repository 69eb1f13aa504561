//! Cases made at random for comparing two libraries: legal ones, ones that break chosen steps, two
//! neighbouring ones among them, or stand at their boundary, and damaged ones. The same seed gives
//! the same cases. Cases of more than about 64 KB are rare, so that many cases take little time.

mod body;
mod day;
mod lists;
mod places;
mod portions;
mod properties;
mod queue;
mod random;
mod request;
mod section;
mod values;

pub use body::{special_values, typed_body, value, value_and_room, value_case, BODY_TYPES};
pub use day::{day, day_table, long_day, DayTable};
pub use lists::CLASSES;
pub use places::{place_case, place_values};
pub use portions::{portions_case, Call, PortionsCase};
pub use properties::properties_case;
pub use queue::{image, image_values, ImageValues, PAIRS};
pub use random::Random;
pub use request::{request, OwnedRequest};
pub use section::{case, long_case, Case, Draft};
pub use values::{section_values, OwnedValues};
