//! Maps written as JSON and read back, where the program is built over serde.

use crate::hold::{Answer, Made, done};
use crate::number::{Counts, Number};
use serde::de::DeserializeOwned;
use serde::{Deserialize, Deserializer, Serialize, Serializer};
use serde_json::Value;
use std::cell::RefCell;
use std::rc::Rc;

thread_local! {
    /// What counts the values that are read.
    static COUNTS: RefCell<Rc<Counts>> = RefCell::default();
}

impl Serialize for Number {
    fn serialize<S: Serializer>(&self, serializer: S) -> Result<S::Ok, S::Error> {
        self.value.serialize(serializer)
    }
}

/// A value that is read counts as a clone: the port's list of slots has clones of the values.
impl<'de> Deserialize<'de> for Number {
    fn deserialize<D: Deserializer<'de>>(deserializer: D) -> Result<Number, D::Error> {
        let value = u64::deserialize(deserializer)?;
        Ok(COUNTS.with_borrow(|counts| Number::cloned(counts, value)))
    }
}

/// Whether a list has a vacant slot after the first.
fn has_vacant_slots(list: &Value) -> bool {
    let slots = list.as_array().map_or(&[][..], |slots| slots);
    slots.iter().skip(1).any(|slot| slot["value"].is_null())
}

/// Writes a map as JSON and reads it back. A HopSlotMap that is read from a list with vacant slots has no back link at slot 0
/// in the crate.
pub fn through_slots<M: Serialize + DeserializeOwned>(map: &mut M, counts: &Rc<Counts>, is_hop: bool) -> Made {
    let list = serde_json::to_value(&*map).ok()?;
    if is_hop && has_vacant_slots(&list) {
        return Some(Answer::Lost);
    }
    COUNTS.set(counts.clone());
    *map = serde_json::from_value(list).ok()?;
    done()
}
