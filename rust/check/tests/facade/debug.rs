//! What slots and `OrPut` print with `{:?}`. What maps, entries and iterators print is tested with their names.

use slotmap_proved::fallible::OrPut;
use slotmap_proved::serial::SlotRecord;

#[test]
fn slots_of_lists() {
    let live = SlotRecord { value: Some(5), version: 1 };
    let vacant: SlotRecord<u64> = SlotRecord { value: None, version: 2 };
    let texts = "SlotRecord { value: Some(5), version: 1 } SlotRecord { value: None, version: 2 }";
    assert_eq!(format!("{live:?} {vacant:?}"), texts);
}

#[test]
fn what_or_put_did() {
    let all = [OrPut::NoEntry(1), OrPut::Kept(2), OrPut::Placed, OrPut::Memory(3)];
    assert_eq!(format!("{all:?}"), "[NoEntry(1), Kept(2), Placed, Memory(3)]");
}
