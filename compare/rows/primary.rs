//! The three maps that hand out keys, held to rows.

use crate::hold::{Answer, Made, Subject, done, said};
use crate::number::{Counts, Number, put_all};
#[cfg(feature = "lists")]
use crate::slots::through_slots;
use crate::walks::{listed, stepped, walked};
use crate::words::{Word, index, key_text, option_text, pair_text};
#[allow(deprecated)]
use slotmap::hop::HopSlotMap;
use slotmap::{DefaultKey, Key, basic::SlotMap, dense::DenseSlotMap};
use std::mem::{replace, swap};
use std::panic::{AssertUnwindSafe, catch_unwind};
use std::rc::Rc;

/// More than this is not asked of the crate, which has no limit of its own.
const MOST: u64 = 1_000_000;

fn value(number: Option<Number>) -> Made {
    said(option_text(number.map(|number| number.value)))
}

/// The value before, or the value that comes back.
fn put(before: Result<Number, Number>) -> Made {
    match before {
        Ok(before) => said(before.value),
        Err(back) => said(format!("{} back", back.value)),
    }
}

fn taken_text(pair: (DefaultKey, Number)) -> String {
    pair_text((pair.0, pair.1.value))
}

fn lent_text(pair: (DefaultKey, &Number)) -> String {
    pair_text((pair.0, pair.1.value))
}

/// Appends a digit to a value: the value before.
fn append(number: &mut Number, digit: u64) -> u64 {
    let before = number.value;
    number.value = before.wrapping_mul(10).wrapping_add(digit);
    before
}

/// The calls that can't be asked, and change nothing.
fn not_asked(name: &str) -> Made {
    match name {
        "to_slots" | "has_capacity" | "capacity_is_within" | "reads" | "next_after" | "key_at" => Some(Answer::LeftOut),
        _ => None,
    }
}

/// The calls that each map has under the same name.
macro_rules! primary {
    ($begin:ident, $module:ident, $map:ident, $own:expr) => {
        pub fn $begin(counts: &Rc<Counts>) -> Box<dyn Subject> {
            $module::begin(counts)
        }

        #[allow(deprecated)]
        mod $module {
            use super::*;

            type Map = $map<DefaultKey, Number>;

            /// The map of a row, and the map set beside it.
            pub struct Maps {
                pub counts: Rc<Counts>,
                pub map: Map,
                other: Option<Map>,
            }

            pub fn begin(counts: &Rc<Counts>) -> Box<dyn Subject> {
                Box::new(Maps { counts: counts.clone(), map: $map::with_key(), other: None })
            }

            impl Subject for Maps {
                fn call(&mut self, name: &str, words: &[Word]) -> Answer {
                    self.insert(name, words)
                        .or_else(|| self.look(name, words))
                        .or_else(|| self.write(name, words))
                        .or_else(|| self.replace_disjoint(name, words))
                        .or_else(|| self.on_all(name, words))
                        .or_else(|| self.walk(name, words))
                        .or_else(|| self.resize(name, words))
                        .or_else(|| $own(&mut self.map, &self.counts, name, words))
                        .or_else(|| self.on_two(name, words))
                        .or_else(|| not_asked(name))
                        .unwrap_or(Answer::Lost)
                }
            }

            impl Maps {
                fn insert(&mut self, name: &str, words: &[Word]) -> Made {
                    let number = |value| Number::new(&self.counts, value);
                    let made = match (name, words) {
                        ("insert_many", [Word::Number(count)]) => {
                            let keys = (1..=*count).map(|value| self.map.insert(number(value)));
                            Ok(keys.last()?)
                        }
                        ("insert", [Word::Number(value)]) => Ok(self.map.insert(number(*value))),
                        ("insert_with_key", [Word::Number(value)]) => {
                            Ok(self.map.insert_with_key(|key| number(value + index(key))))
                        }
                        ("try_insert_with_key", [Word::Number(value)]) => {
                            self.map.try_insert_with_key(|key| Ok(number(value + index(key))))
                        }
                        ("try_insert_with_key", [Word::Name("fails"), Word::Number(error)]) => {
                            self.map.try_insert_with_key(|key| Err(error + index(key)))
                        }
                        ("insert_refused", []) => self.map.try_insert_with_key(|key| Err(key.data().as_ffi())),
                        ("insert_made", []) => self.map.try_insert_with_key(|key| {
                            if index(key) == 2 { Err(9) } else { Ok(number(key.data().as_ffi())) }
                        }),
                        _ => return None,
                    };
                    match made {
                        Ok(key) => said(key_text(key)),
                        Err(error) => said(format!("failed {error}")),
                    }
                }

                fn look(&mut self, name: &str, words: &[Word]) -> Made {
                    let map = &mut self.map;
                    let number = match (name, words) {
                        ("get", [Word::Key(key)]) => map.get(*key),
                        ("index", [Word::Key(key)]) => map.contains_key(*key).then(|| &map[*key]),
                        ("get_unchecked", [Word::Key(key)]) => {
                            map.contains_key(*key).then(|| unsafe { map.get_unchecked(*key) })
                        }
                        ("contains_key", [Word::Key(key)]) => return said(map.contains_key(*key)),
                        ("remove", [Word::Key(key)]) => return value(map.remove(*key)),
                        ("len", []) => return said(map.len()),
                        ("is_empty", []) => return said(map.is_empty()),
                        _ => return None,
                    };
                    said(option_text(number.map(|number| number.value)))
                }

                fn write(&mut self, name: &str, words: &[Word]) -> Made {
                    let [Word::Key(key), Word::Number(value)] = words else {
                        return None;
                    };
                    let map = &mut self.map;
                    let is_live = map.contains_key(*key);
                    let place = match name {
                        "replace" | "get_mut" => map.get_mut(*key),
                        "index_mut" => is_live.then(|| &mut map[*key]),
                        "get_unchecked_mut" => is_live.then(|| unsafe { map.get_unchecked_mut(*key) }),
                        _ => return None,
                    };
                    let new = Number::new(&self.counts, *value);
                    put(match place {
                        Some(place) => Ok(replace(place, new)),
                        None => Err(new),
                    })
                }

                fn replace_disjoint(&mut self, name: &str, words: &[Word]) -> Made {
                    match (name, words) {
                        ("replace_disjoint", []) => said(self.map.get_disjoint_mut([]).is_some()),
                        ("replace_disjoint", [Word::Key(a), Word::Number(v), Word::Key(b), Word::Number(w)]) => {
                            let new = [v, w].map(|value| Number::new(&self.counts, *value));
                            said(put_all(self.map.get_disjoint_mut([*a, *b]), new))
                        }
                        (
                            "replace_disjoint",
                            [Word::Key(a), Word::Number(v), Word::Key(b), Word::Number(w), Word::Key(c), Word::Number(x)],
                        ) => {
                            let new = [v, w, x].map(|value| Number::new(&self.counts, *value));
                            said(put_all(self.map.get_disjoint_mut([*a, *b, *c]), new))
                        }
                        _ => None,
                    }
                }

                fn on_all(&mut self, name: &str, words: &[Word]) -> Made {
                    match (name, words) {
                        ("clear", []) => self.map.clear(),
                        ("retain", [Word::Name("even")]) => self.map.retain(|_, number| {
                            let is_even = number.value % 2 == 0;
                            number.value = number.value.wrapping_mul(10);
                            is_even
                        }),
                        ("retain", [Word::Name("every_other")]) => {
                            let mut seen = Vec::new();
                            self.map.retain(|_, number| {
                                seen.push(number.value.to_string());
                                number.value = number.value.wrapping_mul(2);
                                seen.len() % 2 == 1
                            });
                            return said(listed("values", seen.into_iter()));
                        }
                        _ => return None,
                    }
                    done()
                }

                fn walk(&mut self, name: &str, words: &[Word]) -> Made {
                    let map = &mut self.map;
                    said(match (name, words) {
                        ("drain", [Word::Number(steps)]) => stepped(&mut map.drain(), "pairs", *steps, taken_text),
                        ("drain_into", []) => listed("pairs", map.drain().map(taken_text)),
                        ("into_iter", [Word::Number(steps)]) => {
                            stepped(&mut map.clone().into_iter(), "pairs", *steps, taken_text)
                        }
                        ("into_iter", [Word::Name("rest"), Word::Number(steps)]) => {
                            walked(map.clone().into_iter(), "pairs", *steps, taken_text)
                        }
                        ("iter", [Word::Number(steps)]) => walked(map.iter(), "pairs", *steps, lent_text),
                        ("keys", [Word::Number(steps)]) => walked(map.keys(), "keys", *steps, key_text),
                        ("keys_into", []) => listed("keys", map.keys().map(key_text)),
                        ("values", [Word::Number(steps)]) => {
                            walked(map.values(), "values", *steps, |number| number.value.to_string())
                        }
                        ("for", []) => listed("pairs", (&*map).into_iter().map(lent_text)),
                        _ => return None,
                    })
                }

                fn resize(&mut self, name: &str, words: &[Word]) -> Made {
                    match (name, words) {
                        (
                            "reserve" | "try_reserve" | "with_capacity" | "with_capacity_and_key",
                            [Word::Number(MOST..)],
                        ) => return Some(Answer::LeftOut),
                        ("reserve", [Word::Number(more)]) => self.map.reserve(*more as usize),
                        ("try_reserve", [Word::Number(more)]) => {
                            return said(if self.map.try_reserve(*more as usize).is_ok() { "done" } else { "refused" });
                        }
                        ("with_key" | "drop", []) => self.map = $map::with_key(),
                        ("new", []) => self.map = $map::new(),
                        ("with_capacity", [Word::Number(room)]) => self.map = $map::with_capacity(*room as usize),
                        ("with_capacity_and_key", [Word::Number(room)]) => {
                            self.map = $map::with_capacity_and_key(*room as usize);
                        }
                        _ => return None,
                    }
                    done()
                }

                /// `clone` sets a clone beside the map, `clone_from` makes the map one of that, `exchange` exchanges both.
                fn on_two(&mut self, name: &str, words: &[Word]) -> Made {
                    match (name, words) {
                        ("clone", []) => self.other = Some(self.map.clone()),
                        ("clone_from", []) => self.map.clone_from(self.other.as_ref()?),
                        ("exchange", []) => swap(&mut self.map, self.other.as_mut()?),
                        ("drop_clone", []) => self.other = None,
                        #[cfg(feature = "lists")]
                        ("through_slots", []) => {
                            let is_hop = stringify!($module) == "hop";
                            return through_slots(&mut self.map, &self.counts, is_hop);
                        }
                        _ => return None,
                    }
                    done()
                }
            }
        }
    };
}

/// The calls of maps that detach keys.
macro_rules! detaching {
    ($name:ident, $map:ident) => {
        fn $name(map: &mut $map<DefaultKey, Number>, counts: &Rc<Counts>, name: &str, words: &[Word]) -> Made {
            match (name, words) {
                ("detach", [Word::Key(key)]) => value(map.detach(*key)),
                ("reattach", [Word::Key(key), Word::Number(value)]) => {
                    let new = Number::new(counts, *value);
                    // The crate panics, before it changes anything, where the key isn't detached.
                    match catch_unwind(AssertUnwindSafe(|| map.reattach(*key, new))) {
                        Ok(()) => done(),
                        Err(_) => said(format!("{value} back")),
                    }
                }
                _ => None,
            }
        }
    };
}

detaching!(detach_basic, SlotMap);
detaching!(detach_dense, DenseSlotMap);

/// The calls of a DenseSlotMap that lend its values for writing.
fn lend(map: &mut DenseSlotMap<DefaultKey, Number>, name: &str, words: &[Word]) -> Made {
    match (name, words) {
        ("iter_mut", [Word::Number(steps)]) => {
            said(stepped(&mut map.iter_mut(), "pairs", *steps, |(key, number)| pair_text((key, append(number, 1)))))
        }
        ("values_mut", [Word::Number(steps)]) => {
            said(stepped(&mut map.values_mut(), "values", *steps, |number| append(number, 2).to_string()))
        }
        ("for_mut", []) => {
            said(listed("pairs", map.into_iter().map(|(key, number)| pair_text((key, append(number, 3))))))
        }
        ("get_disjoint_mut" | "get_disjoint_unchecked_mut", [Word::Key(first), Word::Key(second)]) => {
            match map.get_disjoint_mut([*first, *second]) {
                Some([first, second]) => {
                    swap(first, second);
                    said(format!("{} {}", second.value, first.value))
                }
                None => said("none"),
            }
        }
        _ => None,
    }
}

/// The slices of a DenseSlotMap.
fn slice(map: &mut DenseSlotMap<DefaultKey, Number>, counts: &Rc<Counts>, name: &str, words: &[Word]) -> Made {
    let number_text = |number: &Number| number.value.to_string();
    let keys_text = |keys: &[DefaultKey]| listed("keys", keys.iter().copied().map(key_text));
    match (name, words) {
        ("keys_as_slice", []) => said(keys_text(map.keys_as_slice())),
        ("values_as_slice", []) => said(listed("values", map.values_as_slice().iter().map(number_text))),
        ("as_slices", []) => {
            let (keys, values) = map.as_slices();
            said(listed("pairs", keys.iter().copied().zip(values).map(lent_text)))
        }
        ("values_as_mut_slice", [Word::Number(position), Word::Number(value)]) => {
            let new = Number::new(counts, *value);
            said(put_at(map.values_as_mut_slice(), *position, new))
        }
        ("as_mut_slices", [Word::Number(position), Word::Number(value)]) => {
            let new = Number::new(counts, *value);
            let (keys, values) = map.as_mut_slices();
            said(format!("{}, {}", keys_text(keys), put_at(values, *position, new)))
        }
        _ => None,
    }
}

/// Exchanges the value at a position: the value before, or `none`.
fn put_at(values: &mut [Number], position: u64, new: Number) -> String {
    option_text(values.get_mut(position as usize).map(|place| replace(place, new).value))
}

fn own_dense(map: &mut DenseSlotMap<DefaultKey, Number>, counts: &Rc<Counts>, name: &str, words: &[Word]) -> Made {
    detach_dense(map, counts, name, words)
        .or_else(|| lend(map, name, words))
        .or_else(|| slice(map, counts, name, words))
}

primary!(begin_basic, basic, SlotMap, detach_basic);
primary!(begin_dense, dense, DenseSlotMap, own_dense);
primary!(begin_hop, hop, HopSlotMap, |_: &mut _, _: &_, _: &_, _: &_| -> Made { None });
