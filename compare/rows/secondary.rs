//! The two secondary maps, held to rows.

use crate::hold::{Answer, Made, Subject, done, said};
use crate::number::{Counts, Number, put_all};
#[cfg(feature = "lists")]
use crate::slots::through_slots;
use crate::walks::SHOWN;
use crate::words::{Word, index, key_text, option_text, pair_text, version};
use slotmap::{DefaultKey, Key, KeyData, SecondaryMap, SparseSecondaryMap};
use std::mem::{replace, swap};
use std::rc::Rc;

/// More than this is not asked of the crate, which has no limit of its own.
const MOST: u64 = 1_000_000;

fn value(number: Option<Number>) -> Made {
    said(option_text(number.map(|number| number.value)))
}

/// What an iterator yields: a key and the number of a value, of which it may lack one.
type Item = (Option<DefaultKey>, Option<u64>);

fn taken(pair: (DefaultKey, Number)) -> Item {
    (Some(pair.0), Some(pair.1.value))
}

fn lent(pair: (DefaultKey, &Number)) -> Item {
    (Some(pair.0), Some(pair.1.value))
}

fn item_text(item: &Item) -> String {
    match *item {
        (Some(key), Some(value)) => pair_text((key, value)),
        (Some(key), None) => key_text(key),
        (None, value) => option_text(value),
    }
}

/// Items of an iterator, each after a blank; sorted where the order is open, and only how many where they are some of all.
fn items_text(mut items: Vec<Item>, is_ordered: bool, is_some: bool) -> String {
    if items.len() > SHOWN || !items.is_empty() && is_some && !is_ordered {
        return format!(" ({})", items.len());
    }
    if !is_ordered {
        items.sort_unstable();
    }
    items.iter().map(|item| format!(" {}", item_text(item))).collect()
}

/// So many steps of an iterator, how many items are left then, and with `rest` those.
fn walked(word: &str, walk: impl ExactSizeIterator<Item = Item>, steps: u64, is_ordered: bool, rest: bool) -> Made {
    let mut walk = walk;
    let items: Vec<Item> = walk.by_ref().take(steps as usize).collect();
    let left = walk.len();
    let is_some = !items.is_empty() && left > 0;
    let mut text = format!("{word}{}, {left} left", items_text(items, is_ordered, is_some));
    if rest {
        text += &items_text(walk.collect(), is_ordered, is_some);
    }
    said(text)
}

/// Half of all versions.
const HALF: u64 = 1 << 31;

/// Whether a word has a key of the later half of all versions.
fn is_late(word: &Word) -> bool {
    matches!(*word, Word::Key(key) | Word::Pair(key, _) if version(key) >= HALF)
}

/// Whether a call makes the entry of a key, in the crate at least.
fn enters(name: &str) -> bool {
    name.contains("entry") || name.starts_with("or_") || name == "and_modify"
}

/// Whether a call puts a value under a key.
fn puts(name: &str) -> bool {
    ["insert", "extend", "from_iter", "equals"].contains(&name)
}

/// The calls that can't be asked, and change nothing.
fn not_asked(name: &str) -> Made {
    match name {
        "to_slots" | "has_capacity" | "capacity_is_within" | "looks" | "key_at" => Some(Answer::LeftOut),
        _ => None,
    }
}

macro_rules! secondary {
    ($begin:ident, $module:ident, $map:ident, $entry:ident, $is_ordered:literal, $resize:expr) => {
        pub fn $begin(counts: &Rc<Counts>) -> Box<dyn Subject> {
            $module::begin(counts)
        }

        mod $module {
            use super::*;
            use slotmap::$entry::Entry;

            type Map = $map<DefaultKey, Number>;

            /// The map of a row, and the map set beside it.
            struct Maps {
                counts: Rc<Counts>,
                map: Map,
                other: Option<Map>,
                /// Whether a call was given a key of the later half of all versions.
                has_late_keys: bool,
            }

            pub fn begin(counts: &Rc<Counts>) -> Box<dyn Subject> {
                Box::new(Maps { counts: counts.clone(), map: $map::new(), other: None, has_late_keys: false })
            }

            impl Subject for Maps {
                fn call(&mut self, name: &str, words: &[Word]) -> Answer {
                    self.has_late_keys |= words.iter().any(is_late);
                    if self.steps_over(name) || words.iter().any(|word| self.is_known_difference(name, word)) {
                        return Answer::Lost;
                    }
                    let made = match words {
                        [Word::Key(key)] => self.on_key(name, *key).or_else(|| self.on_entry(name, *key)),
                        [Word::Key(key), Word::Number(value)] => self
                            .write(name, *key, *value)
                            .or_else(|| self.put(name, *key, *value))
                            .or_else(|| self.put_by_entry(name, *key, *value)),
                        [] => self.on_all(name).or_else(|| self.on_two(name)),
                        [Word::Number(number)] => self.walk(name, *number).or_else(|| self.resize(name, *number)),
                        _ => self.retain(name, words).or_else(|| self.on_pairs(name, words)),
                    };
                    made.or_else(|| not_asked(name)).unwrap_or(Answer::Lost)
                }
            }

            impl Maps {
                /// Whether the port has a rule of its own for a put or an entry of a key.
                fn is_known_difference(&self, name: &str, word: &Word) -> bool {
                    let (Word::Key(key) | Word::Pair(key, _)) = *word else {
                        return false;
                    };
                    if key.is_null() || !self.has_late_keys || !puts(name) && !enters(name) {
                        return false;
                    }
                    match self.map.keys().find(|other| index(*other) == index(key)) {
                        // Half of all versions apart, each of two keys is older.
                        Some(other) => version(key).abs_diff(version(other)) == HALF,
                        // A SecondaryMap of the crate has no vacant entry of a late version.
                        None => $is_ordered && enters(name) && version(key) >= HALF,
                    }
                }

                /// Whether the crate steps over the key of index 0 that is in a SecondaryMap.
                fn steps_over(&self, name: &str) -> bool {
                    let takes_all = ["clear", "drain", "into_iter"].contains(&name);
                    $is_ordered && takes_all && self.map.keys().any(|key| index(key) == 0)
                }

                fn number(&self, value: u64) -> Number {
                    Number::new(&self.counts, value)
                }

                fn on_key(&mut self, name: &str, key: DefaultKey) -> Made {
                    let map = &mut self.map;
                    let number = match name {
                        "get" => map.get(key),
                        "index" => map.contains_key(key).then(|| &map[key]),
                        "get_unchecked" => map.contains_key(key).then(|| unsafe { map.get_unchecked(key) }),
                        "contains_key" => return said(map.contains_key(key)),
                        "remove" => return value(map.remove(key)),
                        _ => return None,
                    };
                    said(option_text(number.map(|number| number.value)))
                }

                fn write(&mut self, name: &str, key: DefaultKey, value: u64) -> Made {
                    let map = &mut self.map;
                    let is_there = map.contains_key(key);
                    let place = match name {
                        "get_mut" => map.get_mut(key),
                        "index_mut" => is_there.then(|| &mut map[key]),
                        "get_unchecked_mut" => is_there.then(|| unsafe { map.get_unchecked_mut(key) }),
                        _ => return None,
                    };
                    let new = Number::new(&self.counts, value);
                    match place {
                        Some(place) => said(replace(place, new).value),
                        None => said(format!("{value} back")),
                    }
                }

                fn put(&mut self, name: &str, key: DefaultKey, number: u64) -> Made {
                    let new = match name {
                        "insert" | "or_put" => self.number(number),
                        _ => return None,
                    };
                    if name == "insert" {
                        return value(self.map.insert(key, new));
                    }
                    match self.map.entry(key) {
                        None => said(format!("no entry, {number} back")),
                        Some(Entry::Occupied(_)) => said(format!("kept, {number} back")),
                        Some(Entry::Vacant(entry)) => {
                            entry.insert(new);
                            said("placed")
                        }
                    }
                }

                fn on_entry(&mut self, name: &str, key: DefaultKey) -> Made {
                    let entry = match name {
                        "entry" | "try_entry" => return said(self.told(key)),
                        "entry_key" => {
                            return said(self.map.entry(key).map_or("none".to_string(), |entry| key_text(entry.key())));
                        }
                        "or_default" => {
                            return said(option_text(self.map.entry(key).map(|entry| entry.or_default().value)));
                        }
                        "entry_into_mut" | "entry_remove" | "entry_remove_entry" => self.map.entry(key),
                        _ => return None,
                    };
                    let Some(Entry::Occupied(entry)) = entry else {
                        return said("not occupied");
                    };
                    match name {
                        "entry_into_mut" => {
                            let place = entry.into_mut();
                            let before = place.value;
                            place.value = before.wrapping_mul(2);
                            said(before)
                        }
                        "entry_remove" => said(entry.remove().value),
                        _ => {
                            let (key, number) = entry.remove_entry();
                            said(format!("pair {}", pair_text((key, number.value))))
                        }
                    }
                }

                /// What the entry of a key is.
                fn told(&mut self, key: DefaultKey) -> String {
                    match self.map.entry(key) {
                        None => "none".to_string(),
                        Some(Entry::Vacant(entry)) => format!("vacant {}", key_text(entry.key())),
                        Some(Entry::Occupied(entry)) => {
                            format!("occupied {} {}", key_text(entry.key()), entry.get().value)
                        }
                    }
                }

                fn put_by_entry(&mut self, name: &str, key: DefaultKey, value: u64) -> Made {
                    let counts = self.counts.clone();
                    let mut calls = 0;
                    let mut new = || {
                        calls += 1;
                        Number::new(&counts, value)
                    };
                    let stored = match (name, self.map.entry(key)) {
                        ("or_insert" | "or_insert_with" | "and_modify" | "entry_insert", None) => None,
                        ("or_insert", Some(entry)) => Some(entry.or_insert(new()).value),
                        ("or_insert_with", Some(entry)) => Some(entry.or_insert_with(&mut new).value),
                        ("and_modify", Some(entry)) => {
                            let entry = entry.and_modify(|number| number.value = number.value.wrapping_add(1));
                            Some(entry.or_insert(new()).value)
                        }
                        ("entry_insert", Some(Entry::Vacant(entry))) => Some(entry.insert(new()).value),
                        ("entry_insert", Some(Entry::Occupied(mut entry))) => Some(entry.insert(new()).value),
                        ("entry_get_mut", Some(Entry::Occupied(mut entry))) => {
                            return said(replace(&mut entry.get_mut().value, value));
                        }
                        ("entry_get_mut", _) => return said("not occupied"),
                        _ => return None,
                    };
                    let stored = option_text(stored);
                    said(if name == "or_insert_with" { format!("{stored}, {calls} calls") } else { stored })
                }

                fn retain(&mut self, name: &str, words: &[Word]) -> Made {
                    match (name, words) {
                        ("retain", [Word::Name("even")]) => self.map.retain(|_, number| {
                            let is_even = number.value % 2 == 0;
                            number.value = number.value.wrapping_mul(10);
                            is_even
                        }),
                        ("retain", [Word::Name("nothing")]) => self.map.retain(|_, _| false),
                        ("retain", [Word::Name("odd"), Word::Name("calls")] | [Word::Name("every_other")])
                            if $is_ordered =>
                        {
                            let mut seen = Vec::new();
                            self.map.retain(|_, number| {
                                seen.push((None, Some(number.value)));
                                number.value = number.value.wrapping_mul(2);
                                seen.len() % 2 == 1
                            });
                            return said(format!("values{}", items_text(seen, true, false)));
                        }
                        _ => return None,
                    }
                    done()
                }

                fn on_pairs(&mut self, name: &str, words: &[Word]) -> Made {
                    let mut pairs = Vec::new();
                    for word in words {
                        let Word::Pair(key, value) = *word else {
                            return None;
                        };
                        pairs.push((key, self.number(value)));
                    }
                    match name {
                        "extend" => self.map.extend(pairs),
                        "from_iter" => self.map = pairs.into_iter().collect(),
                        "equals" => return said(self.map == pairs.into_iter().collect::<Map>()),
                        "replace_disjoint" => return self.replace_disjoint(pairs),
                        _ => return None,
                    }
                    done()
                }

                fn replace_disjoint(&mut self, pairs: Vec<(DefaultKey, Number)>) -> Made {
                    let pairs = match <[_; 2]>::try_from(pairs) {
                        Ok([(a, v), (b, w)]) => return said(put_all(self.map.get_disjoint_mut([a, b]), [v, w])),
                        Err(pairs) => pairs,
                    };
                    let [(a, v), (b, w), (c, x)] = <[_; 3]>::try_from(pairs).ok()?;
                    said(put_all(self.map.get_disjoint_mut([a, b, c]), [v, w, x]))
                }

                /// Inserts the numbers from 1 on, each under the first key of its index.
                fn insert_many(&mut self, count: u64) -> Made {
                    let before = (1..=count).map(|index| {
                        self.map.insert(KeyData::from_ffi(1 << 32 | index).into(), Number::new(&self.counts, index))
                    });
                    value(before.last()?)
                }

                fn walk(&mut self, name: &str, steps: u64) -> Made {
                    if name == "insert_many" {
                        return self.insert_many(steps);
                    }
                    let map = &mut self.map;
                    match name {
                        "drain" => walked("pairs", map.drain().map(taken), steps, $is_ordered, false),
                        "into_iter" => walked("pairs", map.clone().into_iter().map(taken), steps, $is_ordered, false),
                        "iter" => walked("pairs", map.iter().map(lent), steps, $is_ordered, true),
                        "keys" => walked("keys", map.keys().map(|key| (Some(key), None)), steps, $is_ordered, true),
                        "values" => {
                            let values = map.values().map(|number| (None, Some(number.value)));
                            walked("values", values, steps, $is_ordered, true)
                        }
                        _ => None,
                    }
                }

                fn resize(&mut self, name: &str, number: u64) -> Made {
                    let room = number as usize;
                    match name {
                        "has_capacity" | "capacity_is_within" => return None,
                        _ if number > MOST => return Some(Answer::LeftOut),
                        "with_capacity_and_hasher" if $is_ordered => return said("no such call"),
                        "with_capacity" | "with_capacity_and_hasher" => self.map = $map::with_capacity(room),
                        _ => return $resize(&mut self.map, name, room),
                    }
                    done()
                }

                fn on_all(&mut self, name: &str) -> Made {
                    match name {
                        "len" => return said(self.map.len()),
                        "is_empty" => return said(self.map.is_empty()),
                        "clear" => self.map.clear(),
                        "for" => {
                            let items = (&self.map).into_iter().map(lent).collect();
                            return said(format!("pairs{}, 0 left", items_text(items, $is_ordered, false)));
                        }
                        "with_hasher" if $is_ordered => return said("no such call"),
                        "new" | "drop" | "with_hasher" | "from_iter" => self.map = $map::new(),
                        "extend" | "next_list" => (),
                        "equals" => return said(self.map == Map::new()),
                        "replace_disjoint" => return said(self.map.get_disjoint_mut([]).is_some()),
                        _ => return None,
                    }
                    done()
                }

                /// `clone` sets a clone beside the map, `clone_from` makes the map one of that, `is_same` says whether both
                /// are equal, `exchange` exchanges both.
                fn on_two(&mut self, name: &str) -> Made {
                    match name {
                        "clone" => self.other = Some(self.map.clone()),
                        "clone_from" => self.map.clone_from(self.other.as_ref()?),
                        "is_same" => return said(self.map == *self.other.as_ref()?),
                        "exchange" => swap(&mut self.map, self.other.as_mut()?),
                        "drop_clone" => self.other = None,
                        #[cfg(feature = "lists")]
                        "through_slots" => return through_slots(&mut self.map, &self.counts, false),
                        _ => return None,
                    }
                    done()
                }
            }
        }
    };
}

fn resize_secondary(map: &mut SecondaryMap<DefaultKey, Number>, name: &str, room: usize) -> Made {
    match name {
        "set_capacity" => map.set_capacity(room),
        "try_set_capacity" => {
            map.try_set_capacity(room).ok()?;
        }
        _ => return None,
    }
    done()
}

fn resize_sparse(map: &mut SparseSecondaryMap<DefaultKey, Number>, name: &str, room: usize) -> Made {
    match name {
        "reserve" => map.reserve(room),
        "try_reserve" => map.try_reserve(room).ok()?,
        _ => return None,
    }
    done()
}

secondary!(begin_secondary, secondary, SecondaryMap, secondary, true, resize_secondary);
secondary!(begin_sparse, sparse, SparseSecondaryMap, sparse_secondary, false, resize_sparse);
