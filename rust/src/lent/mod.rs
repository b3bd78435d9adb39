//! By hand: several values lent at once, which the proved sources can't do yet. Nothing in this folder is proved; all of it is safe code.
//!
//! The other files are modules inside the erased ones, since they read private fields. They ask the proved `contains_key` which keys
//! are live, and decide nothing of that themselves.

/// Lends the items at these places, in the order of the places; or `None` if two places are the same, or one doesn't exist.
///
/// Time n log n for n places. Nothing is allocated.
pub(crate) fn disjoint<T, const N: usize>(items: &mut [T], places: [usize; N]) -> Option<[&mut T; N]> {
    let order = sorted(places)?;
    let mut found: [Option<&mut T>; N] = core::array::from_fn(|_| None);
    let (mut rest, mut passed) = (items, 0);
    for at in order {
        let (item, behind) = core::mem::take(&mut rest).get_mut(places[at] - passed..)?.split_first_mut()?;
        found[at] = Some(item);
        rest = behind;
        passed = places[at] + 1;
    }
    all(found)
}

/// The positions of these numbers, from that of the smallest number on; or `None` if two numbers are the same.
pub(crate) fn sorted<T: Ord + Copy, const N: usize>(numbers: [T; N]) -> Option<[usize; N]> {
    let mut order: [usize; N] = core::array::from_fn(|at| at);
    order.sort_unstable_by_key(|at| numbers[*at]);
    let twice = order.windows(2).any(|pair| numbers[pair[0]] == numbers[pair[1]]);
    (!twice).then_some(order)
}

/// What these options hold; or `None` if one of them holds nothing.
pub(crate) fn all<T, const N: usize>(found: [Option<T>; N]) -> Option<[T; N]> {
    if found.iter().any(Option::is_none) {
        return None;
    }
    Some(found.map(|item| item.expect("it was looked at")))
}

#[cfg(test)]
mod tests {
    use super::disjoint;
    #[cfg(feature = "std")]
    use crate::SparseSecondaryMap;
    use crate::{DenseSlotMap, HopSlotMap, SecondaryMap, SlotMap};
    use alloc::vec::Vec;

    /// What `disjoint` lends, as numbers.
    fn lent<const N: usize>(places: [usize; N]) -> Option<[u8; N]> {
        let mut items = [10, 11, 12, 13, 14];
        disjoint(&mut items, places).map(|found| found.map(|item| *item))
    }

    #[test]
    fn in_the_order_of_the_places() {
        assert_eq!(lent([3, 0, 4]), Some([13, 10, 14]));
        assert_eq!(lent([0, 1, 2, 3, 4]), Some([10, 11, 12, 13, 14]));
        assert_eq!(lent([4, 3, 2, 1, 0]), Some([14, 13, 12, 11, 10]));
        assert_eq!((lent([2]), lent([])), (Some([12]), Some([])));
    }

    #[test]
    fn twice_or_outside() {
        assert_eq!((lent([1, 1]), lent([4, 0, 4])), (None, None));
        assert_eq!((lent([5]), lent([0, usize::MAX]), lent([usize::MAX, usize::MAX - 1])), (None, None, None));
        assert_eq!(disjoint::<u8, 0>(&mut [], []).map(|found| found.len()), Some(0));
    }

    #[test]
    fn each_place_is_written() {
        let mut items = [0; 6];
        for item in disjoint(&mut items, [5, 2, 0]).expect("three places").into_iter().zip(1..) {
            *item.0 = item.1;
        }
        assert_eq!(items, [3, 0, 2, 0, 0, 1]);
    }

    /// Numbers that look random.
    fn next(seed: &mut u64, below: usize) -> usize {
        *seed = seed.wrapping_mul(6364136223846793005).wrapping_add(1442695040888963407);
        (*seed >> 33) as usize % below
    }

    /// Whether a walk that lends yields what `iter` does, in the same order, and says at each step how much is left.
    macro_rules! check_walks {
        ($map:ident, $seed:ident) => {
            let expected: Vec<_> = $map.iter().map(|(key, value)| (key, *value)).collect();
            let mut lent = $map.iter_mut();
            for (at, pair) in expected.iter().enumerate() {
                assert_eq!(lent.len(), expected.len() - at);
                assert_eq!(lent.next().map(|(key, value)| (key, *value)), Some(*pair));
            }
            assert!(lent.next().is_none() && lent.len() == 0 && lent.next().is_none());
            $map.values_mut().for_each(|value| *value += 1);
            assert!($map.iter().map(|(key, value)| (key, *value - 1)).eq(expected.iter().copied()));
            if expected.len() > 2 {
                let [a, b, c] = [(); 3].map(|()| expected[next(&mut $seed, expected.len())].0);
                let differ = a != b && b != c && a != c;
                let found = $map.get_disjoint_mut([a, b, c]).map(|values| values.map(|value| *value));
                assert_eq!(found, differ.then(|| [$map[a], $map[b], $map[c]]));
            }
        };
    }

    macro_rules! primary_walks {
        ($test:ident, $map:ident) => {
            #[test]
            fn $test() {
                for mut seed in 0..40 {
                    let (mut map, mut keys) = ($map::new(), Vec::new());
                    for value in 0..300 {
                        match next(&mut seed, 5) {
                            0 | 1 if !keys.is_empty() => drop(map.remove(keys.swap_remove(next(&mut seed, keys.len())))),
                            2 if value % 50 == 0 => map.retain(|_, value| *value % 7 == 0),
                            _ => keys.push(map.insert(value)),
                        }
                        if value % 10 == 0 {
                            check_walks!(map, seed);
                        }
                    }
                }
            }
        };
    }

    primary_walks!(walks_of_slot_maps, SlotMap);
    primary_walks!(walks_of_dense_slot_maps, DenseSlotMap);
    primary_walks!(walks_of_hop_slot_maps, HopSlotMap);

    macro_rules! side_walks {
        ($test:ident, $map:ident) => {
            #[test]
            fn $test() {
                for mut seed in 0..40 {
                    let (mut names, mut map) = (SlotMap::new(), $map::new());
                    let keys: Vec<_> = (0..100).map(|name| names.insert(name)).collect();
                    for value in 0..300 {
                        let key = keys[next(&mut seed, keys.len())];
                        match next(&mut seed, 3) {
                            0 => drop(map.remove(key)),
                            _ => drop(map.insert(key, value)),
                        }
                        if value % 10 == 0 {
                            check_walks!(map, seed);
                        }
                    }
                }
            }
        };
    }

    side_walks!(walks_of_secondary_maps, SecondaryMap);
    #[cfg(feature = "std")]
    side_walks!(walks_of_sparse_secondary_maps, SparseSecondaryMap);
}
