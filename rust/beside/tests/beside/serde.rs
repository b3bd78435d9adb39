//! Keys and maps as JSON: the same bytes, and each crate reads what the other one wrote.
use crate::pair::{Number, OurKey, Pair, TheirKey};

/// Both texts are the same. Both maps are read from them; with `$goes_on` the two go on as these.
macro_rules! through_json {
    ($name:ident, $map:ident, $goes_on:expr, $sorted:expr) => {
        #[allow(deprecated)]
        pub fn $name(pair: &mut Pair<slotmap_proved::$map<OurKey, u32>, slotmap::$map<TheirKey, u32>>) {
            let (ours, theirs) = (serde_json::to_string(&pair.ours).unwrap(), serde_json::to_string(&pair.theirs).unwrap());
            if !$sorted {
                assert_eq!(ours, theirs, "seed {}", pair.seed);
            }
            let our_read: slotmap_proved::$map<OurKey, u32> = serde_json::from_str(&theirs).unwrap();
            let their_read: slotmap::$map<TheirKey, u32> = serde_json::from_str(&ours).unwrap();
            let mut our_pairs: Vec<_> = our_read.iter().map(|(key, value)| (key.number(), *value)).collect();
            let mut their_pairs: Vec<_> = their_read.iter().map(|(key, value)| (key.number(), *value)).collect();
            if $sorted {
                our_pairs.sort();
                their_pairs.sort();
            }
            assert_eq!(our_pairs, their_pairs, "seed {}", pair.seed);
            if $goes_on {
                (pair.ours, pair.theirs) = (our_read, their_read);
            }
            for number in &pair.known {
                let (ours, theirs) = (serde_json::to_string(&crate::pair::our(*number)), serde_json::to_string(&crate::pair::their(*number)));
                let (ours, theirs) = (ours.unwrap(), theirs.unwrap());
                assert_eq!(ours, theirs);
                assert_eq!(serde_json::from_str::<OurKey>(&theirs).unwrap().number(), *number);
            }
        }
    };
}

through_json!(slot_map, SlotMap, true, false);
through_json!(dense, DenseSlotMap, true, false);
// The crate's, read from a list, has blocks that no way leads back to: a documented fault.
through_json!(hop, HopSlotMap, false, false);
through_json!(secondary, SecondaryMap, true, false);
// Its pairs have no order, so the bytes of one need not be those of the other; each reads the other's.
through_json!(sparse_secondary, SparseSecondaryMap, true, true);
