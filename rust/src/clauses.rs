// Written by the eraser: the clauses of the proved maps' calls, for the comments of the layer over them.
// `#[doc = clauses!(slotmap_basic SlotMap insert)]` is the section of one call; a call that isn't here doesn't compile.
#[rustfmt::skip]
#[allow(unused_macros, unused_macro_rules)]
macro_rules! clauses {
    (slotmap_basic Drain next) => { r##"
# Proved

What is proved of the call that this one makes:

```text
fn next(&mut self) -> Option<(K, V)>

ghost can_next = { DrainCanStep };

ghost next_gives = { DrainSteps K.data_of };

ghost remaining = { drain_count drain_live };
```

Words: [`drain_count`](crate::words#drain_count-of-slotmap_core-draining), [`drain_live`](crate::words#drain_live), [`DrainCanStep`](crate::words#draincanstep), [`DrainSteps`](crate::words#drainsteps-of-slotmap_basic-drain).
"## };
    (slotmap_basic Drain size_hint) => { r##"
# Proved

What is proved of the call that this one makes:

```text
fn size_hint(&self) -> (usize, Option<usize>)
    ensures lower { result.0 ≤ size (drain_count drain_live self.now) }
    ensures upper { IfSome result.1 (UpTo (drain_count drain_live self.now)) }
    ensures exact { result ≡ (size (drain_count drain_live self.now), Some (size (drain_count drain_live self.now))) }
```

Words: [`drain_count`](crate::words#drain_count-of-slotmap_core-draining), [`drain_live`](crate::words#drain_live).
"## };
    (slotmap_basic IntoIter clone) => { r##"
# Proved

What is proved of the call that this one makes:

```text
pub fn clone(&self) -> Result<Self, AllocError>
    ensures clones { IfOk result (AreClones V.is_clone self.now) }
    ensures copies_if_clones_equal { IfOk result (λ copy. ClonesEqual V.is_clone → copy ≡ self.now) }
```

Words: [`AreClones`](crate::words#areclones), [`ClonesEqual`](crate::words#clonesequal).
"## };
    (slotmap_basic IntoIter len) => { r##"
# Proved

What is proved of the call that this one makes:

```text
pub fn len(&self) -> usize
    ensures { result ≡ length self.now }
```
"## };
    (slotmap_basic IntoIter next) => { r##"
# Proved

What is proved of the call that this one makes:

```text
fn next(&mut self) -> Option<(K, V)>

ghost next_gives = { YieldsFirstBy (λ item. (K.data_of item.0, item.1)) (λ rest. rest) };

ghost remaining = { item_count (λ rest. rest) };
```
"## };
    (slotmap_basic IntoIter size_hint) => { r##"
# Proved

What is proved of the call that this one makes:

```text
fn size_hint(&self) -> (usize, Option<usize>)
    ensures lower { result.0 ≤ length self.now }
    ensures upper { IfSome result.1 (UpTo (at_most (length self.now))) }
    ensures exact { result ≡ (length self.now, Some (length self.now)) }
```
"## };
    (slotmap_basic Iter clone) => { r##"
# Proved

What is proved of the call that this one makes:

```text
fn clone(&self) -> Result<Self, AllocError>

ghost is_clone = { λ it copy. copy ≡ it };

ghost is_infallible = { λ _. ⊤ };
```
"## };
    (slotmap_basic Iter len) => { r##"
# Proved

What is proved of the call that this one makes:

```text
pub fn len(&self) -> usize
    ensures { result ≡ length self.now }
```
"## };
    (slotmap_basic Iter next) => { r##"
# Proved

What is proved of the call that this one makes:

```text
fn next(&mut self) -> Option<(K, &'a V)>

ghost next_gives = { YieldsFirstBy (λ item. (K.data_of item.0, item.1.now)) (λ rest. rest) };

ghost remaining = { item_count (λ rest. rest) };
```
"## };
    (slotmap_basic Iter size_hint) => { r##"
# Proved

What is proved of the call that this one makes:

```text
fn size_hint(&self) -> (usize, Option<usize>)
    ensures lower { result.0 ≤ length self.now }
    ensures upper { IfSome result.1 (UpTo (at_most (length self.now))) }
    ensures exact { result ≡ (length self.now, Some (length self.now)) }
```
"## };
    (slotmap_basic Keys clone) => { r##"
# Proved

What is proved of the call that this one makes:

```text
fn clone(&self) -> Result<Self, AllocError>

ghost is_clone = { λ it copy. copy ≡ it };

ghost is_infallible = { λ _. ⊤ };
```
"## };
    (slotmap_basic Keys len) => { r##"
# Proved

What is proved of the call that this one makes:

```text
pub fn len(&self) -> usize
    ensures { result ≡ length self.now }
```
"## };
    (slotmap_basic Keys next) => { r##"
# Proved

What is proved of the call that this one makes:

```text
fn next(&mut self) -> Option<K>

ghost next_gives = { YieldsFirstBy K.data_of (λ rest. rest) };

ghost remaining = { item_count (λ rest. rest) };
```
"## };
    (slotmap_basic Keys size_hint) => { r##"
# Proved

What is proved of the call that this one makes:

```text
fn size_hint(&self) -> (usize, Option<usize>)
    ensures lower { result.0 ≤ length self.now }
    ensures upper { IfSome result.1 (UpTo (at_most (length self.now))) }
    ensures exact { result ≡ (length self.now, Some (length self.now)) }
```
"## };
    (slotmap_basic SlotMap capacity) => { r##"
# Proved

What is proved of the call that this one makes:

```text
pub fn capacity(&self) -> usize
    ensures value { result ≡ self.now.capacity }
    ensures places { places self.now ≤ result }
    ensures valid { IsContent true self.now }
```

Words: [`capacity`](crate::words#capacity-of-slotmap_core-content), [`IsContent`](crate::words#iscontent), [`places`](crate::words#places-of-slotmap_core-content).
"## };
    (slotmap_basic SlotMap clear) => { r##"
# Proved

What is proved of the call that this one makes:

```text
pub fn clear(&mut self)
    ensures empty { self.new.live ≡ map.empty }
    ensures leaves { Leaves self.old self.new }
    ensures freed_order { FreesByIndex self.old self.new }
    ensures valid { StaysValid true self.old self.new }
```

Words: [`FreesByIndex`](crate::words#freesbyindex), [`Leaves`](crate::words#leaves), [`live`](crate::words#live), [`StaysValid`](crate::words#staysvalid).
"## };
    (slotmap_basic SlotMap clone) => { r##"
# Proved

What is proved of the call that this one makes:

```text
pub fn clone(&self) -> Result<Self, AllocError>
    ensures clones { IfOk result (IsCloneBy V.is_clone self.now) }
    ensures copies_if_clones_equal { IfOk result (λ copy. ClonesEqual V.is_clone → IsCopy self.now copy) }
    ensures valid { IfOk result (IsContent true) }
```

Words: [`ClonesEqual`](crate::words#clonesequal), [`IsCloneBy`](crate::words#iscloneby), [`IsContent`](crate::words#iscontent), [`IsCopy`](crate::words#iscopy).
"## };
    (slotmap_basic SlotMap clone_from) => { r##"
# Proved

What is proved of the call that this one makes:

```text
pub fn clone_from(&mut self, source: &Self) -> Result<(), AllocError>
where
    V: Drop,
    ensures clones { OnOk result (IsCloneBy V.is_clone source.now self.new) }
    ensures copies_if_clones_equal { OnOk result (ClonesEqual V.is_clone → IsCopy source.now self.new) }
    ensures unchanged { OnErr result (self.new ≡ self.old) }
    ensures valid { OnOk result (IsContent true self.new) }
```

Words: [`ClonesEqual`](crate::words#clonesequal), [`IsCloneBy`](crate::words#iscloneby), [`IsContent`](crate::words#iscontent), [`IsCopy`](crate::words#iscopy).
"## };
    (slotmap_basic SlotMap contains_key) => { r##"
# Proved

What is proved of the call that this one makes:

```text
pub fn contains_key(&self, key: K) -> bool
    ensures value { result ≡ map.contains_key self.now.live (K.data_of key) }
    ensures valid { IsContent true self.now }
```

Words: [`IsContent`](crate::words#iscontent), [`live`](crate::words#live).
"## };
    (slotmap_basic SlotMap detach) => { r##"
# Proved

What is proved of the call that this one makes:

```text
pub fn detach(&mut self, key: K) -> Option<V>
    ensures value { result ≡ map.get self.old.live (K.data_of key) }
    ensures detaches { OnSome result (Detaches self.old (K.data_of key) self.new) }
    ensures unchanged { IfNone result (self.new ≡ self.old) }
    ensures live { self.new.live ≡ map.remove self.old.live (K.data_of key) }
    ensures valid { StaysValid true self.old self.new }
```

Words: [`Detaches`](crate::words#detaches), [`live`](crate::words#live), [`StaysValid`](crate::words#staysvalid).
"## };
    (slotmap_basic SlotMap drain) => { r##"
# Proved

What is proved of the call that this one makes:

```text
pub fn drain(&mut self) -> Drain<'_, K, V>
    ensures map { (drain_loan result).now ≡ self.old }
    ensures same_reference { (drain_loan result).ghost_name ≡ self.entry.ghost_name }
    ensures ready { DrainCanStep result }

    // Laws of the steps, for callers that take more of them.
    ensures stays { KeepsAlong (DrainSteps K.data_of) (KeepsLoan drain_loan EmptiesByIndex) result }
    ensures lists { ListsAlong K.data_of drain_live (DrainSteps K.data_of) result }
    ensures in_order { InOrderAlong K.data_of drain_live (DrainSteps K.data_of) result }

    ensures valid { IsContent true self.old }
```

Words: [`drain_live`](crate::words#drain_live), [`drain_loan`](crate::words#drain_loan-of-slotmap_basic-drain), [`DrainCanStep`](crate::words#draincanstep), [`DrainSteps`](crate::words#drainsteps-of-slotmap_basic-drain), [`EmptiesByIndex`](crate::words#emptiesbyindex), [`InOrderAlong`](crate::words#inorderalong), [`IsContent`](crate::words#iscontent), [`KeepsAlong`](crate::words#keepsalong), [`KeepsLoan`](crate::words#keepsloan), [`ListsAlong`](crate::words#listsalong).
"## };
    (slotmap_basic SlotMap drain_into) => { r##"
# Proved

What is proved of the call that this one makes:

```text
pub fn drain_into(&mut self, out: &mut Vec<(K, V)>) -> Result<(), OutOfMemory>
    ensures ok { OnOk result ((pairs : List (K × V)) × (out.new.items ≡ out.old.items ++ pairs)
        × (list_map (λ p. (K.data_of p.0, p.1)) pairs ≡ map.entries self.old.live)) }
    ensures empty { OnOk result (self.new.live ≡ map.empty) }
    ensures leaves { OnOk result (Leaves self.old self.new) }
    ensures freed_order { OnOk result (FreesByIndex self.old self.new) }

    ensures unchanged { OnErr result ((self.new ≡ self.old) × (out.new.items ≡ out.old.items)) }
    ensures valid { StaysValid true self.old self.new }
```

Words: [`FreesByIndex`](crate::words#freesbyindex), [`Leaves`](crate::words#leaves), [`live`](crate::words#live), [`StaysValid`](crate::words#staysvalid).
"## };
    (slotmap_basic SlotMap from_slots) => { r##"
# Proved

What is proved of the call that this one makes:

```text
pub fn from_slots(alloc: Global, list: Vec<SlotRecord<V>>) -> Result<Self, SlotsError>
    // What the list says, and which slot is used next.
    ensures reads { IfOk result (ReadsAs true list.items) }
    ensures stack { IfOk result (λ made. made.stack ≡ Some (start_stack list.items)) }

    // The errors: the first one that applies is returned.
    ensures accepted { IsOk result → Accepts list.items list_limit }
    ensures err { IfErr result (RefusesStart list.items list_limit) }
```

Words: [`Accepts`](crate::words#accepts), [`list_limit`](crate::words#list_limit), [`ReadsAs`](crate::words#readsas), [`RefusesStart`](crate::words#refusesstart), [`stack`](crate::words#stack), [`start_stack`](crate::words#start_stack).
"## };
    (slotmap_basic SlotMap get) => { r##"
# Proved

What is proved of the call that this one makes:

```text
pub fn get(&self, key: K) -> Option<&V>
    ensures value { option_copied result ≡ map.get self.now.live (K.data_of key) }
    ensures valid { IsContent true self.now }
```

Words: [`IsContent`](crate::words#iscontent), [`live`](crate::words#live).
"## };
    (slotmap_basic SlotMap get_mut) => { r##"
# Proved

What is proved of the call that this one makes:

```text
pub fn get_mut(&mut self, key: K) -> Option<&mut V>
    ensures* writes_back { sem 𝓛 (lends_get K.row V.row self.entry (K.data_of key) result) }
    ensures value { option_copied_mut result ≡ map.get self.old.live (K.data_of key) }
    ensures valid { IsContent true self.old }
```

Words: [`IsContent`](crate::words#iscontent), [`lends_get`](crate::words#lends_get-of-slotmap_basic-lends), [`live`](crate::words#live).
"## };
    (slotmap_basic SlotMap get_unchecked) => { r##"
# Proved

What is proved of the call that this one makes:

```text
pub fn get_unchecked(&self, key: K) -> &V
    requires { IsLive self.now (K.data_of key) }
    ensures value { map.get self.now.live (K.data_of key) ≡ Some result.now }
    ensures valid { IsContent true self.now }
```

Words: [`IsContent`](crate::words#iscontent), [`IsLive`](crate::words#islive), [`live`](crate::words#live).
"## };
    (slotmap_basic SlotMap get_unchecked_mut) => { r##"
# Proved

What is proved of the call that this one makes:

```text
pub fn get_unchecked_mut(&mut self, key: K) -> &mut V
    requires { IsLive self.old (K.data_of key) }
    ensures* writes_back { sem 𝓛 (lends_value K.row V.row self.entry (K.data_of key) result) }
    ensures value { map.get self.old.live (K.data_of key) ≡ Some result.now }
    ensures valid { IsContent true self.old }
```

Words: [`IsContent`](crate::words#iscontent), [`IsLive`](crate::words#islive), [`lends_value`](crate::words#lends_value-of-slotmap_basic-lends), [`live`](crate::words#live).
"## };
    (slotmap_basic SlotMap index) => { r##"
# Proved

What is proved of the call that this one makes:

```text
fn index(&self, key: K) -> &V

ghost can_index = { λ m key. IsLive m (K.data_of key) };

ghost index_gives = { λ m key value. map.get m.live (K.data_of key) ≡ Some value };
```

Words: [`IsLive`](crate::words#islive), [`live`](crate::words#live).
"## };
    (slotmap_basic SlotMap index_mut) => { r##"
# Proved

What is proved of the call that this one makes:

```text
fn index_mut(&mut self, key: K) -> &mut V
    requires { IsLive self.old (K.data_of key) }
    ensures* writes_back { sem 𝓛 (lends_value K.row V.row self.entry (K.data_of key) result) }
    ensures value { map.get self.old.live (K.data_of key) ≡ Some result.now }
    ensures valid { IsContent true self.old }
```

Words: [`IsContent`](crate::words#iscontent), [`IsLive`](crate::words#islive), [`lends_value`](crate::words#lends_value-of-slotmap_basic-lends), [`live`](crate::words#live).
"## };
    (slotmap_basic SlotMap insert) => { r##"
# Proved

What is proved of the call that this one makes:

```text
pub fn insert(&mut self, value: V) -> Result<K, InsertError<V>>
    ensures ok { IfOk result (λ key. Inserts self.old (K.data_of key) value self.new) }
    ensures err { IfErr result (λ error. Refuses self.old value error) }

    // If a slot is vacant, the call can't fail.
    ensures reuses { HasVacant self.old → IsOk result }

    ensures valid { MayGrow true self.old (IsErr result) self.new }
```

Words: [`HasVacant`](crate::words#hasvacant), [`Inserts`](crate::words#inserts), [`MayGrow`](crate::words#maygrow), [`Refuses`](crate::words#refuses).
"## };
    (slotmap_basic SlotMap insert_with_key) => { r##"
# Proved

What is proved of the call that this one makes:

```text
pub fn insert_with_key<F: FnOnce(K) -> V>(&mut self, f: F) -> Result<K, InsertWithError>
where
    F: Drop,
    // It is called if there is a slot, with the key that the value will have.
    requires { used self.old < most → (key : K) → K.data_of key ≡ self.old.offer → F.pre f key }

    ensures ok { IfOk result (λ key. (v : V) × F.post f key v
        × Inserts self.old (K.data_of key) v self.new) }
    ensures err { IfErr result (RefusesInsert self.old) }

    // If a slot is vacant, the call can't fail.
    ensures reuses { HasVacant self.old → IsOk result }

    ensures valid { MayGrow true self.old (IsErr result) self.new }
```

Words: [`HasVacant`](crate::words#hasvacant), [`Inserts`](crate::words#inserts), [`MayGrow`](crate::words#maygrow), [`most`](crate::words#most), [`offer`](crate::words#offer), [`RefusesInsert`](crate::words#refusesinsert), [`used`](crate::words#used).
"## };
    (slotmap_basic SlotMap into_iter) => { r##"
# Proved

What is proved of the call that this one makes:

```text
fn into_iter(self) -> IntoIter<K, V>

ghost into_iter_gives = { λ m it. ListsByIndex m.live it };
```

Words: [`ListsByIndex`](crate::words#listsbyindex), [`live`](crate::words#live).
"## };
    (slotmap_basic SlotMap is_empty) => { r##"
# Proved

What is proved of the call that this one makes:

```text
pub fn is_empty(&self) -> bool
    ensures value { IsTrue result ↔ (map.len self.now.live ≡ 0) }
    ensures valid { IsContent true self.now }
```

Words: [`IsContent`](crate::words#iscontent), [`live`](crate::words#live).
"## };
    (slotmap_basic SlotMap iter) => { r##"
# Proved

What is proved of the call that this one makes:

```text
pub fn iter(&self) -> Iter<'_, K, V>
    ensures listing { IsListing self.now.live result }
    ensures in_order { result ≡ map.entries self.now.live }
    ensures valid { IsContent true self.now }
```

Words: [`IsContent`](crate::words#iscontent), [`IsListing`](crate::words#islisting), [`live`](crate::words#live).
"## };
    (slotmap_basic SlotMap key_at) => { r##"
# Proved

What is proved of the call that this one makes:

```text
pub fn key_at(&self, index: u32) -> Option<K>
    ensures live { IfSome result (λ key. IsLive self.now (K.data_of key)) }
    ensures index { IfSome result (λ key. (K.data_of key).index ≡ index) }
    ensures none { IfNone result ((other : KeyOf) → IsLive self.now other → other.index ≢ index) }
    ensures valid { IsContent true self.now }
```

Words: [`index`](crate::words#index), [`IsContent`](crate::words#iscontent), [`IsLive`](crate::words#islive), [`Key`](crate::words#key).
"## };
    (slotmap_basic SlotMap keys) => { r##"
# Proved

What is proved of the call that this one makes:

```text
pub fn keys(&self) -> Keys<'_, K, V>
    ensures listing { IsKeyListing self.now.live result }
    ensures in_order { result ≡ map.keys self.now.live }
    ensures valid { IsContent true self.now }
```

Words: [`IsContent`](crate::words#iscontent), [`IsKeyListing`](crate::words#iskeylisting), [`live`](crate::words#live).
"## };
    (slotmap_basic SlotMap keys_into) => { r##"
# Proved

What is proved of the call that this one makes:

```text
pub fn keys_into(&self, out: &mut Vec<K>) -> Result<(), OutOfMemory>
    ensures ok { OnOk result ((keys : List K) × (out.new.items ≡ out.old.items ++ keys)
        × (list_map K.data_of keys ≡ map.keys self.now.live)) }
    ensures unchanged { OnErr result (out.new.items ≡ out.old.items) }
    ensures valid { IsContent true self.now }
```

Words: [`IsContent`](crate::words#iscontent), [`live`](crate::words#live).
"## };
    (slotmap_basic SlotMap len) => { r##"
# Proved

What is proved of the call that this one makes:

```text
pub fn len(&self) -> usize
    ensures value { result ≡ map.len self.now.live }
    ensures valid { IsContent true self.now }
```

Words: [`IsContent`](crate::words#iscontent), [`live`](crate::words#live).
"## };
    (slotmap_basic SlotMap new) => { r##"
# Proved

What is proved of the call that this one makes:

```text
pub fn new(alloc: Global) -> Result<Self, ReserveError>
    ensures starts { IfOk result IsNew }
    ensures stack { IfOk result (λ made. made.stack ≡ Some []) }
    ensures err { IfErr result (λ error. error ≡ ReserveError.Memory) }
    ensures valid { IfOk result (IsContent true) }
```

Words: [`IsContent`](crate::words#iscontent), [`IsNew`](crate::words#isnew), [`stack`](crate::words#stack).
"## };
    (slotmap_basic SlotMap next_after) => { r##"
# Proved

What is proved of the call that this one makes:

```text
pub fn next_after(&self, key: Option<K>) -> Option<(K, &V)>
    ensures value { IfSome result (λ found. map.get self.now.live (K.data_of found.0) ≡ Some found.1.now) }
    ensures after { IfSome result (λ found. index_after K.data_of key ≤ (K.data_of found.0).index) }
    ensures first { IfSome result (λ found. (other : KeyOf) → IsLive self.now other →
        index_after K.data_of key ≤ other.index → (K.data_of found.0).index ≤ other.index) }
    ensures none { IfNone result ((other : KeyOf) → IsLive self.now other → other.index < index_after K.data_of key) }
    ensures valid { IsContent true self.now }
```

Words: [`index`](crate::words#index), [`index_after`](crate::words#index_after), [`IsContent`](crate::words#iscontent), [`IsLive`](crate::words#islive), [`Key`](crate::words#key), [`live`](crate::words#live).
"## };
    (slotmap_basic SlotMap reattach) => { r##"
# Proved

What is proved of the call that this one makes:

```text
pub fn reattach(&mut self, key: K, value: V) -> Result<(), ReattachError<V>>
    ensures ok { OnOk result (Reattaches self.old (K.data_of key) value self.new) }
    ensures err { IfErr result (λ error. (error ≡ ReattachError.NotDetached value)
        × (IsDetached self.old (K.data_of key) → ⊥)) }
    ensures unchanged { OnErr result (self.new ≡ self.old) }
    ensures valid { StaysValid true self.old self.new }
```

Words: [`IsDetached`](crate::words#isdetached), [`Reattaches`](crate::words#reattaches), [`StaysValid`](crate::words#staysvalid).
"## };
    (slotmap_basic SlotMap remove) => { r##"
# Proved

What is proved of the call that this one makes:

```text
pub fn remove(&mut self, key: K) -> Option<V>
    ensures value { result ≡ map.get self.old.live (K.data_of key) }
    ensures removes { OnSome result (Removes self.old (K.data_of key) self.new) }
    ensures unchanged { IfNone result (self.new ≡ self.old) }
    ensures live { self.new.live ≡ map.remove self.old.live (K.data_of key) }
    ensures valid { StaysValid true self.old self.new }
```

Words: [`live`](crate::words#live), [`Removes`](crate::words#removes), [`StaysValid`](crate::words#staysvalid).
"## };
    (slotmap_basic SlotMap replace) => { r##"
# Proved

What is proved of the call that this one makes:

```text
pub fn replace(&mut self, key: K, value: V) -> Result<V, V>
    ensures ok { IfOk result (λ before. map.get self.old.live (K.data_of key) ≡ Some before) }
    ensures replaces { OnOk result (self.new ≡ with_value self.old (K.data_of key) value) }
    ensures err { IfErr result (λ back. ¬ (IsLive self.old (K.data_of key)) × (back ≡ value)) }
    ensures unchanged { OnErr result (self.new ≡ self.old) }
    ensures valid { StaysValid true self.old self.new }
```

Words: [`IsLive`](crate::words#islive), [`live`](crate::words#live), [`StaysValid`](crate::words#staysvalid), [`with_value`](crate::words#with_value-of-slotmap_core-transition).
"## };
    (slotmap_basic SlotMap replace_disjoint) => { r##"
# Proved

What is proved of the call that this one makes:

```text
pub fn replace_disjoint<const N: usize>(
    &mut self,
    keys: [K; N],
    mut values: [V; N],
) -> Result<[V; N], [V; N]>
    ensures which { IsOk result ↔ CanReplace self.old (map_list K.data_of keys) }
    ensures value { IfOk result (AreValuesOf self.old (map_list K.data_of keys)) }
    ensures ok { OnOk result (self.new ≡ with_values self.old (map_list K.data_of keys) values) }

    ensures err { IfErr result (λ given. given ≡ values) }
    ensures unchanged { OnErr result (self.new ≡ self.old) }
    ensures valid { StaysValid true self.old self.new }
```

Words: [`AreValuesOf`](crate::words#arevaluesof-of-slotmap_core-disjoint), [`CanReplace`](crate::words#canreplace-of-slotmap_core-disjoint), [`StaysValid`](crate::words#staysvalid), [`with_values`](crate::words#with_values-of-slotmap_core-disjoint).
"## };
    (slotmap_basic SlotMap reserve) => { r##"
# Proved

What is proved of the call that this one makes:

```text
pub fn reserve(&mut self, additional: usize) -> Result<(), ReserveError>
    ensures makes_room { MakesRoom true self.old additional (IsOk result) self.new }
    ensures err { IfErr result (RefusesCapacity (used self.old + additional)) }
    ensures reuses { additional ≤ map.len self.old.next → IsOk result }
```

Words: [`MakesRoom`](crate::words#makesroom), [`next`](crate::words#next), [`RefusesCapacity`](crate::words#refusescapacity), [`used`](crate::words#used).
"## };
    (slotmap_basic SlotMap retain) => { r##"
# Proved

What is proved of the call that this one makes:

```text
pub fn retain<F: FnMut(K, &mut V) -> bool>(&mut self, mut f: F)
where
    F: Drop,
    // For each entry, in each state in which calls for other entries leave the closure.
    requires { CallableOnEach F.FnMut K.data_of f self.old.live }
    ensures retained { RetainsBy F.FnMut K.data_of f self.old.live self.new.live }
    ensures leaves { Leaves self.old self.new }
    ensures freed_order { FreesByIndex self.old self.new }
    ensures valid { StaysValid true self.old self.new }
```

Words: [`CallableOnEach`](crate::words#callableoneach), [`FreesByIndex`](crate::words#freesbyindex), [`Leaves`](crate::words#leaves), [`live`](crate::words#live), [`RetainsBy`](crate::words#retainsby), [`StaysValid`](crate::words#staysvalid).
"## };
    (slotmap_basic SlotMap to_slots) => { r##"
# Proved

What is proved of the call that this one makes:

```text
pub fn to_slots(&self) -> Result<Vec<SlotRecord<V>>, OutOfMemory>
where
    V: Clone,
    // The list is that of a copy, and has a clone under each live key.
    ensures writes { IfOk result (λ slots. WritesClones V.is_clone true self.now slots.items) }
    ensures contents { IfOk result (λ slots. (k : KeyOf) → IsCloneOf V.is_clone (map.get self.now.live k) (map.get (start_live slots.items) k)) }

    // Where clones equal their values, it is the map's own list.
    ensures writes_if_clones_equal { IfOk result (λ slots. ClonesEqual V.is_clone → Writes self.now slots.items) }
    ensures contents_if_clones_equal { IfOk result (λ slots. ClonesEqual V.is_clone → start_live slots.items ≡ self.now.live) }

    ensures valid { IsContent true self.now }
```

Words: [`ClonesEqual`](crate::words#clonesequal), [`IsCloneOf`](crate::words#iscloneof), [`IsContent`](crate::words#iscontent), [`Key`](crate::words#key), [`live`](crate::words#live), [`start_live`](crate::words#start_live), [`Writes`](crate::words#writes), [`WritesClones`](crate::words#writesclones).
"## };
    (slotmap_basic SlotMap try_insert_with_key) => { r##"
# Proved

What is proved of the call that this one makes:

```text
pub fn try_insert_with_key<F, E>(&mut self, f: F) -> Result<K, TryInsertError<E>>
where
    F: FnOnce(K) -> Result<V, E> + Drop,
    // It is called if there is a slot, with the key that the value will have.
    requires { used self.old < most → (key : K) → K.data_of key ≡ self.old.offer → F.pre f key }

    ensures ok { IfOk result (λ key. (v : V) × F.post f key (Ok v)
        × Inserts self.old (K.data_of key) v self.new) }
    ensures err { IfErr result (λ error. RefusesWith K.data_of (F.post f) self.old error) }

    // If a slot is vacant, memory can't run out.
    ensures reuses { result ≡ Err TryInsertError.Memory → map.len self.old.next ≡ 0 }

    ensures valid { MayGrow true self.old (IsErr result) self.new }
```

Words: [`Inserts`](crate::words#inserts), [`MayGrow`](crate::words#maygrow), [`most`](crate::words#most), [`next`](crate::words#next), [`offer`](crate::words#offer), [`RefusesWith`](crate::words#refuseswith), [`used`](crate::words#used).
"## };
    (slotmap_basic SlotMap try_reserve) => { r##"
# Proved

What is proved of the call that this one makes:

```text
pub fn try_reserve(&mut self, additional: usize) -> Result<(), ReserveError>
    ensures makes_room { MakesRoom true self.old additional (IsOk result) self.new }
    ensures err { IfErr result (RefusesCapacity (used self.old + additional)) }
    ensures reuses { additional ≤ map.len self.old.next → IsOk result }
```

Words: [`MakesRoom`](crate::words#makesroom), [`next`](crate::words#next), [`RefusesCapacity`](crate::words#refusescapacity), [`used`](crate::words#used).
"## };
    (slotmap_basic SlotMap values) => { r##"
# Proved

What is proved of the call that this one makes:

```text
pub fn values(&self) -> Values<'_, K, V>
    ensures listing { IsValueListing self.now.live result }
    ensures in_order { result ≡ map.values self.now.live }
    ensures valid { IsContent true self.now }
```

Words: [`IsContent`](crate::words#iscontent), [`IsValueListing`](crate::words#isvaluelisting), [`live`](crate::words#live).
"## };
    (slotmap_basic SlotMap with_capacity) => { r##"
# Proved

What is proved of the call that this one makes:

```text
pub fn with_capacity(alloc: Global, capacity: usize) -> Result<Self, ReserveError>
    ensures starts { IfOk result IsNew }
    ensures stack { IfOk result (λ made. made.stack ≡ Some []) }
    ensures room { IfOk result (λ made. capacity ≤ made.room) }
    ensures capacity { IfOk result (λ made. capacity ≤ made.capacity) }
    ensures err { IfErr result (RefusesCapacity capacity) }
    ensures valid { IfOk result (IsContent true) }
```

Words: [`capacity`](crate::words#capacity-of-slotmap_core-content), [`IsContent`](crate::words#iscontent), [`IsNew`](crate::words#isnew), [`RefusesCapacity`](crate::words#refusescapacity), [`room`](crate::words#room-of-slotmap_core-content), [`stack`](crate::words#stack).
"## };
    (slotmap_basic SlotMap with_capacity_and_key) => { r##"
# Proved

What is proved of the call that this one makes:

```text
pub fn with_capacity_and_key(alloc: Global, capacity: usize) -> Result<Self, ReserveError>
    ensures starts { IfOk result IsNew }
    ensures stack { IfOk result (λ made. made.stack ≡ Some []) }
    ensures room { IfOk result (λ made. capacity ≤ made.room) }
    ensures capacity { IfOk result (λ made. capacity ≤ made.capacity) }
    ensures err { IfErr result (RefusesCapacity capacity) }
    ensures valid { IfOk result (IsContent true) }
```

Words: [`capacity`](crate::words#capacity-of-slotmap_core-content), [`IsContent`](crate::words#iscontent), [`IsNew`](crate::words#isnew), [`RefusesCapacity`](crate::words#refusescapacity), [`room`](crate::words#room-of-slotmap_core-content), [`stack`](crate::words#stack).
"## };
    (slotmap_basic SlotMap with_key) => { r##"
# Proved

What is proved of the call that this one makes:

```text
pub fn with_key(alloc: Global) -> Result<Self, ReserveError>
    ensures starts { IfOk result IsNew }
    ensures stack { IfOk result (λ made. made.stack ≡ Some []) }
    ensures err { IfErr result (λ error. error ≡ ReserveError.Memory) }
    ensures valid { IfOk result (IsContent true) }
```

Words: [`IsContent`](crate::words#iscontent), [`IsNew`](crate::words#isnew), [`stack`](crate::words#stack).
"## };
    (slotmap_basic Values clone) => { r##"
# Proved

What is proved of the call that this one makes:

```text
fn clone(&self) -> Result<Self, AllocError>

ghost is_clone = { λ it copy. copy ≡ it };

ghost is_infallible = { λ _. ⊤ };
```
"## };
    (slotmap_basic Values len) => { r##"
# Proved

What is proved of the call that this one makes:

```text
pub fn len(&self) -> usize
    ensures { result ≡ length self.now }
```
"## };
    (slotmap_basic Values next) => { r##"
# Proved

What is proved of the call that this one makes:

```text
fn next(&mut self) -> Option<&'a V>

ghost next_gives = { YieldsFirstBy (λ item. item.now) (λ rest. rest) };

ghost remaining = { item_count (λ rest. rest) };
```
"## };
    (slotmap_basic Values size_hint) => { r##"
# Proved

What is proved of the call that this one makes:

```text
fn size_hint(&self) -> (usize, Option<usize>)
    ensures lower { result.0 ≤ length self.now }
    ensures upper { IfSome result.1 (UpTo (at_most (length self.now))) }
    ensures exact { result ≡ (length self.now, Some (length self.now)) }
```
"## };
    (slotmap_dense DenseSlotMap as_mut_slices) => { r##"
# Proved

What is proved of the call that this one makes:

```text
pub fn as_mut_slices(&mut self) -> (&[K], &mut [V])
    ensures* writes_back { sem 𝓛 (lends_iter K.row V.row K.Key self.entry result.1.ghost_name) }
    ensures keys { list_map K.data_of result.0.now ≡ self.old.keys }
    ensures values { result.1.now ≡ self.old.values }
    ensures valid { IsDense self.old }
```

Words: [`IsDense`](crate::words#isdense), [`keys`](crate::words#keys-of-slotmap_dense-dense), [`lends_iter`](crate::words#lends_iter), [`values`](crate::words#values).
"## };
    (slotmap_dense DenseSlotMap as_slices) => { r##"
# Proved

What is proved of the call that this one makes:

```text
pub fn as_slices(&self) -> (&[K], &[V])
    ensures keys { list_map K.data_of result.0.now ≡ self.now.keys }
    ensures values { result.1.now ≡ self.now.values }
    ensures valid { IsDense self.now }
```

Words: [`IsDense`](crate::words#isdense), [`keys`](crate::words#keys-of-slotmap_dense-dense), [`values`](crate::words#values).
"## };
    (slotmap_dense DenseSlotMap can_replace) => { r##"
# Proved

What is proved of the call that this one makes:

```text
pub fn can_replace(&self, keys: &[K]) -> bool
    ensures which { IsTrue result ↔ CanReplace value_of self.now (map_list K.data_of keys.now) }
    ensures valid { IsDense self.now }
```

Words: [`CanReplace`](crate::words#canreplace-of-slotmap_core-several), [`IsDense`](crate::words#isdense), [`value_of`](crate::words#value_of-of-slotmap_dense-dense).
"## };
    (slotmap_dense DenseSlotMap capacity) => { r##"
# Proved

What is proved of the call that this one makes:

```text
pub fn capacity(&self) -> usize
    ensures value { result ≡ self.now.content.capacity }
    ensures valid { IsDense self.now }
```

Words: [`capacity`](crate::words#capacity-of-slotmap_core-content), [`content`](crate::words#content-of-slotmap_dense-dense), [`IsDense`](crate::words#isdense).
"## };
    (slotmap_dense DenseSlotMap clear) => { r##"
# Proved

What is proved of the call that this one makes:

```text
pub fn clear(&mut self)
    ensures empty { self.new.content.live ≡ map.empty }
    ensures none { IsEmpty self.new }
    ensures leaves { Leaves self.old.content self.new.content }
    ensures freed_order { FreesFromBack self.old self.new }
    ensures valid { StaysDense self.old self.new }
```

Words: [`content`](crate::words#content-of-slotmap_dense-dense), [`FreesFromBack`](crate::words#freesfromback), [`IsEmpty`](crate::words#isempty), [`Leaves`](crate::words#leaves), [`live`](crate::words#live), [`StaysDense`](crate::words#staysdense).
"## };
    (slotmap_dense DenseSlotMap clone) => { r##"
# Proved

What is proved of the call that this one makes:

```text
pub fn clone(&self) -> Result<Self, AllocError>
    ensures clones { IfOk result (λ copy. IsCloneBy V.is_clone self.now.content copy.content) }
    ensures order { IfOk result (ClonesInOrder V.is_clone self.now) }

    // Where clones equal their values.
    ensures copies_if_clones_equal { IfOk result (λ copy. ClonesEqual V.is_clone → IsCopy self.now.content copy.content) }
    ensures order_if_clones_equal { IfOk result (λ copy. ClonesEqual V.is_clone → SameOrder self.now copy) }

    ensures valid { IfOk result IsDense }
```

Words: [`ClonesEqual`](crate::words#clonesequal), [`ClonesInOrder`](crate::words#clonesinorder), [`content`](crate::words#content-of-slotmap_dense-dense), [`IsCloneBy`](crate::words#iscloneby), [`IsCopy`](crate::words#iscopy), [`IsDense`](crate::words#isdense), [`SameOrder`](crate::words#sameorder).
"## };
    (slotmap_dense DenseSlotMap clone_from) => { r##"
# Proved

What is proved of the call that this one makes:

```text
pub fn clone_from(&mut self, source: &Self) -> Result<(), AllocError>
where
    V: Drop,
    ensures clones { OnOk result (IsCloneBy V.is_clone source.now.content self.new.content) }
    ensures order { OnOk result (ClonesInOrder V.is_clone source.now self.new) }

    // Where clones equal their values.
    ensures copies_if_clones_equal { OnOk result (ClonesEqual V.is_clone → IsCopy source.now.content self.new.content) }
    ensures order_if_clones_equal { OnOk result (ClonesEqual V.is_clone → SameOrder source.now self.new) }

    ensures unchanged { OnErr result (self.new ≡ self.old) }
    ensures valid { OnOk result (IsDense self.new) }
```

Words: [`ClonesEqual`](crate::words#clonesequal), [`ClonesInOrder`](crate::words#clonesinorder), [`content`](crate::words#content-of-slotmap_dense-dense), [`IsCloneBy`](crate::words#iscloneby), [`IsCopy`](crate::words#iscopy), [`IsDense`](crate::words#isdense), [`SameOrder`](crate::words#sameorder).
"## };
    (slotmap_dense DenseSlotMap contains_key) => { r##"
# Proved

What is proved of the call that this one makes:

```text
pub fn contains_key(&self, key: K) -> bool
    ensures value { result ≡ map.contains_key self.now.content.live (K.data_of key) }
    ensures valid { IsDense self.now }
```

Words: [`content`](crate::words#content-of-slotmap_dense-dense), [`IsDense`](crate::words#isdense), [`live`](crate::words#live).
"## };
    (slotmap_dense DenseSlotMap detach) => { r##"
# Proved

What is proved of the call that this one makes:

```text
pub fn detach(&mut self, key: K) -> Option<V>
    ensures value { result ≡ map.get self.old.content.live (K.data_of key) }
    ensures detaches { OnSome result (Detaches self.old.content (K.data_of key) self.new.content) }
    ensures order { IfSome result (λ value. ClosesGap self.old (K.data_of key) value self.new) }
    ensures live { self.new.content.live ≡ map.remove self.old.content.live (K.data_of key) }
    ensures unchanged { IfNone result (self.new ≡ self.old) }
    ensures valid { StaysDense self.old self.new }
```

Words: [`ClosesGap`](crate::words#closesgap), [`content`](crate::words#content-of-slotmap_dense-dense), [`Detaches`](crate::words#detaches), [`live`](crate::words#live), [`StaysDense`](crate::words#staysdense).
"## };
    (slotmap_dense DenseSlotMap drain) => { r##"
# Proved

What is proved of the call that this one makes:

```text
pub fn drain(&mut self) -> Drain<'_, K, V>
    ensures map { (dense_drain_loan result).now ≡ self.old }
    ensures same_reference { (dense_drain_loan result).ghost_name ≡ self.entry.ghost_name }
    // Laws of the steps, for callers that take more of them.
    ensures stays { KeepsAlong (DenseDrainSteps K.data_of) (KeepsLoan dense_drain_loan EmptiesDense) result }
    ensures lists { ListsAlong K.data_of dense_drain_live (DenseDrainSteps K.data_of) result }
    ensures in_order { Along (DenseDrainSteps K.data_of) (DrainsFromBack K.data_of) result }
    ensures valid { IsDense self.old }
```

Words: [`Along`](crate::words#along), [`dense_drain_live`](crate::words#dense_drain_live), [`dense_drain_loan`](crate::words#dense_drain_loan), [`DenseDrainSteps`](crate::words#densedrainsteps), [`DrainsFromBack`](crate::words#drainsfromback), [`EmptiesDense`](crate::words#emptiesdense), [`IsDense`](crate::words#isdense), [`KeepsAlong`](crate::words#keepsalong), [`KeepsLoan`](crate::words#keepsloan), [`ListsAlong`](crate::words#listsalong).
"## };
    (slotmap_dense DenseSlotMap drain_into) => { r##"
# Proved

What is proved of the call that this one makes:

```text
pub fn drain_into(&mut self, out: &mut Vec<(K, V)>) -> Result<(), OutOfMemory>
    ensures ok { OnOk result ((pairs : List (K × V)) × (out.new.items ≡ out.old.items ++ pairs) × IsListing self.old.content.live (list_map (λ p. (K.data_of p.0, p.1)) pairs)) }
    ensures in_order { OnOk result (list_map (λ p. (K.data_of p.0, p.1)) out.new.items
        ≡ list_map (λ p. (K.data_of p.0, p.1)) out.old.items ++ reverse (zip self.old.keys self.old.values)) }
    ensures empty { OnOk result (self.new.content.live ≡ map.empty) }
    ensures leaves { OnOk result (Leaves self.old.content self.new.content) }
    ensures freed_order { OnOk result (FreesFromBack self.old self.new) }

    ensures unchanged { OnErr result ((self.new ≡ self.old) × (out.new.items ≡ out.old.items)) }
    ensures valid { StaysDense self.old self.new }
```

Words: [`content`](crate::words#content-of-slotmap_dense-dense), [`FreesFromBack`](crate::words#freesfromback), [`IsListing`](crate::words#islisting), [`keys`](crate::words#keys-of-slotmap_dense-dense), [`Leaves`](crate::words#leaves), [`live`](crate::words#live), [`StaysDense`](crate::words#staysdense), [`values`](crate::words#values).
"## };
    (slotmap_dense DenseSlotMap from_slots) => { r##"
# Proved

What is proved of the call that this one makes:

```text
pub fn from_slots(alloc: Global, list: Vec<SlotRecord<V>>) -> Result<Self, SlotsError>
    ensures reads { IfOk result (λ made. ReadsAs false list.items made.content) }
    ensures stack { IfOk result (λ made. made.content.stack ≡ Some (start_stack list.items)) }
    ensures accepted { IsOk result → Accepts list.items list_limit }
    ensures in_order { IfOk result (λ made. made.keys ≡ map.keys made.content.live) }
    ensures err { IfErr result (RefusesStart list.items list_limit) }
    ensures valid { IfOk result IsDense }
```

Words: [`Accepts`](crate::words#accepts), [`content`](crate::words#content-of-slotmap_dense-dense), [`IsDense`](crate::words#isdense), [`list_limit`](crate::words#list_limit), [`live`](crate::words#live), [`ReadsAs`](crate::words#readsas), [`RefusesStart`](crate::words#refusesstart), [`stack`](crate::words#stack), [`start_stack`](crate::words#start_stack).
"## };
    (slotmap_dense DenseSlotMap get) => { r##"
# Proved

What is proved of the call that this one makes:

```text
pub fn get(&self, key: K) -> Option<&V>
    ensures value { option_copied result ≡ map.get self.now.content.live (K.data_of key) }
    ensures valid { IsDense self.now }
```

Words: [`content`](crate::words#content-of-slotmap_dense-dense), [`IsDense`](crate::words#isdense), [`live`](crate::words#live).
"## };
    (slotmap_dense DenseSlotMap get_disjoint_mut) => { r##"
# Proved

What is proved of the call that this one makes:

```text
pub fn get_disjoint_mut(&mut self, keys: [K; 2]) -> Option<(&mut V, &mut V)>
    ensures which { IsSome result ↔ CanReplace value_of self.old (map_list K.data_of keys) }
    ensures value { IfSome result (λ pair. AreValuesOf value_of self.old (map_list K.data_of keys) (pair.0.now ∷ pair.1.now ∷ [])) }
    ensures valid { IsDense self.old }
```

Words: [`AreValuesOf`](crate::words#arevaluesof-of-slotmap_core-several), [`CanReplace`](crate::words#canreplace-of-slotmap_core-several), [`IsDense`](crate::words#isdense), [`value_of`](crate::words#value_of-of-slotmap_dense-dense).
"## };
    (slotmap_dense DenseSlotMap get_disjoint_unchecked_mut) => { r##"
# Proved

What is proved of the call that this one makes:

```text
pub fn get_disjoint_unchecked_mut(&mut self, keys: [K; 2]) -> (&mut V, &mut V)
    requires { CanReplace value_of self.old (map_list K.data_of keys) }
    ensures value { AreValuesOf value_of self.old (map_list K.data_of keys) (result.0.now ∷ result.1.now ∷ []) }
    ensures valid { IsDense self.old }
```

Words: [`AreValuesOf`](crate::words#arevaluesof-of-slotmap_core-several), [`CanReplace`](crate::words#canreplace-of-slotmap_core-several), [`IsDense`](crate::words#isdense), [`value_of`](crate::words#value_of-of-slotmap_dense-dense).
"## };
    (slotmap_dense DenseSlotMap get_mut) => { r##"
# Proved

What is proved of the call that this one makes:

```text
pub fn get_mut(&mut self, key: K) -> Option<&mut V>
    ensures* writes_back { sem 𝓛 (lends_get K.row V.row K.Key self.entry (K.data_of key) result) }
    ensures value { option_copied_mut result ≡ map.get self.old.content.live (K.data_of key) }
    ensures valid { IsDense self.old }
```

Words: [`content`](crate::words#content-of-slotmap_dense-dense), [`IsDense`](crate::words#isdense), [`lends_get`](crate::words#lends_get-of-slotmap_dense-lends), [`live`](crate::words#live).
"## };
    (slotmap_dense DenseSlotMap get_unchecked) => { r##"
# Proved

What is proved of the call that this one makes:

```text
pub fn get_unchecked(&self, key: K) -> &V
    requires { IsLive self.now.content (K.data_of key) }
    ensures value { map.get self.now.content.live (K.data_of key) ≡ Some result.now }
    ensures valid { IsDense self.now }
```

Words: [`content`](crate::words#content-of-slotmap_dense-dense), [`IsDense`](crate::words#isdense), [`IsLive`](crate::words#islive), [`live`](crate::words#live).
"## };
    (slotmap_dense DenseSlotMap get_unchecked_mut) => { r##"
# Proved

What is proved of the call that this one makes:

```text
pub fn get_unchecked_mut(&mut self, key: K) -> &mut V
    requires { IsLive self.old.content (K.data_of key) }
    ensures* writes_back { sem 𝓛 (lends_value K.row V.row K.Key self.entry (K.data_of key) result) }
    ensures value { map.get self.old.content.live (K.data_of key) ≡ Some result.now }
    ensures valid { IsDense self.old }
```

Words: [`content`](crate::words#content-of-slotmap_dense-dense), [`IsDense`](crate::words#isdense), [`IsLive`](crate::words#islive), [`lends_value`](crate::words#lends_value-of-slotmap_dense-lends), [`live`](crate::words#live).
"## };
    (slotmap_dense DenseSlotMap index) => { r##"
# Proved

What is proved of the call that this one makes:

```text
fn index(&self, key: K) -> &V

ghost can_index = { λ m key. IsLive m.content (K.data_of key) };

ghost index_gives = { λ m key value. map.get m.content.live (K.data_of key) ≡ Some value };
```

Words: [`content`](crate::words#content-of-slotmap_dense-dense), [`IsLive`](crate::words#islive), [`live`](crate::words#live).
"## };
    (slotmap_dense DenseSlotMap index_mut) => { r##"
# Proved

What is proved of the call that this one makes:

```text
fn index_mut(&mut self, key: K) -> &mut V
    requires { IsLive self.old.content (K.data_of key) }
    ensures* writes_back { sem 𝓛 (lends_value K.row V.row K.Key self.entry (K.data_of key) result) }
    ensures value { map.get self.old.content.live (K.data_of key) ≡ Some result.now }
    ensures valid { IsDense self.old }
```

Words: [`content`](crate::words#content-of-slotmap_dense-dense), [`IsDense`](crate::words#isdense), [`IsLive`](crate::words#islive), [`lends_value`](crate::words#lends_value-of-slotmap_dense-lends), [`live`](crate::words#live).
"## };
    (slotmap_dense DenseSlotMap insert) => { r##"
# Proved

What is proved of the call that this one makes:

```text
pub fn insert(&mut self, value: V) -> Result<K, InsertError<V>>
    ensures ok { IfOk result (λ key. Inserts self.old.content (K.data_of key) value self.new.content) }
    ensures order { IfOk result (λ key. Appends self.old (K.data_of key) value self.new) }
    ensures err { IfErr result (λ error. Refuses self.old.content value error) }

    ensures valid { GrowsDense self.old (IsErr result) self.new }
```

Words: [`Appends`](crate::words#appends), [`content`](crate::words#content-of-slotmap_dense-dense), [`GrowsDense`](crate::words#growsdense), [`Inserts`](crate::words#inserts), [`Refuses`](crate::words#refuses).
"## };
    (slotmap_dense DenseSlotMap insert_with_key) => { r##"
# Proved

What is proved of the call that this one makes:

```text
pub fn insert_with_key<F: FnOnce(K) -> V>(&mut self, f: F) -> Result<K, InsertWithError>
where
    F: Drop,
    requires { used self.old.content < most → (key : K) → K.data_of key ≡ self.old.content.offer → F.pre f key }

    ensures ok { IfOk result (λ key. (v : V) × F.post f key v
        × Inserts self.old.content (K.data_of key) v self.new.content × Appends self.old (K.data_of key) v self.new) }
    ensures err { IfErr result (RefusesInsert self.old.content) }

    ensures valid { GrowsDense self.old (IsErr result) self.new }
```

Words: [`Appends`](crate::words#appends), [`content`](crate::words#content-of-slotmap_dense-dense), [`GrowsDense`](crate::words#growsdense), [`Inserts`](crate::words#inserts), [`most`](crate::words#most), [`offer`](crate::words#offer), [`RefusesInsert`](crate::words#refusesinsert), [`used`](crate::words#used).
"## };
    (slotmap_dense DenseSlotMap into_iter) => { r##"
# Proved

What is proved of the call that this one makes:

```text
fn into_iter(self) -> IntoIter<K, V>

ghost into_iter_gives = { λ m it. ListsPairs m it };
```

Words: [`ListsPairs`](crate::words#listspairs).
"## };
    (slotmap_dense DenseSlotMap is_empty) => { r##"
# Proved

What is proved of the call that this one makes:

```text
pub fn is_empty(&self) -> bool
    ensures value { IsTrue result ↔ (map.len self.now.content.live ≡ 0) }
    ensures valid { IsDense self.now }
```

Words: [`content`](crate::words#content-of-slotmap_dense-dense), [`IsDense`](crate::words#isdense), [`live`](crate::words#live).
"## };
    (slotmap_dense DenseSlotMap iter) => { r##"
# Proved

What is proved of the call that this one makes:

```text
pub fn iter(&self) -> Iter<'_, K, V>
    ensures listing { IsListing self.now.content.live result }
    ensures in_order { result ≡ zip self.now.keys self.now.values }
    ensures valid { IsDense self.now }
```

Words: [`content`](crate::words#content-of-slotmap_dense-dense), [`IsDense`](crate::words#isdense), [`IsListing`](crate::words#islisting), [`keys`](crate::words#keys-of-slotmap_dense-dense), [`live`](crate::words#live), [`values`](crate::words#values).
"## };
    (slotmap_dense DenseSlotMap iter_mut) => { r##"
# Proved

What is proved of the call that this one makes:

```text
pub fn iter_mut(&mut self) -> IterMut<'_, K, V>
    ensures* writes_back { sem 𝓛 (lends_iter K.row V.row K.Key self.entry (iter_mut_name result)) }
    ensures in_order { iter_mut_rest K.data_of result ≡ zip self.old.keys self.old.values }
    ensures ready { IterMutCanStep result }
    ensures valid { IsDense self.old }
```

Words: [`IsDense`](crate::words#isdense), [`iter_mut_name`](crate::words#iter_mut_name), [`iter_mut_rest`](crate::words#iter_mut_rest), [`IterMutCanStep`](crate::words#itermutcanstep), [`keys`](crate::words#keys-of-slotmap_dense-dense), [`lends_iter`](crate::words#lends_iter), [`values`](crate::words#values).
"## };
    (slotmap_dense DenseSlotMap keys) => { r##"
# Proved

What is proved of the call that this one makes:

```text
pub fn keys(&self) -> Keys<'_, K, V>
    ensures listing { IsKeyListing self.now.content.live result }
    ensures in_order { result ≡ self.now.keys }
    ensures valid { IsDense self.now }
```

Words: [`content`](crate::words#content-of-slotmap_dense-dense), [`IsDense`](crate::words#isdense), [`IsKeyListing`](crate::words#iskeylisting), [`keys`](crate::words#keys-of-slotmap_dense-dense), [`live`](crate::words#live).
"## };
    (slotmap_dense DenseSlotMap keys_as_slice) => { r##"
# Proved

What is proved of the call that this one makes:

```text
pub fn keys_as_slice(&self) -> &[K]
    ensures keys { list_map K.data_of result.now ≡ self.now.keys }
    ensures valid { IsDense self.now }
```

Words: [`IsDense`](crate::words#isdense), [`keys`](crate::words#keys-of-slotmap_dense-dense).
"## };
    (slotmap_dense DenseSlotMap keys_into) => { r##"
# Proved

What is proved of the call that this one makes:

```text
pub fn keys_into(&self, out: &mut Vec<K>) -> Result<(), OutOfMemory>
    ensures ok { OnOk result ((keys : List K) × (out.new.items ≡ out.old.items ++ keys) × IsKeyListing self.now.content.live (list_map K.data_of keys)) }
    ensures in_order { OnOk result (list_map K.data_of out.new.items ≡ list_map K.data_of out.old.items ++ self.now.keys) }
    ensures unchanged { OnErr result (out.new.items ≡ out.old.items) }
    ensures valid { IsDense self.now }
```

Words: [`content`](crate::words#content-of-slotmap_dense-dense), [`IsDense`](crate::words#isdense), [`IsKeyListing`](crate::words#iskeylisting), [`keys`](crate::words#keys-of-slotmap_dense-dense), [`live`](crate::words#live).
"## };
    (slotmap_dense DenseSlotMap len) => { r##"
# Proved

What is proved of the call that this one makes:

```text
pub fn len(&self) -> usize
    ensures value { result ≡ map.len self.now.content.live }
    ensures valid { IsDense self.now }
```

Words: [`content`](crate::words#content-of-slotmap_dense-dense), [`IsDense`](crate::words#isdense), [`live`](crate::words#live).
"## };
    (slotmap_dense DenseSlotMap new) => { r##"
# Proved

What is proved of the call that this one makes:

```text
pub fn new(alloc: Global) -> Result<Self, ReserveError>
    ensures starts { IfOk result (λ made. IsNew made.content) }
    ensures empty { IfOk result IsEmpty }
    ensures stack { IfOk result (λ made. made.content.stack ≡ Some []) }
    ensures err { IfErr result (λ error. error ≡ ReserveError.Memory) }
    ensures valid { IfOk result IsDense }
```

Words: [`content`](crate::words#content-of-slotmap_dense-dense), [`IsDense`](crate::words#isdense), [`IsEmpty`](crate::words#isempty), [`IsNew`](crate::words#isnew), [`stack`](crate::words#stack).
"## };
    (slotmap_dense DenseSlotMap reattach) => { r##"
# Proved

What is proved of the call that this one makes:

```text
pub fn reattach(&mut self, key: K, value: V) -> Result<(), ReattachError<V>>
    ensures ok { OnOk result (Reattaches self.old.content (K.data_of key) value self.new.content) }
    ensures order { OnOk result (Appends self.old (K.data_of key) value self.new) }
    ensures err { IfErr result (λ error. RefusesReattach false self.old.content (K.data_of key) value error) }
    ensures unchanged { OnErr result (Keeps self.old.content self.new.content) }
    ensures valid { GrowsDense self.old (IsErr result) self.new }
```

Words: [`Appends`](crate::words#appends), [`content`](crate::words#content-of-slotmap_dense-dense), [`GrowsDense`](crate::words#growsdense), [`Keeps`](crate::words#keeps), [`Reattaches`](crate::words#reattaches), [`RefusesReattach`](crate::words#refusesreattach).
"## };
    (slotmap_dense DenseSlotMap remove) => { r##"
# Proved

What is proved of the call that this one makes:

```text
pub fn remove(&mut self, key: K) -> Option<V>
    ensures value { result ≡ map.get self.old.content.live (K.data_of key) }
    ensures removes { OnSome result (Removes self.old.content (K.data_of key) self.new.content) }
    ensures order { IfSome result (λ value. ClosesGap self.old (K.data_of key) value self.new) }
    ensures live { self.new.content.live ≡ map.remove self.old.content.live (K.data_of key) }
    ensures unchanged { IfNone result (self.new ≡ self.old) }
    ensures valid { StaysDense self.old self.new }
```

Words: [`ClosesGap`](crate::words#closesgap), [`content`](crate::words#content-of-slotmap_dense-dense), [`live`](crate::words#live), [`Removes`](crate::words#removes), [`StaysDense`](crate::words#staysdense).
"## };
    (slotmap_dense DenseSlotMap replace) => { r##"
# Proved

What is proved of the call that this one makes:

```text
pub fn replace(&mut self, key: K, value: V) -> Result<V, V>
    ensures ok { IfOk result (λ before. map.get self.old.content.live (K.data_of key) ≡ Some before) }
    ensures replaces { OnOk result (self.new ≡ with_value_of self.old (K.data_of key) value) }
    ensures err { IfErr result (λ back. ¬ (IsLive self.old.content (K.data_of key)) × (back ≡ value)) }
    ensures unchanged { OnErr result (self.new ≡ self.old) }
    ensures valid { StaysDense self.old self.new }
```

Words: [`content`](crate::words#content-of-slotmap_dense-dense), [`IsLive`](crate::words#islive), [`live`](crate::words#live), [`StaysDense`](crate::words#staysdense), [`with_value_of`](crate::words#with_value_of).
"## };
    (slotmap_dense DenseSlotMap replace_disjoint) => { r##"
# Proved

What is proved of the call that this one makes:

```text
pub fn replace_disjoint<const N: usize>(
    &mut self,
    keys: [K; N],
    mut values: [V; N],
) -> Result<[V; N], [V; N]>
    ensures which { IsOk result ↔ CanReplace value_of self.old (map_list K.data_of keys) }
    ensures value { IfOk result (AreValuesOf value_of self.old (map_list K.data_of keys)) }
    ensures ok { OnOk result (self.new ≡ with_values with_value_of self.old (map_list K.data_of keys) values) }

    ensures err { IfErr result (λ back. back ≡ values) }
    ensures unchanged { OnErr result (self.new ≡ self.old) }

    ensures valid { StaysDense self.old self.new }
```

Words: [`AreValuesOf`](crate::words#arevaluesof-of-slotmap_core-several), [`CanReplace`](crate::words#canreplace-of-slotmap_core-several), [`StaysDense`](crate::words#staysdense), [`value_of`](crate::words#value_of-of-slotmap_dense-dense), [`with_value_of`](crate::words#with_value_of), [`with_values`](crate::words#with_values-of-slotmap_core-several).
"## };
    (slotmap_dense DenseSlotMap reserve) => { r##"
# Proved

What is proved of the call that this one makes:

```text
pub fn reserve(&mut self, additional: usize) -> Result<(), ReserveError>
    ensures makes_room { MakesDenseRoom self.old additional (IsOk result) self.new }
    ensures err { IfErr result (RefusesCapacity (used self.old.content + additional)) }
```

Words: [`content`](crate::words#content-of-slotmap_dense-dense), [`MakesDenseRoom`](crate::words#makesdenseroom), [`RefusesCapacity`](crate::words#refusescapacity), [`used`](crate::words#used).
"## };
    (slotmap_dense DenseSlotMap retain) => { r##"
# Proved

What is proved of the call that this one makes:

```text
pub fn retain<F: FnMut(K, &mut V) -> bool>(&mut self, mut f: F)
where
    F: Drop,
    // The closure may be called for each entry, whatever calls for other entries made of it.
    requires { CallableOnEach F.FnMut K.data_of f self.old.content.live }
    ensures retained { RetainsBy F.FnMut K.data_of f self.old.content.live self.new.content.live }
    ensures order { RetainsPacked F.FnMut K.data_of f self.old self.new }
    ensures leaves { Leaves self.old.content self.new.content }
    ensures valid { StaysDense self.old self.new }
```

Words: [`CallableOnEach`](crate::words#callableoneach), [`content`](crate::words#content-of-slotmap_dense-dense), [`Leaves`](crate::words#leaves), [`live`](crate::words#live), [`RetainsBy`](crate::words#retainsby), [`RetainsPacked`](crate::words#retainspacked), [`StaysDense`](crate::words#staysdense).
"## };
    (slotmap_dense DenseSlotMap to_slots) => { r##"
# Proved

What is proved of the call that this one makes:

```text
pub fn to_slots(&self) -> Result<Vec<SlotRecord<V>>, OutOfMemory>
where
    V: Clone,
    // The list is that of a copy, and has a clone under each live key.
    ensures writes { IfOk result (λ list. WritesClones V.is_clone false self.now.content list.items) }
    ensures contents { IfOk result (λ list. (k : KeyOf) → IsCloneOf V.is_clone (map.get self.now.content.live k) (map.get (start_live list.items) k)) }

    // Where clones equal their values, it is the map's own list.
    ensures writes_if_clones_equal { IfOk result (λ list. ClonesEqual V.is_clone → Writes self.now.content list.items) }
    ensures contents_if_clones_equal { IfOk result (λ list. ClonesEqual V.is_clone → start_live list.items ≡ self.now.content.live) }

    ensures valid { IsDense self.now }
```

Words: [`ClonesEqual`](crate::words#clonesequal), [`content`](crate::words#content-of-slotmap_dense-dense), [`IsCloneOf`](crate::words#iscloneof), [`IsDense`](crate::words#isdense), [`Key`](crate::words#key), [`live`](crate::words#live), [`start_live`](crate::words#start_live), [`Writes`](crate::words#writes), [`WritesClones`](crate::words#writesclones).
"## };
    (slotmap_dense DenseSlotMap try_insert_with_key) => { r##"
# Proved

What is proved of the call that this one makes:

```text
pub fn try_insert_with_key<F, E>(&mut self, f: F) -> Result<K, TryInsertError<E>>
where
    F: FnOnce(K) -> Result<V, E> + Drop,
    requires { used self.old.content < most → (key : K) → K.data_of key ≡ self.old.content.offer → F.pre f key }

    ensures ok { IfOk result (λ key. (v : V) × F.post f key (Ok v)
        × Inserts self.old.content (K.data_of key) v self.new.content × Appends self.old (K.data_of key) v self.new) }
    ensures err { IfErr result (λ error. RefusesWith K.data_of (F.post f) self.old.content error) }

    ensures valid { GrowsDense self.old (IsErr result) self.new }
```

Words: [`Appends`](crate::words#appends), [`content`](crate::words#content-of-slotmap_dense-dense), [`GrowsDense`](crate::words#growsdense), [`Inserts`](crate::words#inserts), [`most`](crate::words#most), [`offer`](crate::words#offer), [`RefusesWith`](crate::words#refuseswith), [`used`](crate::words#used).
"## };
    (slotmap_dense DenseSlotMap try_reserve) => { r##"
# Proved

What is proved of the call that this one makes:

```text
pub fn try_reserve(&mut self, additional: usize) -> Result<(), ReserveError>
    ensures makes_room { MakesDenseRoom self.old additional (IsOk result) self.new }
    ensures err { IfErr result (RefusesCapacity (used self.old.content + additional)) }
```

Words: [`content`](crate::words#content-of-slotmap_dense-dense), [`MakesDenseRoom`](crate::words#makesdenseroom), [`RefusesCapacity`](crate::words#refusescapacity), [`used`](crate::words#used).
"## };
    (slotmap_dense DenseSlotMap values) => { r##"
# Proved

What is proved of the call that this one makes:

```text
pub fn values(&self) -> Values<'_, K, V>
    ensures listing { IsValueListing self.now.content.live result }
    ensures in_order { result ≡ self.now.values }
    ensures valid { IsDense self.now }
```

Words: [`content`](crate::words#content-of-slotmap_dense-dense), [`IsDense`](crate::words#isdense), [`IsValueListing`](crate::words#isvaluelisting), [`live`](crate::words#live), [`values`](crate::words#values).
"## };
    (slotmap_dense DenseSlotMap values_as_mut_slice) => { r##"
# Proved

What is proved of the call that this one makes:

```text
pub fn values_as_mut_slice(&mut self) -> &mut [V]
    ensures* writes_back { sem 𝓛 (lends_values K.row V.row K.Key self.entry result) }
    ensures value { result.now ≡ self.old.values }
    ensures valid { IsDense self.old }
```

Words: [`IsDense`](crate::words#isdense), [`lends_values`](crate::words#lends_values), [`values`](crate::words#values).
"## };
    (slotmap_dense DenseSlotMap values_as_slice) => { r##"
# Proved

What is proved of the call that this one makes:

```text
pub fn values_as_slice(&self) -> &[V]
    ensures values { result.now ≡ self.now.values }
    ensures valid { IsDense self.now }
```

Words: [`IsDense`](crate::words#isdense), [`values`](crate::words#values).
"## };
    (slotmap_dense DenseSlotMap values_mut) => { r##"
# Proved

What is proved of the call that this one makes:

```text
pub fn values_mut(&mut self) -> ValuesMut<'_, K, V>
    ensures* writes_back { sem 𝓛 (lends_iter K.row V.row K.Key self.entry (values_mut_name result)) }
    ensures in_order { values_mut_rest result ≡ self.old.values }
    ensures runs { YieldsMutRefsInOrder (values_mut_steps {K = K} {V = V}) values_mut_rest }
    ensures valid { IsDense self.old }
```

Words: [`IsDense`](crate::words#isdense), [`lends_iter`](crate::words#lends_iter), [`values`](crate::words#values), [`values_mut_name`](crate::words#values_mut_name), [`values_mut_rest`](crate::words#values_mut_rest), [`values_mut_steps`](crate::words#values_mut_steps).
"## };
    (slotmap_dense DenseSlotMap with_capacity) => { r##"
# Proved

What is proved of the call that this one makes:

```text
pub fn with_capacity(alloc: Global, capacity: usize) -> Result<Self, ReserveError>
    ensures starts { IfOk result (λ made. IsNew made.content) }
    ensures empty { IfOk result IsEmpty }
    ensures stack { IfOk result (λ made. made.content.stack ≡ Some []) }
    ensures room { IfOk result (λ made. capacity ≤ made.content.room) }
    ensures capacity { IfOk result (λ made. capacity ≤ made.content.capacity) }
    ensures err { IfErr result (RefusesCapacity capacity) }
    ensures valid { IfOk result IsDense }
```

Words: [`capacity`](crate::words#capacity-of-slotmap_core-content), [`content`](crate::words#content-of-slotmap_dense-dense), [`IsDense`](crate::words#isdense), [`IsEmpty`](crate::words#isempty), [`IsNew`](crate::words#isnew), [`RefusesCapacity`](crate::words#refusescapacity), [`room`](crate::words#room-of-slotmap_core-content), [`stack`](crate::words#stack).
"## };
    (slotmap_dense DenseSlotMap with_capacity_and_key) => { r##"
# Proved

What is proved of the call that this one makes:

```text
pub fn with_capacity_and_key(alloc: Global, capacity: usize) -> Result<Self, ReserveError>
    ensures starts { IfOk result (λ made. IsNew made.content) }
    ensures empty { IfOk result IsEmpty }
    ensures stack { IfOk result (λ made. made.content.stack ≡ Some []) }
    ensures room { IfOk result (λ made. capacity ≤ made.content.room) }
    ensures capacity { IfOk result (λ made. capacity ≤ made.content.capacity) }
    ensures err { IfErr result (RefusesCapacity capacity) }
    ensures valid { IfOk result IsDense }
```

Words: [`capacity`](crate::words#capacity-of-slotmap_core-content), [`content`](crate::words#content-of-slotmap_dense-dense), [`IsDense`](crate::words#isdense), [`IsEmpty`](crate::words#isempty), [`IsNew`](crate::words#isnew), [`RefusesCapacity`](crate::words#refusescapacity), [`room`](crate::words#room-of-slotmap_core-content), [`stack`](crate::words#stack).
"## };
    (slotmap_dense DenseSlotMap with_key) => { r##"
# Proved

What is proved of the call that this one makes:

```text
pub fn with_key(alloc: Global) -> Result<Self, ReserveError>
    ensures starts { IfOk result (λ made. IsNew made.content) }
    ensures empty { IfOk result IsEmpty }
    ensures stack { IfOk result (λ made. made.content.stack ≡ Some []) }
    ensures err { IfErr result (λ error. error ≡ ReserveError.Memory) }
    ensures valid { IfOk result IsDense }
```

Words: [`content`](crate::words#content-of-slotmap_dense-dense), [`IsDense`](crate::words#isdense), [`IsEmpty`](crate::words#isempty), [`IsNew`](crate::words#isnew), [`stack`](crate::words#stack).
"## };
    (slotmap_dense Drain next) => { r##"
# Proved

What is proved of the call that this one makes:

```text
fn next(&mut self) -> Option<(K, V)>

ghost next_gives = { DenseDrainSteps K.data_of };

ghost remaining = { drain_count dense_drain_live };
```

Words: [`dense_drain_live`](crate::words#dense_drain_live), [`DenseDrainSteps`](crate::words#densedrainsteps), [`drain_count`](crate::words#drain_count-of-slotmap_core-draining).
"## };
    (slotmap_dense Drain size_hint) => { r##"
# Proved

What is proved of the call that this one makes:

```text
fn size_hint(&self) -> (usize, Option<usize>)
    ensures lower { result.0 ≤ size (drain_count dense_drain_live self.now) }
    ensures upper { IfSome result.1 (UpTo (drain_count dense_drain_live self.now)) }
    ensures exact { result ≡ (size (drain_count dense_drain_live self.now), Some (size (drain_count dense_drain_live self.now))) }
```

Words: [`dense_drain_live`](crate::words#dense_drain_live), [`drain_count`](crate::words#drain_count-of-slotmap_core-draining).
"## };
    (slotmap_dense IntoIter clone) => { r##"
# Proved

What is proved of the call that this one makes:

```text
pub fn clone(&self) -> Result<Self, AllocError>
    ensures clones { IfOk result (AreClones V.is_clone self.now) }
    ensures copies_if_clones_equal { IfOk result (λ copy. ClonesEqual V.is_clone → copy ≡ self.now) }
```

Words: [`AreClones`](crate::words#areclones), [`ClonesEqual`](crate::words#clonesequal).
"## };
    (slotmap_dense IntoIter len) => { r##"
# Proved

What is proved of the call that this one makes:

```text
pub fn len(&self) -> usize
    ensures { result ≡ length self.now }
```
"## };
    (slotmap_dense IntoIter next) => { r##"
# Proved

What is proved of the call that this one makes:

```text
fn next(&mut self) -> Option<(K, V)>

ghost next_gives = { YieldsFirstBy (λ item. (K.data_of item.0, item.1)) (λ rest. rest) };

ghost remaining = { item_count (λ rest. rest) };
```
"## };
    (slotmap_dense IntoIter size_hint) => { r##"
# Proved

What is proved of the call that this one makes:

```text
fn size_hint(&self) -> (usize, Option<usize>)
    ensures lower { result.0 ≤ length self.now }
    ensures upper { IfSome result.1 (UpTo (at_most (length self.now))) }
    ensures exact { result ≡ (length self.now, Some (length self.now)) }
```
"## };
    (slotmap_dense Iter clone) => { r##"
# Proved

What is proved of the call that this one makes:

```text
fn clone(&self) -> Result<Self, AllocError>

ghost is_clone = { λ it copy. copy ≡ it };

ghost is_infallible = { λ _. ⊤ };
```
"## };
    (slotmap_dense Iter len) => { r##"
# Proved

What is proved of the call that this one makes:

```text
pub fn len(&self) -> usize
    ensures { result ≡ length self.now }
```
"## };
    (slotmap_dense Iter next) => { r##"
# Proved

What is proved of the call that this one makes:

```text
fn next(&mut self) -> Option<(K, &'a V)>

ghost next_gives = { YieldsFirstBy (λ item. (K.data_of item.0, item.1.now)) (λ rest. rest) };

ghost remaining = { item_count (λ rest. rest) };
```
"## };
    (slotmap_dense Iter size_hint) => { r##"
# Proved

What is proved of the call that this one makes:

```text
fn size_hint(&self) -> (usize, Option<usize>)
    ensures lower { result.0 ≤ length self.now }
    ensures upper { IfSome result.1 (UpTo (at_most (length self.now))) }
    ensures exact { result ≡ (length self.now, Some (length self.now)) }
```
"## };
    (slotmap_dense IterMut len) => { r##"
# Proved

What is proved of the call that this one makes:

```text
pub fn len(&self) -> usize
    ensures { result ≡ length (iter_mut_rest K.data_of self.now) }
```

Words: [`iter_mut_rest`](crate::words#iter_mut_rest).
"## };
    (slotmap_dense IterMut next) => { r##"
# Proved

What is proved of the call that this one makes:

```text
fn next(&mut self) -> Option<(K, &'a mut V)>

ghost can_next = { IterMutCanStep };

ghost next_gives = { iter_mut_steps K.data_of };

ghost remaining = { λ s. at_most (length (iter_mut_rest K.data_of s)) };
```

Words: [`iter_mut_rest`](crate::words#iter_mut_rest), [`iter_mut_steps`](crate::words#iter_mut_steps), [`IterMutCanStep`](crate::words#itermutcanstep).
"## };
    (slotmap_dense IterMut size_hint) => { r##"
# Proved

What is proved of the call that this one makes:

```text
fn size_hint(&self) -> (usize, Option<usize>)
    ensures lower { result.0 ≤ length (iter_mut_rest K.data_of self.now) }
    ensures upper { IfSome result.1 (UpTo (at_most (length (iter_mut_rest K.data_of self.now)))) }
    ensures exact { result ≡ (length (iter_mut_rest K.data_of self.now), Some (length (iter_mut_rest K.data_of self.now))) }
```

Words: [`iter_mut_rest`](crate::words#iter_mut_rest).
"## };
    (slotmap_dense Keys clone) => { r##"
# Proved

What is proved of the call that this one makes:

```text
fn clone(&self) -> Result<Self, AllocError>

ghost is_clone = { λ it copy. copy ≡ it };

ghost is_infallible = { λ _. ⊤ };
```
"## };
    (slotmap_dense Keys len) => { r##"
# Proved

What is proved of the call that this one makes:

```text
pub fn len(&self) -> usize
    ensures { result ≡ length self.now }
```
"## };
    (slotmap_dense Keys next) => { r##"
# Proved

What is proved of the call that this one makes:

```text
fn next(&mut self) -> Option<K>

ghost next_gives = { YieldsFirstBy K.data_of (λ rest. rest) };

ghost remaining = { item_count (λ rest. rest) };
```
"## };
    (slotmap_dense Keys size_hint) => { r##"
# Proved

What is proved of the call that this one makes:

```text
fn size_hint(&self) -> (usize, Option<usize>)
    ensures lower { result.0 ≤ length self.now }
    ensures upper { IfSome result.1 (UpTo (at_most (length self.now))) }
    ensures exact { result ≡ (length self.now, Some (length self.now)) }
```
"## };
    (slotmap_dense Values clone) => { r##"
# Proved

What is proved of the call that this one makes:

```text
fn clone(&self) -> Result<Self, AllocError>

ghost is_clone = { λ it copy. copy ≡ it };

ghost is_infallible = { λ _. ⊤ };
```
"## };
    (slotmap_dense Values len) => { r##"
# Proved

What is proved of the call that this one makes:

```text
pub fn len(&self) -> usize
    ensures { result ≡ length self.now }
```
"## };
    (slotmap_dense Values next) => { r##"
# Proved

What is proved of the call that this one makes:

```text
fn next(&mut self) -> Option<&'a V>

ghost next_gives = { YieldsFirstBy (λ item. item.now) (λ rest. rest) };

ghost remaining = { item_count (λ rest. rest) };
```
"## };
    (slotmap_dense Values size_hint) => { r##"
# Proved

What is proved of the call that this one makes:

```text
fn size_hint(&self) -> (usize, Option<usize>)
    ensures lower { result.0 ≤ length self.now }
    ensures upper { IfSome result.1 (UpTo (at_most (length self.now))) }
    ensures exact { result ≡ (length self.now, Some (length self.now)) }
```
"## };
    (slotmap_dense ValuesMut len) => { r##"
# Proved

What is proved of the call that this one makes:

```text
pub fn len(&self) -> usize
    ensures { result ≡ length (values_mut_rest self.now) }
```

Words: [`values_mut_rest`](crate::words#values_mut_rest).
"## };
    (slotmap_dense ValuesMut next) => { r##"
# Proved

What is proved of the call that this one makes:

```text
fn next(&mut self) -> Option<&'a mut V>

ghost next_gives = { values_mut_steps };

ghost remaining = { λ s. at_most (length (values_mut_rest s)) };
```

Words: [`values_mut_rest`](crate::words#values_mut_rest), [`values_mut_steps`](crate::words#values_mut_steps).
"## };
    (slotmap_dense ValuesMut size_hint) => { r##"
# Proved

What is proved of the call that this one makes:

```text
fn size_hint(&self) -> (usize, Option<usize>)
    ensures lower { result.0 ≤ length (values_mut_rest self.now) }
    ensures upper { IfSome result.1 (UpTo (at_most (length (values_mut_rest self.now)))) }
    ensures exact { result ≡ (length (values_mut_rest self.now), Some (length (values_mut_rest self.now))) }
```

Words: [`values_mut_rest`](crate::words#values_mut_rest).
"## };
    (slotmap_hop Drain next) => { r##"
# Proved

What is proved of the call that this one makes:

```text
fn next(&mut self) -> Option<(K, V)>

ghost can_next = { HopDrainCanStep K.data_of };

ghost next_gives = { HopDrainSteps K.data_of };

ghost remaining = { drain_count hop_drain_live };
```

Words: [`drain_count`](crate::words#drain_count-of-slotmap_core-draining), [`hop_drain_live`](crate::words#hop_drain_live), [`HopDrainCanStep`](crate::words#hopdraincanstep), [`HopDrainSteps`](crate::words#hopdrainsteps).
"## };
    (slotmap_hop Drain size_hint) => { r##"
# Proved

What is proved of the call that this one makes:

```text
fn size_hint(&self) -> (usize, Option<usize>)
    ensures lower { result.0 ≤ size (drain_count hop_drain_live self.now) }
    ensures upper { IfSome result.1 (UpTo (drain_count hop_drain_live self.now)) }
    ensures exact { result ≡ (size (drain_count hop_drain_live self.now), Some (size (drain_count hop_drain_live self.now))) }
```

Words: [`drain_count`](crate::words#drain_count-of-slotmap_core-draining), [`hop_drain_live`](crate::words#hop_drain_live).
"## };
    (slotmap_hop HopSlotMap capacity) => { r##"
# Proved

What is proved of the call that this one makes:

```text
pub fn capacity(&self) -> usize
    ensures value { result ≡ self.now.content.capacity }
    ensures valid { IsHopContent self.now }
```

Words: [`capacity`](crate::words#capacity-of-slotmap_core-content), [`content`](crate::words#content-of-slotmap_hop-hopcontent), [`IsHopContent`](crate::words#ishopcontent).
"## };
    (slotmap_hop HopSlotMap clear) => { r##"
# Proved

What is proved of the call that this one makes:

```text
pub fn clear(&mut self)
    ensures empty { self.new.content.live ≡ map.empty }
    ensures leaves { Leaves self.old.content self.new.content }
    ensures blocks { self.new.blocks ≡ blocks_without_all self.old (map.keys self.old.content.live) }
    ensures valid { StaysHop self.old self.new }
```

Words: [`blocks`](crate::words#blocks-of-slotmap_hop-hopcontent), [`blocks_without_all`](crate::words#blocks_without_all), [`content`](crate::words#content-of-slotmap_hop-hopcontent), [`Leaves`](crate::words#leaves), [`live`](crate::words#live), [`StaysHop`](crate::words#stayshop).
"## };
    (slotmap_hop HopSlotMap clone) => { r##"
# Proved

What is proved of the call that this one makes:

```text
pub fn clone(&self) -> Result<Self, AllocError>
    ensures clones { IfOk result (λ copy. IsCloneBy V.is_clone self.now.content copy.content) }
    ensures blocks { IfOk result (λ copy. copy.blocks ≡ self.now.blocks) }

    // Where clones equal their values, the copy holds the same.
    ensures copies_if_clones_equal { IfOk result (λ copy.
        ClonesEqual V.is_clone → IsCopy self.now.content copy.content) }

    ensures valid { IfOk result IsHopContent }
```

Words: [`blocks`](crate::words#blocks-of-slotmap_hop-hopcontent), [`ClonesEqual`](crate::words#clonesequal), [`content`](crate::words#content-of-slotmap_hop-hopcontent), [`IsCloneBy`](crate::words#iscloneby), [`IsCopy`](crate::words#iscopy), [`IsHopContent`](crate::words#ishopcontent).
"## };
    (slotmap_hop HopSlotMap clone_from) => { r##"
# Proved

What is proved of the call that this one makes:

```text
pub fn clone_from(&mut self, source: &Self) -> Result<(), AllocError>
where
    V: Drop,
    ensures clones { OnOk result (IsCloneBy V.is_clone source.now.content self.new.content) }
    ensures blocks { OnOk result (self.new.blocks ≡ source.now.blocks) }

    // Where clones equal their values, this map holds what the source holds.
    ensures copies_if_clones_equal { OnOk result (
        ClonesEqual V.is_clone → IsCopy source.now.content self.new.content) }

    ensures unchanged { OnErr result (self.new ≡ self.old) }
    ensures valid { OnOk result (IsHopContent self.new) }
```

Words: [`blocks`](crate::words#blocks-of-slotmap_hop-hopcontent), [`ClonesEqual`](crate::words#clonesequal), [`content`](crate::words#content-of-slotmap_hop-hopcontent), [`IsCloneBy`](crate::words#iscloneby), [`IsCopy`](crate::words#iscopy), [`IsHopContent`](crate::words#ishopcontent).
"## };
    (slotmap_hop HopSlotMap contains_key) => { r##"
# Proved

What is proved of the call that this one makes:

```text
pub fn contains_key(&self, key: K) -> bool
    ensures value { result ≡ map.contains_key self.now.content.live (K.data_of key) }
    ensures valid { IsHopContent self.now }
```

Words: [`content`](crate::words#content-of-slotmap_hop-hopcontent), [`IsHopContent`](crate::words#ishopcontent), [`live`](crate::words#live).
"## };
    (slotmap_hop HopSlotMap drain) => { r##"
# Proved

What is proved of the call that this one makes:

```text
pub fn drain(&mut self) -> Drain<'_, K, V>
    ensures map { (hop_drain_loan result).now ≡ self.old }
    ensures same_reference { (hop_drain_loan result).ghost_name ≡ self.entry.ghost_name }
    ensures ready { HopDrainCanStep K.data_of result }

    // Laws of the steps, for callers that take more of them.
    ensures stays { KeepsAlong (HopDrainSteps K.data_of) (KeepsLoan hop_drain_loan EmptiesMap) result }
    ensures lists { ListsAlong K.data_of hop_drain_live (HopDrainSteps K.data_of) result }
    ensures in_order { InOrderAlong K.data_of hop_drain_live (HopDrainSteps K.data_of) result }

    ensures valid { IsHopContent self.old }
```

Words: [`EmptiesMap`](crate::words#emptiesmap), [`hop_drain_live`](crate::words#hop_drain_live), [`hop_drain_loan`](crate::words#hop_drain_loan), [`HopDrainCanStep`](crate::words#hopdraincanstep), [`HopDrainSteps`](crate::words#hopdrainsteps), [`InOrderAlong`](crate::words#inorderalong), [`IsHopContent`](crate::words#ishopcontent), [`KeepsAlong`](crate::words#keepsalong), [`KeepsLoan`](crate::words#keepsloan), [`ListsAlong`](crate::words#listsalong).
"## };
    (slotmap_hop HopSlotMap drain_into) => { r##"
# Proved

What is proved of the call that this one makes:

```text
pub fn drain_into(&mut self, out: &mut Vec<(K, V)>) -> Result<(), OutOfMemory>
    ensures ok { OnOk result ((pairs : List (K × V)) × (out.new.items ≡ out.old.items ++ pairs)
        × (list_map (λ p. (K.data_of p.0, p.1)) pairs ≡ map.entries self.old.content.live)) }
    ensures empty { OnOk result (self.new.content.live ≡ map.empty) }
    ensures leaves { OnOk result (Leaves self.old.content self.new.content) }
    ensures blocks { OnOk result (self.new.blocks ≡ blocks_without_all self.old (map.keys self.old.content.live)) }

    ensures unchanged { OnErr result ((self.new ≡ self.old) × (out.new.items ≡ out.old.items)) }
    ensures valid { StaysHop self.old self.new }
```

Words: [`blocks`](crate::words#blocks-of-slotmap_hop-hopcontent), [`blocks_without_all`](crate::words#blocks_without_all), [`content`](crate::words#content-of-slotmap_hop-hopcontent), [`Leaves`](crate::words#leaves), [`live`](crate::words#live), [`StaysHop`](crate::words#stayshop).
"## };
    (slotmap_hop HopSlotMap from_slots) => { r##"
# Proved

What is proved of the call that this one makes:

```text
pub fn from_slots(alloc: Global, list: Vec<SlotRecord<V>>) -> Result<Self, SlotsError>
    // What the list says. Runs and lists of slots go on from it.
    ensures reads { IfOk result (λ made. ReadsAs true list.items made.content) }
    // The blocks of vacant slots are in their list by ascending index.
    ensures ascending { IfOk result (λ made. Ascend 1 made.blocks.others (length list.items)) }
    ensures valid { IfOk result IsHopContent }

    // The errors: the first one that applies is returned.
    ensures accepted { IsOk result → Accepts list.items list_limit }
    ensures err { IfErr result (RefusesStart list.items list_limit) }
```

Words: [`Accepts`](crate::words#accepts), [`Ascend`](crate::words#ascend), [`blocks`](crate::words#blocks-of-slotmap_hop-hopcontent), [`content`](crate::words#content-of-slotmap_hop-hopcontent), [`IsHopContent`](crate::words#ishopcontent), [`list_limit`](crate::words#list_limit), [`others`](crate::words#others), [`ReadsAs`](crate::words#readsas), [`RefusesStart`](crate::words#refusesstart).
"## };
    (slotmap_hop HopSlotMap get) => { r##"
# Proved

What is proved of the call that this one makes:

```text
pub fn get(&self, key: K) -> Option<&V>
    ensures value { option_copied result ≡ map.get self.now.content.live (K.data_of key) }
    ensures valid { IsHopContent self.now }
```

Words: [`content`](crate::words#content-of-slotmap_hop-hopcontent), [`IsHopContent`](crate::words#ishopcontent), [`live`](crate::words#live).
"## };
    (slotmap_hop HopSlotMap get_mut) => { r##"
# Proved

What is proved of the call that this one makes:

```text
pub fn get_mut(&mut self, key: K) -> Option<&mut V>
    ensures* writes_back { sem 𝓛 (lends_get K.row V.row self.entry (K.data_of key) result) }
    ensures value { option_copied_mut result ≡ map.get self.old.content.live (K.data_of key) }
    ensures valid { IsHopContent self.old }
```

Words: [`content`](crate::words#content-of-slotmap_hop-hopcontent), [`IsHopContent`](crate::words#ishopcontent), [`lends_get`](crate::words#lends_get-of-slotmap_hop-lends), [`live`](crate::words#live).
"## };
    (slotmap_hop HopSlotMap get_unchecked) => { r##"
# Proved

What is proved of the call that this one makes:

```text
pub fn get_unchecked(&self, key: K) -> &V
    requires { IsLive self.now.content (K.data_of key) }
    ensures value { map.get self.now.content.live (K.data_of key) ≡ Some result.now }
    ensures valid { IsHopContent self.now }
```

Words: [`content`](crate::words#content-of-slotmap_hop-hopcontent), [`IsHopContent`](crate::words#ishopcontent), [`IsLive`](crate::words#islive), [`live`](crate::words#live).
"## };
    (slotmap_hop HopSlotMap get_unchecked_mut) => { r##"
# Proved

What is proved of the call that this one makes:

```text
pub fn get_unchecked_mut(&mut self, key: K) -> &mut V
    requires { IsLive self.old.content (K.data_of key) }
    ensures* writes_back { sem 𝓛 (lends_value K.row V.row self.entry (K.data_of key) result) }
    ensures value { map.get self.old.content.live (K.data_of key) ≡ Some result.now }
    ensures valid { IsHopContent self.old }
```

Words: [`content`](crate::words#content-of-slotmap_hop-hopcontent), [`IsHopContent`](crate::words#ishopcontent), [`IsLive`](crate::words#islive), [`lends_value`](crate::words#lends_value-of-slotmap_hop-lends), [`live`](crate::words#live).
"## };
    (slotmap_hop HopSlotMap index) => { r##"
# Proved

What is proved of the call that this one makes:

```text
fn index(&self, key: K) -> &V

ghost can_index = { λ m key. IsLive m.content (K.data_of key) };

ghost index_gives = { λ m key value. map.get m.content.live (K.data_of key) ≡ Some value };
```

Words: [`content`](crate::words#content-of-slotmap_hop-hopcontent), [`IsLive`](crate::words#islive), [`live`](crate::words#live).
"## };
    (slotmap_hop HopSlotMap index_mut) => { r##"
# Proved

What is proved of the call that this one makes:

```text
fn index_mut(&mut self, key: K) -> &mut V
    requires { IsLive self.old.content (K.data_of key) }
    ensures* writes_back { sem 𝓛 (lends_value K.row V.row self.entry (K.data_of key) result) }
    ensures value { map.get self.old.content.live (K.data_of key) ≡ Some result.now }
    ensures valid { IsHopContent self.old }
```

Words: [`content`](crate::words#content-of-slotmap_hop-hopcontent), [`IsHopContent`](crate::words#ishopcontent), [`IsLive`](crate::words#islive), [`lends_value`](crate::words#lends_value-of-slotmap_hop-lends), [`live`](crate::words#live).
"## };
    (slotmap_hop HopSlotMap insert) => { r##"
# Proved

What is proved of the call that this one makes:

```text
pub fn insert(&mut self, value: V) -> Result<K, InsertError<V>>
    ensures ok { IfOk result (λ key. Inserts self.old.content (K.data_of key) value self.new.content) }
    ensures err { IfErr result (λ error. Refuses self.old.content value error) }

    // The blocks lose the new key's slot; if the insert fails they stay.
    ensures blocks { MatchResult result (λ _. self.new.blocks ≡ shorter self.old.blocks) (λ _. self.new.blocks ≡ self.old.blocks) }

    ensures unchanged { OnErr result (Keeps self.old.content self.new.content) }

    // If a slot is vacant, the call can't fail.
    ensures reuses { HasVacant self.old.content → IsOk result }

    ensures valid { GrowsHop self.old self.new }
```

Words: [`blocks`](crate::words#blocks-of-slotmap_hop-hopcontent), [`content`](crate::words#content-of-slotmap_hop-hopcontent), [`GrowsHop`](crate::words#growshop), [`HasVacant`](crate::words#hasvacant), [`Inserts`](crate::words#inserts), [`Keeps`](crate::words#keeps), [`Refuses`](crate::words#refuses), [`shorter`](crate::words#shorter).
"## };
    (slotmap_hop HopSlotMap insert_with_key) => { r##"
# Proved

What is proved of the call that this one makes:

```text
pub fn insert_with_key<F: FnOnce(K) -> V>(&mut self, f: F) -> Result<K, InsertWithError>
where
    F: Drop,
    requires { used self.old.content < most → (key : K) → K.data_of key ≡ self.old.content.offer → F.pre f key }

    ensures ok { IfOk result (λ key. (v : V) × F.post f key v
        × Inserts self.old.content (K.data_of key) v self.new.content) }
    ensures err { IfErr result (RefusesInsert self.old.content) }

    // The blocks lose the new key's slot; if the insert fails they stay.
    ensures blocks { MatchResult result (λ _. self.new.blocks ≡ shorter self.old.blocks) (λ _. self.new.blocks ≡ self.old.blocks) }

    ensures unchanged { OnErr result (Keeps self.old.content self.new.content) }

    // If a slot is vacant, the call can't fail.
    ensures reuses { HasVacant self.old.content → IsOk result }

    ensures valid { GrowsHop self.old self.new }
```

Words: [`blocks`](crate::words#blocks-of-slotmap_hop-hopcontent), [`content`](crate::words#content-of-slotmap_hop-hopcontent), [`GrowsHop`](crate::words#growshop), [`HasVacant`](crate::words#hasvacant), [`Inserts`](crate::words#inserts), [`Keeps`](crate::words#keeps), [`most`](crate::words#most), [`offer`](crate::words#offer), [`RefusesInsert`](crate::words#refusesinsert), [`shorter`](crate::words#shorter), [`used`](crate::words#used).
"## };
    (slotmap_hop HopSlotMap into_iter) => { r##"
# Proved

What is proved of the call that this one makes:

```text
fn into_iter(self) -> IntoIter<K, V>

ghost into_iter_gives = { λ m it. ListsByIndex m.content.live it };
```

Words: [`content`](crate::words#content-of-slotmap_hop-hopcontent), [`ListsByIndex`](crate::words#listsbyindex), [`live`](crate::words#live).
"## };
    (slotmap_hop HopSlotMap is_empty) => { r##"
# Proved

What is proved of the call that this one makes:

```text
pub fn is_empty(&self) -> bool
    ensures value { IsTrue result ↔ (map.len self.now.content.live ≡ 0) }
    ensures valid { IsHopContent self.now }
```

Words: [`content`](crate::words#content-of-slotmap_hop-hopcontent), [`IsHopContent`](crate::words#ishopcontent), [`live`](crate::words#live).
"## };
    (slotmap_hop HopSlotMap iter) => { r##"
# Proved

What is proved of the call that this one makes:

```text
pub fn iter(&self) -> Iter<'_, K, V>
    ensures listing { IsListing self.now.content.live result.rest }
    ensures in_order { result.rest ≡ map.entries self.now.content.live }
    ensures retired { ListsRetired self.now result.retired }
    ensures reads { result.reads ≡ 0 }
    ensures valid { IsHopContent self.now }
```

Words: [`content`](crate::words#content-of-slotmap_hop-hopcontent), [`IsHopContent`](crate::words#ishopcontent), [`IsListing`](crate::words#islisting), [`ListsRetired`](crate::words#listsretired), [`live`](crate::words#live), [`reads`](crate::words#reads-of-slotmap_hop-iter), [`rest`](crate::words#rest), [`retired`](crate::words#retired-of-slotmap_hop-iter).
"## };
    (slotmap_hop HopSlotMap keys) => { r##"
# Proved

What is proved of the call that this one makes:

```text
pub fn keys(&self) -> Keys<'_, K, V>
    ensures listing { IsKeyListing self.now.content.live result.rest }
    ensures in_order { result.rest ≡ map.keys self.now.content.live }
    ensures retired { ListsRetired self.now result.retired }
    ensures reads { result.reads ≡ 0 }
    ensures valid { IsHopContent self.now }
```

Words: [`content`](crate::words#content-of-slotmap_hop-hopcontent), [`IsHopContent`](crate::words#ishopcontent), [`IsKeyListing`](crate::words#iskeylisting), [`ListsRetired`](crate::words#listsretired), [`live`](crate::words#live), [`reads`](crate::words#reads-of-slotmap_hop-iter), [`rest`](crate::words#rest), [`retired`](crate::words#retired-of-slotmap_hop-iter).
"## };
    (slotmap_hop HopSlotMap keys_into) => { r##"
# Proved

What is proved of the call that this one makes:

```text
pub fn keys_into(&self, out: &mut Vec<K>) -> Result<(), OutOfMemory>
    ensures ok { OnOk result ((keys : List K) × (out.new.items ≡ out.old.items ++ keys)
        × (list_map K.data_of keys ≡ map.keys self.now.content.live)) }
    ensures unchanged { OnErr result (out.new.items ≡ out.old.items) }
    ensures valid { IsHopContent self.now }
```

Words: [`content`](crate::words#content-of-slotmap_hop-hopcontent), [`IsHopContent`](crate::words#ishopcontent), [`live`](crate::words#live).
"## };
    (slotmap_hop HopSlotMap len) => { r##"
# Proved

What is proved of the call that this one makes:

```text
pub fn len(&self) -> usize
    ensures value { result ≡ map.len self.now.content.live }
    ensures valid { IsHopContent self.now }
```

Words: [`content`](crate::words#content-of-slotmap_hop-hopcontent), [`IsHopContent`](crate::words#ishopcontent), [`live`](crate::words#live).
"## };
    (slotmap_hop HopSlotMap new) => { r##"
# Proved

What is proved of the call that this one makes:

```text
pub fn new(alloc: Global) -> Result<Self, ReserveError>
    ensures starts { IfOk result (λ made. IsNew made.content) }
    ensures blocks { IfOk result (λ made. NoBlocks made.blocks) }
    ensures err { IfErr result (λ error. error ≡ ReserveError.Memory) }
    ensures valid { IfOk result IsHopContent }
```

Words: [`blocks`](crate::words#blocks-of-slotmap_hop-hopcontent), [`content`](crate::words#content-of-slotmap_hop-hopcontent), [`IsHopContent`](crate::words#ishopcontent), [`IsNew`](crate::words#isnew), [`NoBlocks`](crate::words#noblocks).
"## };
    (slotmap_hop HopSlotMap remove) => { r##"
# Proved

What is proved of the call that this one makes:

```text
pub fn remove(&mut self, key: K) -> Option<V>
    ensures value { result ≡ map.get self.old.content.live (K.data_of key) }
    ensures removes { OnSome result (Removes self.old.content (K.data_of key) self.new.content) }
    ensures blocks { OnSome result (self.new.blocks ≡ blocks_without self.old (K.data_of key)) }
    ensures live { self.new.content.live ≡ map.remove self.old.content.live (K.data_of key) }
    ensures unchanged { IfNone result (self.new ≡ self.old) }
    ensures valid { StaysHop self.old self.new }
```

Words: [`blocks`](crate::words#blocks-of-slotmap_hop-hopcontent), [`blocks_without`](crate::words#blocks_without), [`content`](crate::words#content-of-slotmap_hop-hopcontent), [`live`](crate::words#live), [`Removes`](crate::words#removes), [`StaysHop`](crate::words#stayshop).
"## };
    (slotmap_hop HopSlotMap replace) => { r##"
# Proved

What is proved of the call that this one makes:

```text
pub fn replace(&mut self, key: K, value: V) -> Result<V, V>
    ensures ok { IfOk result (λ before. map.get self.old.content.live (K.data_of key) ≡ Some before) }
    ensures replaces { OnOk result (self.new ≡ hop_with_value self.old (K.data_of key) value) }
    ensures err { IfErr result (λ back. (map.contains_key self.old.content.live (K.data_of key) ≡ false) × (back ≡ value)) }
    ensures unchanged { OnErr result (self.new ≡ self.old) }
    ensures valid { StaysHop self.old self.new }
```

Words: [`content`](crate::words#content-of-slotmap_hop-hopcontent), [`hop_with_value`](crate::words#hop_with_value), [`live`](crate::words#live), [`StaysHop`](crate::words#stayshop).
"## };
    (slotmap_hop HopSlotMap replace_disjoint) => { r##"
# Proved

What is proved of the call that this one makes:

```text
pub fn replace_disjoint<const N: usize>(
    &mut self,
    keys: [K; N],
    mut values: [V; N],
) -> Result<[V; N], [V; N]>
    ensures which { IsOk result ↔ CanReplace self.old.content (map_list K.data_of keys) }
    ensures value { IfOk result (AreValuesOf self.old.content (map_list K.data_of keys)) }
    ensures ok { OnOk result (self.new ≡ hop_with_values self.old (map_list K.data_of keys) values) }

    ensures err { IfErr result (λ given. given ≡ values) }
    ensures unchanged { OnErr result (self.new ≡ self.old) }

    ensures valid { StaysHop self.old self.new }
```

Words: [`AreValuesOf`](crate::words#arevaluesof-of-slotmap_core-disjoint), [`CanReplace`](crate::words#canreplace-of-slotmap_core-disjoint), [`content`](crate::words#content-of-slotmap_hop-hopcontent), [`hop_with_values`](crate::words#hop_with_values), [`StaysHop`](crate::words#stayshop).
"## };
    (slotmap_hop HopSlotMap reserve) => { r##"
# Proved

What is proved of the call that this one makes:

```text
pub fn reserve(&mut self, additional: usize) -> Result<(), ReserveError>
    ensures makes_room { MakesHopRoom self.old additional (IsOk result) self.new }
    ensures err { IfErr result (RefusesCapacity (used self.old.content + additional)) }
    ensures reuses { additional ≤ map.len self.old.content.next → IsOk result }
```

Words: [`content`](crate::words#content-of-slotmap_hop-hopcontent), [`MakesHopRoom`](crate::words#makeshoproom), [`next`](crate::words#next), [`RefusesCapacity`](crate::words#refusescapacity), [`used`](crate::words#used).
"## };
    (slotmap_hop HopSlotMap retain) => { r##"
# Proved

What is proved of the call that this one makes:

```text
pub fn retain<F: FnMut(K, &mut V) -> bool>(&mut self, mut f: F)
where
    F: Drop,
    // For each entry, in each state in which calls for other entries leave the closure.
    requires { CallableOnEach F.FnMut K.data_of f self.old.content.live }
    ensures retained { RetainsBy F.FnMut K.data_of f self.old.content.live self.new.content.live }
    ensures order { RetainsByIndex F.FnMut K.data_of f self.old self.new }
    ensures leaves { Leaves self.old.content self.new.content }
    ensures valid { StaysHop self.old self.new }
```

Words: [`CallableOnEach`](crate::words#callableoneach), [`content`](crate::words#content-of-slotmap_hop-hopcontent), [`Leaves`](crate::words#leaves), [`live`](crate::words#live), [`RetainsBy`](crate::words#retainsby), [`RetainsByIndex`](crate::words#retainsbyindex), [`StaysHop`](crate::words#stayshop).
"## };
    (slotmap_hop HopSlotMap to_slots) => { r##"
# Proved

What is proved of the call that this one makes:

```text
pub fn to_slots(&self) -> Result<Vec<SlotRecord<V>>, OutOfMemory>
where
    V: Clone,
    // The list is that of a copy, and has a clone under each live key.
    ensures writes { IfOk result (λ slots. WritesClones V.is_clone true self.now.content slots.items) }
    ensures contents { IfOk result (λ slots.
        (k : Key) → IsCloneOf V.is_clone (map.get self.now.content.live k) (map.get (start_live slots.items) k)) }

    // Where clones equal their values, it is the map's own list.
    ensures writes_if_clones_equal { IfOk result (λ slots.
        ClonesEqual V.is_clone → Writes self.now.content slots.items) }
    ensures contents_if_clones_equal { IfOk result (λ slots.
        ClonesEqual V.is_clone → start_live slots.items ≡ self.now.content.live) }

    ensures valid { IsHopContent self.now }
```

Words: [`ClonesEqual`](crate::words#clonesequal), [`content`](crate::words#content-of-slotmap_hop-hopcontent), [`IsCloneOf`](crate::words#iscloneof), [`IsHopContent`](crate::words#ishopcontent), [`Key`](crate::words#key), [`live`](crate::words#live), [`start_live`](crate::words#start_live), [`Writes`](crate::words#writes), [`WritesClones`](crate::words#writesclones).
"## };
    (slotmap_hop HopSlotMap try_insert_with_key) => { r##"
# Proved

What is proved of the call that this one makes:

```text
pub fn try_insert_with_key<F: FnOnce(K) -> Result<V, E>, E>(
    &mut self,
    f: F,
) -> Result<K, TryInsertError<E>>
where
    F: Drop,
    requires { used self.old.content < most → (key : K) → K.data_of key ≡ self.old.content.offer → F.pre f key }

    ensures ok { IfOk result (λ key. (v : V) × F.post f key (Ok v)
        × Inserts self.old.content (K.data_of key) v self.new.content) }
    ensures err { IfErr result (λ error. RefusesWith K.data_of (F.post f) self.old.content error) }

    // The blocks lose the new key's slot; if the insert fails they stay.
    ensures blocks { MatchResult result (λ _. self.new.blocks ≡ shorter self.old.blocks) (λ _. self.new.blocks ≡ self.old.blocks) }

    ensures unchanged { OnErr result (Keeps self.old.content self.new.content) }

    // If a slot is vacant, memory can't run out.
    ensures reuses { result ≡ Err TryInsertError.Memory → map.len self.old.content.next ≡ 0 }

    ensures valid { GrowsHop self.old self.new }
```

Words: [`blocks`](crate::words#blocks-of-slotmap_hop-hopcontent), [`content`](crate::words#content-of-slotmap_hop-hopcontent), [`GrowsHop`](crate::words#growshop), [`Inserts`](crate::words#inserts), [`Keeps`](crate::words#keeps), [`most`](crate::words#most), [`next`](crate::words#next), [`offer`](crate::words#offer), [`RefusesWith`](crate::words#refuseswith), [`shorter`](crate::words#shorter), [`used`](crate::words#used).
"## };
    (slotmap_hop HopSlotMap try_reserve) => { r##"
# Proved

What is proved of the call that this one makes:

```text
pub fn try_reserve(&mut self, additional: usize) -> Result<(), ReserveError>
    ensures makes_room { MakesHopRoom self.old additional (IsOk result) self.new }
    ensures err { IfErr result (RefusesCapacity (used self.old.content + additional)) }
    ensures reuses { additional ≤ map.len self.old.content.next → IsOk result }
```

Words: [`content`](crate::words#content-of-slotmap_hop-hopcontent), [`MakesHopRoom`](crate::words#makeshoproom), [`next`](crate::words#next), [`RefusesCapacity`](crate::words#refusescapacity), [`used`](crate::words#used).
"## };
    (slotmap_hop HopSlotMap values) => { r##"
# Proved

What is proved of the call that this one makes:

```text
pub fn values(&self) -> Values<'_, K, V>
    ensures listing { IsValueListing self.now.content.live result.rest }
    ensures in_order { result.rest ≡ map.values self.now.content.live }
    ensures retired { ListsRetired self.now result.retired }
    ensures reads { result.reads ≡ 0 }
    ensures valid { IsHopContent self.now }
```

Words: [`content`](crate::words#content-of-slotmap_hop-hopcontent), [`IsHopContent`](crate::words#ishopcontent), [`IsValueListing`](crate::words#isvaluelisting), [`ListsRetired`](crate::words#listsretired), [`live`](crate::words#live), [`reads`](crate::words#reads-of-slotmap_hop-iter), [`rest`](crate::words#rest), [`retired`](crate::words#retired-of-slotmap_hop-iter).
"## };
    (slotmap_hop HopSlotMap with_capacity) => { r##"
# Proved

What is proved of the call that this one makes:

```text
pub fn with_capacity(alloc: Global, capacity: usize) -> Result<Self, ReserveError>
    ensures starts { IfOk result (λ made. IsNew made.content) }
    ensures blocks { IfOk result (λ made. NoBlocks made.blocks) }
    ensures room { IfOk result (λ made. capacity ≤ made.content.room) }
    ensures capacity { IfOk result (λ made. capacity ≤ made.content.capacity) }
    ensures err { IfErr result (RefusesCapacity capacity) }
    ensures valid { IfOk result IsHopContent }
```

Words: [`blocks`](crate::words#blocks-of-slotmap_hop-hopcontent), [`capacity`](crate::words#capacity-of-slotmap_core-content), [`content`](crate::words#content-of-slotmap_hop-hopcontent), [`IsHopContent`](crate::words#ishopcontent), [`IsNew`](crate::words#isnew), [`NoBlocks`](crate::words#noblocks), [`RefusesCapacity`](crate::words#refusescapacity), [`room`](crate::words#room-of-slotmap_core-content).
"## };
    (slotmap_hop HopSlotMap with_capacity_and_key) => { r##"
# Proved

What is proved of the call that this one makes:

```text
pub fn with_capacity_and_key(alloc: Global, capacity: usize) -> Result<Self, ReserveError>
    ensures starts { IfOk result (λ made. IsNew made.content) }
    ensures blocks { IfOk result (λ made. NoBlocks made.blocks) }
    ensures room { IfOk result (λ made. capacity ≤ made.content.room) }
    ensures capacity { IfOk result (λ made. capacity ≤ made.content.capacity) }
    ensures err { IfErr result (RefusesCapacity capacity) }
    ensures valid { IfOk result IsHopContent }
```

Words: [`blocks`](crate::words#blocks-of-slotmap_hop-hopcontent), [`capacity`](crate::words#capacity-of-slotmap_core-content), [`content`](crate::words#content-of-slotmap_hop-hopcontent), [`IsHopContent`](crate::words#ishopcontent), [`IsNew`](crate::words#isnew), [`NoBlocks`](crate::words#noblocks), [`RefusesCapacity`](crate::words#refusescapacity), [`room`](crate::words#room-of-slotmap_core-content).
"## };
    (slotmap_hop HopSlotMap with_key) => { r##"
# Proved

What is proved of the call that this one makes:

```text
pub fn with_key(alloc: Global) -> Result<Self, ReserveError>
    ensures starts { IfOk result (λ made. IsNew made.content) }
    ensures blocks { IfOk result (λ made. NoBlocks made.blocks) }
    ensures err { IfErr result (λ error. error ≡ ReserveError.Memory) }
    ensures valid { IfOk result IsHopContent }
```

Words: [`blocks`](crate::words#blocks-of-slotmap_hop-hopcontent), [`content`](crate::words#content-of-slotmap_hop-hopcontent), [`IsHopContent`](crate::words#ishopcontent), [`IsNew`](crate::words#isnew), [`NoBlocks`](crate::words#noblocks).
"## };
    (slotmap_hop IntoIter clone) => { r##"
# Proved

What is proved of the call that this one makes:

```text
pub fn clone(&self) -> Result<Self, AllocError>
    ensures clones { IfOk result (AreClones V.is_clone self.now) }
    // Where clones equal their values, the second one yields the same pairs.
    ensures copies_if_clones_equal { IfOk result (λ copy. ClonesEqual V.is_clone → copy ≡ self.now) }
```

Words: [`AreClones`](crate::words#areclones), [`ClonesEqual`](crate::words#clonesequal).
"## };
    (slotmap_hop IntoIter len) => { r##"
# Proved

What is proved of the call that this one makes:

```text
pub fn len(&self) -> usize
    ensures { result ≡ length self.now }
```
"## };
    (slotmap_hop IntoIter next) => { r##"
# Proved

What is proved of the call that this one makes:

```text
fn next(&mut self) -> Option<(K, V)>

ghost next_gives = { YieldsFirstBy (λ item. (K.data_of item.0, item.1)) (λ rest. rest) };

ghost remaining = { item_count (λ rest. rest) };
```
"## };
    (slotmap_hop IntoIter size_hint) => { r##"
# Proved

What is proved of the call that this one makes:

```text
fn size_hint(&self) -> (usize, Option<usize>)
    ensures lower { result.0 ≤ length self.now }
    ensures upper { IfSome result.1 (UpTo (at_most (length self.now))) }
    ensures exact { result ≡ (length self.now, Some (length self.now)) }
```
"## };
    (slotmap_hop Iter clone) => { r##"
# Proved

What is proved of the call that this one makes:

```text
fn clone(&self) -> Result<Self, AllocError>

ghost is_clone = { λ it copy. copy ≡ it };

ghost is_infallible = { λ _. ⊤ };
```
"## };
    (slotmap_hop Iter len) => { r##"
# Proved

What is proved of the call that this one makes:

```text
pub fn len(&self) -> usize
    ensures { result ≡ length self.now.rest }
```

Words: [`rest`](crate::words#rest).
"## };
    (slotmap_hop Iter next) => { r##"
# Proved

What is proved of the call that this one makes:

```text
fn next(&mut self) -> Option<(K, &'a V)>

ghost next_gives = { λ old given new. YieldsFirstBy (λ item. (K.data_of item.0, item.1.now)) (λ it. it.rest) old given new × CountsReads (λ item. K.data_of item.0) old given new };

ghost remaining = { item_count (λ it. it.rest) };
```

Words: [`CountsReads`](crate::words#countsreads), [`rest`](crate::words#rest).
"## };
    (slotmap_hop Iter reads) => { r##"
# Proved

What is proved of the call that this one makes:

```text
pub fn reads(&self) -> usize
    ensures { result ≡ self.now.reads }
```

Words: [`reads`](crate::words#reads-of-slotmap_hop-iter).
"## };
    (slotmap_hop Iter size_hint) => { r##"
# Proved

What is proved of the call that this one makes:

```text
fn size_hint(&self) -> (usize, Option<usize>)
    ensures lower { result.0 ≤ length self.now.rest }
    ensures upper { IfSome result.1 (UpTo (at_most (length self.now.rest))) }
    ensures exact { result ≡ (length self.now.rest, Some (length self.now.rest)) }
```

Words: [`rest`](crate::words#rest).
"## };
    (slotmap_hop Keys clone) => { r##"
# Proved

What is proved of the call that this one makes:

```text
fn clone(&self) -> Result<Self, AllocError>

ghost is_clone = { λ it copy. copy ≡ it };

ghost is_infallible = { λ _. ⊤ };
```
"## };
    (slotmap_hop Keys len) => { r##"
# Proved

What is proved of the call that this one makes:

```text
pub fn len(&self) -> usize
    ensures { result ≡ length self.now.rest }
```

Words: [`rest`](crate::words#rest).
"## };
    (slotmap_hop Keys next) => { r##"
# Proved

What is proved of the call that this one makes:

```text
fn next(&mut self) -> Option<K>

ghost next_gives = { λ old given new. YieldsFirstBy K.data_of (λ it. it.rest) old given new × CountsReads K.data_of old given new };

ghost remaining = { item_count (λ it. it.rest) };
```

Words: [`CountsReads`](crate::words#countsreads), [`rest`](crate::words#rest).
"## };
    (slotmap_hop Keys reads) => { r##"
# Proved

What is proved of the call that this one makes:

```text
pub fn reads(&self) -> usize
    ensures { result ≡ self.now.reads }
```

Words: [`reads`](crate::words#reads-of-slotmap_hop-iter).
"## };
    (slotmap_hop Keys size_hint) => { r##"
# Proved

What is proved of the call that this one makes:

```text
fn size_hint(&self) -> (usize, Option<usize>)
    ensures lower { result.0 ≤ length self.now.rest }
    ensures upper { IfSome result.1 (UpTo (at_most (length self.now.rest))) }
    ensures exact { result ≡ (length self.now.rest, Some (length self.now.rest)) }
```

Words: [`rest`](crate::words#rest).
"## };
    (slotmap_hop Values clone) => { r##"
# Proved

What is proved of the call that this one makes:

```text
fn clone(&self) -> Result<Self, AllocError>

ghost is_clone = { λ it copy. copy ≡ it };

ghost is_infallible = { λ _. ⊤ };
```
"## };
    (slotmap_hop Values len) => { r##"
# Proved

What is proved of the call that this one makes:

```text
pub fn len(&self) -> usize
    ensures { result ≡ length self.now.rest }
```

Words: [`rest`](crate::words#rest).
"## };
    (slotmap_hop Values next) => { r##"
# Proved

What is proved of the call that this one makes:

```text
fn next(&mut self) -> Option<&'a V>

ghost next_gives = { λ old given new. YieldsFirstBy (λ item. item.now) (λ it. it.rest) old given new × CountsReadsSomewhere old given new };

ghost remaining = { item_count (λ it. it.rest) };
```

Words: [`CountsReadsSomewhere`](crate::words#countsreadssomewhere), [`rest`](crate::words#rest).
"## };
    (slotmap_hop Values reads) => { r##"
# Proved

What is proved of the call that this one makes:

```text
pub fn reads(&self) -> usize
    ensures { result ≡ self.now.reads }
```

Words: [`reads`](crate::words#reads-of-slotmap_hop-iter).
"## };
    (slotmap_hop Values size_hint) => { r##"
# Proved

What is proved of the call that this one makes:

```text
fn size_hint(&self) -> (usize, Option<usize>)
    ensures lower { result.0 ≤ length self.now.rest }
    ensures upper { IfSome result.1 (UpTo (at_most (length self.now.rest))) }
    ensures exact { result ≡ (length self.now.rest, Some (length self.now.rest)) }
```

Words: [`rest`](crate::words#rest).
"## };
    (slotmap_secondary Drain next) => { r##"
# Proved

What is proved of the call that this one makes:

```text
fn next(&mut self) -> Option<(K, V)>

ghost can_next = { SideDrainCanStep };

ghost next_gives = { SideDrainSteps K.data_of };

ghost remaining = { drain_count };
```

Words: [`drain_count`](crate::words#drain_count-of-slotmap_secondary-drain), [`SideDrainCanStep`](crate::words#sidedraincanstep), [`SideDrainSteps`](crate::words#sidedrainsteps).
"## };
    (slotmap_secondary Drain size_hint) => { r##"
# Proved

What is proved of the call that this one makes:

```text
fn size_hint(&self) -> (usize, Option<usize>)
    ensures lower { result.0 ≤ size (drain_count self.now) }
    ensures upper { IfSome result.1 (UpTo (drain_count self.now)) }
    ensures exact { result ≡ (size (drain_count self.now), Some (size (drain_count self.now))) }
```

Words: [`drain_count`](crate::words#drain_count-of-slotmap_secondary-drain).
"## };
    (slotmap_secondary Entry and_modify) => { r##"
# Proved

What is proved of the call that this one makes:

```text
pub fn and_modify<F: FnOnce(&mut V)>(self, f: F) -> Entry<'a, K, V>
where
    F: Drop,
    requires in_place { IsSideInPlace K.data_of self }
    // On the value that the key has.
    requires callable { (shown : MutBor V) → side_entry_value K.data_of self ≡ Some shown.now → F.pre f shown }
    ensures same_map { entry_lender result ≡ entry_lender self.entry }
    ensures key { side_entry_key result ≡ side_entry_key self.entry }
    ensures in_place { IsSideInPlace K.data_of result }
    ensures same_writes { (w : V) → side_entry_with K.data_of result w ≡ side_entry_with K.data_of self.entry w }
    ensures same_removal { entry_without K.data_of result ≡ entry_without K.data_of self.entry }
    ensures value { ModifiesValue F.FnOnce f (side_entry_value K.data_of self.entry) (side_entry_value K.data_of result) }
```

Words: [`entry_lender`](crate::words#entry_lender-of-slotmap_secondary-entry), [`entry_without`](crate::words#entry_without-of-slotmap_secondary-entry), [`IsSideInPlace`](crate::words#issideinplace), [`side_entry_key`](crate::words#side_entry_key), [`side_entry_value`](crate::words#side_entry_value), [`side_entry_with`](crate::words#side_entry_with).
"## };
    (slotmap_secondary Entry key) => { r##"
# Proved

What is proved of the call that this one makes:

```text
pub fn key(&self) -> K
    ensures { result ≡ side_entry_key self.now }
```

Words: [`side_entry_key`](crate::words#side_entry_key).
"## };
    (slotmap_secondary Entry or_default) => { r##"
# Proved

What is proved of the call that this one makes:

```text
pub fn or_default(self) -> &'a mut V
where
    V: Default,
    requires in_place { IsSideInPlace K.data_of self }
    ensures* writes_back { sem 𝓛 (entry_lends K.row V.row K.data_of self.entry result) }
    ensures value { UnwrapsOrElse (side_entry_value K.data_of self.entry) V.is_default result.now }
```

Words: [`entry_lends`](crate::words#entry_lends-of-slotmap_secondary-entry), [`IsSideInPlace`](crate::words#issideinplace), [`side_entry_value`](crate::words#side_entry_value).
"## };
    (slotmap_secondary Entry or_insert) => { r##"
# Proved

What is proved of the call that this one makes:

```text
pub fn or_insert(self, value: V) -> &'a mut V
    requires { IsSideInPlace K.data_of self }
    ensures* writes_back { sem 𝓛 (entry_lends K.row V.row K.data_of self.entry result) }
    ensures value { result.now ≡ unwrap_or (side_entry_value K.data_of self.entry) value }
```

Words: [`entry_lends`](crate::words#entry_lends-of-slotmap_secondary-entry), [`IsSideInPlace`](crate::words#issideinplace), [`side_entry_value`](crate::words#side_entry_value).
"## };
    (slotmap_secondary Entry or_insert_with) => { r##"
# Proved

What is proved of the call that this one makes:

```text
pub fn or_insert_with<F: FnOnce() -> V>(self, f: F) -> &'a mut V
where
    F: Drop,
    requires in_place { IsSideInPlace K.data_of self }
    requires callable { side_entry_value K.data_of self ≡ None → F.pre f }
    ensures* writes_back { sem 𝓛 (entry_lends K.row V.row K.data_of self.entry result) }
    ensures value { UnwrapsOrElse (side_entry_value K.data_of self.entry) (F.post f) result.now }
```

Words: [`entry_lends`](crate::words#entry_lends-of-slotmap_secondary-entry), [`IsSideInPlace`](crate::words#issideinplace), [`side_entry_value`](crate::words#side_entry_value).
"## };
    (slotmap_secondary IntoIter len) => { r##"
# Proved

What is proved of the call that this one makes:

```text
pub fn len(&self) -> usize
    ensures { result ≡ length self.now }
```
"## };
    (slotmap_secondary IntoIter next) => { r##"
# Proved

What is proved of the call that this one makes:

```text
fn next(&mut self) -> Option<(K, V)>

ghost next_gives = { YieldsFirstBy (λ item. (K.data_of item.0, item.1)) (λ rest. rest) };

ghost remaining = { item_count (λ rest. rest) };
```
"## };
    (slotmap_secondary IntoIter size_hint) => { r##"
# Proved

What is proved of the call that this one makes:

```text
fn size_hint(&self) -> (usize, Option<usize>)
    ensures lower { result.0 ≤ length self.now }
    ensures upper { IfSome result.1 (UpTo (at_most (length self.now))) }
    ensures exact { result ≡ (length self.now, Some (length self.now)) }
```
"## };
    (slotmap_secondary Iter clone) => { r##"
# Proved

What is proved of the call that this one makes:

```text
fn clone(&self) -> Result<Self, AllocError>

ghost is_clone = { λ it copy. copy ≡ it };

ghost is_infallible = { λ _. ⊤ };
```
"## };
    (slotmap_secondary Iter len) => { r##"
# Proved

What is proved of the call that this one makes:

```text
pub fn len(&self) -> usize
    ensures { result ≡ length self.now }
```
"## };
    (slotmap_secondary Iter next) => { r##"
# Proved

What is proved of the call that this one makes:

```text
fn next(&mut self) -> Option<(K, &'a V)>

ghost next_gives = { YieldsFirstBy (λ item. (K.data_of item.0, item.1.now)) (λ rest. rest) };

ghost remaining = { item_count (λ rest. rest) };
```
"## };
    (slotmap_secondary Iter size_hint) => { r##"
# Proved

What is proved of the call that this one makes:

```text
fn size_hint(&self) -> (usize, Option<usize>)
    ensures lower { result.0 ≤ length self.now }
    ensures upper { IfSome result.1 (UpTo (at_most (length self.now))) }
    ensures exact { result ≡ (length self.now, Some (length self.now)) }
```
"## };
    (slotmap_secondary Keys clone) => { r##"
# Proved

What is proved of the call that this one makes:

```text
fn clone(&self) -> Result<Self, AllocError>

ghost is_clone = { λ it copy. copy ≡ it };

ghost is_infallible = { λ _. ⊤ };
```
"## };
    (slotmap_secondary Keys len) => { r##"
# Proved

What is proved of the call that this one makes:

```text
pub fn len(&self) -> usize
    ensures { result ≡ length self.now }
```
"## };
    (slotmap_secondary Keys next) => { r##"
# Proved

What is proved of the call that this one makes:

```text
fn next(&mut self) -> Option<K>

ghost next_gives = { YieldsFirstBy K.data_of (λ rest. rest) };

ghost remaining = { item_count (λ rest. rest) };
```
"## };
    (slotmap_secondary Keys size_hint) => { r##"
# Proved

What is proved of the call that this one makes:

```text
fn size_hint(&self) -> (usize, Option<usize>)
    ensures lower { result.0 ≤ length self.now }
    ensures upper { IfSome result.1 (UpTo (at_most (length self.now))) }
    ensures exact { result ≡ (length self.now, Some (length self.now)) }
```
"## };
    (slotmap_secondary OccupiedEntry get) => { r##"
# Proved

What is proved of the call that this one makes:

```text
pub fn get(&self) -> &V
    requires { IsSideInPlace K.data_of (Occupied self.now) }
    ensures { side_entry_value K.data_of (Occupied self.now) ≡ Some result.now }
```

Words: [`IsSideInPlace`](crate::words#issideinplace), [`side_entry_value`](crate::words#side_entry_value).
"## };
    (slotmap_secondary OccupiedEntry get_mut) => { r##"
# Proved

What is proved of the call that this one makes:

```text
pub fn get_mut(&mut self) -> &mut V
    requires { IsSideInPlace K.data_of (Occupied self.old) }
    ensures* writes_back { sem 𝓛 (occupied_lends K.row V.row K.data_of self.entry result) }
    ensures value { side_entry_value K.data_of (Occupied self.old) ≡ Some result.now }
    ensures written { (w : V) → IsWritten K.data_of (Occupied self.old) w (Occupied (occupied_with K.data_of self.old w)) }
```

Words: [`IsSideInPlace`](crate::words#issideinplace), [`IsWritten`](crate::words#iswritten-of-slotmap_secondary-entry), [`occupied_lends`](crate::words#occupied_lends-of-slotmap_secondary-entry), [`occupied_with`](crate::words#occupied_with-of-slotmap_secondary-entry), [`side_entry_value`](crate::words#side_entry_value).
"## };
    (slotmap_secondary OccupiedEntry insert) => { r##"
# Proved

What is proved of the call that this one makes:

```text
pub fn insert(&mut self, value: V) -> V
    requires { IsSideInPlace K.data_of (Occupied self.old) }
    ensures old { side_entry_value K.data_of (Occupied self.old) ≡ Some result }
    ensures written { IsWritten K.data_of (Occupied self.old) value (Occupied self.new) }
```

Words: [`IsSideInPlace`](crate::words#issideinplace), [`IsWritten`](crate::words#iswritten-of-slotmap_secondary-entry), [`side_entry_value`](crate::words#side_entry_value).
"## };
    (slotmap_secondary OccupiedEntry into_mut) => { r##"
# Proved

What is proved of the call that this one makes:

```text
pub fn into_mut(self) -> &'a mut V
    requires { IsSideInPlace K.data_of (Occupied self) }
    ensures* writes_back { sem 𝓛 (entry_lends K.row V.row K.data_of (Occupied self.entry) result) }
    ensures value { side_entry_value K.data_of (Occupied self.entry) ≡ Some result.now }
```

Words: [`entry_lends`](crate::words#entry_lends-of-slotmap_secondary-entry), [`IsSideInPlace`](crate::words#issideinplace), [`side_entry_value`](crate::words#side_entry_value).
"## };
    (slotmap_secondary OccupiedEntry key) => { r##"
# Proved

What is proved of the call that this one makes:

```text
pub fn key(&self) -> K
    ensures { result ≡ side_entry_key (Occupied self.now) }
```

Words: [`side_entry_key`](crate::words#side_entry_key).
"## };
    (slotmap_secondary OccupiedEntry remove) => { r##"
# Proved

What is proved of the call that this one makes:

```text
pub fn remove(self) -> V
    requires { IsSideInPlace K.data_of (Occupied self) }
    ensures value { side_entry_value K.data_of (Occupied self.entry) ≡ Some result }
    ensures removes { self.exit.0.now ≡ entry_without K.data_of (Occupied self.entry) }
```

Words: [`entry_without`](crate::words#entry_without-of-slotmap_secondary-entry), [`IsSideInPlace`](crate::words#issideinplace), [`side_entry_value`](crate::words#side_entry_value).
"## };
    (slotmap_secondary OccupiedEntry remove_entry) => { r##"
# Proved

What is proved of the call that this one makes:

```text
pub fn remove_entry(self) -> (K, V)
    requires { IsSideInPlace K.data_of (Occupied self) }
    ensures key { result.0 ≡ side_entry_key (Occupied self.entry) }
    ensures value { side_entry_value K.data_of (Occupied self.entry) ≡ Some result.1 }
    ensures removes { self.exit.0.now ≡ entry_without K.data_of (Occupied self.entry) }
```

Words: [`entry_without`](crate::words#entry_without-of-slotmap_secondary-entry), [`IsSideInPlace`](crate::words#issideinplace), [`side_entry_key`](crate::words#side_entry_key), [`side_entry_value`](crate::words#side_entry_value).
"## };
    (slotmap_secondary SecondaryMap capacity) => { r##"
# Proved

What is proved of the call that this one makes:

```text
pub fn capacity(&self) -> usize
    ensures value { result ≡ self.now.capacity }
    ensures fits { map.len self.now.pairs ≤ result + 1 }
    ensures valid { IsSideContent self.now }
```

Words: [`capacity`](crate::words#capacity-of-slotmap_secondary-content), [`IsSideContent`](crate::words#issidecontent), [`pairs`](crate::words#pairs-of-slotmap_secondary-content).
"## };
    (slotmap_secondary SecondaryMap clear) => { r##"
# Proved

What is proved of the call that this one makes:

```text
pub fn clear(&mut self)
    ensures empty { self.new ≡ record self.old { pairs = map.empty } }
    ensures valid { IsSideContent self.new }
```

Words: [`IsSideContent`](crate::words#issidecontent).
"## };
    (slotmap_secondary SecondaryMap clone) => { r##"
# Proved

What is proved of the call that this one makes:

```text
pub fn clone(&self) -> Result<Self, AllocError>
    ensures clones { IfOk result (λ copy. HasClones V.is_clone self.now.pairs copy.pairs) }
    ensures places { IfOk result (λ copy. copy.places ≡ self.now.places) }

    // Where clones equal their values, the copy holds what the map holds.
    ensures copies_if_clones_equal { IfOk result (λ copy.
        ClonesEqual V.is_clone → copy ≡ record self.now { capacity = copy.capacity }) }

    ensures valid { IfOk result IsSideContent }
```

Words: [`capacity`](crate::words#capacity-of-slotmap_secondary-content), [`ClonesEqual`](crate::words#clonesequal), [`HasClones`](crate::words#hasclones), [`IsSideContent`](crate::words#issidecontent), [`pairs`](crate::words#pairs-of-slotmap_secondary-content), [`places`](crate::words#places-of-slotmap_secondary-content).
"## };
    (slotmap_secondary SecondaryMap clone_from) => { r##"
# Proved

What is proved of the call that this one makes:

```text
pub fn clone_from(&mut self, source: &Self) -> Result<(), AllocError>
where
    V: Drop,
    ensures clones { OnOk result (HasClones V.is_clone source.now.pairs self.new.pairs) }
    ensures places { OnOk result (self.new.places ≡ source.now.places) }

    // Where clones equal their values, this map holds what the source holds.
    ensures copies_if_clones_equal { OnOk result (
        ClonesEqual V.is_clone → self.new ≡ record source.now { capacity = self.new.capacity }) }

    ensures unchanged { OnErr result (self.new ≡ self.old) }
    ensures valid { OnOk result (IsSideContent self.new) }
```

Words: [`capacity`](crate::words#capacity-of-slotmap_secondary-content), [`ClonesEqual`](crate::words#clonesequal), [`HasClones`](crate::words#hasclones), [`IsSideContent`](crate::words#issidecontent), [`pairs`](crate::words#pairs-of-slotmap_secondary-content), [`places`](crate::words#places-of-slotmap_secondary-content).
"## };
    (slotmap_secondary SecondaryMap contains_key) => { r##"
# Proved

What is proved of the call that this one makes:

```text
pub fn contains_key(&self, key: K) -> bool
    ensures value { result ≡ contains_key self.now.pairs (K.data_of key) }
    ensures valid { IsSideContent self.now }
```

Words: [`contains_key`](crate::words#contains_key), [`IsSideContent`](crate::words#issidecontent), [`pairs`](crate::words#pairs-of-slotmap_secondary-content).
"## };
    (slotmap_secondary SecondaryMap drain) => { r##"
# Proved

What is proved of the call that this one makes:

```text
pub fn drain(&mut self) -> Drain<'_, K, V>
    ensures map { (side_drain_loan result).now ≡ self.old }
    ensures same_reference { (side_drain_loan result).ghost_name ≡ self.entry.ghost_name }
    ensures ready { SideDrainCanStep result }

    // Laws of the steps, for callers that go on with the iterator.
    ensures stays { KeepsAlong (SideDrainSteps K.data_of) (KeepsLoan side_drain_loan EmptiesSide) result }
    ensures lists { ListsAlong K.data_of (λ d. keyed (side_drain_loan d).now.pairs) (SideDrainSteps K.data_of) result }
    ensures in_order { InOrderAlong K.data_of (λ d. keyed (side_drain_loan d).now.pairs) (SideDrainSteps K.data_of) result }

    ensures valid { IsSideContent self.old }
```

Words: [`EmptiesSide`](crate::words#emptiesside), [`InOrderAlong`](crate::words#inorderalong), [`IsSideContent`](crate::words#issidecontent), [`KeepsAlong`](crate::words#keepsalong), [`KeepsLoan`](crate::words#keepsloan), [`keyed`](crate::words#keyed), [`ListsAlong`](crate::words#listsalong), [`pairs`](crate::words#pairs-of-slotmap_secondary-content), [`side_drain_loan`](crate::words#side_drain_loan), [`SideDrainCanStep`](crate::words#sidedraincanstep), [`SideDrainSteps`](crate::words#sidedrainsteps).
"## };
    (slotmap_secondary SecondaryMap entry) => { r##"
# Proved

What is proved of the call that this one makes:

```text
pub fn entry(&mut self, key: K) -> Result<Option<Entry<'_, K, V>>, OutOfMemory>
    ensures which { IfOk result (IsEntryOf K.data_of self.old.pairs (K.data_of key)) }
    ensures ok { IfEntry result (Enters K.data_of self.entry key) }

    // Fails only if a slot has to be made; never at an index up to `capacity`.
    ensures err { OnErr result (entry self.old.pairs (K.data_of key) ≡ vacant) }
    ensures room { (K.data_of key).index ≤ self.old.capacity → IsOk result }

    ensures valid { IsSideContent self.old }
```

Words: [`capacity`](crate::words#capacity-of-slotmap_secondary-content), [`Enters`](crate::words#enters-of-slotmap_secondary-entry), [`entry`](crate::words#entry-of-slotmap_core-secondary), [`IfEntry`](crate::words#ifentry-of-slotmap_secondary-entry), [`index`](crate::words#index), [`IsEntryOf`](crate::words#isentryof-of-slotmap_secondary-entry), [`IsSideContent`](crate::words#issidecontent), [`pairs`](crate::words#pairs-of-slotmap_secondary-content), [`vacant`](crate::words#vacant).
"## };
    (slotmap_secondary SecondaryMap eq) => { r##"
# Proved

What is proved of the call that this one makes:

```text
fn eq(&self, other: &Self) -> bool
    ensures value { result ≡ are_equal V.eq self.now.pairs other.now.pairs }
    ensures which { IsTrue result ↔ AreEqual V.eq self.now.pairs other.now.pairs }
```

Words: [`are_equal`](crate::words#are_equal), [`AreEqual`](crate::words#areequal), [`pairs`](crate::words#pairs-of-slotmap_secondary-content).
"## };
    (slotmap_secondary SecondaryMap extend) => { r##"
# Proved

What is proved of the call that this one makes:

```text
pub fn extend<I: IntoIterator<Item = (K, V)>>(&mut self, iter: I) -> Result<(), (K, V)>
    requires { (it : I.IntoIter) → I.into_iter_gives iter it →
        I.IntoIter.can_next it × IsFinite (I.IntoIter.remaining it) }
    ensures extends { (it : I.IntoIter) × I.into_iter_gives iter it
        × Extends K.data_of it self.old.pairs result self.new.pairs I.IntoIter.next_gives }
    ensures grows { Grows self.old self.new }

    // A pair is returned only if there is no memory for its index.
    ensures back { IfErr result (λ back. self.new.capacity < (K.data_of back.0).index) }

    ensures valid { IsSideContent self.new }
```

Words: [`capacity`](crate::words#capacity-of-slotmap_secondary-content), [`Extends`](crate::words#extends), [`Grows`](crate::words#grows), [`index`](crate::words#index), [`IsSideContent`](crate::words#issidecontent), [`pairs`](crate::words#pairs-of-slotmap_secondary-content).
"## };
    (slotmap_secondary SecondaryMap extend_refs) => { r##"
# Proved

What is proved of the call that this one makes:

```text
pub fn extend_refs<'b, I: IntoIterator<Item = (K, &'b V)>>(
    &mut self,
    iter: I,
) -> Result<(), (K, V)>
where
    V: Copy + 'b,
    requires { (it : I.IntoIter) → I.into_iter_gives iter it →
        I.IntoIter.can_next it × IsFinite (I.IntoIter.remaining it) }
    ensures extends { (it : I.IntoIter) × I.into_iter_gives iter it
        × ExtendsBy K.data_of it self.old.pairs result self.new.pairs I.IntoIter.next_gives }
    ensures grows { Grows self.old self.new }

    // A pair is returned only if there is no memory for its index.
    ensures back { IfErr result (λ back. self.new.capacity < (K.data_of back.0).index) }

    ensures valid { IsSideContent self.new }
```

Words: [`capacity`](crate::words#capacity-of-slotmap_secondary-content), [`ExtendsBy`](crate::words#extendsby), [`Grows`](crate::words#grows), [`index`](crate::words#index), [`IsSideContent`](crate::words#issidecontent), [`pairs`](crate::words#pairs-of-slotmap_secondary-content).
"## };
    (slotmap_secondary SecondaryMap from_iter) => { r##"
# Proved

What is proved of the call that this one makes:

```text
pub fn from_iter<I: IntoIterator<Item = (K, V)>>(
    alloc: Global,
    iter: I,
) -> Result<Self, Option<(K, V)>>
where
    I: Drop,
    requires { (it : I.IntoIter) → I.into_iter_gives iter it →
        I.IntoIter.can_next it × IsFinite (I.IntoIter.remaining it) }
    ensures ok { IfOk result (λ all. (it : I.IntoIter) × (pairs : List (K × V)) × I.into_iter_gives iter it
        × Drains I.IntoIter.next_gives it pairs × AllPut K.data_of map.empty pairs all.pairs) }
    ensures places { IfOk result (λ all. (all.places ≡ 1) ⊎ EndsAtPair all) }
    ensures err { IfErr result (λ back. IfSome back (λ pair. (it : I.IntoIter) × (pairs : List (K × V)) × (rest : I.IntoIter)
        × I.into_iter_gives iter it × YieldsThen I.IntoIter.next_gives it pairs (Some pair) rest
        × LacksPlace K.data_of pairs pair)) }
    ensures valid { IfOk result IsSideContent }
```

Words: [`AllPut`](crate::words#allput), [`EndsAtPair`](crate::words#endsatpair), [`IsSideContent`](crate::words#issidecontent), [`LacksPlace`](crate::words#lacksplace), [`pairs`](crate::words#pairs-of-slotmap_secondary-content), [`places`](crate::words#places-of-slotmap_secondary-content).
"## };
    (slotmap_secondary SecondaryMap from_slots) => { r##"
# Proved

What is proved of the call that this one makes:

```text
pub fn from_slots(alloc: Global, list: Vec<SlotRecord<V>>) -> Result<Self, SlotsError>
    ensures contents { IfOk result (λ made. keyed made.pairs ≡ start_live list.items) }
    ensures places { IfOk result (λ made. made.places ≡ length list.items) }
    ensures valid { IfOk result IsSideContent }

    // When it fails: the first error that applies.
    ensures accepted { IsOk result → Accepts list.items side_list_limit }
    ensures err { IfErr result (RefusesStart list.items side_list_limit) }
```

Words: [`Accepts`](crate::words#accepts), [`IsSideContent`](crate::words#issidecontent), [`keyed`](crate::words#keyed), [`pairs`](crate::words#pairs-of-slotmap_secondary-content), [`places`](crate::words#places-of-slotmap_secondary-content), [`RefusesStart`](crate::words#refusesstart), [`side_list_limit`](crate::words#side_list_limit), [`start_live`](crate::words#start_live).
"## };
    (slotmap_secondary SecondaryMap get) => { r##"
# Proved

What is proved of the call that this one makes:

```text
pub fn get(&self, key: K) -> Option<&V>
    ensures value { option_copied result ≡ get self.now.pairs (K.data_of key) }
    ensures valid { IsSideContent self.now }
```

Words: [`get`](crate::words#get), [`IsSideContent`](crate::words#issidecontent), [`pairs`](crate::words#pairs-of-slotmap_secondary-content).
"## };
    (slotmap_secondary SecondaryMap get_mut) => { r##"
# Proved

What is proved of the call that this one makes:

```text
pub fn get_mut(&mut self, key: K) -> Option<&mut V>
    ensures* writes_back { sem 𝓛 (lends_get K.row V.row self.entry (K.data_of key) result) }
    ensures value { option_copied_mut result ≡ get self.old.pairs (K.data_of key) }
    ensures valid { IsSideContent self.old }
```

Words: [`get`](crate::words#get), [`IsSideContent`](crate::words#issidecontent), [`lends_get`](crate::words#lends_get-of-slotmap_secondary-lends), [`pairs`](crate::words#pairs-of-slotmap_secondary-content).
"## };
    (slotmap_secondary SecondaryMap get_unchecked) => { r##"
# Proved

What is proved of the call that this one makes:

```text
pub fn get_unchecked(&self, key: K) -> &V
    requires { contains_key self.now.pairs (K.data_of key) ≡ true }
    ensures value { get self.now.pairs (K.data_of key) ≡ Some result.now }
    ensures valid { IsSideContent self.now }
```

Words: [`contains_key`](crate::words#contains_key), [`get`](crate::words#get), [`IsSideContent`](crate::words#issidecontent), [`pairs`](crate::words#pairs-of-slotmap_secondary-content).
"## };
    (slotmap_secondary SecondaryMap get_unchecked_mut) => { r##"
# Proved

What is proved of the call that this one makes:

```text
pub fn get_unchecked_mut(&mut self, key: K) -> &mut V
    requires { contains_key self.old.pairs (K.data_of key) ≡ true }
    ensures* writes_back { sem 𝓛 (lends_value K.row V.row self.entry (K.data_of key) result) }
    ensures value { get self.old.pairs (K.data_of key) ≡ Some result.now }
    ensures valid { IsSideContent self.old }
```

Words: [`contains_key`](crate::words#contains_key), [`get`](crate::words#get), [`IsSideContent`](crate::words#issidecontent), [`lends_value`](crate::words#lends_value-of-slotmap_secondary-lends), [`pairs`](crate::words#pairs-of-slotmap_secondary-content).
"## };
    (slotmap_secondary SecondaryMap index) => { r##"
# Proved

What is proved of the call that this one makes:

```text
fn index(&self, key: K) -> &V

ghost can_index = { λ m key. contains_key m.pairs (K.data_of key) ≡ true };

ghost index_gives = { λ m key value. get m.pairs (K.data_of key) ≡ Some value };
```

Words: [`contains_key`](crate::words#contains_key), [`get`](crate::words#get), [`pairs`](crate::words#pairs-of-slotmap_secondary-content).
"## };
    (slotmap_secondary SecondaryMap index_mut) => { r##"
# Proved

What is proved of the call that this one makes:

```text
fn index_mut(&mut self, key: K) -> &mut V
    requires { contains_key self.old.pairs (K.data_of key) ≡ true }
    ensures* writes_back { sem 𝓛 (lends_value K.row V.row self.entry (K.data_of key) result) }
    ensures value { get self.old.pairs (K.data_of key) ≡ Some result.now }
    ensures valid { IsSideContent self.old }
```

Words: [`contains_key`](crate::words#contains_key), [`get`](crate::words#get), [`IsSideContent`](crate::words#issidecontent), [`lends_value`](crate::words#lends_value-of-slotmap_secondary-lends), [`pairs`](crate::words#pairs-of-slotmap_secondary-content).
"## };
    (slotmap_secondary SecondaryMap insert) => { r##"
# Proved

What is proved of the call that this one makes:

```text
pub fn insert(&mut self, key: K, value: V) -> Result<Option<V>, PutError<V>>
    ensures value { IfOk result (λ before. before ≡ get self.old.pairs (K.data_of key)) }
    ensures ok { OnOk result (self.new.pairs ≡ put self.old.pairs (K.data_of key) value) }
    ensures places { OnOk result (Reaches self.old (K.data_of key) self.new) }

    // Fails only if a slot has to be made; never at an index up to `capacity`.
    ensures err { IfErr result (λ error. RefusesPut self.old.pairs (K.data_of key) value error.0) }
    ensures unchanged { OnErr result (self.new ≡ self.old) }
    ensures room { (K.data_of key).index ≤ self.old.capacity → IsOk result }

    ensures valid { IsSideContent self.new }
```

Words: [`capacity`](crate::words#capacity-of-slotmap_secondary-content), [`get`](crate::words#get), [`index`](crate::words#index), [`IsSideContent`](crate::words#issidecontent), [`pairs`](crate::words#pairs-of-slotmap_secondary-content), [`put`](crate::words#put), [`Reaches`](crate::words#reaches), [`RefusesPut`](crate::words#refusesput).
"## };
    (slotmap_secondary SecondaryMap into_iter) => { r##"
# Proved

What is proved of the call that this one makes:

```text
fn into_iter(self) -> IntoIter<K, V>

ghost into_iter_gives = { λ m it. ListsByIndex (keyed m.pairs) it };
```

Words: [`keyed`](crate::words#keyed), [`ListsByIndex`](crate::words#listsbyindex), [`pairs`](crate::words#pairs-of-slotmap_secondary-content).
"## };
    (slotmap_secondary SecondaryMap is_empty) => { r##"
# Proved

What is proved of the call that this one makes:

```text
pub fn is_empty(&self) -> bool
    ensures value { IsTrue result ↔ (map.len self.now.pairs ≡ 0) }
    ensures valid { IsSideContent self.now }
```

Words: [`IsSideContent`](crate::words#issidecontent), [`pairs`](crate::words#pairs-of-slotmap_secondary-content).
"## };
    (slotmap_secondary SecondaryMap iter) => { r##"
# Proved

What is proved of the call that this one makes:

```text
pub fn iter(&self) -> Iter<'_, K, V>
    ensures listing { IsListing (keyed self.now.pairs) result }
    ensures in_order { result ≡ map.entries (keyed self.now.pairs) }
    ensures valid { IsSideContent self.now }
```

Words: [`IsListing`](crate::words#islisting), [`IsSideContent`](crate::words#issidecontent), [`keyed`](crate::words#keyed), [`pairs`](crate::words#pairs-of-slotmap_secondary-content).
"## };
    (slotmap_secondary SecondaryMap key_at) => { r##"
# Proved

What is proved of the call that this one makes:

```text
pub fn key_at(&self, index: usize) -> Option<K>
    ensures there { IfSome result (λ key.
        (contains_key self.now.pairs (K.data_of key) ≡ true) × ((K.data_of key).index ≡ index)) }
    ensures none { IfNone result (map.get self.now.pairs index ≡ None) }
    ensures valid { IsSideContent self.now }
```

Words: [`contains_key`](crate::words#contains_key), [`index`](crate::words#index), [`IsSideContent`](crate::words#issidecontent), [`pairs`](crate::words#pairs-of-slotmap_secondary-content).
"## };
    (slotmap_secondary SecondaryMap keys) => { r##"
# Proved

What is proved of the call that this one makes:

```text
pub fn keys(&self) -> Keys<'_, K, V>
    ensures listing { IsKeyListing (keyed self.now.pairs) result }
    ensures in_order { result ≡ map.keys (keyed self.now.pairs) }
    ensures valid { IsSideContent self.now }
```

Words: [`IsKeyListing`](crate::words#iskeylisting), [`IsSideContent`](crate::words#issidecontent), [`keyed`](crate::words#keyed), [`pairs`](crate::words#pairs-of-slotmap_secondary-content).
"## };
    (slotmap_secondary SecondaryMap len) => { r##"
# Proved

What is proved of the call that this one makes:

```text
pub fn len(&self) -> usize
    ensures value { result ≡ map.len self.now.pairs }
    ensures valid { IsSideContent self.now }
```

Words: [`IsSideContent`](crate::words#issidecontent), [`pairs`](crate::words#pairs-of-slotmap_secondary-content).
"## };
    (slotmap_secondary SecondaryMap new) => { r##"
# Proved

What is proved of the call that this one makes:

```text
pub fn new(alloc: Global) -> Result<Self, ReserveError>
    ensures empty { IfOk result (λ made. made.pairs ≡ map.empty) }
    ensures places { IfOk result (λ made. made.places ≡ 1) }
    ensures err { IfErr result (λ error. error ≡ ReserveError.Memory) }
    ensures valid { IfOk result IsSideContent }
```

Words: [`IsSideContent`](crate::words#issidecontent), [`pairs`](crate::words#pairs-of-slotmap_secondary-content), [`places`](crate::words#places-of-slotmap_secondary-content).
"## };
    (slotmap_secondary SecondaryMap or_put) => { r##"
# Proved

What is proved of the call that this one makes:

```text
pub fn or_put(&mut self, key: K, value: V) -> OrPut<V>
    ensures does { OrPuts self.old.pairs (K.data_of key) value result self.new.pairs }
    ensures places { OrPutReaches self.old (K.data_of key) result self.new }
    ensures room { result ≡ or_put.Memory value → self.old.capacity < (K.data_of key).index }
    ensures grows { self.old.capacity ≤ self.new.capacity }
    ensures valid { IsSideContent self.new }
```

Words: [`capacity`](crate::words#capacity-of-slotmap_secondary-content), [`index`](crate::words#index), [`IsSideContent`](crate::words#issidecontent), [`OrPutReaches`](crate::words#orputreaches), [`OrPuts`](crate::words#orputs), [`pairs`](crate::words#pairs-of-slotmap_secondary-content).
"## };
    (slotmap_secondary SecondaryMap remove) => { r##"
# Proved

What is proved of the call that this one makes:

```text
pub fn remove(&mut self, key: K) -> Option<V>
    ensures value { result ≡ get self.old.pairs (K.data_of key) }
    ensures removes { self.new ≡ record self.old { pairs = remove self.old.pairs (K.data_of key) } }
    ensures valid { IsSideContent self.new }
```

Words: [`get`](crate::words#get), [`IsSideContent`](crate::words#issidecontent), [`pairs`](crate::words#pairs-of-slotmap_secondary-content), [`remove`](crate::words#remove).
"## };
    (slotmap_secondary SecondaryMap replace_disjoint) => { r##"
# Proved

What is proved of the call that this one makes:

```text
pub fn replace_disjoint<const N: usize>(
    &mut self,
    keys: [K; N],
    mut values: [V; N],
) -> Result<[V; N], [V; N]>
    ensures which { IsOk result ↔ CanReplace get self.old.pairs (map_list K.data_of keys) }
    ensures value { IfOk result (AreValuesOf get self.old.pairs (map_list K.data_of keys)) }
    ensures ok { OnOk result (self.new ≡ record self.old {
      pairs = with_values bind self.old.pairs (map_list K.data_of keys) values;
    }) }

    ensures err { IfErr result (λ back. back ≡ values) }
    ensures unchanged { OnErr result (self.new ≡ self.old) }

    ensures valid { IsSideContent self.new }
```

Words: [`AreValuesOf`](crate::words#arevaluesof-of-slotmap_core-several), [`bind`](crate::words#bind), [`CanReplace`](crate::words#canreplace-of-slotmap_core-several), [`get`](crate::words#get), [`IsSideContent`](crate::words#issidecontent), [`pairs`](crate::words#pairs-of-slotmap_secondary-content), [`with_values`](crate::words#with_values-of-slotmap_core-several).
"## };
    (slotmap_secondary SecondaryMap retain) => { r##"
# Proved

What is proved of the call that this one makes:

```text
pub fn retain<F: FnMut(K, &mut V) -> bool>(&mut self, mut f: F)
where
    F: Drop,
    // For each pair of the map, from each state that calls for other pairs leave the closure
    // in.
    requires { CallableOnEach F.FnMut K.data_of f (keyed self.old.pairs) }
    ensures retained { RetainsBy F.FnMut K.data_of f (keyed self.old.pairs) (keyed self.new.pairs) }
    ensures keeps { self.new ≡ record self.old { pairs = self.new.pairs } }
    ensures valid { IsSideContent self.new }
```

Words: [`CallableOnEach`](crate::words#callableoneach), [`IsSideContent`](crate::words#issidecontent), [`keyed`](crate::words#keyed), [`pairs`](crate::words#pairs-of-slotmap_secondary-content), [`RetainsBy`](crate::words#retainsby).
"## };
    (slotmap_secondary SecondaryMap set_capacity) => { r##"
# Proved

What is proved of the call that this one makes:

```text
pub fn set_capacity(&mut self, capacity: usize) -> Result<(), ReserveError>
    ensures sets { SetsCapacity capacity self.old result self.new }
    ensures valid { IsSideContent self.new }
```

Words: [`IsSideContent`](crate::words#issidecontent), [`SetsCapacity`](crate::words#setscapacity).
"## };
    (slotmap_secondary SecondaryMap to_slots) => { r##"
# Proved

What is proved of the call that this one makes:

```text
pub fn to_slots(&self) -> Result<Vec<SlotRecord<V>>, OutOfMemory>
where
    V: Clone,
    // The list is that of a copy, and has a clone under each key.
    ensures writes { IfOk result (λ slots. WritesSideClones V.is_clone self.now slots.items) }
    ensures contents { IfOk result (λ slots.
        (k : Key) → IsCloneOf V.is_clone (get self.now.pairs k) (map.get (start_live slots.items) k)) }

    // Where clones equal their values, it is the map's own list.
    ensures writes_if_clones_equal { IfOk result (λ slots. ClonesEqual V.is_clone → WritesSide self.now slots.items) }
    ensures contents_if_clones_equal { IfOk result (λ slots.
        ClonesEqual V.is_clone → start_live slots.items ≡ keyed self.now.pairs) }

    ensures valid { IsSideContent self.now }
```

Words: [`ClonesEqual`](crate::words#clonesequal), [`get`](crate::words#get), [`IsCloneOf`](crate::words#iscloneof), [`IsSideContent`](crate::words#issidecontent), [`Key`](crate::words#key), [`keyed`](crate::words#keyed), [`pairs`](crate::words#pairs-of-slotmap_secondary-content), [`start_live`](crate::words#start_live), [`WritesSide`](crate::words#writesside), [`WritesSideClones`](crate::words#writessideclones).
"## };
    (slotmap_secondary SecondaryMap try_entry) => { r##"
# Proved

What is proved of the call that this one makes:

```text
pub fn try_entry(&mut self, key: K) -> Result<Entry<'_, K, V>, NoEntry>
    ensures which { IfOk result (λ e. IsEntryOf K.data_of self.old.pairs (K.data_of key) (Some e)) }
    ensures ok { IfOk result (Enters K.data_of self.entry key) }

    ensures err { IfErr result (RefusesEntry self.old.pairs (K.data_of key)) }
    ensures* unchanged { sem 𝓛 (rests_if_err K.row V.row self.entry result) }
    ensures room { result ≡ Err no_entry.Memory → self.old.capacity < (K.data_of key).index }

    ensures valid { IsSideContent self.old }
```

Words: [`capacity`](crate::words#capacity-of-slotmap_secondary-content), [`Enters`](crate::words#enters-of-slotmap_secondary-entry), [`index`](crate::words#index), [`IsEntryOf`](crate::words#isentryof-of-slotmap_secondary-entry), [`IsSideContent`](crate::words#issidecontent), [`pairs`](crate::words#pairs-of-slotmap_secondary-content), [`RefusesEntry`](crate::words#refusesentry), [`rests_if_err`](crate::words#rests_if_err-of-slotmap_secondary-entry).
"## };
    (slotmap_secondary SecondaryMap try_set_capacity) => { r##"
# Proved

What is proved of the call that this one makes:

```text
pub fn try_set_capacity(&mut self, capacity: usize) -> Result<(), ReserveError>
    ensures sets { SetsCapacity capacity self.old result self.new }
    ensures valid { IsSideContent self.new }
```

Words: [`IsSideContent`](crate::words#issidecontent), [`SetsCapacity`](crate::words#setscapacity).
"## };
    (slotmap_secondary SecondaryMap values) => { r##"
# Proved

What is proved of the call that this one makes:

```text
pub fn values(&self) -> Values<'_, K, V>
    ensures listing { IsValueListing (keyed self.now.pairs) result }
    ensures in_order { result ≡ map.values (keyed self.now.pairs) }
    ensures valid { IsSideContent self.now }
```

Words: [`IsSideContent`](crate::words#issidecontent), [`IsValueListing`](crate::words#isvaluelisting), [`keyed`](crate::words#keyed), [`pairs`](crate::words#pairs-of-slotmap_secondary-content).
"## };
    (slotmap_secondary SecondaryMap with_capacity) => { r##"
# Proved

What is proved of the call that this one makes:

```text
pub fn with_capacity(alloc: Global, capacity: usize) -> Result<Self, ReserveError>
    ensures empty { IfOk result (λ made. made.pairs ≡ map.empty) }
    ensures places { IfOk result (λ made. made.places ≡ 1) }
    ensures capacity { IfOk result (λ made. capacity ≤ made.capacity) }
    ensures fits { OnOk result (capacity ≤ most) }
    ensures err { IfErr result (RefusesCapacity capacity) }
    ensures valid { IfOk result IsSideContent }
```

Words: [`capacity`](crate::words#capacity-of-slotmap_secondary-content), [`IsSideContent`](crate::words#issidecontent), [`most`](crate::words#most), [`pairs`](crate::words#pairs-of-slotmap_secondary-content), [`places`](crate::words#places-of-slotmap_secondary-content), [`RefusesCapacity`](crate::words#refusescapacity).
"## };
    (slotmap_secondary VacantEntry insert) => { r##"
# Proved

What is proved of the call that this one makes:

```text
pub fn insert(self, value: V) -> &'a mut V
    requires { IsSideInPlace K.data_of (Vacant self) }
    ensures* writes_back { sem 𝓛 (entry_lends K.row V.row K.data_of (Vacant self.entry) result) }
    ensures value { result.now ≡ value }
```

Words: [`entry_lends`](crate::words#entry_lends-of-slotmap_secondary-entry), [`IsSideInPlace`](crate::words#issideinplace).
"## };
    (slotmap_secondary VacantEntry key) => { r##"
# Proved

What is proved of the call that this one makes:

```text
pub fn key(&self) -> K
    ensures { result ≡ side_entry_key (Vacant self.now) }
```

Words: [`side_entry_key`](crate::words#side_entry_key).
"## };
    (slotmap_secondary Values clone) => { r##"
# Proved

What is proved of the call that this one makes:

```text
fn clone(&self) -> Result<Self, AllocError>

ghost is_clone = { λ it copy. copy ≡ it };

ghost is_infallible = { λ _. ⊤ };
```
"## };
    (slotmap_secondary Values len) => { r##"
# Proved

What is proved of the call that this one makes:

```text
pub fn len(&self) -> usize
    ensures { result ≡ length self.now }
```
"## };
    (slotmap_secondary Values next) => { r##"
# Proved

What is proved of the call that this one makes:

```text
fn next(&mut self) -> Option<&'a V>

ghost next_gives = { YieldsFirstBy (λ item. item.now) (λ rest. rest) };

ghost remaining = { item_count (λ rest. rest) };
```
"## };
    (slotmap_secondary Values size_hint) => { r##"
# Proved

What is proved of the call that this one makes:

```text
fn size_hint(&self) -> (usize, Option<usize>)
    ensures lower { result.0 ≤ length self.now }
    ensures upper { IfSome result.1 (UpTo (at_most (length self.now))) }
    ensures exact { result ≡ (length self.now, Some (length self.now)) }
```
"## };
    (slotmap_sparse Drain next) => { r##"
# Proved

What is proved of the call that this one makes:

```text
fn next(&mut self) -> Option<(K, V)>

ghost next_gives = { SparseDrainSteps K.data_of };

ghost remaining = { drain_count };
```

Words: [`drain_count`](crate::words#drain_count-of-slotmap_sparse-drain), [`SparseDrainSteps`](crate::words#sparsedrainsteps).
"## };
    (slotmap_sparse Drain size_hint) => { r##"
# Proved

What is proved of the call that this one makes:

```text
fn size_hint(&self) -> (usize, Option<usize>)
    ensures lower { result.0 ≤ size (drain_count self.now) }
    ensures upper { IfSome result.1 (UpTo (drain_count self.now)) }
    ensures exact { result ≡ (size (drain_count self.now), Some (size (drain_count self.now))) }
```

Words: [`drain_count`](crate::words#drain_count-of-slotmap_sparse-drain).
"## };
    (slotmap_sparse Entry and_modify) => { r##"
# Proved

What is proved of the call that this one makes:

```text
pub fn and_modify<F: FnOnce(&mut V)>(self, f: F) -> Entry<'a, K, V, S>
where
    F: Drop,
    requires in_place { IsSparseInPlace K.data_of self }
    // On the value that the key has.
    requires callable { (shown : MutBor V) → sparse_entry_value K.data_of self ≡ Some shown.now → F.pre f shown }
    ensures same_map { entry_lender result ≡ entry_lender self.entry }
    ensures key { sparse_entry_key result ≡ sparse_entry_key self.entry }
    ensures in_place { IsSparseInPlace K.data_of result }
    ensures same_writes { (w : V) → sparse_entry_with K.data_of result w ≡ sparse_entry_with K.data_of self.entry w }
    ensures same_removal { entry_without K.data_of result ≡ entry_without K.data_of self.entry }
    ensures value { ModifiesValue F.FnOnce f (sparse_entry_value K.data_of self.entry) (sparse_entry_value K.data_of result) }
```

Words: [`entry_lender`](crate::words#entry_lender-of-slotmap_sparse-entry), [`entry_without`](crate::words#entry_without-of-slotmap_sparse-entry), [`IsSparseInPlace`](crate::words#issparseinplace), [`sparse_entry_key`](crate::words#sparse_entry_key), [`sparse_entry_value`](crate::words#sparse_entry_value), [`sparse_entry_with`](crate::words#sparse_entry_with).
"## };
    (slotmap_sparse Entry key) => { r##"
# Proved

What is proved of the call that this one makes:

```text
pub fn key(&self) -> K
    ensures { result ≡ sparse_entry_key self.now }
```

Words: [`sparse_entry_key`](crate::words#sparse_entry_key).
"## };
    (slotmap_sparse Entry or_default) => { r##"
# Proved

What is proved of the call that this one makes:

```text
pub fn or_default(self) -> Result<&'a mut V, OutOfMemory>
where
    V: Default,
    requires in_place { IsSparseInPlace K.data_of self }
    ensures* writes_back { sem 𝓛 (entry_lends_ok K.row V.row S.row S.Hasher.row S.BuildHasher S.Hasher.Hasher K.data_of self.entry result) }
    ensures value { IfOk result (λ r. UnwrapsOrElse (sparse_entry_value K.data_of self.entry) V.is_default r.now) }
    ensures err { OnErr result (sparse_entry_value K.data_of self.entry ≡ None) }
    ensures room { map.len (sparse_entry_map self.entry).pairs < (sparse_entry_map self.entry).capacity → IsOk result }
```

Words: [`capacity`](crate::words#capacity-of-slotmap_sparse-content), [`entry_lends_ok`](crate::words#entry_lends_ok), [`IsSparseInPlace`](crate::words#issparseinplace), [`pairs`](crate::words#pairs-of-slotmap_sparse-content), [`sparse_entry_map`](crate::words#sparse_entry_map), [`sparse_entry_value`](crate::words#sparse_entry_value).
"## };
    (slotmap_sparse Entry or_insert) => { r##"
# Proved

What is proved of the call that this one makes:

```text
pub fn or_insert(self, value: V) -> Result<&'a mut V, PutError<V>>
    requires { IsSparseInPlace K.data_of self }
    ensures* writes_back { sem 𝓛 (entry_lends_ok K.row V.row S.row S.Hasher.row S.BuildHasher S.Hasher.Hasher K.data_of self.entry result) }
    ensures value { IfOk result (λ r. r.now ≡ unwrap_or (sparse_entry_value K.data_of self.entry) value) }
    ensures err { IfErr result (λ error. (sparse_entry_value K.data_of self.entry ≡ None) × (error.0 ≡ value)) }
    ensures room { map.len (sparse_entry_map self.entry).pairs < (sparse_entry_map self.entry).capacity → IsOk result }
```

Words: [`capacity`](crate::words#capacity-of-slotmap_sparse-content), [`entry_lends_ok`](crate::words#entry_lends_ok), [`IsSparseInPlace`](crate::words#issparseinplace), [`pairs`](crate::words#pairs-of-slotmap_sparse-content), [`sparse_entry_map`](crate::words#sparse_entry_map), [`sparse_entry_value`](crate::words#sparse_entry_value).
"## };
    (slotmap_sparse Entry or_insert_with) => { r##"
# Proved

What is proved of the call that this one makes:

```text
pub fn or_insert_with<F: FnOnce() -> V>(self, f: F) -> Result<&'a mut V, OutOfMemory>
where
    F: Drop,
    requires in_place { IsSparseInPlace K.data_of self }
    requires callable { sparse_entry_value K.data_of self ≡ None → F.pre f }
    ensures* writes_back { sem 𝓛 (entry_lends_ok K.row V.row S.row S.Hasher.row S.BuildHasher S.Hasher.Hasher K.data_of self.entry result) }
    ensures value { IfOk result (λ r. UnwrapsOrElse (sparse_entry_value K.data_of self.entry) (F.post f) r.now) }
    ensures err { OnErr result (sparse_entry_value K.data_of self.entry ≡ None) }
    ensures room { map.len (sparse_entry_map self.entry).pairs < (sparse_entry_map self.entry).capacity → IsOk result }
```

Words: [`capacity`](crate::words#capacity-of-slotmap_sparse-content), [`entry_lends_ok`](crate::words#entry_lends_ok), [`IsSparseInPlace`](crate::words#issparseinplace), [`pairs`](crate::words#pairs-of-slotmap_sparse-content), [`sparse_entry_map`](crate::words#sparse_entry_map), [`sparse_entry_value`](crate::words#sparse_entry_value).
"## };
    (slotmap_sparse IntoIter len) => { r##"
# Proved

What is proved of the call that this one makes:

```text
pub fn len(&self) -> usize
    ensures { result ≡ length self.now }
```
"## };
    (slotmap_sparse IntoIter next) => { r##"
# Proved

What is proved of the call that this one makes:

```text
fn next(&mut self) -> Option<(K, V)>

ghost next_gives = { YieldsFirstBy (λ item. (K.data_of item.0, item.1)) (λ rest. rest) };

ghost remaining = { item_count (λ rest. rest) };
```
"## };
    (slotmap_sparse IntoIter size_hint) => { r##"
# Proved

What is proved of the call that this one makes:

```text
fn size_hint(&self) -> (usize, Option<usize>)
    ensures lower { result.0 ≤ length self.now }
    ensures upper { IfSome result.1 (UpTo (at_most (length self.now))) }
    ensures exact { result ≡ (length self.now, Some (length self.now)) }
```
"## };
    (slotmap_sparse Iter clone) => { r##"
# Proved

What is proved of the call that this one makes:

```text
fn clone(&self) -> Result<Self, AllocError>

ghost is_clone = { λ it copy. copy ≡ it };

ghost is_infallible = { λ _. ⊤ };
```
"## };
    (slotmap_sparse Iter len) => { r##"
# Proved

What is proved of the call that this one makes:

```text
pub fn len(&self) -> usize
    ensures { result ≡ length self.now }
```
"## };
    (slotmap_sparse Iter next) => { r##"
# Proved

What is proved of the call that this one makes:

```text
fn next(&mut self) -> Option<(K, &'a V)>

ghost next_gives = { YieldsFirstBy (λ item. (K.data_of item.0, item.1.now)) (λ rest. rest) };

ghost remaining = { item_count (λ rest. rest) };
```
"## };
    (slotmap_sparse Iter size_hint) => { r##"
# Proved

What is proved of the call that this one makes:

```text
fn size_hint(&self) -> (usize, Option<usize>)
    ensures lower { result.0 ≤ length self.now }
    ensures upper { IfSome result.1 (UpTo (at_most (length self.now))) }
    ensures exact { result ≡ (length self.now, Some (length self.now)) }
```
"## };
    (slotmap_sparse Keys clone) => { r##"
# Proved

What is proved of the call that this one makes:

```text
fn clone(&self) -> Result<Self, AllocError>

ghost is_clone = { λ it copy. copy ≡ it };

ghost is_infallible = { λ _. ⊤ };
```
"## };
    (slotmap_sparse Keys len) => { r##"
# Proved

What is proved of the call that this one makes:

```text
pub fn len(&self) -> usize
    ensures { result ≡ length self.now }
```
"## };
    (slotmap_sparse Keys next) => { r##"
# Proved

What is proved of the call that this one makes:

```text
fn next(&mut self) -> Option<K>

ghost next_gives = { YieldsFirstBy K.data_of (λ rest. rest) };

ghost remaining = { item_count (λ rest. rest) };
```
"## };
    (slotmap_sparse Keys size_hint) => { r##"
# Proved

What is proved of the call that this one makes:

```text
fn size_hint(&self) -> (usize, Option<usize>)
    ensures lower { result.0 ≤ length self.now }
    ensures upper { IfSome result.1 (UpTo (at_most (length self.now))) }
    ensures exact { result ≡ (length self.now, Some (length self.now)) }
```
"## };
    (slotmap_sparse OccupiedEntry get) => { r##"
# Proved

What is proved of the call that this one makes:

```text
pub fn get(&self) -> &V
    requires { IsSparseInPlace K.data_of (Occupied self.now) }
    ensures { sparse_entry_value K.data_of (Occupied self.now) ≡ Some result.now }
```

Words: [`IsSparseInPlace`](crate::words#issparseinplace), [`sparse_entry_value`](crate::words#sparse_entry_value).
"## };
    (slotmap_sparse OccupiedEntry get_mut) => { r##"
# Proved

What is proved of the call that this one makes:

```text
pub fn get_mut(&mut self) -> &mut V
    requires { IsSparseInPlace K.data_of (Occupied self.old) }
    ensures* writes_back { sem 𝓛 (occupied_lends K.row V.row S.row S.Hasher.row S.BuildHasher S.Hasher.Hasher K.data_of self.entry result) }
    ensures value { sparse_entry_value K.data_of (Occupied self.old) ≡ Some result.now }
    ensures written { (w : V) → IsWritten K.data_of (Occupied self.old) w (Occupied (occupied_with K.data_of self.old w)) }
```

Words: [`IsSparseInPlace`](crate::words#issparseinplace), [`IsWritten`](crate::words#iswritten-of-slotmap_sparse-entry), [`occupied_lends`](crate::words#occupied_lends-of-slotmap_sparse-entry), [`occupied_with`](crate::words#occupied_with-of-slotmap_sparse-entry), [`sparse_entry_value`](crate::words#sparse_entry_value).
"## };
    (slotmap_sparse OccupiedEntry insert) => { r##"
# Proved

What is proved of the call that this one makes:

```text
pub fn insert(&mut self, value: V) -> V
    requires { IsSparseInPlace K.data_of (Occupied self.old) }
    ensures old { sparse_entry_value K.data_of (Occupied self.old) ≡ Some result }
    ensures written { IsWritten K.data_of (Occupied self.old) value (Occupied self.new) }
```

Words: [`IsSparseInPlace`](crate::words#issparseinplace), [`IsWritten`](crate::words#iswritten-of-slotmap_sparse-entry), [`sparse_entry_value`](crate::words#sparse_entry_value).
"## };
    (slotmap_sparse OccupiedEntry into_mut) => { r##"
# Proved

What is proved of the call that this one makes:

```text
pub fn into_mut(self) -> &'a mut V
    requires { IsSparseInPlace K.data_of (Occupied self) }
    ensures* writes_back { sem 𝓛 (entry_lends K.row V.row S.row S.Hasher.row S.BuildHasher S.Hasher.Hasher K.data_of (Occupied self.entry) result) }
    ensures value { sparse_entry_value K.data_of (Occupied self.entry) ≡ Some result.now }
```

Words: [`entry_lends`](crate::words#entry_lends-of-slotmap_sparse-entry), [`IsSparseInPlace`](crate::words#issparseinplace), [`sparse_entry_value`](crate::words#sparse_entry_value).
"## };
    (slotmap_sparse OccupiedEntry key) => { r##"
# Proved

What is proved of the call that this one makes:

```text
pub fn key(&self) -> K
    ensures { result ≡ sparse_entry_key (Occupied self.now) }
```

Words: [`sparse_entry_key`](crate::words#sparse_entry_key).
"## };
    (slotmap_sparse OccupiedEntry remove) => { r##"
# Proved

What is proved of the call that this one makes:

```text
pub fn remove(self) -> V
    requires { IsSparseInPlace K.data_of (Occupied self) }
    ensures value { sparse_entry_value K.data_of (Occupied self.entry) ≡ Some result }
    ensures removes { self.exit.0.now.pairs ≡ entry_without K.data_of (Occupied self.entry) }
    ensures room { room (sparse_entry_map (Occupied self.entry)) ≤ room self.exit.0.now }
```

Words: [`entry_without`](crate::words#entry_without-of-slotmap_sparse-entry), [`IsSparseInPlace`](crate::words#issparseinplace), [`pairs`](crate::words#pairs-of-slotmap_sparse-content), [`room`](crate::words#room-of-slotmap_sparse-content), [`sparse_entry_map`](crate::words#sparse_entry_map), [`sparse_entry_value`](crate::words#sparse_entry_value).
"## };
    (slotmap_sparse OccupiedEntry remove_entry) => { r##"
# Proved

What is proved of the call that this one makes:

```text
pub fn remove_entry(self) -> (K, V)
    requires { IsSparseInPlace K.data_of (Occupied self) }
    ensures key { result.0 ≡ sparse_entry_key (Occupied self.entry) }
    ensures value { sparse_entry_value K.data_of (Occupied self.entry) ≡ Some result.1 }
    ensures removes { self.exit.0.now.pairs ≡ entry_without K.data_of (Occupied self.entry) }
    ensures room { room (sparse_entry_map (Occupied self.entry)) ≤ room self.exit.0.now }
```

Words: [`entry_without`](crate::words#entry_without-of-slotmap_sparse-entry), [`IsSparseInPlace`](crate::words#issparseinplace), [`pairs`](crate::words#pairs-of-slotmap_sparse-content), [`room`](crate::words#room-of-slotmap_sparse-content), [`sparse_entry_key`](crate::words#sparse_entry_key), [`sparse_entry_map`](crate::words#sparse_entry_map), [`sparse_entry_value`](crate::words#sparse_entry_value).
"## };
    (slotmap_sparse SparseSecondaryMap capacity) => { r##"
# Proved

What is proved of the call that this one makes:

```text
pub fn capacity(&self) -> usize
    ensures value { result ≡ self.now.capacity }
    ensures fits { map.len self.now.pairs ≤ result }
    ensures valid { IsSparseContent self.now }
```

Words: [`capacity`](crate::words#capacity-of-slotmap_sparse-content), [`IsSparseContent`](crate::words#issparsecontent), [`pairs`](crate::words#pairs-of-slotmap_sparse-content).
"## };
    (slotmap_sparse SparseSecondaryMap clear) => { r##"
# Proved

What is proved of the call that this one makes:

```text
pub fn clear(&mut self)
    ensures empty { self.new.pairs ≡ map.empty }
    ensures capacity { self.old.capacity ≤ self.new.capacity }
    ensures valid { IsSparseContent self.new }
```

Words: [`capacity`](crate::words#capacity-of-slotmap_sparse-content), [`IsSparseContent`](crate::words#issparsecontent), [`pairs`](crate::words#pairs-of-slotmap_sparse-content).
"## };
    (slotmap_sparse SparseSecondaryMap clone) => { r##"
# Proved

What is proved of the call that this one makes:

```text
pub fn clone(&self) -> Result<Self, AllocError>
    ensures clones { IfOk result (λ copy. HasClones V.is_clone self.now.pairs copy.pairs) }
    // If a clone of a value always equals it, the copy holds what the map holds.
    ensures copies_if_clones_equal { IfOk result (λ copy. ClonesEqual V.is_clone → copy.pairs ≡ self.now.pairs) }

    ensures valid { IfOk result IsSparseContent }
```

Words: [`ClonesEqual`](crate::words#clonesequal), [`HasClones`](crate::words#hasclones), [`IsSparseContent`](crate::words#issparsecontent), [`pairs`](crate::words#pairs-of-slotmap_sparse-content).
"## };
    (slotmap_sparse SparseSecondaryMap clone_from) => { r##"
# Proved

What is proved of the call that this one makes:

```text
pub fn clone_from(&mut self, source: &Self) -> Result<(), AllocError>
where
    V: Drop,
    S: Drop,
    ensures clones { OnOk result (HasClones V.is_clone source.now.pairs self.new.pairs) }
    // If a clone of a value always equals it, this map holds what the source holds.
    ensures copies_if_clones_equal { OnOk result (ClonesEqual V.is_clone → self.new.pairs ≡ source.now.pairs) }

    ensures unchanged { OnErr result (self.new ≡ self.old) }
    ensures valid { OnOk result (IsSparseContent self.new) }
```

Words: [`ClonesEqual`](crate::words#clonesequal), [`HasClones`](crate::words#hasclones), [`IsSparseContent`](crate::words#issparsecontent), [`pairs`](crate::words#pairs-of-slotmap_sparse-content).
"## };
    (slotmap_sparse SparseSecondaryMap contains_key) => { r##"
# Proved

What is proved of the call that this one makes:

```text
pub fn contains_key(&self, key: K) -> bool
    ensures value { result ≡ contains_key self.now.pairs (K.data_of key) }
    ensures valid { IsSparseContent self.now }
```

Words: [`contains_key`](crate::words#contains_key), [`IsSparseContent`](crate::words#issparsecontent), [`pairs`](crate::words#pairs-of-slotmap_sparse-content).
"## };
    (slotmap_sparse SparseSecondaryMap drain) => { r##"
# Proved

What is proved of the call that this one makes:

```text
pub fn drain(&mut self) -> Drain<'_, K, V, S>
    ensures map { (sparse_drain_loan result).now ≡ self.old }
    ensures same_reference { (sparse_drain_loan result).ghost_name ≡ self.entry.ghost_name }

    // Laws of the steps, for callers that go on with the iterator.
    ensures stays { KeepsAlong (SparseDrainSteps K.data_of) DrainKeeps result }
    ensures lists { ListsAlong K.data_of (λ d. keyed (sparse_drain_loan d).now.pairs) (SparseDrainSteps K.data_of) result }

    ensures valid { IsSparseContent self.old }
```

Words: [`DrainKeeps`](crate::words#drainkeeps), [`IsSparseContent`](crate::words#issparsecontent), [`KeepsAlong`](crate::words#keepsalong), [`keyed`](crate::words#keyed), [`ListsAlong`](crate::words#listsalong), [`pairs`](crate::words#pairs-of-slotmap_sparse-content), [`sparse_drain_loan`](crate::words#sparse_drain_loan), [`SparseDrainSteps`](crate::words#sparsedrainsteps).
"## };
    (slotmap_sparse SparseSecondaryMap entry) => { r##"
# Proved

What is proved of the call that this one makes:

```text
pub fn entry(&mut self, key: K) -> Result<Option<Entry<'_, K, V, S>>, OutOfMemory>
    ensures never_refused { IsOk result }
    ensures which { IfOk result (IsEntryOf K.data_of self.old.pairs (K.data_of key)) }
    ensures ok { IfEntry result (Enters K.data_of self.entry key) }
    ensures valid { IsSparseContent self.old }
```

Words: [`Enters`](crate::words#enters-of-slotmap_sparse-entry), [`entry`](crate::words#entry-of-slotmap_core-secondary), [`IfEntry`](crate::words#ifentry-of-slotmap_sparse-entry), [`IsEntryOf`](crate::words#isentryof-of-slotmap_sparse-entry), [`IsSparseContent`](crate::words#issparsecontent), [`pairs`](crate::words#pairs-of-slotmap_sparse-content).
"## };
    (slotmap_sparse SparseSecondaryMap eq) => { r##"
# Proved

What is proved of the call that this one makes:

```text
fn eq(&self, other: &Self) -> bool
    ensures value { result ≡ are_equal V.eq self.now.pairs other.now.pairs }
    ensures which { IsTrue result ↔ AreEqual V.eq self.now.pairs other.now.pairs }
```

Words: [`are_equal`](crate::words#are_equal), [`AreEqual`](crate::words#areequal), [`pairs`](crate::words#pairs-of-slotmap_sparse-content).
"## };
    (slotmap_sparse SparseSecondaryMap extend) => { r##"
# Proved

What is proved of the call that this one makes:

```text
pub fn extend<I: IntoIterator<Item = (K, V)>>(&mut self, iter: I) -> Result<(), (K, V)>
    requires { (it : I.IntoIter) → I.into_iter_gives iter it →
        I.IntoIter.can_next it × IsFinite (I.IntoIter.remaining it) }
    ensures extends { (it : I.IntoIter) × I.into_iter_gives iter it
        × Extends K.data_of it self.old.pairs result self.new.pairs I.IntoIter.next_gives }
    ensures capacity { self.old.capacity ≤ self.new.capacity }

    // A pair is returned only once the map holds as many keys as it had memory for, and if
    // nothing is at its index.
    ensures full { OnErr result (self.old.capacity ≤ map.len self.new.pairs) }
    ensures absent { IfErr result (λ back. map.get self.new.pairs (K.data_of back.0).index ≡ None) }

    ensures valid { IsSparseContent self.new }
```

Words: [`capacity`](crate::words#capacity-of-slotmap_sparse-content), [`Extends`](crate::words#extends), [`index`](crate::words#index), [`IsSparseContent`](crate::words#issparsecontent), [`pairs`](crate::words#pairs-of-slotmap_sparse-content).
"## };
    (slotmap_sparse SparseSecondaryMap extend_refs) => { r##"
# Proved

What is proved of the call that this one makes:

```text
pub fn extend_refs<'b, I: IntoIterator<Item = (K, &'b V)>>(
    &mut self,
    iter: I,
) -> Result<(), (K, V)>
where
    V: Copy + 'b,
    requires { (it : I.IntoIter) → I.into_iter_gives iter it →
        I.IntoIter.can_next it × IsFinite (I.IntoIter.remaining it) }
    ensures extends { (it : I.IntoIter) × I.into_iter_gives iter it
        × ExtendsBy K.data_of it self.old.pairs result self.new.pairs I.IntoIter.next_gives }
    ensures capacity { self.old.capacity ≤ self.new.capacity }

    // A pair is returned only once the map holds as many keys as it had memory for, and if
    // nothing is at its index.
    ensures full { OnErr result (self.old.capacity ≤ map.len self.new.pairs) }
    ensures absent { IfErr result (λ back. map.get self.new.pairs (K.data_of back.0).index ≡ None) }

    ensures valid { IsSparseContent self.new }
```

Words: [`capacity`](crate::words#capacity-of-slotmap_sparse-content), [`ExtendsBy`](crate::words#extendsby), [`index`](crate::words#index), [`IsSparseContent`](crate::words#issparsecontent), [`pairs`](crate::words#pairs-of-slotmap_sparse-content).
"## };
    (slotmap_sparse SparseSecondaryMap from_iter) => { r##"
# Proved

What is proved of the call that this one makes:

```text
pub fn from_iter<I: IntoIterator<Item = (K, V)>>(
    alloc: Global,
    iter: I,
) -> Result<Self, Option<(K, V)>>
where
    I: Drop,
    requires { (it : I.IntoIter) → I.into_iter_gives iter it →
        I.IntoIter.can_next it × IsFinite (I.IntoIter.remaining it) }
    ensures ok { IfOk result (λ all. (it : I.IntoIter) × (pairs : List (K × V)) × I.into_iter_gives iter it
        × Drains I.IntoIter.next_gives it pairs × AllPut K.data_of map.empty pairs all.pairs) }
    ensures err { IfErr result (λ back. (pair : K × V) × (back ≡ Some pair) × (it : I.IntoIter) × (pairs : List (K × V)) × (rest : I.IntoIter)
        × I.into_iter_gives iter it × YieldsThen I.IntoIter.next_gives it pairs (Some pair) rest
        × LacksRoomForPair K.data_of pairs pair) }
    ensures valid { IfOk result IsSparseContent }
```

Words: [`AllPut`](crate::words#allput), [`IsSparseContent`](crate::words#issparsecontent), [`LacksRoomForPair`](crate::words#lacksroomforpair), [`pairs`](crate::words#pairs-of-slotmap_sparse-content).
"## };
    (slotmap_sparse SparseSecondaryMap from_iter_with_hasher) => { r##"
# Proved

What is proved of the call that this one makes:

```text
pub fn from_iter_with_hasher<I: IntoIterator<Item = (K, V)>>(
    alloc: Global,
    iter: I,
    hash_builder: S,
) -> Result<Self, Option<(K, V)>>
where
    I: Drop,
    requires { (it : I.IntoIter) → I.into_iter_gives iter it →
        I.IntoIter.can_next it × IsFinite (I.IntoIter.remaining it) }
    ensures ok { IfOk result (λ all. (it : I.IntoIter) × (pairs : List (K × V)) × I.into_iter_gives iter it
        × Drains I.IntoIter.next_gives it pairs × AllPut K.data_of map.empty pairs all.pairs) }
    ensures err { IfErr result (λ back. (pair : K × V) × (back ≡ Some pair) × (it : I.IntoIter) × (pairs : List (K × V)) × (rest : I.IntoIter)
        × I.into_iter_gives iter it × YieldsThen I.IntoIter.next_gives it pairs (Some pair) rest
        × LacksRoomForPair K.data_of pairs pair) }
    ensures valid { IfOk result IsSparseContent }
```

Words: [`AllPut`](crate::words#allput), [`IsSparseContent`](crate::words#issparsecontent), [`LacksRoomForPair`](crate::words#lacksroomforpair), [`pairs`](crate::words#pairs-of-slotmap_sparse-content).
"## };
    (slotmap_sparse SparseSecondaryMap from_slots) => { r##"
# Proved

What is proved of the call that this one makes:

```text
pub fn from_slots(alloc: Global, list: Vec<SlotRecord<V>>) -> Result<Self, SlotsError>
    ensures contents { IfOk result (λ made. keyed made.pairs ≡ start_live list.items) }
    ensures valid { IfOk result IsSparseContent }

    // When it fails: the first error that applies.
    ensures accepted { IsOk result → Accepts list.items side_list_limit }
    ensures err { IfErr result (RefusesStart list.items side_list_limit) }
```

Words: [`Accepts`](crate::words#accepts), [`IsSparseContent`](crate::words#issparsecontent), [`keyed`](crate::words#keyed), [`pairs`](crate::words#pairs-of-slotmap_sparse-content), [`RefusesStart`](crate::words#refusesstart), [`side_list_limit`](crate::words#side_list_limit), [`start_live`](crate::words#start_live).
"## };
    (slotmap_sparse SparseSecondaryMap from_slots_with_hasher) => { r##"
# Proved

What is proved of the call that this one makes:

```text
pub fn from_slots_with_hasher(
    alloc: Global,
    list: Vec<SlotRecord<V>>,
    hash_builder: S,
) -> Result<Self, SlotsError>
    ensures contents { IfOk result (λ made. keyed made.pairs ≡ start_live list.items) }
    ensures valid { IfOk result IsSparseContent }

    // When it fails: the first error that applies.
    ensures accepted { IsOk result → Accepts list.items side_list_limit }
    ensures err { IfErr result (RefusesStart list.items side_list_limit) }
```

Words: [`Accepts`](crate::words#accepts), [`IsSparseContent`](crate::words#issparsecontent), [`keyed`](crate::words#keyed), [`pairs`](crate::words#pairs-of-slotmap_sparse-content), [`RefusesStart`](crate::words#refusesstart), [`side_list_limit`](crate::words#side_list_limit), [`start_live`](crate::words#start_live).
"## };
    (slotmap_sparse SparseSecondaryMap get) => { r##"
# Proved

What is proved of the call that this one makes:

```text
pub fn get(&self, key: K) -> Option<&V>
    ensures value { option_copied result ≡ get self.now.pairs (K.data_of key) }
    ensures valid { IsSparseContent self.now }
```

Words: [`get`](crate::words#get), [`IsSparseContent`](crate::words#issparsecontent), [`pairs`](crate::words#pairs-of-slotmap_sparse-content).
"## };
    (slotmap_sparse SparseSecondaryMap get_mut) => { r##"
# Proved

What is proved of the call that this one makes:

```text
pub fn get_mut(&mut self, key: K) -> Option<&mut V>
    ensures* writes_back { sem 𝓛 (lends_get K.row V.row S.row S.Hasher.row S.BuildHasher S.Hasher.Hasher self.entry (K.data_of key) result) }
    ensures value { option_copied_mut result ≡ get self.old.pairs (K.data_of key) }
    ensures valid { IsSparseContent self.old }
```

Words: [`get`](crate::words#get), [`IsSparseContent`](crate::words#issparsecontent), [`lends_get`](crate::words#lends_get-of-slotmap_sparse-lends), [`pairs`](crate::words#pairs-of-slotmap_sparse-content).
"## };
    (slotmap_sparse SparseSecondaryMap get_unchecked) => { r##"
# Proved

What is proved of the call that this one makes:

```text
pub fn get_unchecked(&self, key: K) -> &V
    requires { contains_key self.now.pairs (K.data_of key) ≡ true }
    ensures value { get self.now.pairs (K.data_of key) ≡ Some result.now }
    ensures valid { IsSparseContent self.now }
```

Words: [`contains_key`](crate::words#contains_key), [`get`](crate::words#get), [`IsSparseContent`](crate::words#issparsecontent), [`pairs`](crate::words#pairs-of-slotmap_sparse-content).
"## };
    (slotmap_sparse SparseSecondaryMap get_unchecked_mut) => { r##"
# Proved

What is proved of the call that this one makes:

```text
pub fn get_unchecked_mut(&mut self, key: K) -> &mut V
    requires { contains_key self.old.pairs (K.data_of key) ≡ true }
    ensures* writes_back { sem 𝓛 (lends_value K.row V.row S.row S.Hasher.row S.BuildHasher S.Hasher.Hasher self.entry (K.data_of key) result) }
    ensures value { get self.old.pairs (K.data_of key) ≡ Some result.now }
    ensures valid { IsSparseContent self.old }
```

Words: [`contains_key`](crate::words#contains_key), [`get`](crate::words#get), [`IsSparseContent`](crate::words#issparsecontent), [`lends_value`](crate::words#lends_value-of-slotmap_sparse-lends), [`pairs`](crate::words#pairs-of-slotmap_sparse-content).
"## };
    (slotmap_sparse SparseSecondaryMap index) => { r##"
# Proved

What is proved of the call that this one makes:

```text
fn index(&self, key: K) -> &V

ghost can_index = { λ m key. contains_key m.pairs (K.data_of key) ≡ true };

ghost index_gives = { λ m key value. get m.pairs (K.data_of key) ≡ Some value };
```

Words: [`contains_key`](crate::words#contains_key), [`get`](crate::words#get), [`pairs`](crate::words#pairs-of-slotmap_sparse-content).
"## };
    (slotmap_sparse SparseSecondaryMap index_mut) => { r##"
# Proved

What is proved of the call that this one makes:

```text
fn index_mut(&mut self, key: K) -> &mut V
    requires { contains_key self.old.pairs (K.data_of key) ≡ true }
    ensures* writes_back { sem 𝓛 (lends_value K.row V.row S.row S.Hasher.row S.BuildHasher S.Hasher.Hasher self.entry (K.data_of key) result) }
    ensures value { get self.old.pairs (K.data_of key) ≡ Some result.now }
    ensures valid { IsSparseContent self.old }
```

Words: [`contains_key`](crate::words#contains_key), [`get`](crate::words#get), [`IsSparseContent`](crate::words#issparsecontent), [`lends_value`](crate::words#lends_value-of-slotmap_sparse-lends), [`pairs`](crate::words#pairs-of-slotmap_sparse-content).
"## };
    (slotmap_sparse SparseSecondaryMap insert) => { r##"
# Proved

What is proved of the call that this one makes:

```text
pub fn insert(&mut self, key: K, value: V) -> Result<Option<V>, PutError<V>>
    ensures value { IfOk result (λ before. before ≡ get self.old.pairs (K.data_of key)) }
    ensures ok { OnOk result (self.new.pairs ≡ put self.old.pairs (K.data_of key) value) }

    // Fails only if nothing is at the index, and the map is at its capacity.
    ensures err { IfErr result (λ error. RefusesPut self.old.pairs (K.data_of key) value error.0) }
    ensures absent { OnErr result (map.get self.old.pairs (K.data_of key).index ≡ None) }
    ensures unchanged { OnErr result (self.new.pairs ≡ self.old.pairs) }
    ensures room { map.len self.old.pairs < self.old.capacity → IsOk result }

    // Allocates only if nothing is at the index, and never for the null key.
    ensures stood { map.contains_key self.old.pairs (K.data_of key).index ≡ true
        → self.new.capacity ≡ self.old.capacity }
    ensures null { is_null (K.data_of key) ≡ true → self.new ≡ self.old }
    ensures capacity { self.old.capacity ≤ self.new.capacity }
    ensures valid { IsSparseContent self.new }
```

Words: [`capacity`](crate::words#capacity-of-slotmap_sparse-content), [`get`](crate::words#get), [`index`](crate::words#index), [`is_null`](crate::words#is_null), [`IsSparseContent`](crate::words#issparsecontent), [`pairs`](crate::words#pairs-of-slotmap_sparse-content), [`put`](crate::words#put), [`RefusesPut`](crate::words#refusesput).
"## };
    (slotmap_sparse SparseSecondaryMap into_iter) => { r##"
# Proved

What is proved of the call that this one makes:

```text
fn into_iter(self) -> IntoIter<K, V>

ghost into_iter_gives = { λ m it. IsListing (keyed m.pairs) it };
```

Words: [`IsListing`](crate::words#islisting), [`keyed`](crate::words#keyed), [`pairs`](crate::words#pairs-of-slotmap_sparse-content).
"## };
    (slotmap_sparse SparseSecondaryMap is_empty) => { r##"
# Proved

What is proved of the call that this one makes:

```text
pub fn is_empty(&self) -> bool
    ensures value { IsTrue result ↔ (map.len self.now.pairs ≡ 0) }
    ensures valid { IsSparseContent self.now }
```

Words: [`IsSparseContent`](crate::words#issparsecontent), [`pairs`](crate::words#pairs-of-slotmap_sparse-content).
"## };
    (slotmap_sparse SparseSecondaryMap iter) => { r##"
# Proved

What is proved of the call that this one makes:

```text
pub fn iter(&self) -> Iter<'_, K, V>
    ensures listing { IsListing (keyed self.now.pairs) result }
    ensures valid { IsSparseContent self.now }
```

Words: [`IsListing`](crate::words#islisting), [`IsSparseContent`](crate::words#issparsecontent), [`keyed`](crate::words#keyed), [`pairs`](crate::words#pairs-of-slotmap_sparse-content).
"## };
    (slotmap_sparse SparseSecondaryMap keys) => { r##"
# Proved

What is proved of the call that this one makes:

```text
pub fn keys(&self) -> Keys<'_, K, V>
    ensures listing { IsKeyListing (keyed self.now.pairs) result }
    ensures valid { IsSparseContent self.now }
```

Words: [`IsKeyListing`](crate::words#iskeylisting), [`IsSparseContent`](crate::words#issparsecontent), [`keyed`](crate::words#keyed), [`pairs`](crate::words#pairs-of-slotmap_sparse-content).
"## };
    (slotmap_sparse SparseSecondaryMap len) => { r##"
# Proved

What is proved of the call that this one makes:

```text
pub fn len(&self) -> usize
    ensures value { result ≡ map.len self.now.pairs }
    ensures valid { IsSparseContent self.now }
```

Words: [`IsSparseContent`](crate::words#issparsecontent), [`pairs`](crate::words#pairs-of-slotmap_sparse-content).
"## };
    (slotmap_sparse SparseSecondaryMap new) => { r##"
# Proved

What is proved of the call that this one makes:

```text
pub fn new(alloc: Global) -> Result<Self, ReserveError>
    ensures ok { IsOk result }
    ensures empty { IfOk result (λ made. made.pairs ≡ map.empty) }
    ensures valid { IfOk result IsSparseContent }
```

Words: [`IsSparseContent`](crate::words#issparsecontent), [`pairs`](crate::words#pairs-of-slotmap_sparse-content).
"## };
    (slotmap_sparse SparseSecondaryMap or_put) => { r##"
# Proved

What is proved of the call that this one makes:

```text
pub fn or_put(&mut self, key: K, value: V) -> OrPut<V>
    ensures does { OrPuts self.old.pairs (K.data_of key) value result self.new.pairs }
    ensures room { result ≡ or_put.Memory value → self.old.capacity ≤ map.len self.old.pairs }
    ensures absent { result ≡ or_put.Memory value → map.get self.old.pairs (K.data_of key).index ≡ None }

    // Allocates only if nothing is at the index, and never for the null key.
    ensures stood { map.contains_key self.old.pairs (K.data_of key).index ≡ true
        → self.new.capacity ≡ self.old.capacity }
    ensures null { is_null (K.data_of key) ≡ true → self.new ≡ self.old }
    ensures capacity { self.old.capacity ≤ self.new.capacity }
    ensures valid { IsSparseContent self.new }
```

Words: [`capacity`](crate::words#capacity-of-slotmap_sparse-content), [`index`](crate::words#index), [`is_null`](crate::words#is_null), [`IsSparseContent`](crate::words#issparsecontent), [`OrPuts`](crate::words#orputs), [`pairs`](crate::words#pairs-of-slotmap_sparse-content).
"## };
    (slotmap_sparse SparseSecondaryMap remove) => { r##"
# Proved

What is proved of the call that this one makes:

```text
pub fn remove(&mut self, key: K) -> Option<V>
    ensures value { result ≡ get self.old.pairs (K.data_of key) }
    ensures removes { self.new.pairs ≡ remove self.old.pairs (K.data_of key) }
    ensures unchanged { IfNone result (self.new ≡ self.old) }
    ensures room { room self.old ≤ room self.new }
    ensures valid { IsSparseContent self.new }
```

Words: [`get`](crate::words#get), [`IsSparseContent`](crate::words#issparsecontent), [`pairs`](crate::words#pairs-of-slotmap_sparse-content), [`remove`](crate::words#remove), [`room`](crate::words#room-of-slotmap_sparse-content).
"## };
    (slotmap_sparse SparseSecondaryMap replace_disjoint) => { r##"
# Proved

What is proved of the call that this one makes:

```text
pub fn replace_disjoint<const N: usize>(
    &mut self,
    keys: [K; N],
    mut values: [V; N],
) -> Result<[V; N], [V; N]>
    ensures which { IsOk result ↔ CanReplace get self.old.pairs (map_list K.data_of keys) }
    ensures value { IfOk result (AreValuesOf get self.old.pairs (map_list K.data_of keys)) }
    ensures ok { OnOk result (self.new ≡ record self.old {
      pairs = with_values bind self.old.pairs (map_list K.data_of keys) values;
    }) }

    ensures err { IfErr result (λ back. back ≡ values) }
    ensures unchanged { OnErr result (self.new ≡ self.old) }

    ensures valid { IsSparseContent self.new }
```

Words: [`AreValuesOf`](crate::words#arevaluesof-of-slotmap_core-several), [`bind`](crate::words#bind), [`CanReplace`](crate::words#canreplace-of-slotmap_core-several), [`get`](crate::words#get), [`IsSparseContent`](crate::words#issparsecontent), [`pairs`](crate::words#pairs-of-slotmap_sparse-content), [`with_values`](crate::words#with_values-of-slotmap_core-several).
"## };
    (slotmap_sparse SparseSecondaryMap reserve) => { r##"
# Proved

What is proved of the call that this one makes:

```text
pub fn reserve(&mut self, additional: usize) -> Result<(), ReserveError>
    ensures makes_room { MakesSparseRoom additional self.old result self.new }
    ensures valid { IsSparseContent self.new }
```

Words: [`IsSparseContent`](crate::words#issparsecontent), [`MakesSparseRoom`](crate::words#makessparseroom).
"## };
    (slotmap_sparse SparseSecondaryMap retain) => { r##"
# Proved

What is proved of the call that this one makes:

```text
pub fn retain<F: FnMut(K, &mut V) -> bool>(&mut self, mut f: F)
where
    F: Drop,
    // For each pair of the map, from each state that calls for other pairs leave the closure
    // in.
    requires { CallableOnEach F.FnMut K.data_of f (keyed self.old.pairs) }
    ensures retained { RetainsBy F.FnMut K.data_of f (keyed self.old.pairs) (keyed self.new.pairs) }
    ensures room { room self.old ≤ room self.new }
    ensures valid { IsSparseContent self.new }
```

Words: [`CallableOnEach`](crate::words#callableoneach), [`IsSparseContent`](crate::words#issparsecontent), [`keyed`](crate::words#keyed), [`pairs`](crate::words#pairs-of-slotmap_sparse-content), [`RetainsBy`](crate::words#retainsby), [`room`](crate::words#room-of-slotmap_sparse-content).
"## };
    (slotmap_sparse SparseSecondaryMap to_slots) => { r##"
# Proved

What is proved of the call that this one makes:

```text
pub fn to_slots(&self) -> Result<Vec<SlotRecord<V>>, OutOfMemory>
where
    V: Clone,
    ensures writes { IfOk result (λ slots. WritesSparseClones V.is_clone self.now.pairs slots.items) }
    ensures contents { IfOk result (λ slots.
        (k : Key) → IsCloneOf V.is_clone (get self.now.pairs k) (map.get (start_live slots.items) k)) }

    // If a clone of a value always equals it, the list is that of the map itself.
    ensures writes_if_clones_equal { IfOk result (λ slots.
        ClonesEqual V.is_clone → WritesSparse self.now.pairs slots.items) }
    ensures contents_if_clones_equal { IfOk result (λ slots.
        ClonesEqual V.is_clone → start_live slots.items ≡ keyed self.now.pairs) }

    ensures valid { IsSparseContent self.now }
```

Words: [`ClonesEqual`](crate::words#clonesequal), [`get`](crate::words#get), [`IsCloneOf`](crate::words#iscloneof), [`IsSparseContent`](crate::words#issparsecontent), [`Key`](crate::words#key), [`keyed`](crate::words#keyed), [`pairs`](crate::words#pairs-of-slotmap_sparse-content), [`start_live`](crate::words#start_live), [`WritesSparse`](crate::words#writessparse), [`WritesSparseClones`](crate::words#writessparseclones).
"## };
    (slotmap_sparse SparseSecondaryMap try_entry) => { r##"
# Proved

What is proved of the call that this one makes:

```text
pub fn try_entry(&mut self, key: K) -> Result<Entry<'_, K, V, S>, NoEntry>
    ensures which { IfOk result (λ e. IsEntryOf K.data_of self.old.pairs (K.data_of key) (Some e)) }
    ensures ok { IfOk result (Enters K.data_of self.entry key) }

    ensures err { IfErr result (λ error. (error ≡ no_entry.Older) × (entry self.old.pairs (K.data_of key) ≡ no_entry)) }
    ensures* unchanged { sem 𝓛 (rests_if_err K.row V.row S.row S.Hasher.row S.BuildHasher S.Hasher.Hasher self.entry result) }
    ensures valid { IsSparseContent self.old }
```

Words: [`Enters`](crate::words#enters-of-slotmap_sparse-entry), [`entry`](crate::words#entry-of-slotmap_core-secondary), [`IsEntryOf`](crate::words#isentryof-of-slotmap_sparse-entry), [`IsSparseContent`](crate::words#issparsecontent), [`no_entry`](crate::words#no_entry), [`pairs`](crate::words#pairs-of-slotmap_sparse-content), [`rests_if_err`](crate::words#rests_if_err-of-slotmap_sparse-entry).
"## };
    (slotmap_sparse SparseSecondaryMap try_reserve) => { r##"
# Proved

What is proved of the call that this one makes:

```text
pub fn try_reserve(&mut self, additional: usize) -> Result<(), ReserveError>
    ensures makes_room { MakesSparseRoom additional self.old result self.new }
    ensures valid { IsSparseContent self.new }
```

Words: [`IsSparseContent`](crate::words#issparsecontent), [`MakesSparseRoom`](crate::words#makessparseroom).
"## };
    (slotmap_sparse SparseSecondaryMap values) => { r##"
# Proved

What is proved of the call that this one makes:

```text
pub fn values(&self) -> Values<'_, K, V>
    ensures listing { IsValueListing (keyed self.now.pairs) result }
    ensures valid { IsSparseContent self.now }
```

Words: [`IsSparseContent`](crate::words#issparsecontent), [`IsValueListing`](crate::words#isvaluelisting), [`keyed`](crate::words#keyed), [`pairs`](crate::words#pairs-of-slotmap_sparse-content).
"## };
    (slotmap_sparse SparseSecondaryMap with_capacity) => { r##"
# Proved

What is proved of the call that this one makes:

```text
pub fn with_capacity(alloc: Global, capacity: usize) -> Result<Self, ReserveError>
    ensures empty { IfOk result (λ made. made.pairs ≡ map.empty) }
    ensures capacity { IfOk result (λ made. capacity ≤ made.capacity) }
    ensures fits { OnOk result (capacity ≤ most_keys) }
    ensures err { IfErr result (RefusesRoom capacity) }
    ensures valid { IfOk result IsSparseContent }
```

Words: [`capacity`](crate::words#capacity-of-slotmap_sparse-content), [`IsSparseContent`](crate::words#issparsecontent), [`most_keys`](crate::words#most_keys), [`pairs`](crate::words#pairs-of-slotmap_sparse-content), [`RefusesRoom`](crate::words#refusesroom).
"## };
    (slotmap_sparse SparseSecondaryMap with_capacity_and_hasher) => { r##"
# Proved

What is proved of the call that this one makes:

```text
pub fn with_capacity_and_hasher(
    alloc: Global,
    capacity: usize,
    hash_builder: S,
) -> Result<Self, ReserveError>
    ensures empty { IfOk result (λ made. made.pairs ≡ map.empty) }
    ensures capacity { IfOk result (λ made. capacity ≤ made.capacity) }
    ensures fits { OnOk result (capacity ≤ most_keys) }
    ensures err { IfErr result (RefusesRoom capacity) }
    ensures valid { IfOk result IsSparseContent }
```

Words: [`capacity`](crate::words#capacity-of-slotmap_sparse-content), [`IsSparseContent`](crate::words#issparsecontent), [`most_keys`](crate::words#most_keys), [`pairs`](crate::words#pairs-of-slotmap_sparse-content), [`RefusesRoom`](crate::words#refusesroom).
"## };
    (slotmap_sparse SparseSecondaryMap with_hasher) => { r##"
# Proved

What is proved of the call that this one makes:

```text
pub fn with_hasher(alloc: Global, hash_builder: S) -> Result<Self, ReserveError>
    ensures ok { IsOk result }
    ensures empty { IfOk result (λ made. made.pairs ≡ map.empty) }
    ensures valid { IfOk result IsSparseContent }
```

Words: [`IsSparseContent`](crate::words#issparsecontent), [`pairs`](crate::words#pairs-of-slotmap_sparse-content).
"## };
    (slotmap_sparse VacantEntry insert) => { r##"
# Proved

What is proved of the call that this one makes:

```text
pub fn insert(self, value: V) -> Result<&'a mut V, PutError<V>>
    requires { IsSparseInPlace K.data_of (Vacant self) }
    ensures* writes_back { sem 𝓛 (entry_lends_ok K.row V.row S.row S.Hasher.row S.BuildHasher S.Hasher.Hasher K.data_of (Vacant self.entry) result) }
    ensures value { IfOk result (λ r. r.now ≡ value) }
    ensures err { IfErr result (λ error. error.0 ≡ value) }
    ensures room { map.len (sparse_entry_map (Vacant self.entry)).pairs < (sparse_entry_map (Vacant self.entry)).capacity → IsOk result }
```

Words: [`capacity`](crate::words#capacity-of-slotmap_sparse-content), [`entry_lends_ok`](crate::words#entry_lends_ok), [`IsSparseInPlace`](crate::words#issparseinplace), [`pairs`](crate::words#pairs-of-slotmap_sparse-content), [`sparse_entry_map`](crate::words#sparse_entry_map).
"## };
    (slotmap_sparse VacantEntry key) => { r##"
# Proved

What is proved of the call that this one makes:

```text
pub fn key(&self) -> K
    ensures { result ≡ sparse_entry_key (Vacant self.now) }
```

Words: [`sparse_entry_key`](crate::words#sparse_entry_key).
"## };
    (slotmap_sparse Values clone) => { r##"
# Proved

What is proved of the call that this one makes:

```text
fn clone(&self) -> Result<Self, AllocError>

ghost is_clone = { λ it copy. copy ≡ it };

ghost is_infallible = { λ _. ⊤ };
```
"## };
    (slotmap_sparse Values len) => { r##"
# Proved

What is proved of the call that this one makes:

```text
pub fn len(&self) -> usize
    ensures { result ≡ length self.now }
```
"## };
    (slotmap_sparse Values next) => { r##"
# Proved

What is proved of the call that this one makes:

```text
fn next(&mut self) -> Option<&'a V>

ghost next_gives = { YieldsFirstBy (λ item. item.now) (λ rest. rest) };

ghost remaining = { item_count (λ rest. rest) };
```
"## };
    (slotmap_sparse Values size_hint) => { r##"
# Proved

What is proved of the call that this one makes:

```text
fn size_hint(&self) -> (usize, Option<usize>)
    ensures lower { result.0 ≤ length self.now }
    ensures upper { IfSome result.1 (UpTo (at_most (length self.now))) }
    ensures exact { result ≡ (length self.now, Some (length self.now)) }
```
"## };
}
