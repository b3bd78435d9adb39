use slotmap_proved::{Key, SlotMap};

fn main() {
    let mut names = SlotMap::new();
    let _river = names.insert("river");
    let hill = names.insert("hill");
    names.remove(hill);
    let _lake = names.insert("lake"); // reuses hill's slot, under a new key
    for (key, name) in &names {
        println!("{:#x}: {name}", key.data().as_ffi());
    }
    println!("hill is {}", if names.contains_key(hill) { "found" } else { "stale" });
}
