//! The first lines of the examples, which name the map that a page is about.

/// The line that makes a map.
macro_rules! made {
    ($map:ident) => {
        concat!("let mut map = slotmap_proved::", stringify!($map), "::new();")
    };
}

/// The lines that make a secondary map, and a key for it.
macro_rules! made_beside {
    ($map:ident) => {
        concat!("let mut names = slotmap_proved::SlotMap::new();\nlet key = names.insert(\"five\");\n", made!($map))
    };
}

/// The lines that make a map which has the value 5 under a key.
macro_rules! held {
    (SecondaryMap) => {
        concat!(made_beside!(SecondaryMap), "\nmap.insert(key, 5);")
    };
    (SparseSecondaryMap) => {
        concat!(made_beside!(SparseSecondaryMap), "\nmap.insert(key, 5);")
    };
    ($map:ident) => {
        concat!(made!($map), "\nlet key = map.insert(5);")
    };
}

/// The lines that make a map which has the values 5 and 6 under two keys.
macro_rules! held_two {
    (SecondaryMap) => {
        concat!(held!(SecondaryMap), "\nlet other = names.insert(\"six\");\nmap.insert(other, 6);")
    };
    (SparseSecondaryMap) => {
        concat!(held!(SparseSecondaryMap), "\nlet other = names.insert(\"six\");\nmap.insert(other, 6);")
    };
    ($map:ident) => {
        concat!(held!($map), "\nlet other = map.insert(6);")
    };
}
