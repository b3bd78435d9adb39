//! Iterators, step by step.

/// How many items a result shows at most; of more it says how many they are.
pub const SHOWN: usize = 1000;

/// A word, and each item after a blank, or how many there are.
pub fn listed(word: &str, items: impl Iterator<Item = String>) -> String {
    let items: Vec<String> = items.collect();
    if items.len() > SHOWN {
        return format!("{word} ({})", items.len());
    }
    items.iter().fold(word.to_string(), |text, item| format!("{text} {item}"))
}

/// So many steps of an iterator, and how many are left then.
pub fn stepped<I: ExactSizeIterator>(
    walk: &mut I,
    word: &str,
    steps: u64,
    text: impl FnMut(I::Item) -> String,
) -> String {
    let taken: Vec<String> = walk.by_ref().take(steps as usize).map(text).collect();
    let shown = if steps as usize > SHOWN {
        format!("{word} ({})", taken.len())
    } else {
        listed(word, taken.into_iter())
    };
    format!("{shown}, {} left", walk.len())
}

/// So many steps of an iterator, and then the rest, which a clone has to yield too.
pub fn walked<I: ExactSizeIterator + Clone>(
    mut walk: I,
    word: &str,
    steps: u64,
    mut text: impl FnMut(I::Item) -> String,
) -> String {
    let shown = stepped(&mut walk, word, steps, &mut text);
    let copied: Vec<String> = walk.clone().map(&mut text).collect();
    let rest: Vec<String> = walk.map(text).collect();
    if rest != copied {
        return format!("{shown} and the clone yields other items");
    }
    rest.iter().fold(shown, |text, item| format!("{text} {item}"))
}
