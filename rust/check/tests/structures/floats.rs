//! Nodes that have a name beside their place, and places of floats.

use slotmap_proved::scene::world::{HasTransform, Transform};
use slotmap_proved::scene::Scene;
use slotmap_proved::{Global, NodeKey};

/// A shift along two axes.
#[derive(Clone, Copy, Debug, PartialEq)]
struct Place {
    x: f64,
    y: f64,
}

impl Transform for Place {
    fn under(&self, parent: &Place) -> Place {
        Place { x: self.x + parent.x, y: self.y + parent.y }
    }
}

/// A part of an arm: its number, and where it is from the part that it hangs on.
#[derive(Debug)]
struct Part {
    number: u64,
    place: Place,
}

impl HasTransform for Part {
    type Transform = Place;

    fn transform(&self) -> Place {
        self.place
    }
}

fn part(number: u64, x: f64, y: f64) -> Part {
    Part { number, place: Place { x, y } }
}

#[test]
fn places_parts() {
    let mut scene: Scene<NodeKey, Part> = Scene::with_key(Global).expect("memory");
    let elbow = scene.add_root(part(1, 0.5, 2.0)).expect("memory");
    let hand = scene.add_child(elbow, part(2, 0.25, -1.0)).expect("memory");
    let of_hand = Place { x: 0.75, y: 1.0 };
    assert_eq!((scene.get(hand).map(|part| part.number), scene.world_transform(hand)), (Some(2), Some(of_hand)));
    let all = scene.world_transforms().expect("memory");
    assert_eq!(all.as_slice(), [(elbow, Place { x: 0.5, y: 2.0 }), (hand, of_hand)]);
}
