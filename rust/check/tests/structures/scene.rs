//! Scenes: what their errors say, what a debugger shows, and sums of offsets.

use super::{assert_errors, assert_shows};
use slotmap_proved::scene::world::{HasTransform, Offset, Transform};
use slotmap_proved::scene::{AddError, MoveError, ReparentError, Scene};
use slotmap_proved::{Global, NodeKey};

#[test]
fn errors_of_new_nodes() {
    assert_errors(&[
        (AddError::Gone(5), "the parent is gone", "Gone(..)"),
        (AddError::GoneSibling(5), "the sibling is gone, or a root", "GoneSibling(..)"),
        (AddError::Full(5), "the scene is full", "Full(..)"),
        (AddError::Memory(5), "out of memory", "Memory(..)"),
    ]);
}

#[test]
fn errors_of_moves() {
    assert_errors(&[
        (ReparentError::GoneNode, "the node is gone", "GoneNode"),
        (ReparentError::GoneParent, "the new parent is gone", "GoneParent"),
        (ReparentError::Cycle, "the new parent is below the node", "Cycle"),
    ]);
}

#[test]
fn errors_beside_a_sibling() {
    assert_errors(&[
        (MoveError::GoneNode, "the node is gone", "GoneNode"),
        (MoveError::GoneSibling, "the sibling is gone, or a root", "GoneSibling"),
        (MoveError::Same, "the sibling is the node itself", "Same"),
        (MoveError::Cycle, "the sibling is below the node", "Cycle"),
    ]);
}

#[test]
fn offsets() {
    assert_eq!(format!("{:?}", Offset { x: 3, y: -4 }), "Offset { x: 3, y: -4 }");
}

/// A sum wraps around, and an offset is its own transform.
#[test]
fn sums_of_offsets() {
    let (hand, elbow) = (Offset { x: 3, y: -4 }, Offset { x: 5, y: i32::MIN });
    assert_eq!(Transform::under(&hand, &elbow), Offset { x: 8, y: 2147483644 });
    assert_eq!(HasTransform::transform(&hand), hand);
}

const ON_ONE_LINE: &str = "{NodeKey(1v1): 1 {NodeKey(2v1): 2 {NodeKey(4v1): 4}, NodeKey(3v1): 3}, NodeKey(5v1): 5}";

const ON_SEVERAL_LINES: &str = "{
    NodeKey(1v1): 1 {
        NodeKey(2v1): 2 {
            NodeKey(4v1): 4,
        },
        NodeKey(3v1): 3,
    },
    NodeKey(5v1): 5,
}";

#[test]
fn a_scene_shows_its_trees() {
    let mut scene: Scene<NodeKey, u64> = Scene::with_key(Global).expect("memory");
    assert_shows(&scene, "{}");
    let top = scene.add_root(1).expect("memory");
    let first = scene.add_child(top, 2).expect("memory");
    assert!(scene.add_child(top, 3).is_ok() && scene.add_child(first, 4).is_ok() && scene.add_root(5).is_ok());
    assert_shows(&scene, ON_ONE_LINE);
    assert_eq!(format!("{scene:#?}"), ON_SEVERAL_LINES);
    assert_eq!(format!("{:?}", scene.children(top)), "ChildKeys { remaining: 2 }");
}
