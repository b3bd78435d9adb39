//! Texts of lists, graphs and schedulers.

use super::{assert_errors, assert_shows};
use slotmap_proved::graph::{EdgeError, EdgeKey, Graph, OrderError};
use slotmap_proved::list::{Cursor, PlaceError, PushError, StableList};
use slotmap_proved::lists::{self, StableLists};
use slotmap_proved::scheduler::{RescheduleError, ScheduleError, Scheduler};
use slotmap_proved::{DefaultKey, Global, KeyData, NodeKey};

#[test]
fn errors_of_lists() {
    assert_errors(&[
        (PushError::Full(5), "the list is full", "Full(..)"),
        (PushError::Memory(5), "out of memory", "Memory(..)"),
    ]);
    assert_errors(&[
        (PlaceError::Gone(5), "the cursor isn't in the list", "Gone(..)"),
        (PlaceError::Full(5), "the list is full", "Full(..)"),
        (PlaceError::Memory(5), "out of memory", "Memory(..)"),
    ]);
}

#[test]
fn cursors() {
    assert_eq!(format!("{:?}", Cursor::from(KeyData::new(2, 3))), "Cursor(2v3)");
}

#[test]
fn a_list_shows_its_values() {
    let mut list: StableList<Cursor, u64> = StableList::new(Global).expect("memory");
    let last = list.push_back(1).expect("memory");
    let first = list.push_front(2).expect("memory");
    assert_shows(&list, "[2, 1]");
    assert_eq!(format!("{list:#?}"), "[\n    2,\n    1,\n]");
    let mut elements = list.into_iter();
    assert_eq!(elements.next_back(), Some((last, 1)));
    assert_eq!(format!("{elements:?}"), "IntoIter([2])");
    assert_eq!((elements.next(), elements.len()), (Some((first, 2)), 0));
}

#[test]
fn errors_of_several_lists() {
    assert_errors(&[
        (lists::AddError::NoList(5), "there is no such list", "NoList(..)"),
        (lists::AddError::Full(5), "the lists are full", "Full(..)"),
        (lists::AddError::Memory(5), "out of memory", "Memory(..)"),
    ]);
}

#[test]
fn several_lists_show_their_values() {
    let mut lists: StableLists<lists::Cursor, u64> = StableLists::new(Global, 2).expect("memory");
    assert!(lists.push_back(1, 1).is_ok() && lists.push_front(1, 2).is_ok());
    assert_shows(&lists, "[[], [2, 1]]");
}

#[test]
fn errors_of_graphs() {
    assert_errors(&[
        (EdgeError::Gone(5), "a node is gone", "Gone(..)"),
        (EdgeError::Full(5), "the graph is full", "Full(..)"),
        (EdgeError::Memory(5), "out of memory", "Memory(..)"),
    ]);
    let edge = EdgeKey::from(KeyData::new(2, 3));
    assert_errors(&[
        (OrderError::Cycle(edge), "the graph has a cycle", "Cycle(EdgeKey(2v3))"),
        (OrderError::Memory, "out of memory", "Memory"),
    ]);
}

#[test]
fn a_graph_shows_its_edges() {
    let mut graph: Graph<DefaultKey, u64, u64> = Graph::with_key(Global).expect("memory");
    let node = graph.add_node(7).expect("memory");
    assert!(graph.add_edge(node, node, 8).is_ok());
    let edge = "EdgeKey(1v1): Edge { from: DefaultKey(1v1), to: DefaultKey(1v1), value: 8 }";
    assert_shows(&graph, &format!("Graph {{ nodes: {{DefaultKey(1v1): 7}}, edges: {{{edge}}} }}"));
}

#[test]
fn errors_of_schedulers() {
    assert_errors(&[
        (ScheduleError::Full(5), "the scheduler is full", "Full(..)"),
        (ScheduleError::Memory(5), "out of memory", "Memory(..)"),
    ]);
    assert_errors(&[
        (RescheduleError::Gone, "no job waits under this handle", "Gone"),
        (RescheduleError::Full, "no turn is left", "Full"),
    ]);
}

/// The second is due before the first, and the third with it.
#[test]
fn a_scheduler_shows_its_jobs_by_time() {
    let mut jobs: Scheduler<NodeKey, u64> = Scheduler::with_key(Global).expect("memory");
    for (time, job) in [(30, 1), (20, 2), (30, 3)] {
        assert!(jobs.schedule(time, job).is_ok());
    }
    assert_shows(&jobs, "[(20, NodeKey(2v1), 2), (30, NodeKey(1v1), 1), (30, NodeKey(3v1), 3)]");
}
