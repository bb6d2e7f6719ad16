//! No two modules use each other, by whatever way round.

use std::collections::{BTreeMap, BTreeSet};
use std::fs;
use std::path::Path;

type Graph = BTreeMap<String, BTreeSet<String>>;

/// The modules of `path` that the lines `use crate::..` and `crate::..` of each file name.
fn graph_of(path: &Path) -> Graph {
    let mut graph = Graph::new();
    for entry in fs::read_dir(path).expect("a folder of sources") {
        let file = entry.expect("a file").path();
        let Some(name) = file.file_stem().and_then(|name| name.to_str()) else {
            continue;
        };
        if file.is_dir() || ["lib", "main"].contains(&name) {
            continue;
        }
        let text = fs::read_to_string(&file).expect("a source");
        let uses = text.split("crate::").skip(1);
        let module = |rest: &str| -> String {
            let letters = rest.chars();
            letters
                .take_while(|letter| letter.is_ascii_lowercase() || "_0123456789".contains(*letter))
                .collect()
        };
        let used = uses
            .map(module)
            .filter(|used| used != name && !used.is_empty());
        graph.entry(name.to_owned()).or_default().extend(used);
    }
    graph
}

/// What can be reached from a module by one use or more.
fn reached<'a>(graph: &'a Graph, from: &str) -> BTreeSet<&'a str> {
    let mut reached = BTreeSet::new();
    let mut open: Vec<&str> = graph[from].iter().map(String::as_str).collect();
    while let Some(module) = open.pop() {
        if reached.insert(module) {
            open.extend(graph.get(module).into_iter().flatten().map(String::as_str));
        }
    }
    reached
}

fn circles(graph: &Graph) -> Vec<&str> {
    let names = graph.keys().map(String::as_str);
    names
        .filter(|name| reached(graph, name).contains(name))
        .collect()
}

#[test]
fn no_module_uses_itself_by_way_of_others() {
    let package = Path::new(env!("CARGO_MANIFEST_DIR"));
    for folder in ["src", "../bench/src"] {
        let graph = graph_of(&package.join(folder));
        assert!(graph.len() > 3, "{folder} has few modules: {graph:?}");
        let edges: usize = graph.values().map(BTreeSet::len).sum();
        assert!(edges > 3, "{folder} has few uses: {graph:?}");
        assert_eq!(circles(&graph), Vec::<&str>::new(), "{folder}");
    }
}

#[test]
fn a_circle_would_be_found() {
    let uses = [("a", "b"), ("b", "c"), ("c", "a"), ("d", "a")];
    let mut graph = Graph::new();
    for (user, used) in uses {
        graph
            .entry(user.to_owned())
            .or_default()
            .insert(used.to_owned());
    }
    assert_eq!(circles(&graph), ["a", "b", "c"]);
}
