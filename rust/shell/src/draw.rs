//! Pictures of the tree.
use crate::escapes::is_hidden;
use crate::prelude::*;

/// A point whose line is still to come, and how many points stand above it.
struct Branch<'a> {
    view: View<'a>,
    depth: usize,
}

/// The tree, a point on each line: from the key's point on that the next word writes, or all of it.
pub fn draw(trie: &Table, answer: &mut Answer<'_>) -> Outcome {
    let root = match answer.words.left {
        0 => trie.subtrie(&Nibblet::new(Global))?,
        _ => trie.subtrie(&answer.next_query()?)?,
    };
    let Some(root) = root else {
        return answer.line(NONE);
    };
    for_each_point(root, |branch| {
        for _ in 0..branch.depth {
            answer.put(b"  ")?;
        }
        answer.coloured_list(&TrieCommon::prefix(&branch.view)?)?;
        add_pair(&branch.view, answer)?;
        answer.end()
    })?;
    Ok(())
}

/// The tree as a graph: a box for each pair, a small circle where keys part.
pub fn dot(trie: &Table, answer: &mut Answer<'_>) -> Outcome {
    answer.line("digraph {")?;
    answer.put(b"  node [shape=box]\n")?;
    if let Some(root) = trie.subtrie(&Nibblet::new(Global))? {
        for_each_point(root, |branch| {
            add_node(&branch.view, answer)?;
            add_edges(&branch.view, answer)
        })?;
    }
    answer.line("}")
}

/// The counts of pairs, nodes and nibbles, and how many points stand above the lowest one.
pub fn stats(trie: &Table, answer: &mut Answer<'_>) -> Outcome {
    let depth = match trie.subtrie(&Nibblet::new(Global))? {
        Some(root) => for_each_point(root, |_| Ok(()))?,
        None => 0,
    };
    let (nodes, nibbles) = trie.footprint();
    let counts = [trie.len() as u128, nodes, nibbles, depth as u128];
    for (name, count) in ["pairs", "nodes", "nibbles", "depth"].iter().zip(counts) {
        answer.word(name)?;
        answer.counts_line([count])?;
    }
    Ok(())
}

/// Goes over the points, each before those below it. Gives the greatest depth.
fn for_each_point<'a>(
    root: View<'a>,
    mut each: impl FnMut(&Branch<'a>) -> Outcome,
) -> Result<usize, Stop> {
    let mut branches = Vec::new(Global);
    branches.push(Branch { view: root, depth: 0 })?;
    let mut deepest = 0;
    while let Some(branch) = branches.pop() {
        deepest = deepest.max(branch.depth);
        each(&branch)?;
        let (first, depth) = (branches.len(), branch.depth + 1);
        for view in branch.view.children()? {
            branches.push(Branch { view, depth })?;
        }
        if let Some(children) = branches.get_mut(first..) {
            children.reverse();
        }
    }
    Ok(deepest)
}

/// Adds the pair of a point, or a star.
fn add_pair(view: &View<'_>, answer: &mut Answer<'_>) -> Outcome {
    match (TrieCommon::key(view), TrieCommon::value(view)) {
        (Some(key), Some(value)) => {
            answer.key(key)?;
            answer.number((*value).into())?;
        }
        _ => answer.word("*")?,
    }
    Ok(())
}

/// Adds a box with the pair of a point, or a small circle.
fn add_node(view: &View<'_>, answer: &mut Answer<'_>) -> Outcome {
    answer.shown(&format_args!("  \"{}\" [", view.path()))?;
    if TrieCommon::key(view).is_none() {
        return Ok(answer.put(b"shape=circle, label=\"\", width=0.2]\n")?);
    }
    answer.put(b"label=")?;
    answer.label(|answer| add_pair(view, answer))?;
    Ok(answer.put(b"]\n")?)
}

/// Adds an edge to each child, by their paths, with what stands between them.
fn add_edges(view: &View<'_>, answer: &mut Answer<'_>) -> Outcome {
    let is_whole = view.path().len().is_multiple_of(2);
    for child in view.children()? {
        let fragment = TrieCommon::prefix(&child)?;
        answer.shown(&format_args!("  \"{}\" -> \"{}\" [label=", view.path(), child.path()))?;
        answer.label(|answer| add_fragment(is_whole, &fragment, answer))?;
        answer.put(b"]\n")?;
    }
    Ok(())
}

/// Adds a fragment that begins at a whole byte or inside one: as characters, where it is some of a
/// text that a reader sees, spaces and all, and else its nibbles.
fn add_fragment(is_whole: bool, fragment: &Nibblet, answer: &mut Answer<'_>) -> Outcome {
    if is_whole
        && matches!(answer.kind, Kind::Text | Kind::Bytes)
        && fragment.len().is_multiple_of(2)
    {
        let bytes = fragment.encode_bytes(Global)?;
        if str::from_utf8(&bytes).is_ok_and(|it| it.chars().all(|it| it == ' ' || !is_hidden(it))) {
            return Ok(answer.escaped(&bytes)?);
        }
    }
    Ok(answer.list(fragment)?)
}
