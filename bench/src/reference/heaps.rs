//! Which deal a pile is of (SCOPE 6.3, MIXED): its blocks lie in heaps, one for each deal, and the largest is the pile's own.
use std::cmp::Reverse;

/// The heaps of a pile in the order of their first blocks: which deal each is of, and how many blocks it has. A label is what tells deals apart.
pub fn heaps<Label: PartialEq + Copy>(labels: &[Label]) -> Vec<(Label, usize)> {
    let mut heaps: Vec<(Label, usize)> = Vec::new();
    for label in labels {
        match heaps.iter_mut().find(|heap| heap.0 == *label) {
            Some(heap) => heap.1 += 1,
            None => heaps.push((*label, 1)),
        }
    }
    heaps
}

/// The first block, from 0, that is outside the pile's own heap. Of heaps that are equally large, the own one is that which begins first.
pub fn outside<Label: PartialEq + Copy>(labels: &[Label]) -> Option<usize> {
    let heaps = heaps(labels);
    let own = heaps.iter().min_by_key(|heap| Reverse(heap.1))?;
    labels.iter().position(|label| *label != own.0)
}
