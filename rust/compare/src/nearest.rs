//! Which block of one map is most likely which of the other, where the two differ by more than addresses.

use std::collections::{BTreeSet, VecDeque};
use std::mem::discriminant;

use aznifrem::{Block, BlockType, DynamicJump, Map};

use crate::matching::{Matching, matching, sides};

/// The renaming of `matching`, if there is one; else blocks that are led to in the same way from block 0,
/// first those that go on in the same way too, and then what stands beside them as before. It is one to
/// one, whatever the maps are.
pub fn nearest(old: &Map, new: &Map) -> Matching {
    if let Some(found) = matching(old, new) {
        return found;
    }
    let mut walk = Walk {
        maps: [old, new],
        found: Matching::default(),
        open: VecDeque::from([(0, 0)]),
        unlike: VecDeque::new(),
    };
    walk.found.joins(0, 0);
    walk.on();
    // Blocks in the same place that go on in another way: changed, rather than gone and come.
    while let Some((old, new)) = walk.unlike.pop_front() {
        if walk.free(old, new) {
            walk.found.joins(old, new);
        }
    }
    walk.behind();
    walk.found
}

struct Walk<'a> {
    maps: [&'a Map; 2],
    found: Matching,
    open: VecDeque<(usize, usize)>,
    unlike: VecDeque<(usize, usize)>,
}

impl Walk<'_> {
    fn free(&self, old: usize, new: usize) -> bool {
        self.found.new_of(old).is_none() && self.found.old_of(new).is_none()
    }

    fn blocks(&self, old: usize, new: usize) -> Option<[&Block; 2]> {
        let [before, after] = self.maps;
        Some([before.blocks.get(&old)?, after.blocks.get(&new)?])
    }

    fn on(&mut self) {
        while let Some((old, new)) = self.open.pop_front() {
            let blocks = self.blocks(old, new);
            let Some([before, after]) = blocks.filter(|[old, new]| alike(old, new)) else {
                continue;
            };
            let pairs = led_to(before).into_iter().zip(led_to(after));
            let pairs: Vec<(usize, usize)> = pairs.collect();
            pairs
                .into_iter()
                .for_each(|(old, new)| self.meets(old, new));
        }
    }

    fn meets(&mut self, old: usize, new: usize) {
        let Some([before, after]) = self.blocks(old, new) else {
            return;
        };
        if alike(before, after) && self.free(old, new) {
            self.found.joins(old, new);
            self.open.push_back((old, new));
        } else {
            self.unlike.push_back((old, new));
        }
    }

    /// What is left: an address that stands as far behind the last one that is matched as the old one does.
    fn behind(&mut self) {
        let [old, new] = self.maps;
        let after = named(new);
        let mut last = (0, 0);
        for at in named(old) {
            if let Some(new) = self.found.new_of(at) {
                last = (at, new);
                continue;
            }
            let there = last.1 + (at - last.0);
            let fits = match (old.blocks.get(&at), new.blocks.get(&there)) {
                (Some(old), Some(new)) => alike(old, new),
                (None, None) => true,
                _ => false,
            };
            if fits && after.contains(&there) && self.free(at, there) {
                self.found.joins(at, there);
                last = (at, there);
            }
        }
    }
}

/// Every address that a map names, but ends.
fn named(map: &Map) -> BTreeSet<usize> {
    let of_jump = |jump: &DynamicJump| jump.path.iter().copied().chain(jump.to).collect::<Vec<_>>();
    let mut named: BTreeSet<usize> = map.blocks.keys().copied().collect();
    for block in map.blocks.values() {
        named.extend(sides(&block.btype));
        named.extend(block.btype.found().iter().flat_map(of_jump));
    }
    for record in &map.records {
        named.insert(record.start);
        named.extend(of_jump(&record.jump));
    }
    named
}

fn alike(old: &Block, new: &Block) -> bool {
    match (&old.btype, &new.btype) {
        (BlockType::Terminate { success: old }, BlockType::Terminate { success: new }) => {
            old == new
        }
        (old, new) => discriminant(old) == discriminant(new),
    }
}

/// The sides in their order, then the destinations of the list, each once.
fn led_to(block: &Block) -> Vec<usize> {
    let mut led = sides(&block.btype);
    for to in block.btype.found().iter().filter_map(|jump| jump.to) {
        if !led.contains(&to) {
            led.push(to);
        }
    }
    led
}
