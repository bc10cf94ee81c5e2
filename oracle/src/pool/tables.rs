//! The pool's tables read out of the real objects, and real objects made from tables.

use super::*;
use crate::vm::paged::tree::{self, Names};

impl Pool {
    pub(super) fn free_slots(&self) -> impl Iterator<Item = usize> + '_ {
        (0..NODES).filter(|n| matches!(self.slots[*n], Slot::Free))
    }

    pub(super) fn seat_leaf(&mut self, number: usize, leaf: Node) {
        self.addresses[number] = tree::address(&leaf);
        self.slots[number] = Slot::Leaf(leaf);
    }

    /// The pool's owner number is the real one less this base.
    fn renew_owner_base(&mut self) {
        let given = self.state.next_owner as u64 - 1;
        self.owner_base = tree::use_up_owner().wrapping_sub(given);
    }

    /// The new leaf must have the owner number that was next.
    pub(super) fn count_owner(&mut self, leaf: usize) {
        assert_eq!(self.state.nodes[leaf][OWNER], self.state.next_owner);
        self.state.next_owner += 1;
    }

    /// Reads the tables out of the real objects. A hidden node that nobody holds has gone.
    pub(super) fn look(&mut self) {
        for n in 0..NODES {
            let node = match &self.slots[n] {
                Slot::Free => None,
                Slot::Leaf(leaf) => Some(leaf.clone()),
                Slot::Hidden(hidden) => hidden.upgrade(),
            };
            self.look_at(n, node);
        }
        for (m, live) in self.mappings.iter().enumerate() {
            self.state.mappings[m] = live.as_ref().map(|live| Mapping {
                object: live.object,
                first: live.mapping.first,
                pages: live.mapping.pages,
            });
        }
    }

    fn look_at(&mut self, n: usize, node: Option<Node>) {
        let words = &mut self.state.nodes[n];
        if let Some(node) = node {
            let names = Names {
                addresses: &self.addresses,
                owner_base: self.owner_base,
            };
            tree::read_out(&node, &names, words, &mut self.state.lists[n]);
        } else {
            if words[KIND] == FREE {
                return;
            }
            *words = free_node(n);
            self.state.lists[n].clear();
            self.slots[n] = Slot::Free;
            self.addresses[n] = 0;
        }
        self.node_hashes[n] = hash::block_of_words(words);
    }

    pub(super) fn dissolve(&mut self) {
        let slots = self.slots.iter_mut();
        let nodes = slots.filter_map(|slot| match std::mem::replace(slot, Slot::Free) {
            Slot::Free => None,
            Slot::Leaf(leaf) => Some(leaf),
            Slot::Hidden(hidden) => hidden.upgrade(),
        });
        tree::dissolve(nodes.collect());
    }

    pub(super) fn build(&mut self, state: State) {
        self.state = state;
        self.renew_owner_base();
        let described = self.state.mappings.iter().enumerate();
        self.mappings = described.map(live_mapping).collect();
        let weak = |live: &Live| Arc::downgrade(&live.mapping);
        let live = self.mappings.iter();
        let mappings: Vec<_> = live
            .map(|m| m.as_ref().map(weak).unwrap_or_default())
            .collect();
        let nodes = tree::build(&self.state, self.owner_base, &mappings);
        for (n, words) in self.state.nodes.iter().enumerate() {
            self.node_hashes[n] = hash::block_of_words(words);
        }
        self.addresses = [0; NODES];
        for (n, node) in nodes.iter().enumerate() {
            if let Some(node) = node {
                self.addresses[n] = tree::address(node);
                self.slots[n] = if self.state.is_leaf(n) {
                    Slot::Leaf(node.clone())
                } else {
                    Slot::Hidden(Arc::downgrade(node))
                };
            }
        }
        self.look();
    }
}

fn live_mapping((number, mapping): (usize, &Option<Mapping>)) -> Option<Live> {
    mapping.map(|m| Live {
        object: m.object,
        mapping: Arc::new(VmMapping {
            number,
            first: m.first,
            pages: m.pages,
        }),
    })
}
