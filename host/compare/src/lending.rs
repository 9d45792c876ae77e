//! How much is lent to Read: sizes about those that a text needs.

use library::{Counts, MOST};

use crate::gen::Rng;

/// The size of a table.
#[derive(Clone, Copy)]
enum Size {
    Needed,
    More(usize),
    OneFewer,
    Nothing,
    /// The most there is.
    Most,
    /// More than there is.
    Beyond(usize),
}

impl Size {
    fn of(self, needed: usize, most: usize) -> usize {
        match self {
            Size::Needed => needed,
            Size::More(more) => needed + more,
            Size::OneFewer => needed.saturating_sub(1),
            Size::Nothing => 0,
            Size::Most => most,
            Size::Beyond(more) => most.saturating_add(more),
        }
    }
}

/// How many bytes there are for the dump, besides a call with enough.
#[derive(Clone, Copy)]
pub enum Room {
    Enough,
    OneFewer,
    Half,
    Nothing,
}

impl Room {
    /// A number of bytes that is too small.
    pub fn too_few(self, needed: usize) -> Option<usize> {
        match self {
            Room::Enough => None,
            Room::OneFewer => Some(needed - 1),
            Room::Half => Some(needed / 2),
            Room::Nothing => Some(0),
        }
    }
}

/// The same sizes, with respect to what a text needs, can be lent to another text.
#[derive(Clone, Copy)]
pub struct Lending {
    /// Entries, items, expectations and bytes of the store.
    sizes: [Size; 4],
    pub room: Room,
    /// Bytes more than the dump has.
    pub spare: usize,
}

impl Lending {
    /// The most of each table.
    pub const MOST: Lending = Lending {
        sizes: [Size::Most; 4],
        room: Room::Enough,
        spare: 0,
    };

    /// Mostly enough of all tables; of eight, two lend too little of one, one of several.
    pub fn random(rng: &mut Rng) -> Lending {
        let mut sizes = [Size::Needed; 4].map(|_| enough(rng));
        match rng.below(8) {
            0 | 1 => sizes[rng.below(4)] = too_little(rng),
            2 => sizes = sizes.map(|size| if rng.below(2) == 0 { size } else { too_little(rng) }),
            _ => {}
        }
        Lending {
            sizes,
            room: rng.pick(&ROOMS),
            spare: rng.pick(&[0, 0, 0, 1, 9]),
        }
    }

    /// What is asked for, where a text needs so much.
    pub fn asked(self, needed: Counts) -> Counts {
        let [entries, items, expectations, store] = self.sizes;
        Counts {
            entries: entries.of(needed.entries, MOST.entries),
            items: items.of(needed.items, MOST.items),
            expectations: expectations.of(needed.expectations, MOST.expectations),
            store: store.of(needed.store, MOST.store),
        }
    }
}

const ROOMS: [Room; 8] = [
    Room::Enough,
    Room::Enough,
    Room::Enough,
    Room::Enough,
    Room::Enough,
    Room::OneFewer,
    Room::Half,
    Room::Nothing,
];

/// As much as is needed or more. Whole tables are rare, since their dump is long.
fn enough(rng: &mut Rng) -> Size {
    match rng.below(100) {
        0 => rng.pick(&[Size::Most, Size::Beyond(1), Size::Beyond(usize::MAX)]),
        1..=9 => Size::More(rng.below(30)),
        10..=35 => Size::More(1),
        _ => Size::Needed,
    }
}

/// Too little wherever something is needed.
fn too_little(rng: &mut Rng) -> Size {
    rng.pick(&[Size::OneFewer, Size::OneFewer, Size::Nothing])
}
