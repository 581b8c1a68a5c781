//! The mend of an image, asked of both programs, and what is promised of its cuts.

use super::calls::Call;
use crate::mend as plain;
use crate::random::Rows;
use crate::slots::{check_s1_to_s4, Image};
use crate::Fault;
use hawkmortar::slots as proved;

/// The plan that both programs make to mend an image, in a row of `room` cells: the cells of its writes. The cells past them are as
/// found.
pub fn plan_mend(image: &Image, room: usize) -> Result<Vec<u32>, Fault> {
    let expected = plain::plan_mend(&image.addresses, &image.tags, room);
    super::planned(Call::PlanMend, image, room, expected, &"a mend", |lent, row| {
        proved::plan_mend(&lent.addresses, &lent.tags, row)
    })
}

/// An address and a tag of each entry, in order.
pub type Set = Vec<(u32, u32)>;

/// The entries of an image. One that stands in two slots is given once.
pub fn set_of(image: &Image) -> Set {
    let cells = image.addresses.iter().copied().zip(image.tags.iter().copied());
    sorted(cells.filter(|&(_, tag)| tag != 0).collect())
}

/// The entries of a list.
pub fn set_of_list(list: &Rows) -> Set {
    let entry = |i: usize| (list.addresses[i], list.lengths[i] << 16 | list.hops[i]);
    sorted((0..list.addresses.len()).map(entry).collect())
}

fn sorted(mut set: Set) -> Set {
    set.sort_unstable();
    set.dedup();
    set
}

/// The image after each number of a plan's writes, from none to all; both programs make them.
pub fn cuts(image: &Image, plan: &[u32]) -> Vec<Image> {
    let mut cuts = vec![image.clone()];
    for write in plan.chunks_exact(3) {
        let mut cut = cuts[cuts.len() - 1].clone();
        super::apply(&mut cut, write, 1).unwrap();
        cuts.push(cut);
    }
    cuts
}

/// The cuts of an image's mend, which is not refused. Each keeps S1 to S4, holds the set and answers for some addresses as the image
/// does; the last is well-formed.
pub fn mended(image: &Image, set: &Set, keys: &[u32]) -> Vec<Image> {
    let plan = plan_mend(image, 54).unwrap_or_else(|fault| panic!("{fault:?} for the mend of {image:?}"));
    let answers = super::lookups(image, keys);
    let cuts = cuts(image, &plan);
    for (k, cut) in cuts.iter().enumerate() {
        assert_eq!(
            check_s1_to_s4(&cut.addresses, &cut.tags),
            Ok(()),
            "after {k} writes for {image:?}"
        );
        assert!(set_of(cut) == *set, "the set after {k} writes for {image:?}");
        assert!(
            k == 0 || super::lookups(cut, keys) == answers,
            "after {k} writes for {image:?}"
        );
    }
    assert_eq!(super::check(&cuts[cuts.len() - 1]), Ok(set.len()), "{image:?}");
    cuts
}

/// `mended`, and so each of its cuts: a mend that was cut short is mended to the same set.
pub fn mended_again(image: &Image, set: &Set, keys: &[u32]) -> Vec<Image> {
    let cuts = mended(image, set, keys);
    for cut in &cuts {
        mended(cut, set, keys);
    }
    cuts
}
