//! Why a place on a ray shows as it does.
use crate::{Pair, Ray, Refusal, accepted, raw};

/// What became of a place when log entries were merged into its ray. Entries count from 1.
#[derive(Clone, Copy, Debug, Eq, PartialEq)]
pub enum Reason {
    /// Not possible before.
    NotPossible,
    /// Possible before and removed, by this entry, the first whose inner pair holds the place.
    RemovedBy(usize),
    /// Certain before and no longer, in no inner pair, through this entry, the first whose outer pair holds the place.
    UncertainBy(usize),
    /// Possible but not certain before, and in no inner pair.
    NotCertain,
    StillCertain,
}

impl Reason {
    fn of(reason: u32, entry: usize) -> Reason {
        match reason {
            1 => Reason::NotPossible,
            2 => Reason::RemovedBy(entry),
            3 => Reason::UncertainBy(entry),
            4 => Reason::NotCertain,
            5 => Reason::StillCertain,
            _ => unreachable!("the library gives no reason {reason}"),
        }
    }
}

/// Why a place, a coordinate along the ray, shows as it does on the ray that had these lists within these bounds before the entries were merged into it.
/// Exactly one reason is the true one. With the first two the place is air, with the next two possible and not certain, with the last certain.
///
/// The ray is [`crate::Stock::ray`] before the commit, the entries are [`crate::Log::entries_on`]: every entry counts as one of this ray, whatever its axis
/// and index are, and a reason's entry counts among these, from 1. Over several log commits it is the ray before the first, with the entries of all
/// accepted logs end to end; after a change list begin anew. A place in space lies on up to three rays, and each answers for itself (docs/LAYOUT.md,
/// section 11). 11: the ray is not valid within its bounds. 19: the place is a NaN.
///
/// ```
/// use tridexel::{Ray, Reason, Refusal, trace};
///
/// let ray = Ray { possible: vec![[0., 10.]], certain: vec![[0., 10.]] };
/// let why = |place| trace(&ray, [0., 10.], &[[0., 0., 1., 4., 2., 3.]], place);
/// assert_eq!(why(2.5)?, Reason::RemovedBy(1));
/// assert_eq!(why(1.5)?, Reason::UncertainBy(1));
/// assert_eq!(why(4.)?, Reason::StillCertain);
/// assert_eq!(why(10.)?, Reason::NotPossible);
/// assert_eq!(why(f64::NAN), Err(Refusal::Place));
/// # Ok::<(), Refusal>(())
/// ```
pub fn trace(ray: &Ray, [lo, hi]: Pair, entries: &[[f64; 6]], place: f64) -> Result<Reason, Refusal> {
    let (possible, certain, log) = (ray.possible.as_flattened(), ray.certain.as_flattened(), entries.as_flattened());
    let (mut reason, mut entry) = (0, 0);
    accepted(unsafe {
        raw::tridexel_trace(
            possible.as_ptr(),
            possible.len(),
            certain.as_ptr(),
            certain.len(),
            lo,
            hi,
            log.as_ptr(),
            log.len(),
            place,
            &mut reason,
            &mut entry,
        )
    })?;
    Ok(Reason::of(reason, entry))
}
