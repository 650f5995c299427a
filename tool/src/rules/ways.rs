// SPDX-License-Identifier: Apache-2.0 OR MIT
//! The switches of the model: in what Linux's driver does otherwise than the rules (docs/DIFFERENCES.md).
use serde::{Deserialize, Serialize};
use std::fmt;

/// One way in which the driver does otherwise.
#[derive(Clone, Copy, Debug, PartialEq, Eq, PartialOrd, Ord)]
pub enum Way {
    Room,
    Looper,
    Waiter,
    Deferred,
    Stuck,
    Verdict,
    Unread,
    Own0,
    Counts,
    WeakAcquire,
    Notices,
    Half,
    Lost,
    Kept,
    Cleared,
    ToldOrder,
    Order,
    Ptr0,
    Fit,
    Spam,
    Long,
    Uncounted,
    Numbered,
    Held,
    Released,
    Pieces,
    Ended,
    OwnPid,
}

/// The name of each, as the documents and the command line have it, and whether scripts can show it: the others come about only
/// while two threads are inside of the driver at once.
pub static WAYS: [(Way, &str, bool); 28] = [
    (Way::Room, "room", true),
    (Way::Looper, "looper", true),
    (Way::Waiter, "waiter", true),
    (Way::Deferred, "deferred", true),
    (Way::Stuck, "stuck", true),
    (Way::Verdict, "verdict", true),
    (Way::Unread, "unread", true),
    (Way::Own0, "own0", true),
    (Way::Counts, "counts", true),
    (Way::WeakAcquire, "weak_acquire", true),
    (Way::Notices, "notices", true),
    (Way::Half, "half", true),
    (Way::Lost, "lost", true),
    (Way::Kept, "kept", true),
    (Way::Cleared, "cleared", true),
    (Way::ToldOrder, "told_order", true),
    (Way::Order, "order", true),
    (Way::Ptr0, "ptr0", true),
    (Way::Fit, "fit", true),
    (Way::Spam, "spam", true),
    (Way::Long, "long", true),
    (Way::Uncounted, "uncounted", true),
    (Way::Numbered, "numbered", false),
    (Way::Held, "held", false),
    (Way::Released, "released", false),
    (Way::Pieces, "pieces", false),
    (Way::Ended, "ended", false),
    (Way::OwnPid, "own_pid", false),
];

/// Some of them: those in which the model goes the driver's way.
#[derive(Clone, Copy, Debug, Default, PartialEq, Eq, Serialize, Deserialize)]
pub struct Ways(u32);

impl Ways {
    pub const NONE: Ways = Ways(0);

    pub fn has(self, way: Way) -> bool {
        self.0 >> way as u32 & 1 == 1
    }

    pub fn with(self, way: Way) -> Ways {
        Ways(self.0 | 1 << way as u32)
    }

    pub fn without(self, way: Way) -> Ways {
        Ways(self.0 & !(1 << way as u32))
    }

    pub fn minus(self, others: Ways) -> Ways {
        Ways(self.0 & !others.0)
    }

    /// Those with which a journal of whole steps can be followed: halves of steps aren't in it, and who waited is known by who has read.
    pub fn followed(self) -> Ways {
        [Way::Waiter, Way::Numbered, Way::Held, Way::Released, Way::Pieces, Way::Ended]
            .iter()
            .fold(self, |ways, it| ways.without(*it))
    }

    pub fn iter(self) -> impl Iterator<Item = Way> {
        WAYS.iter().map(|it| it.0).filter(move |it| self.has(*it))
    }

    /// Those with these names, or the name that none has.
    pub fn named<'a>(names: impl IntoIterator<Item = &'a str>) -> Result<Ways, &'a str> {
        let mut ways = Ways::NONE;
        for name in names {
            let found = WAYS.iter().find(|it| it.1 == name).ok_or(name)?;
            ways = ways.with(found.0);
        }
        Ok(ways)
    }
}

impl fmt::Display for Way {
    fn fmt(&self, f: &mut fmt::Formatter<'_>) -> fmt::Result {
        f.write_str(WAYS.iter().find(|it| it.0 == *self).map_or("?", |it| it.1))
    }
}

impl fmt::Display for Ways {
    fn fmt(&self, f: &mut fmt::Formatter<'_>) -> fmt::Result {
        for (index, way) in self.iter().enumerate() {
            write!(f, "{}{way}", if index > 0 { ", " } else { "" })?;
        }
        Ok(())
    }
}

#[cfg(test)]
mod tests {
    use super::*;

    #[test]
    fn names_are_told_as_they_are_read() {
        let ways = Ways::named(["order", "room"]).unwrap();
        assert!(ways.has(Way::Room) && ways.has(Way::Order) && !ways.has(Way::Fit));
        assert_eq!(ways.to_string(), "room, order");
        assert_eq!(ways.without(Way::Room).to_string(), "order");
        assert_eq!(Ways::named(["order", "other"]), Err("other"));
    }
}
