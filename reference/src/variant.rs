//! Wrong rules. Each loses a piece, as `docs/WHY-IT-WENT-WRONG.md` tells; they are
//! here so that this can be seen, and that the check of the promise sees it.

#[derive(Clone, Copy, Debug, PartialEq, Eq)]
pub enum Variant {
    /// The sweeper decides by the days above the noted numbers alone.
    NewDaysOnly,
    /// What is to be put aside is thrown away at once.
    ThrowAtOnce,
    /// The sweeper notes while something is left, and puts that aside while it waits.
    NoteEarly,
    /// A number that is raised counts, though no day has it.
    RaisedCounts,
    /// A piece that lies aside is found.
    AsideFound,
}

impl Variant {
    pub const ALL: [Variant; 5] = [
        Variant::NewDaysOnly,
        Variant::ThrowAtOnce,
        Variant::NoteEarly,
        Variant::RaisedCounts,
        Variant::AsideFound,
    ];

    pub fn name(self) -> &'static str {
        match self {
            Variant::NewDaysOnly => "new-days-only",
            Variant::ThrowAtOnce => "throw-at-once",
            Variant::NoteEarly => "note-early",
            Variant::RaisedCounts => "raised-counts",
            Variant::AsideFound => "aside-found",
        }
    }

    pub fn from_name(name: &str) -> Option<Self> {
        Variant::ALL
            .into_iter()
            .find(|variant| variant.name() == name)
    }
}

#[cfg(test)]
mod tests {
    use super::*;

    #[test]
    fn names() {
        for variant in Variant::ALL {
            assert_eq!(Variant::from_name(variant.name()), Some(variant));
        }
        assert_eq!(Variant::from_name("aside"), None);
    }
}
