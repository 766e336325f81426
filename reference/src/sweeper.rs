//! The sweeper, as `docs/STORE.md` has it.

use crate::refusal::Refusal;
use crate::sha256::Digest;
use crate::store::{Kept, Store};
use crate::variant::Variant;
use std::collections::{BTreeMap, BTreeSet};

#[derive(Clone, Debug, PartialEq, Eq)]
pub struct Sweeper {
    pub point: Point,
    /// A wrong rule that it plays by.
    pub variant: Option<Variant>,
    /// What is left to put aside while it waits; none but by such a rule.
    pub late: BTreeSet<Digest>,
}

/// Where the sweeper is in its sweep. Names are put aside, put back and thrown
/// away in their order.
#[derive(Clone, Debug, PartialEq, Eq)]
pub enum Point {
    Rests,
    /// With the names that are left.
    PutsAside(BTreeSet<Digest>),
    /// With the highest number of each machine that was noted; none is 0.
    Waits(BTreeMap<u32, u32>),
    /// With the names that are left.
    Ends {
        back: BTreeSet<Digest>,
        away: BTreeSet<Digest>,
    },
    /// It came up after it had decided.
    DecidesAnew,
}

/// What was done with a piece that was aside.
#[derive(Clone, Copy, Debug, PartialEq, Eq)]
pub enum Moved {
    PutBack(Digest),
    ThrownAway(Digest),
}

impl Sweeper {
    /// The sweeper that comes up with this store. There is nothing else that it
    /// could know.
    pub fn new(store: &Store) -> Self {
        let point = match &store.sweeper {
            Kept::Rests => Point::Rests,
            Kept::Waits(noted) => Point::Waits(noted.clone()),
            Kept::Ends => Point::DecidesAnew,
        };
        Sweeper {
            point,
            variant: None,
            late: BTreeSet::new(),
        }
    }

    /// The sweeper stops and comes up again.
    pub fn stop(&mut self, store: &Store) {
        *self = Sweeper {
            variant: self.variant,
            ..Sweeper::new(store)
        };
    }

    /// The answer is how many pieces are to be put aside.
    pub fn look(&mut self, store: &Store) -> Result<usize, Refusal> {
        let had = pieces_of_days(store)?;
        if self.point != Point::Rests {
            return Err(Refusal::NotAtThatPoint);
        }
        let in_place = |name: &&Digest| store.read(name).is_some();
        let names = store.all_listed().filter(in_place).copied();
        let left: BTreeSet<Digest> = names.filter(|name| !had.contains(name)).collect();
        let count = left.len();
        self.point = Point::PutsAside(left);
        Ok(count)
    }

    /// The answer is the piece's name.
    pub fn put_aside(&mut self, store: &mut Store) -> Result<Digest, Refusal> {
        let left = match &mut self.point {
            Point::PutsAside(left) => left,
            Point::Waits(_) => &mut self.late,
            _ => return Err(Refusal::NotAtThatPoint),
        };
        let name = *left.first().ok_or(Refusal::NotAtThatPoint)?;
        store.list_for_sweeper(name)?;
        match self.variant {
            Some(Variant::ThrowAtOnce) => _ = store.place.remove(&name),
            _ => store.put_aside(name),
        }
        left.remove(&name);
        Ok(name)
    }

    pub fn note(&mut self, store: &mut Store) -> Result<(), Refusal> {
        let left = match &self.point {
            Point::PutsAside(left) => left.clone(),
            _ => return Err(Refusal::NotAtThatPoint),
        };
        if !left.is_empty() && self.variant != Some(Variant::NoteEarly) {
            return Err(Refusal::NotAtThatPoint);
        }
        store.sweeper = Kept::Waits(store.highest.clone());
        self.point = Point::Waits(store.highest.clone());
        self.late = left;
        Ok(())
    }

    /// The answer is how many pieces are to be put back, and how many are to be
    /// thrown away.
    pub fn decide(&mut self, store: &mut Store) -> Result<(usize, usize), Refusal> {
        let mut had = pieces_of_days(store)?;
        match &self.point {
            Point::Waits(noted) if self.late.is_empty() => {
                let counts_raised = self.variant == Some(Variant::RaisedCounts);
                check_days_since(store, noted, counts_raised)?;
                if self.variant == Some(Variant::NewDaysOnly) {
                    had = pieces_of_days_above(store, noted)?;
                }
            }
            Point::DecidesAnew => {}
            _ => return Err(Refusal::NotAtThatPoint),
        }
        let lies_aside = |name: &&Digest| store.read_aside(name).is_some();
        let names = store.sweeper_listed.iter().filter(lies_aside).copied();
        let goes_back = |name: &Digest| had.contains(name) && store.is_aside(name);
        let (back, away): (BTreeSet<Digest>, BTreeSet<Digest>) = names.partition(goes_back);
        let counts = (back.len(), away.len());
        store.sweeper = Kept::Ends;
        self.point = Point::Ends { back, away };
        self.rest_if_done(store);
        Ok(counts)
    }

    /// Puts back or throws away one piece. It rests after the last one.
    pub fn next(&mut self, store: &mut Store) -> Result<Moved, Refusal> {
        let Point::Ends { back, away } = &mut self.point else {
            return Err(Refusal::NotAtThatPoint);
        };
        let moved = if let Some(name) = back.pop_first() {
            store.put_back(name);
            Moved::PutBack(name)
        } else if let Some(name) = away.pop_first() {
            store.throw_away(&name);
            Moved::ThrownAway(name)
        } else {
            return Err(Refusal::NotAtThatPoint);
        };
        self.rest_if_done(store);
        Ok(moved)
    }

    /// Rests where nothing is left to put back or to throw away.
    fn rest_if_done(&mut self, store: &mut Store) {
        if let Point::Ends { back, away } = &self.point {
            if back.is_empty() && away.is_empty() {
                store.sweeper = Kept::Rests;
                self.point = Point::Rests;
            }
        }
    }
}

/// The names that any day has. The files of all days are read, and all their pieces.
fn pieces_of_days(store: &Store) -> Result<BTreeSet<Digest>, Refusal> {
    let names = names_of(store.each_day())?;
    let is_there = |name| store.in_place(name) || store.is_aside(name);
    if names.iter().all(is_there) {
        Ok(names)
    } else {
        Err(Refusal::DayDamaged)
    }
}

/// The names that days above the noted numbers have.
fn pieces_of_days_above(
    store: &Store,
    noted: &BTreeMap<u32, u32>,
) -> Result<BTreeSet<Digest>, Refusal> {
    let days = store.each_day();
    let days = days.filter(|&(machine, number, _)| number > number_of(noted, machine));
    names_of(days)
}

/// The names of the pieces of these days.
fn names_of<'a>(
    days: impl Iterator<Item = (u32, u32, &'a [u8])>,
) -> Result<BTreeSet<Digest>, Refusal> {
    let mut names = BTreeSet::new();
    for (machine, number, bytes) in days {
        let files = Store::files(machine, number, bytes).ok_or(Refusal::DayDamaged)?;
        names.extend(files.into_iter().flat_map(|file| file.pieces));
    }
    Ok(names)
}

/// The number that was noted of a machine.
fn number_of(noted: &BTreeMap<u32, u32>, machine: u32) -> u32 {
    noted.get(&machine).copied().unwrap_or(0)
}

/// Every machine on the list has a day above its noted number. One whose number
/// is raised without a day having it does not count, but by a wrong rule.
fn check_days_since(
    store: &Store,
    noted: &BTreeMap<u32, u32>,
    counts_raised: bool,
) -> Result<(), Refusal> {
    let days = store.each_day();
    let days = days.filter(|&(machine, number, _)| number > number_of(noted, machine));
    let since: BTreeSet<u32> = days.map(|(machine, _, _)| machine).collect();
    let raised = |machine| counts_raised && store.highest(machine) > number_of(noted, machine);
    let is_done = |&machine: &u32| since.contains(&machine) || raised(machine);
    if store.machines.iter().all(is_done) {
        Ok(())
    } else {
        Err(Refusal::NoDaySince)
    }
}

#[cfg(test)]
mod tests {
    use super::*;
    use crate::dayfile::{self, File};
    use crate::machines::Machines;
    use crate::sha256::sha256;
    use crate::store::MAX_LISTED;

    /// The machines 0 and 1 on a store, and its sweeper.
    #[derive(Clone, Debug, PartialEq, Eq)]
    struct All {
        machines: Machines,
        sweeper: Sweeper,
    }

    impl All {
        fn new() -> Self {
            let machines = Machines::new(Store::new([0, 1]));
            let sweeper = Sweeper::new(&machines.store);
            All { machines, sweeper }
        }

        fn store(&mut self) -> &mut Store {
            &mut self.machines.store
        }

        fn look(&mut self) -> Result<usize, Refusal> {
            self.sweeper.look(&self.machines.store)
        }

        fn put_aside(&mut self) -> Result<Digest, Refusal> {
            self.sweeper.put_aside(&mut self.machines.store)
        }

        fn note(&mut self) -> Result<(), Refusal> {
            self.sweeper.note(&mut self.machines.store)
        }

        fn decide(&mut self) -> Result<(usize, usize), Refusal> {
            self.sweeper.decide(&mut self.machines.store)
        }

        fn next(&mut self) -> Result<Moved, Refusal> {
            self.sweeper.next(&mut self.machines.store)
        }

        fn stop(&mut self) {
            self.sweeper.stop(&self.machines.store);
        }

        /// A machine makes a day of these pieces. The answer is its number.
        fn day(&mut self, machine: u32, pieces: &[&[u8]]) -> u32 {
            self.machines.begin(machine).expect("it makes none");
            for piece in pieces {
                self.machines.see(machine, piece).expect("it makes a day");
            }
            self.machines.raise(machine).expect("it has not raised");
            self.machines.name(machine).expect("it has raised")
        }

        /// Puts all aside that is to be put aside, and notes.
        fn wait(&mut self, count: usize) {
            assert_eq!(self.look(), Ok(count));
            for _ in 0..count {
                self.put_aside().expect("one is left");
            }
            assert_eq!(self.note(), Ok(()));
        }

        /// Refuses the step, which must change nothing.
        #[track_caller]
        fn refused<T: std::fmt::Debug + PartialEq>(
            &mut self,
            refusal: Refusal,
            step: impl FnOnce(&mut All) -> Result<T, Refusal>,
        ) {
            let before = self.clone();
            assert_eq!(step(self), Err(refusal));
            assert_eq!(*self, before);
        }

        /// Refuses all steps but those that are named.
        #[track_caller]
        fn refused_but(&mut self, steps: &[&str]) {
            let no = Refusal::NotAtThatPoint;
            if !steps.contains(&"look") {
                self.refused(no, All::look);
            }
            if !steps.contains(&"aside") {
                self.refused(no, All::put_aside);
            }
            if !steps.contains(&"note") {
                self.refused(no, All::note);
            }
            if !steps.contains(&"decide") {
                self.refused(no, All::decide);
            }
            if !steps.contains(&"next") {
                self.refused(no, All::next);
            }
        }
    }

    /// The names of the pieces `a`, `b` and `c`, in the order of names: C, B, A.
    fn names() -> (Digest, Digest, Digest) {
        let names = (sha256(b"a"), sha256(b"b"), sha256(b"c"));
        assert!(names.2 < names.1 && names.1 < names.0);
        names
    }

    #[test]
    fn a_sweep() {
        let (a, b, c) = names();
        let mut all = All::new();
        all.day(0, &[b"a", b"b"]);
        all.day(1, &[b"c", b"b"]);
        all.store().let_go(0, 1).expect("the day is there");
        all.day(0, &[b"b"]);
        all.store().let_go(1, 1).expect("the day is there");
        assert_eq!(all.look(), Ok(2));
        assert_eq!(all.put_aside(), Ok(c));
        assert_eq!(all.put_aside(), Ok(a));
        assert!(all.store().sweeper_listed.iter().eq(&[c, a]));
        assert_eq!(all.note(), Ok(()));
        assert_eq!(all.store().sweeper, Kept::Waits([(0, 2), (1, 1)].into()));
        all.day(0, &[b"a"]);
        all.refused(Refusal::NoDaySince, All::decide);
        all.day(1, &[]);
        // The piece goes back over the one that machine 0 wrote.
        assert_eq!(all.decide(), Ok((1, 1)));
        assert_eq!(all.store().sweeper, Kept::Ends);
        assert_eq!(all.next(), Ok(Moved::PutBack(a)));
        assert_eq!(all.store().sweeper, Kept::Ends);
        assert_eq!(all.next(), Ok(Moved::ThrownAway(c)));
        assert_eq!(all.store().sweeper, Kept::Rests);
        assert_eq!(all.sweeper.point, Point::Rests);
        assert!(all.store().aside.is_empty());
        assert!(all.store().place.keys().eq(&[b, a]));
        // Names stay listed.
        assert!(all.store().sweeper_listed.iter().eq(&[c, a]));
    }

    #[test]
    fn each_point() {
        let mut all = All::new();
        all.day(0, &[b"a", b"b"]);
        all.store().let_go(0, 1).expect("the day is there");
        all.refused_but(&["look"]);
        assert_eq!(all.look(), Ok(2));
        all.refused_but(&["aside"]);
        all.put_aside().expect("one is left");
        all.refused_but(&["aside"]);
        all.put_aside().expect("one is left");
        all.refused_but(&["note"]);
        assert_eq!(all.note(), Ok(()));
        all.refused_but(&["decide"]);
        all.refused(Refusal::NoDaySince, All::decide);
        all.day(0, &[b"a"]);
        all.day(1, &[]);
        all.refused_but(&["decide"]);
        assert_eq!(all.decide(), Ok((1, 1)));
        all.refused_but(&["next"]);
        all.next().expect("one is left");
        all.refused_but(&["next"]);
        all.stop();
        all.refused_but(&["decide"]);
        assert_eq!(all.decide(), Ok((0, 1)));
        all.next().expect("one is left");
        all.refused_but(&["look"]);
    }

    #[test]
    fn nothing_to_sweep() {
        let mut all = All::new();
        all.day(0, &[b"a"]);
        all.wait(0);
        all.day(0, &[]);
        all.day(1, &[]);
        // Nothing is aside: the sweep is done.
        assert_eq!(all.decide(), Ok((0, 0)));
        assert_eq!(all.sweeper.point, Point::Rests);
        assert_eq!(all.store().sweeper, Kept::Rests);
    }

    #[test]
    fn stops() {
        let (a, b, _) = names();
        let mut all = All::new();
        all.day(0, &[b"a", b"b"]);
        all.store().let_go(0, 1).expect("the day is there");
        all.stop();
        assert_eq!(all.sweeper.point, Point::Rests);
        all.look().expect("it rests");
        assert_eq!(all.put_aside(), Ok(b));
        all.stop();
        assert_eq!(all.sweeper.point, Point::Rests);
        assert!(all.store().is_aside(&b));
        // What a stopped sweep left is not looked at, and is decided on.
        assert_eq!(all.look(), Ok(1));
        assert_eq!(all.put_aside(), Ok(a));
        all.stop();
        assert_eq!(all.look(), Ok(0));
        assert_eq!(all.note(), Ok(()));
        let waits = Point::Waits([(0, 1)].into());
        assert_eq!(all.sweeper.point, waits);
        all.stop();
        assert_eq!(all.sweeper.point, waits);
        all.day(0, &[]);
        all.day(1, &[]);
        all.stop();
        assert_eq!(all.decide(), Ok((0, 2)));
        all.stop();
        assert_eq!(all.sweeper.point, Point::DecidesAnew);
        all.stop();
        assert_eq!(all.sweeper.point, Point::DecidesAnew);
        // What days have is looked at anew; no machine is waited for.
        all.store().let_go(1, 1).expect("the day is there");
        all.store().let_go(0, 2).expect("the day is there");
        assert_eq!(all.decide(), Ok((0, 2)));
        assert_eq!(all.next(), Ok(Moved::ThrownAway(b)));
        all.stop();
        let file = File {
            path: b"a".to_vec(),
            length: 1,
            pieces: vec![a],
        };
        let bytes = dayfile::write(1, 1, &[file]);
        all.store().name_day(1, 1, &bytes).expect("no day has it");
        assert_eq!(all.decide(), Ok((1, 0)));
        assert_eq!(all.next(), Ok(Moved::PutBack(a)));
        all.stop();
        assert_eq!(all.sweeper.point, Point::Rests);
    }

    /// Only days that are in the store count, and only above the noted number.
    #[test]
    fn waiting() {
        let mut all = All::new();
        all.machines.begin(0).expect("it makes none");
        all.machines.raise(0).expect("it has not raised");
        all.machines.begin(1).expect("it makes none");
        all.wait(0);
        all.machines.name(0).expect("it has raised");
        all.machines.raise(1).expect("it has not raised");
        all.refused(Refusal::NoDaySince, All::decide);
        all.machines.break_off(1).expect("it makes a day");
        all.day(1, &[]);
        all.refused(Refusal::NoDaySince, All::decide);
        all.day(0, &[]);
        all.store().let_go(1, 2).expect("the day is there");
        all.refused(Refusal::NoDaySince, All::decide);
        // A machine that is gone for good is not waited for.
        all.machines.part(1).expect("it is on the list");
        assert_eq!(all.decide(), Ok((0, 0)));
    }

    /// With no machine on the list there is none to wait for. Its days stay.
    #[test]
    fn parted_machines() {
        let (a, b, _) = names();
        let mut all = All::new();
        all.day(0, &[b"a"]);
        all.machines.begin(1).expect("it makes none");
        all.machines.see(1, b"b").expect("it makes a day");
        all.machines.part(0).expect("it is on the list");
        all.machines.part(1).expect("it is on the list");
        all.wait(1);
        assert_eq!(all.decide(), Ok((0, 1)));
        assert_eq!(all.next(), Ok(Moved::ThrownAway(b)));
        assert!(all.store().in_place(&a));
    }

    #[test]
    fn full_lists() {
        let (a, b, _) = names();
        let mut all = All::new();
        all.day(0, &[b"a", b"b"]);
        all.store().let_go(0, 1).expect("the day is there");
        all.store().list_for_sweeper(b).expect("there is room");
        for at in 0.. {
            if all.store().listed.len() + 1 == MAX_LISTED {
                break;
            }
            let mut name = [0; 32];
            name[..4].copy_from_slice(&u32::to_be_bytes(at));
            all.store().listed.insert((at % 64, name));
        }
        assert_eq!(all.look(), Ok(2));
        // Its name is in the list.
        assert_eq!(all.put_aside(), Ok(b));
        all.refused(Refusal::ListsFull, All::put_aside);
        assert!(all.store().in_place(&a));
        // The piece is left, so nothing is noted.
        all.refused(Refusal::NotAtThatPoint, All::note);
    }

    /// What lies in a place is put aside, whatever it is; what lies aside goes
    /// back only if its bytes are of its name.
    #[test]
    fn other_bytes() {
        let (a, b, _) = names();
        let mut all = All::new();
        all.day(0, &[b"a", b"b"]);
        all.store().let_go(0, 1).expect("the day is there");
        all.store().write(a, b"x");
        all.wait(2);
        // The day has both pieces, in their places.
        all.day(0, &[b"a", b"b"]);
        all.day(1, &[]);
        assert_eq!(all.decide(), Ok((1, 1)));
        assert_eq!(all.next(), Ok(Moved::PutBack(b)));
        assert_eq!(all.next(), Ok(Moved::ThrownAway(a)));
        assert!(all.store().in_place(&a) && all.store().in_place(&b));
    }

    /// With a damaged day nothing moves, whatever the sweeper does.
    #[test]
    fn damaged_days() {
        let (a, b, _) = names();
        let mut all = All::new();
        let damage = |all: &mut All, place: Option<&[u8]>, aside: Option<&[u8]>| {
            let store = all.store();
            store.place.remove(&a);
            store.aside.remove(&a);
            if let Some(bytes) = place {
                store.place.insert(a, bytes.to_vec());
            }
            if let Some(bytes) = aside {
                store.aside.insert(a, bytes.to_vec());
            }
        };
        let check = |all: &mut All| {
            for (place, aside) in [
                (None, None),
                (Some(&b"x"[..]), None),
                (None, Some(&b""[..])),
                (Some(&b"aa"[..]), Some(&b"x"[..])),
            ] {
                damage(all, place, aside);
                all.refused(Refusal::DayDamaged, All::look);
                all.refused(Refusal::DayDamaged, All::decide);
            }
            damage(all, Some(b"a"), None);
        };
        all.day(0, &[b"a"]);
        all.day(0, &[b"b"]);
        all.store().let_go(0, 2).expect("the day is there");
        check(&mut all);
        // A piece that lies aside with the right bytes is there.
        damage(&mut all, Some(b"x"), Some(b"a"));
        assert_eq!(all.look(), Ok(1));
        check(&mut all);
        all.put_aside().expect("one is left");
        all.note().expect("none is left");
        check(&mut all);
        all.day(0, &[]);
        all.day(1, &[]);
        check(&mut all);
        assert_eq!(all.decide(), Ok((0, 1)));
        check(&mut all);
        all.stop();
        check(&mut all);
        assert_eq!(all.decide(), Ok((0, 1)));
        assert_eq!(all.next(), Ok(Moved::ThrownAway(b)));
        // A day that is gone does no harm.
        damage(&mut all, None, None);
        all.refused(Refusal::DayDamaged, All::look);
        all.store().let_go(0, 1).expect("the day is there");
        assert_eq!(all.look(), Ok(0));
    }

    /// The same where what lies under the name of a day is not its file.
    #[test]
    fn damaged_day_files() {
        let mut all = All::new();
        all.day(0, &[b"a"]);
        all.day(1, &[]);
        let file = all.store().days[&(0, 1)].clone();
        let other = all.store().days[&(1, 1)].clone();
        for damaged in [vec![], file[..file.len() - 1].to_vec(), other] {
            all.store().days.insert((0, 1), damaged);
            all.refused(Refusal::DayDamaged, All::look);
            // Whatever the sweeper does.
            all.refused(Refusal::DayDamaged, All::decide);
        }
        all.store().days.insert((0, 1), file.clone());
        all.wait(0);
        all.day(0, &[]);
        all.day(1, &[]);
        all.store().days.insert((0, 2), file.clone());
        all.refused(Refusal::DayDamaged, All::decide);
        // It is a day all the same, and can be let go.
        all.store().let_go(0, 2).expect("the day is there");
        all.refused(Refusal::NoDaySince, All::decide);
    }
}
