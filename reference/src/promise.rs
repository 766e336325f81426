//! What `docs/STORE.md` and `docs/DAYS.md` promise, checked after each step of a script.
//!
//! The checker keeps a record of the history beside the store. It goes by what
//! the steps have answered, and compares that with what the store holds. Nothing is
//! promised once something was damaged, and nothing is checked any more then.

use crate::back::back;
use crate::sha256::{sha256, Digest};
use crate::store::Store;
use crate::sweeper::Point;
use crate::world::World;
use std::collections::{BTreeMap, BTreeSet};
use std::fmt;

/// What a step has done, as far as the promise speaks of it.
#[derive(Clone, Debug, PartialEq, Eq)]
pub enum Event {
    /// A machine begins a day.
    Begun(u32),
    /// A machine has added a file to the day that it makes.
    Added(u32, Given),
    /// A machine has named a day of this number.
    Named(u32, u32),
    /// A machine breaks off its day.
    BrokenOff(u32),
    /// A machine is gone for good.
    Parted(u32),
    /// A day is let go: its machine and its number.
    LetGo(u32, u32),
    Looked,
    PutAside(Digest),
    /// The sweeper has decided, or has put back or thrown away a piece.
    Ending,
    Stopped,
    Damaged,
    /// Nothing of these, or the line was no step, or the step was refused.
    Other,
}

/// A file as a machine was given it.
#[derive(Clone, Debug, PartialEq, Eq)]
pub struct Given {
    /// None where the path is the file's place in the day.
    pub path: Option<Vec<u8>>,
    /// The SHA-256 of its bytes.
    pub digest: Digest,
    /// The names of its pieces, each of which was seen to.
    pub pieces: Vec<Digest>,
}

/// A file that is to be had back.
#[derive(Clone, Debug, PartialEq, Eq)]
struct Kept {
    path: Vec<u8>,
    digest: Digest,
    pieces: Vec<Digest>,
}

/// Which promise is broken, and by what. A piece is needed if a day that is kept
/// has it, or a machine on the list has seen to it for the day that it makes.
#[derive(Clone, Debug, PartialEq, Eq)]
pub enum Broken {
    /// A piece that is needed is not there.
    Kept(Owner, Digest),
    /// A piece that is needed lay aside and is gone.
    ThrownAway(Owner, Digest),
    /// What lay in a place lies neither there nor aside.
    LeftPlace(Digest),
    /// A day has other files or pieces, or is not there, or was never named.
    Changed(u32, u32),
    /// The file of this path is not had back from a day with the bytes that it had.
    NotBack(u32, u32, Vec<u8>),
    NumberTwice(u32, u32),
    /// What a day had at the last look is to be put aside, or was.
    HadAtLook(Digest),
    /// What was put aside does not lie aside alone.
    NotPutAside(Digest),
    /// Something is aside after a sweep.
    StillAside(Digest),
    /// Something that no day has is in its place after a whole sweep.
    StillInPlace(Digest),
}

/// What needs a piece: a day that is kept, or a day that a machine makes.
#[derive(Clone, Copy, Debug, PartialEq, Eq)]
pub enum Owner {
    Day(u32, u32),
    Making(u32),
}

impl fmt::Display for Owner {
    fn fmt(&self, f: &mut fmt::Formatter) -> fmt::Result {
        match self {
            Owner::Day(machine, number) => write!(f, "day {machine} {number} has it"),
            Owner::Making(machine) => write!(f, "machine {machine} has seen to it"),
        }
    }
}

impl fmt::Display for Broken {
    fn fmt(&self, f: &mut fmt::Formatter) -> fmt::Result {
        match self {
            Broken::Kept(owner, name) => write!(
                f,
                "what is needed is in its place or aside: piece {} is neither, and {owner}",
                Hex(name)
            ),
            Broken::ThrownAway(owner, name) => write!(
                f,
                "what is needed is not thrown away: piece {} was aside and is gone, and {owner}",
                Hex(name)
            ),
            Broken::LeftPlace(name) => {
                write!(f, "what leaves its place lies aside: piece {}", Hex(name))
            }
            Broken::Changed(machine, number) => write!(
                f,
                "a day keeps its files till it is let go: day {machine} {number}"
            ),
            Broken::NotBack(machine, number, path) => write!(
                f,
                "a file is had back as it was: that of day {machine} {number} whose path is {}",
                Hex(path)
            ),
            Broken::NumberTwice(machine, number) => {
                write!(f, "no number is used for two days: day {machine} {number}")
            }
            Broken::HadAtLook(name) => write!(
                f,
                "only what no day had at the look is put aside: piece {}",
                Hex(name)
            ),
            Broken::NotPutAside(name) => write!(
                f,
                "what was put aside is aside, and not in its place: piece {}",
                Hex(name)
            ),
            Broken::StillAside(name) => {
                write!(f, "after a sweep nothing is aside: piece {}", Hex(name))
            }
            Broken::StillInPlace(name) => write!(
                f,
                "after a whole sweep what no day has had since the look is gone: piece {}",
                Hex(name)
            ),
        }
    }
}

/// A name or a path in digits.
struct Hex<'a>(&'a [u8]);

impl fmt::Display for Hex<'_> {
    fn fmt(&self, f: &mut fmt::Formatter) -> fmt::Result {
        self.0.iter().try_for_each(|byte| write!(f, "{byte:02x}"))
    }
}

/// The record of the history. It begins with an empty store.
#[derive(Clone, Debug, Default)]
pub struct Checker {
    /// The files of each day that was named and not let go.
    kept: BTreeMap<(u32, u32), Vec<Kept>>,
    /// The machine and the number of every day that ever was.
    used: BTreeSet<(u32, u32)>,
    /// What each machine on the list has added to the day that it makes.
    making: BTreeMap<u32, Vec<Kept>>,
    /// What lay where after the last step.
    lay: Lying,
    /// What days had at the last look.
    had_at_look: BTreeSet<Digest>,
    /// While a sweep goes on that has not been stopped: what lay in its place at
    /// the look, no day had then or has had since, and no machine has seen to since.
    idle: Option<BTreeSet<Digest>>,
    /// What lay under the names of the days whose files were had back, since anything
    /// lies where it lies.
    had_back: BTreeMap<(u32, u32), Vec<u8>>,
    /// Whether something was damaged.
    damaged: bool,
}

/// What lies in places and aside: the SHA-256 of the bytes under each name.
#[derive(Clone, Debug, Default, PartialEq, Eq)]
struct Lying {
    place: BTreeMap<Digest, Digest>,
    aside: BTreeMap<Digest, Digest>,
}

impl Lying {
    fn of(world: &World) -> Self {
        let digests = |pieces: &BTreeMap<Digest, Vec<u8>>| {
            let digests = pieces.iter().map(|(name, bytes)| (*name, sha256(bytes)));
            digests.collect()
        };
        Lying {
            place: digests(&world.machines.store.place),
            aside: digests(&world.machines.store.aside),
        }
    }

    /// Whether the piece is in its place with the right bytes.
    fn in_place(&self, name: &Digest) -> bool {
        self.place.get(name) == Some(name)
    }

    /// Whether it is there, in its place or aside, with the right bytes.
    fn is_there(&self, name: &Digest) -> bool {
        self.in_place(name) || self.aside.get(name) == Some(name)
    }
}

impl Checker {
    pub fn new() -> Self {
        Checker::default()
    }

    /// Takes in what a step has done, and checks the promise on what there is now.
    pub fn check(&mut self, event: &Event, world: &World) -> Result<(), Broken> {
        self.damaged |= *event == Event::Damaged;
        if self.damaged {
            return Ok(());
        }
        let lie = Lying::of(world);
        self.take_in(event, &lie)?;
        self.check_days(world)?;
        self.check_thrown_away(&lie)?;
        self.check_pieces(&lie)?;
        self.check_places(&lie)?;
        self.check_putting_aside(event, world, &lie)?;
        self.check_end(event, world, &lie)?;
        self.check_files(world, &lie)?;
        self.lay = lie;
        Ok(())
    }

    /// Goes on with the record.
    fn take_in(&mut self, event: &Event, lie: &Lying) -> Result<(), Broken> {
        match event {
            Event::Begun(machine) => {
                self.making.insert(*machine, Vec::new());
            }
            Event::Added(machine, file) => {
                let files = self.making.entry(*machine).or_default();
                let place = format!("{:04}", files.len() + 1).into_bytes();
                files.push(Kept {
                    path: file.path.clone().unwrap_or(place),
                    digest: file.digest,
                    pieces: file.pieces.clone(),
                });
                self.are_seen_to(&file.pieces);
            }
            Event::Named(machine, number) => {
                let files = self.making.remove(machine).unwrap_or_default();
                for file in &files {
                    self.are_seen_to(&file.pieces);
                }
                if !self.used.insert((*machine, *number)) {
                    return Err(Broken::NumberTwice(*machine, *number));
                }
                self.kept.insert((*machine, *number), files);
            }
            Event::BrokenOff(machine) | Event::Parted(machine) => {
                self.making.remove(machine);
            }
            Event::LetGo(machine, number) => {
                self.kept.remove(&(*machine, *number));
            }
            Event::Looked => {
                let files = self.kept.values().flatten();
                self.had_at_look = files.flat_map(|file| file.pieces.clone()).collect();
                let idle = lie.place.keys().copied();
                let idle = idle.filter(|name| !self.had_at_look.contains(name));
                self.idle = Some(idle.collect());
            }
            Event::Stopped => self.idle = None,
            Event::PutAside(_) | Event::Ending | Event::Damaged | Event::Other => {}
        }
        Ok(())
    }

    /// These are no longer what nobody has seen to and no day has had.
    fn are_seen_to(&mut self, pieces: &[Digest]) {
        if let Some(idle) = &mut self.idle {
            for name in pieces {
                idle.remove(name);
            }
        }
    }

    /// The days in the store are those that were named and not let go, with the files
    /// that their machines had added.
    fn check_days(&self, world: &World) -> Result<(), Broken> {
        let days = &world.machines.store.days;
        for (&(machine, number), files) in &self.kept {
            let bytes = days.get(&(machine, number));
            let listed = bytes.and_then(|bytes| Store::files(machine, number, bytes));
            let listed = listed.ok_or(Broken::Changed(machine, number))?;
            let listed = listed.iter().map(|file| (&file.path, &file.pieces));
            if !listed.eq(files.iter().map(|file| (&file.path, &file.pieces))) {
                return Err(Broken::Changed(machine, number));
            }
        }
        match days.keys().find(|day| !self.kept.contains_key(day)) {
            Some(&(machine, number)) => Err(Broken::Changed(machine, number)),
            None => Ok(()),
        }
    }

    /// Each file of each kept day is had back with its very bytes. Where nothing has
    /// changed since, that is not tried again.
    fn check_files(&mut self, world: &World, lie: &Lying) -> Result<(), Broken> {
        if *lie != self.lay {
            self.had_back.clear();
        }
        let store = &world.machines.store;
        for (&(machine, number), files) in &self.kept {
            let day = store.days.get(&(machine, number));
            if self.had_back.get(&(machine, number)) == day {
                continue;
            }
            for file in files {
                let bytes = back(store, machine, number, &file.path);
                if bytes.map(|bytes| sha256(&bytes)) != Ok(file.digest) {
                    let path = file.path.clone();
                    return Err(Broken::NotBack(machine, number, path));
                }
            }
            let day = day.cloned().unwrap_or_default();
            self.had_back.insert((machine, number), day);
        }
        Ok(())
    }

    /// Each piece that is needed, and by what.
    fn needed(&self) -> impl Iterator<Item = (Owner, &Digest)> {
        let kept = self.kept.iter().flat_map(|(&(machine, number), files)| {
            let owner = Owner::Day(machine, number);
            files.iter().map(move |file| (owner, file))
        });
        let making = self.making.iter().flat_map(|(&machine, files)| {
            let owner = Owner::Making(machine);
            files.iter().map(move |file| (owner, file))
        });
        let files = kept.chain(making);
        files.flat_map(|(owner, file)| file.pieces.iter().map(move |name| (owner, name)))
    }

    /// What was aside and is neither there nor in its place is not needed.
    fn check_thrown_away(&self, lie: &Lying) -> Result<(), Broken> {
        for name in self.lay.aside.keys() {
            if lie.aside.contains_key(name) || lie.in_place(name) {
                continue;
            }
            if let Some((owner, _)) = self.needed().find(|(_, needed)| *needed == name) {
                return Err(Broken::ThrownAway(owner, *name));
            }
        }
        Ok(())
    }

    /// All that is needed is there.
    fn check_pieces(&self, lie: &Lying) -> Result<(), Broken> {
        match self.needed().find(|(_, name)| !lie.is_there(name)) {
            Some((owner, name)) => Err(Broken::Kept(owner, *name)),
            None => Ok(()),
        }
    }

    /// What has left its place lies aside.
    fn check_places(&self, lie: &Lying) -> Result<(), Broken> {
        for (name, bytes) in &self.lay.place {
            if !lie.place.contains_key(name) && lie.aside.get(name) != Some(bytes) {
                return Err(Broken::LeftPlace(*name));
            }
        }
        Ok(())
    }

    /// What is left to put aside, and what was just put aside.
    fn check_putting_aside(&self, event: &Event, world: &World, lie: &Lying) -> Result<(), Broken> {
        let left = match &world.sweeper.point {
            Point::PutsAside(left) => left,
            _ => &world.sweeper.late,
        };
        if let Some(name) = left.intersection(&self.had_at_look).next() {
            return Err(Broken::HadAtLook(*name));
        }
        if let Event::PutAside(name) = event {
            if self.had_at_look.contains(name) {
                return Err(Broken::HadAtLook(*name));
            }
            if lie.place.contains_key(name) || !lie.aside.contains_key(name) {
                return Err(Broken::NotPutAside(*name));
            }
        }
        Ok(())
    }

    /// What there is once a sweep has ended.
    fn check_end(&mut self, event: &Event, world: &World, lie: &Lying) -> Result<(), Broken> {
        if *event != Event::Ending || world.sweeper.point != Point::Rests {
            return Ok(());
        }
        if let Some(name) = lie.aside.keys().next() {
            return Err(Broken::StillAside(*name));
        }
        let idle = self.idle.take().unwrap_or_default();
        match idle.iter().find(|name| lie.place.contains_key(*name)) {
            Some(name) => Err(Broken::StillInPlace(*name)),
            None => Ok(()),
        }
    }
}

#[cfg(test)]
mod tests {
    use super::*;
    use crate::dayfile::{self, File};

    const A: &[u8] = b"a";
    const B: &[u8] = b"b";

    /// A file that is one piece, whose path is its place.
    fn given(piece: &[u8]) -> Given {
        Given {
            path: None,
            digest: sha256(piece),
            pieces: vec![sha256(piece)],
        }
    }

    /// The file of a day with these files.
    fn day(machine: u8, number: u32, files: &[File]) -> Vec<u8> {
        dayfile::write(machine, number, files)
    }

    fn file(path: &[u8], piece: &[u8]) -> File {
        File {
            path: path.to_vec(),
            length: piece.len() as u32,
            pieces: vec![sha256(piece)],
        }
    }

    /// A world with its checker. What a step would do is done to the store by hand.
    #[derive(Clone)]
    struct Play {
        world: World,
        checker: Checker,
    }

    impl Play {
        /// Day 1 of machine 0 has the piece `A`; machine 1 has seen to the piece
        /// `B` for the day that it makes.
        fn new() -> Self {
            let mut play = Play {
                world: World::new([0, 1]),
                checker: Checker::new(),
            };
            let machines = &mut play.world.machines;
            for (machine, piece) in [(0, A), (1, B)] {
                machines.begin(machine).expect("it makes none");
                machines.see(machine, piece).expect("it makes a day");
            }
            machines.raise(0).expect("it has not raised");
            machines.name(0).expect("it has raised");
            let events = [
                Event::Begun(0),
                Event::Added(0, given(A)),
                Event::Begun(1),
                Event::Added(1, given(B)),
            ];
            for event in events {
                let lie = Lying::of(&play.world);
                play.checker
                    .take_in(&event, &lie)
                    .expect("no number is used");
            }
            assert_eq!(play.check(Event::Named(0, 1)), Ok(()));
            play
        }

        fn check(&mut self, event: Event) -> Result<(), Broken> {
            self.checker.check(&event, &self.world)
        }

        /// A look that finds these to put aside.
        fn look(&mut self, pieces: &[&[u8]]) -> Result<(), Broken> {
            let left = pieces.iter().map(|piece| sha256(piece)).collect();
            self.world.sweeper.point = Point::PutsAside(left);
            self.check(Event::Looked)
        }

        fn put_aside(&mut self, piece: &[u8]) -> Result<(), Broken> {
            self.world.machines.store.put_aside(sha256(piece));
            self.check(Event::PutAside(sha256(piece)))
        }

        fn throw_away(&mut self, piece: &[u8]) -> Result<(), Broken> {
            self.world.machines.store.throw_away(&sha256(piece));
            self.check(Event::Ending)
        }
    }

    #[test]
    fn pieces_that_are_needed() {
        for (piece, owner) in [(A, Owner::Day(0, 1)), (B, Owner::Making(1))] {
            let broken = Err(Broken::Kept(owner, sha256(piece)));
            let mut play = Play::new();
            play.world.machines.store.write(sha256(piece), b"other");
            assert_eq!(play.check(Event::Other), broken);

            let mut play = Play::new();
            play.world.machines.store.put_aside(sha256(piece));
            assert_eq!(play.check(Event::Other), Ok(()));
            let aside = &mut play.world.machines.store.aside;
            aside.insert(sha256(piece), b"other".to_vec());
            assert_eq!(play.check(Event::Other), broken);
        }
    }

    #[test]
    fn pieces_that_are_thrown_away() {
        for (piece, owner) in [(A, Owner::Day(0, 1)), (B, Owner::Making(1))] {
            let mut play = Play::new();
            play.world.machines.store.put_aside(sha256(piece));
            assert_eq!(play.check(Event::Other), Ok(()));
            let broken = Err(Broken::ThrownAway(owner, sha256(piece)));
            assert_eq!(play.throw_away(piece), broken);
        }
    }

    /// With a copy in its place, or once nothing needs it, a piece may go.
    #[test]
    fn pieces_that_may_go() {
        let mut play = Play::new();
        play.world.machines.store.put_aside(sha256(A));
        assert_eq!(play.check(Event::Other), Ok(()));
        play.world.machines.store.write(sha256(A), A);
        assert_eq!(play.check(Event::Other), Ok(()));
        assert_eq!(play.throw_away(A), Ok(()));

        for event in [Event::BrokenOff(1), Event::Parted(1)] {
            let mut play = Play::new();
            play.world.machines.store.put_aside(sha256(B));
            assert_eq!(play.check(event), Ok(()));
            assert_eq!(play.throw_away(B), Ok(()));
        }

        let mut play = Play::new();
        let store = &mut play.world.machines.store;
        store.put_aside(sha256(A));
        store.let_go(0, 1).expect("the day is there");
        assert_eq!(play.check(Event::LetGo(0, 1)), Ok(()));
        assert_eq!(play.throw_away(A), Ok(()));
    }

    #[test]
    fn what_leaves_its_place() {
        let broken = Err(Broken::LeftPlace(sha256(B)));
        let mut play = Play::new();
        assert_eq!(play.check(Event::BrokenOff(1)), Ok(()));
        play.world.machines.store.place.remove(&sha256(B));
        assert_eq!(play.check(Event::Other), broken);

        let mut play = Play::new();
        assert_eq!(play.check(Event::BrokenOff(1)), Ok(()));
        let store = &mut play.world.machines.store;
        store.place.remove(&sha256(B));
        store.aside.insert(sha256(B), b"other".to_vec());
        assert_eq!(play.check(Event::Other), broken);
    }

    #[test]
    fn days() {
        let changed = Err(Broken::Changed(0, 1));
        let mut play = Play::new();
        play.world.machines.store.days.clear();
        assert_eq!(play.check(Event::Other), changed);
        // Another day was let go.
        assert_eq!(play.check(Event::LetGo(0, 2)), changed);
        assert_eq!(play.check(Event::LetGo(1, 1)), changed);

        for bytes in [
            vec![],
            day(0, 1, &[]),
            day(0, 1, &[file(b"0002", A)]),
            day(0, 1, &[file(b"0001", B)]),
            day(0, 1, &[file(b"0001", A), file(b"0002", A)]),
            day(0, 2, &[file(b"0001", A)]),
        ] {
            let mut play = Play::new();
            play.world.machines.store.days.insert((0, 1), bytes);
            assert_eq!(play.check(Event::Other), changed);
        }

        let mut play = Play::new();
        let days = &mut play.world.machines.store.days;
        days.insert((1, 1), day(1, 1, &[]));
        assert_eq!(play.check(Event::Other), Err(Broken::Changed(1, 1)));

        // The answer says that it was let go, and it is there.
        let mut play = Play::new();
        assert_eq!(play.check(Event::LetGo(0, 1)), changed);

        // A day that is named lacks what its machine has seen to.
        let mut play = Play::new();
        let days = &mut play.world.machines.store.days;
        days.insert((1, 1), day(1, 1, &[]));
        assert_eq!(play.check(Event::Named(1, 1)), Err(Broken::Changed(1, 1)));
    }

    /// A day lists another length than the file has; and what was given was another
    /// file, of the same pieces.
    #[test]
    fn files_that_are_not_had_back() {
        let not_back = Err(Broken::NotBack(0, 1, b"0001".to_vec()));
        let mut play = Play::new();
        let mut listed = file(b"0001", A);
        listed.length += 1;
        let days = &mut play.world.machines.store.days;
        days.insert((0, 1), day(0, 1, &[listed]));
        assert_eq!(play.check(Event::Other), not_back);

        let mut play = Play::new();
        let files = play.checker.kept.get_mut(&(0, 1)).expect("it is kept");
        files[0].digest = sha256(B);
        // It is tried again once something lies elsewhere.
        assert_eq!(
            play.checker.clone().check(&Event::Other, &play.world),
            Ok(())
        );
        play.world.machines.store.put_aside(sha256(B));
        assert_eq!(play.check(Event::Other), not_back);
    }

    #[test]
    fn damage() {
        let mut play = Play::new();
        let store = &mut play.world.machines.store;
        store.place.clear();
        store.days.clear();
        assert!(play.clone().check(Event::Other).is_err());
        assert_eq!(play.check(Event::Damaged), Ok(()));
        assert_eq!(play.check(Event::Other), Ok(()));
    }

    #[test]
    fn numbers() {
        let twice = Err(Broken::NumberTwice(0, 1));
        let mut play = Play::new();
        assert_eq!(play.check(Event::Named(0, 1)), twice);
        let mut play = Play::new();
        play.world.machines.store.days.clear();
        assert_eq!(play.check(Event::LetGo(0, 1)), Ok(()));
        assert_eq!(play.check(Event::Named(0, 1)), twice);
    }

    #[test]
    fn putting_aside() {
        let mut play = Play::new();
        assert_eq!(play.look(&[B]), Ok(()));
        assert_eq!(play.put_aside(B), Ok(()));
        // It was there, in its place, for a copy stays.
        play.world.machines.store.write(sha256(B), B);
        let event = Event::PutAside(sha256(B));
        assert_eq!(play.check(event), Err(Broken::NotPutAside(sha256(B))));

        let mut play = Play::new();
        assert_eq!(play.look(&[A, B]), Err(Broken::HadAtLook(sha256(A))));
        let mut play = Play::new();
        assert_eq!(play.look(&[B]), Ok(()));
        assert_eq!(play.put_aside(A), Err(Broken::HadAtLook(sha256(A))));
    }

    #[test]
    fn the_end_of_a_sweep() {
        // The piece of a day under way stays aside, or in its place.
        for (aside, broken) in [
            (true, Broken::StillAside(sha256(B))),
            (false, Broken::StillInPlace(sha256(B))),
        ] {
            let mut play = Play::new();
            assert_eq!(play.look(&[B]), Ok(()));
            if aside {
                assert_eq!(play.put_aside(B), Ok(()));
            }
            play.world.sweeper.point = Point::Rests;
            assert_eq!(play.check(Event::Ending), Err(broken));
        }
        // What a machine has seen to since, or a day has had, may be in its place.
        // So may all after a stop.
        for event in [
            Event::Added(1, given(B)),
            Event::Named(1, 1),
            Event::Stopped,
        ] {
            let mut play = Play::new();
            assert_eq!(play.look(&[B]), Ok(()));
            if event == Event::Named(1, 1) {
                let days = &mut play.world.machines.store.days;
                days.insert((1, 1), day(1, 1, &[file(b"0001", B)]));
            }
            assert_eq!(play.check(event), Ok(()));
            play.world.sweeper.point = Point::Rests;
            assert_eq!(play.check(Event::Ending), Ok(()));
        }
    }

    #[test]
    fn words() {
        let name = [0xab; 32];
        let digits = "ab".repeat(32);
        for (broken, words) in [
            (
                Broken::Kept(Owner::Day(0, 7), name),
                format!("what is needed is in its place or aside: piece {digits} is neither, and day 0 7 has it"),
            ),
            (
                Broken::ThrownAway(Owner::Making(3), name),
                format!("what is needed is not thrown away: piece {digits} was aside and is gone, and machine 3 has seen to it"),
            ),
            (
                Broken::NumberTwice(1, 2),
                "no number is used for two days: day 1 2".to_owned(),
            ),
            (
                Broken::NotBack(1, 2, b"a ".to_vec()),
                "a file is had back as it was: that of day 1 2 whose path is 6120".to_owned(),
            ),
        ] {
            assert_eq!(broken.to_string(), words);
        }
    }
}
