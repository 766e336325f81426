//! What a script is played on: a store, its machines and its sweeper.

use crate::machines::Machines;
use crate::store::Store;
use crate::sweeper::Sweeper;
use crate::variant::Variant;

#[derive(Clone, Debug, PartialEq, Eq)]
pub struct World {
    pub machines: Machines,
    pub sweeper: Sweeper,
}

impl World {
    /// The store is empty but for its list of machines, and the sweeper rests.
    pub fn new(machines: impl IntoIterator<Item = u32>) -> Self {
        let store = Store::new(machines);
        let sweeper = Sweeper::new(&store);
        let machines = Machines::new(store);
        World { machines, sweeper }
    }

    /// The same, where all play by a wrong rule.
    pub fn with_variant(self, variant: Option<Variant>) -> Self {
        World {
            machines: Machines {
                variant,
                ..self.machines
            },
            sweeper: Sweeper {
                variant,
                ..self.sweeper
            },
        }
    }
}
