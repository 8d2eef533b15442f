//! Find, whose own work is little, on replicas with more and more in use: what the check of the areas grows with.

use crate::clock::{batched, Least};
use crate::stages::Stage;
use crate::turns::open;
use jobstore_tests::calls::{Calls, Opening};
use jobstore_tests::library::Library;
use jobstore_tests::limits::{LARGEST_BUDGET, STANDARD};

pub struct Growth {
    replicas: Vec<(String, Library)>,
    times: Least,
}

impl Growth {
    pub fn new() -> Growth {
        let mut replica = Library::new();
        open(&mut replica, &Opening::plain(&[1], 0));
        let mut replicas = vec![("1 object, nothing pending".to_string(), replica.clone())];
        let plan = Stage { pending: 8, readers: 0, between: 0, bounded: false }.plan(1, STANDARD.pending);
        open(&mut replica, &plan.opening);
        replicas.push(("128 objects, nothing pending".to_string(), replica.clone()));
        for (pending, turn) in (1..=STANDARD.pending as u32).zip(&plan.turns) {
            assert_eq!(replica.early(pending % 16, pending, &turn.body), 0);
            if pending == 8 || pending == 32 {
                let mut finished = replica.clone();
                finished.work(LARGEST_BUDGET);
                replicas.push((format!("128 objects, {pending} pending, not begun"), replica.clone()));
                replicas.push((format!("128 objects, {pending} pending, finished"), finished));
            }
        }
        for (readers, between) in [(1, 31), (2, 31), (4, 31), (7, 9), (7, 31), (7, 1200)] {
            let stage = Stage { pending: 8, readers, between, bounded: false };
            let mut replica = Library::new();
            stage.begin(&mut replica, &stage.plan(1, 0));
            replicas.push((stage.name(&replica), replica));
        }
        Growth { replicas, times: Least::default() }
    }

    pub fn pass(&mut self) {
        self.times.take(self.replicas.iter().map(|(_, replica)| batched(|_| replica.find(0, 1))).collect());
    }

    pub fn print(&self, scan: f64) {
        println!("Find, by what is in use: nanoseconds and scans");
        for ((name, _), time) in self.replicas.iter().zip(&self.times.figures) {
            println!("{name:<36} {time:>6.0} {:>6.2}", time / scan);
        }
    }
}
