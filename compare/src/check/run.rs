//! The whole run: two workers over all cases, and a watch that ends the process if a case does not end.

use super::areas::Areas;
use super::bonds::{compare_two, edges};
use super::calls::{compare, compare_three};
use super::compared::Judged;
use super::crash;
use super::ledger::Ledger;
use super::program::{self, Program, Slot};
use super::{trips, two_way};
use crate::cases::call::{Call, Search};
use crate::cases::chains::Chain;
use crate::cases::{kinds, locate, Case, Choice, Kind};
use crate::memory::Placement;
use std::panic::{catch_unwind, AssertUnwindSafe};
use std::sync::atomic::{AtomicU64, Ordering::Relaxed};
use std::thread;
use std::time::{Duration, Instant};

const WORKERS: usize = 2;
/// Far more than any case takes the second program.
const LONGEST_CASE: Duration = Duration::from_secs(60);

pub struct Plan {
    pub seed: u64,
    pub program: Option<Program>,
    pub choice: Choice,
    pub kinds: Vec<&'static Kind>,
}

impl Plan {
    pub fn new(seed: u64, program: Option<Program>, long: bool) -> Plan {
        let choice = match &program {
            _ if long => Choice::Long,
            Some(_) => Choice::All,
            None => Choice::Calls,
        };
        Plan { seed, program, choice, kinds: kinds(choice) }
    }

    /// The arguments that make a case of this run again.
    fn words(&self, case: u64) -> String {
        let long = if self.choice == Choice::Long { "--long " } else { "" };
        format!("{long}--seed {} --case {case}", self.seed)
    }

    pub fn intended(&self) -> u64 {
        self.kinds.iter().map(|kind| kind.count).sum()
    }
}

/// The case that a worker is at and the program that it runs, for the watch.
#[derive(Default)]
pub struct Post {
    case: AtomicU64,
    child: Slot,
}

pub struct Worker<'a> {
    plan: &'a Plan,
    post: &'a Post,
    areas: Areas,
    pub ledger: Ledger,
}

impl<'a> Worker<'a> {
    pub fn new(plan: &'a Plan, post: &'a Post) -> Worker<'a> {
        Worker { plan, post, areas: Areas::new(), ledger: Ledger::default() }
    }

    fn call(&mut self, call: &Call, placement: Placement) -> Option<String> {
        let compared = compare(call, placement, &mut self.areas);
        self.ledger.add_call(call, placement, &compared);
        compared.difference(call)
    }

    fn two_way(&mut self, search: &Search, placement: Placement) -> Option<String> {
        let compared = two_way::compare(search, placement, &mut self.areas);
        self.ledger.add_two_way(search, placement, &compared);
        compared.difference(search)
    }

    /// The imports, and the two-way scan of what came out of them.
    fn chain(&mut self, chain: &Chain, placement: Placement) -> Option<String> {
        let mut imported = Vec::new();
        for call in chain.imports() {
            let compared = compare(&call, placement, &mut self.areas);
            self.ledger.add_call(&call, placement, &compared);
            if let Some(difference) = compared.difference(&call) {
                return Some(difference);
            }
            imported.push(edges(&compared.given).to_vec());
        }
        let search = chain.search(&imported);
        let compared = two_way::compare(&search, placement, &mut self.areas);
        self.ledger.add_two_way(&search, placement, &compared);
        self.ledger.add_chain(chain, &compared);
        compared.difference(&search).or_else(|| compared.difference(chain))
    }

    fn difference(&mut self, case: &Case) -> Option<String> {
        match case {
            Case::Call(call, placement) => self.call(call, *placement),
            Case::TwoWay(search, placement) => self.two_way(search, *placement),
            Case::Three(calls, placement) => {
                let compared = compare_three(calls, *placement, &mut self.areas);
                for (call, compared) in calls.iter().zip(&compared) {
                    self.ledger.add_call(call, *placement, compared);
                }
                calls.iter().zip(compared).find_map(|(call, compared)| compared.difference(call))
            }
            Case::Two(bound @ (calls, _), placement) => {
                let compared = compare_two(calls, *placement, &mut self.areas);
                for (call, compared) in calls.iter().zip(&compared) {
                    self.ledger.add_call(call, *placement, compared);
                }
                self.ledger.add_bound(bound, &compared);
                compared.difference(bound)
            }
            Case::Chain(chain, placement) => self.chain(chain, *placement),
            Case::RoundTrip(words) => trips::of_words(words),
            Case::BookTrip(book) => {
                let (trip, difference) = trips::of_book(book);
                self.ledger.add_trip(trip);
                difference
            }
            Case::Input(input) => {
                let program = self.plan.program.as_ref().expect("inputs are planned with a program only");
                let given = program::run(program, input, &self.post.child);
                self.ledger.add_output(given.as_deref().unwrap_or_default());
                program::difference(&given, &program::expected(input))
            }
            Case::Sample(holds, index) => {
                (!holds(*index)).then(|| "the second program does not give what the sample says".to_string())
            }
        }
    }

    /// Makes the case of this number, compares it and returns the difference, if there is one.
    pub fn check(&mut self, number: u64) -> Option<String> {
        crash::enter(number);
        self.post.case.store(number, Relaxed);
        let (place, index) = locate(&self.plan.kinds, number)?;
        let kind = self.plan.kinds[place];
        let case = kind.case(self.plan.seed, index);
        let found = catch_unwind(AssertUnwindSafe(|| self.difference(&case)))
            .unwrap_or_else(|_| Some("the comparison itself gave up, see above".to_string()));
        let words = self.plan.words(number);
        let told = found.map(|what| format!("{words} ({}): {what}\n  {case}", kind.name));
        self.ledger.judge(place, &case, told.clone());
        told
    }
}

/// Ends the process, and the programs it started with it.
fn give_up(posts: &[Post], case: u64) -> ! {
    for post in posts {
        if let Ok(Some(child)) = post.child.try_lock().as_deref_mut() {
            let _ = child.kill();
        }
    }
    println!("case {case} does not end\n0 passed, 1 failed");
    std::process::exit(1);
}

/// Ends the process if a worker stays in one case too long: no call and no program may run for ever.
fn watch(posts: &[Post], finished: impl Fn() -> bool) {
    let mut seen: Vec<(u64, Instant)> = posts.iter().map(|_| (u64::MAX, Instant::now())).collect();
    while !finished() {
        thread::sleep(Duration::from_millis(20));
        for (post, (case, since)) in posts.iter().zip(&mut seen) {
            let now = post.case.load(Relaxed);
            if now != *case {
                (*case, *since) = (now, Instant::now());
            } else if since.elapsed() > LONGEST_CASE && !finished() {
                give_up(posts, now);
            }
        }
    }
}

pub fn run_all(plan: &Plan) -> Ledger {
    let posts: Vec<Post> = (0..WORKERS).map(|_| Post::default()).collect();
    let next = AtomicU64::new(0);
    let work = |post| {
        let mut worker = Worker::new(plan, post);
        loop {
            let number = next.fetch_add(1, Relaxed);
            if number >= plan.intended() {
                return worker.ledger;
            }
            worker.check(number);
        }
    };
    thread::scope(|scope| {
        let work = &work;
        let workers: Vec<_> = posts.iter().map(|post| scope.spawn(move || work(post))).collect();
        watch(&posts, || workers.iter().all(|worker| worker.is_finished()));
        let mut whole = Ledger::default();
        for worker in workers {
            whole.join(worker.join().expect("a worker ends by itself"));
        }
        whole
    })
}
