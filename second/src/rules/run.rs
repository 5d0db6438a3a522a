//! The day-by-day run.

use super::plan::{Day, Length, Plan, Release};
use std::fmt;

#[derive(Clone, Debug, PartialEq)]
pub enum Outcome {
    Clean {
        work: Length,
        moving: Length,
        idle: Length,
    },
    Miss {
        day: Day,
        place: u64,
    },
}

/// A job that has work or moving left; a job with nothing left is gone.
#[derive(Clone, PartialEq, Eq, Hash)]
pub struct Job {
    pub place: u64,
    /// Its release's place in the list, counted from 1; 0 where there is no list.
    number: usize,
    /// X is 1.
    taker: bool,
    release: Day,
    pub deadline: Day,
    pub work: Length,
    pub moving: Length,
}

/// What a day of the bank goes into: the place on it, and which release of the list it serves.
#[derive(Clone, Copy, Debug, PartialEq)]
pub enum Use {
    Work { place: u64, release: usize },
    Moving { place: u64, release: usize },
    Idle,
}

/// The jobs of a day: at most one on the bank, the others waiting.
#[derive(Clone, PartialEq, Eq, Hash)]
pub struct Hall {
    pub bank: Option<Job>,
    pub waiting: Vec<Job>,
}

/// How the steps of a day are read where planners read them wrongly.
#[derive(Clone, Copy, Default)]
pub struct Policy {
    /// Each release takes or gets the bank before the day's next one joins.
    pub starts_early: bool,
    /// The moving is charged to the job that was stopped.
    pub stopped_pays: bool,
    /// X 1 is taken to mean that a string's jobs may be interrupted.
    pub x_is_interrupted: bool,
}

/// Runs a lawful list of releases over all N days.
pub fn run(plan: &Plan) -> Outcome {
    run_by(Policy::default(), plan)
}

pub fn run_by(policy: Policy, plan: &Plan) -> Outcome {
    run_watched(policy, plan, |_, _| ())
}

/// The same; somebody looks on each day at the hall after step 4, before the day is used.
pub fn run_watched(policy: Policy, plan: &Plan, mut watch: impl FnMut(Day, &Hall)) -> Outcome {
    let mut hall = Hall::empty();
    let mut releases = plan.releases.iter().zip(1..).peekable();
    let (mut work, mut moving, mut idle) = (0, 0, 0);
    for day in 0..plan.days {
        if let Some(place) = hall.late(day) {
            return Outcome::Miss { day, place };
        }
        while let Some((release, number)) = releases.next_if(|(release, _)| release.day == day) {
            hall.waiting.push(job(plan, release, number));
            if policy.starts_early {
                hall.take_and_give(policy, day, plan);
            }
        }
        hall.take_and_give(policy, day, plan);
        watch(day, &hall);
        match hall.use_day() {
            Use::Work { .. } => work += 1,
            Use::Moving { .. } => moving += 1,
            Use::Idle => idle += 1,
        }
    }
    match hall.late(plan.days) {
        Some(place) => Outcome::Miss {
            day: plan.days,
            place,
        },
        None => Outcome::Clean { work, moving, idle },
    }
}

pub fn job(plan: &Plan, release: &Release, number: usize) -> Job {
    Job {
        place: release.place,
        number,
        taker: plan.string_of(release).x == 1,
        release: release.day,
        deadline: plan.deadline(release),
        work: release.need,
        moving: 0,
    }
}

impl Hall {
    pub fn empty() -> Hall {
        Hall {
            bank: None,
            waiting: Vec::new(),
        }
    }

    /// Step 1: the smallest place with an unfinished job due today.
    pub fn late(&self, today: Day) -> Option<u64> {
        self.bank
            .iter()
            .chain(&self.waiting)
            .filter(|job| job.deadline == today)
            .map(|job| job.place)
            .min()
    }

    /// Steps 3 and 4.
    pub fn take_and_give(&mut self, policy: Policy, today: Day, plan: &Plan) {
        self.take_bank(policy, today, plan);
        self.give_bank();
    }

    /// Step 3: a taker released today with a strictly earlier deadline stops the job on the bank,
    /// and pays its own string's cost.
    fn take_bank(&mut self, policy: Policy, today: Day, plan: &Plan) {
        let stopped = match &self.bank {
            Some(job) => job,
            None => return,
        };
        let permitted = |job: &Job| {
            if policy.x_is_interrupted {
                stopped.taker
            } else {
                job.taker
            }
        };
        let payer = self
            .waiting
            .iter_mut()
            .filter(|job| permitted(job) && job.release == today && job.deadline < stopped.deadline)
            .min_by_key(|job| (job.deadline, job.place));
        if let Some(payer) = payer {
            let cost = plan.strings[payer.place as usize - 1].moving;
            let mut stopped = self.bank.take();
            match &mut stopped {
                Some(stopped) if policy.stopped_pays => stopped.moving += cost,
                _ => payer.moving += cost,
            }
            self.waiting.extend(stopped);
        }
    }

    /// Step 4: a free bank goes to the waiting job with the earliest deadline.
    fn give_bank(&mut self) {
        if self.bank.is_some() {
            return;
        }
        let next = (0..self.waiting.len()).min_by_key(|at| {
            let job = &self.waiting[*at];
            (job.deadline, job.release, job.place)
        });
        self.bank = next.map(|at| self.waiting.swap_remove(at));
    }

    /// What the day will go into once the bank is given out: moving days come first.
    pub fn today(&self) -> Use {
        match &self.bank {
            None => Use::Idle,
            Some(job) => {
                let (place, release) = (job.place, job.number);
                if job.moving > 0 {
                    Use::Moving { place, release }
                } else {
                    Use::Work { place, release }
                }
            }
        }
    }

    /// Step 5: the job on the bank uses the day, and is gone once nothing is left.
    pub fn use_day(&mut self) -> Use {
        let used = self.today();
        if let Some(job) = &mut self.bank {
            match used {
                Use::Moving { .. } => job.moving -= 1,
                _ => job.work -= 1,
            }
            if job.moving == 0 && job.work == 0 {
                self.bank = None;
            }
        }
        used
    }

    /// The same jobs a day later, their days counted so that today has the same number; in the order of their places.
    pub fn move_back_a_day(&mut self) {
        for job in self.bank.iter_mut().chain(&mut self.waiting) {
            job.release -= 1;
            job.deadline -= 1;
        }
        self.waiting.sort_by_key(|job| job.place);
    }
}

impl fmt::Display for Outcome {
    fn fmt(&self, out: &mut fmt::Formatter) -> fmt::Result {
        match self {
            Outcome::Clean { work, moving, idle } => {
                write!(out, "run clean work {work} move {moving} idle {idle}")
            }
            Outcome::Miss { day, place } => write!(out, "run miss day {day} place {place}"),
        }
    }
}
