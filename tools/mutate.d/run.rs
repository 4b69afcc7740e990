// The mutants, tried side by side.

use crate::mutations::Mutant;
use crate::options::Options;
use crate::prover::{place, Place};
use crate::sources::Sources;
use crate::verdict::{verdict, Outcome, Verdict};
use std::collections::{BTreeMap, VecDeque};
use std::fs;
use std::io;
use std::sync::{Arc, Mutex};
use std::time::Instant;

pub struct Tried {
    pub mutant: Mutant,
    pub verdict: Verdict,
}

// A crate as it is, proved for what the prover keeps of it, which its mutants share, and how many of these are to come.
#[derive(Default)]
struct Base {
    place: Mutex<Option<Place>>,
    all: usize,
    left: Mutex<usize>,
}

pub struct Run<'a> {
    pub all: &'a Sources,
    pub options: &'a Options,
    // one entry for each mutant that is wanted: its function
    slots: Mutex<VecDeque<usize>>,
    // what can be tried of each function, in order
    waiting: Mutex<BTreeMap<usize, VecDeque<Mutant>>>,
    bases: BTreeMap<String, Base>,
    tried: Mutex<Vec<Tried>>,
    fault: Mutex<Option<String>>,
    wanted: usize,
    shown: Mutex<Instant>,
}

type Step<T> = Result<T, String>;

pub fn run(
    all: &Sources,
    options: &Options,
    slots: Vec<usize>,
    waiting: BTreeMap<usize, VecDeque<Mutant>>,
) -> Step<Vec<Tried>> {
    let mut bases: BTreeMap<String, Base> = BTreeMap::new();
    for f in &slots {
        let base = bases.entry(all.functions[*f].krate.clone()).or_default();
        base.all += 1;
        *locked(&base.left) += 1;
    }
    let run = Run {
        all,
        options,
        wanted: slots.len(),
        slots: Mutex::new(slots.into()),
        waiting: Mutex::new(waiting),
        bases,
        tried: Mutex::new(Vec::new()),
        fault: Mutex::new(None),
        shown: Mutex::new(Instant::now()),
    };
    let shared = Arc::new(&run);
    std::thread::scope(|scope| {
        for worker in 0..options.jobs {
            let run = Arc::clone(&shared);
            scope.spawn(move || run.work(worker));
        }
    });
    if let Some(fault) = locked(&run.fault).take() {
        return Err(fault);
    }
    run.say(true);
    let tried = std::mem::take(&mut *locked(&run.tried));
    Ok(tried)
}

fn locked<T>(mutex: &Mutex<T>) -> std::sync::MutexGuard<'_, T> {
    mutex.lock().unwrap_or_else(|e| e.into_inner())
}

impl Run<'_> {
    fn work(&self, worker: usize) {
        loop {
            let slot = locked(&self.slots).pop_front();
            let Some(function) = slot.filter(|_| locked(&self.fault).is_none()) else {
                return;
            };
            if let Err(fault) = self.fill(worker, function) {
                locked(&self.fault).get_or_insert(fault);
                return;
            }
        }
    }

    // Tries mutants of a function until one compiles.
    fn fill(&self, worker: usize, function: usize) -> Step<()> {
        let krate = self.all.functions[function].krate.as_str();
        let base = &self.bases[krate];
        self.make(krate, base)?;
        loop {
            let next = locked(&self.waiting)
                .get_mut(&function)
                .and_then(VecDeque::pop_front);
            let Some(mutant) = next else { break };
            let verdict = self.tried(worker, base, &mutant)?;
            let is_filled = verdict.outcome != Outcome::NotCompiled;
            locked(&self.tried).push(Tried { mutant, verdict });
            self.say(false);
            if is_filled {
                break;
            }
        }
        let mut left = locked(&base.left);
        *left -= 1;
        if *left == 0 {
            if let Some(place) = locked(&base.place).take() {
                fs::remove_dir_all(place.folder).map_err(|e| e.to_string())?;
            }
        }
        Ok(())
    }

    fn make(&self, krate: &str, base: &Base) -> Step<()> {
        let mut held = locked(&base.place);
        // what is kept saves less than half of a proof, and costs one
        if held.is_some() || base.all <= 2 {
            return Ok(());
        }
        let folder = self.options.work.join("base").join(krate);
        let made = place(&self.options.root, folder, krate).map_err(|e| e.to_string())?;
        let (status, said) = made
            .prove(self.options.seconds)
            .map_err(|e| e.to_string())?;
        if verdict(status, &said).outcome != Outcome::Survived {
            return Err(format!(
                "{said}\nmutate: the crate {krate} is not proved as it is"
            ));
        }
        *held = Some(made);
        Ok(())
    }

    fn tried(&self, worker: usize, base: &Base, mutant: &Mutant) -> Step<Verdict> {
        let began = Instant::now();
        let (status, said) = self.said(worker, base, mutant).map_err(|e| e.to_string())?;
        let found = verdict(status, &said);
        let said = format!("# seconds: {:.1}\n{said}", began.elapsed().as_secs_f64());
        self.keep(mutant, &found, &said)?;
        Ok(found)
    }

    // What the prover says of a mutant. Where the proof does not fit its form, the prover may find another; and a survivor is proved once more, with
    // nothing kept from the crate as it is.
    fn said(
        &self,
        worker: usize,
        base: &Base,
        mutant: &Mutant,
    ) -> io::Result<(Option<i32>, String)> {
        let function = &self.all.functions[mutant.function];
        let source = &self.all.files[function.file];
        let (text, krate) = (&source.text, &function.krate);
        let folder = self.options.work.join(format!("worker{worker}"));
        let here = place(&self.options.root, folder, krate)?;
        if let Some(base) = &*locked(&base.place) {
            here.takes_kept(base)?;
        }
        let mutated = format!(
            "{}{}{}",
            &text[..mutant.start],
            mutant.new,
            &text[mutant.end..]
        );
        here.write(&source.path, &mutated)?;
        let outcome = |said: &(Option<i32>, String)| verdict(said.0, &said.1).outcome;
        let first = here.prove(self.options.seconds)?;
        let mut last = None;
        if outcome(&first) == Outcome::Form && here.forgets_proof(&function.name)? {
            last = Some(here.prove(self.options.seconds)?);
        }
        if outcome(last.as_ref().unwrap_or(&first)) != Outcome::Survived {
            return Ok(first);
        }
        here.forgets_kept()?;
        here.prove(self.options.seconds)
    }

    fn keep(&self, mutant: &Mutant, found: &Verdict, said: &str) -> Step<()> {
        let Some(keep) = &self.options.keep else {
            return Ok(());
        };
        let function = &self.all.functions[mutant.function];
        let folder = keep.join(&function.krate);
        let name = format!("{}.{}.log", function.name.replace("::", "."), mutant.number);
        let path = &self.all.files[function.file].path;
        let head = format!(
            "# {path}:{}: {} in {}\n# old: {}\n# new: {}\n# outcome: {:?}\n# refused in: {}\n# {}\n",
            mutant.line,
            mutant.kind,
            function.name,
            mutant.before,
            mutant.after,
            found.outcome,
            found.refused.join(" "),
            found.first
        );
        fs::create_dir_all(&folder).map_err(|e| format!("{}: {e}", folder.display()))?;
        fs::write(folder.join(name), head + said).map_err(|e| format!("{}: {e}", folder.display()))
    }

    // A line every five seconds, and at the end.
    fn say(&self, is_last: bool) {
        let mut shown = locked(&self.shown);
        if !is_last && shown.elapsed().as_secs() < 5 {
            return;
        }
        *shown = Instant::now();
        let tried = locked(&self.tried);
        let done = tried
            .iter()
            .filter(|t| t.verdict.outcome != Outcome::NotCompiled)
            .count();
        let survived = tried
            .iter()
            .filter(|t| t.verdict.outcome == Outcome::Survived)
            .count();
        eprintln!(
            "mutate: {done} of {} mutants, {survived} survived so far",
            self.wanted
        );
    }
}
