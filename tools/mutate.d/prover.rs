// One crate, as it is or as a mutant, proved in a folder of its own: the crates that it rests on are read where they are proved, and of its own modules
// the prover checks again those that the mutant changes.

use crate::options::Options;
use std::fs::{self, File};
use std::io;
use std::os::unix::process::CommandExt;
use std::path::{Path, PathBuf};
use std::process::{Child, Command, Stdio};
use std::time::{Duration, Instant};

pub struct Place {
    pub folder: PathBuf,
    root: PathBuf,
    krate: String,
}

// A copy of the crate.
pub fn place(root: &Path, folder: PathBuf, krate: &str) -> io::Result<Place> {
    if folder.exists() {
        fs::remove_dir_all(&folder)?;
    }
    fs::create_dir_all(folder.join("tmp"))?;
    for part in ["src", "specs", "proofs"] {
        let there = root.join("crates").join(krate).join(part);
        if there.exists() {
            copy(&there, &folder.join(part))?;
        }
    }
    Ok(Place {
        folder,
        root: root.to_path_buf(),
        krate: krate.to_string(),
    })
}

fn copy(from: &Path, to: &Path) -> io::Result<()> {
    fs::create_dir_all(to)?;
    for entry in fs::read_dir(from)? {
        let entry = entry?;
        let target = to.join(entry.file_name());
        if entry.path().is_dir() {
            copy(&entry.path(), &target)?;
        } else {
            fs::copy(entry.path(), target)?;
        }
    }
    Ok(())
}

impl Place {
    // What the prover keeps of the crate as it is.
    fn kept(&self) -> PathBuf {
        self.folder.join("kept")
    }

    pub fn takes_kept(&self, of: &Place) -> io::Result<()> {
        copy(&of.kept(), &self.kept())
    }

    pub fn forgets_kept(&self) -> io::Result<()> {
        if !self.kept().exists() {
            return Ok(());
        }
        fs::remove_dir_all(self.kept())
    }

    // Takes the function's own proof away, so that the prover looks for one. Says whether there was one.
    pub fn forgets_proof(&self, function: &str) -> io::Result<bool> {
        let parts: Vec<&str> = function.split("::").skip(1).collect();
        let folder = self.folder.join("proofs").join(parts.join("/"));
        let mut found = false;
        for file in ["Proof.antt", "Answers.antt"] {
            if folder.join(file).exists() {
                fs::remove_file(folder.join(file))?;
                found = true;
            }
        }
        Ok(found)
    }

    // A source, by its path below the repository's root.
    pub fn write(&self, path: &str, text: &str) -> io::Result<()> {
        let base = format!("crates/{}/", self.krate);
        fs::write(self.folder.join(path.trim_start_matches(&base)), text)
    }

    // The exit status, or none where the time was up, and what was said.
    pub fn prove(&self, seconds: u64) -> io::Result<(Option<i32>, String)> {
        fs::create_dir_all(self.kept())?;
        let log = self.folder.join("said");
        let out = File::create(&log)?;
        let mut child = Command::new(self.root.join("tools/rattle"))
            .args(["check", &self.krate, "--incremental", "kept"])
            .current_dir(&self.folder)
            .env("TMPDIR", self.folder.join("tmp"))
            .env("LC_ALL", "C")
            .stdin(Stdio::null())
            .stderr(out.try_clone()?)
            .stdout(out)
            .process_group(0)
            .spawn()?;
        let status = waited(&mut child, Duration::from_secs(seconds))?;
        let said = String::from_utf8_lossy(&fs::read(&log)?).to_string();
        Ok((status, said))
    }
}

fn waited(child: &mut Child, limit: Duration) -> io::Result<Option<i32>> {
    let began = Instant::now();
    loop {
        if let Some(status) = child.try_wait()? {
            return Ok(Some(status.code().unwrap_or(2)));
        }
        if began.elapsed() > limit {
            let group = format!("-{}", child.id());
            Command::new("kill")
                .args(["-KILL", "--", &group])
                .status()?;
            child.wait()?;
            return Ok(None);
        }
        std::thread::sleep(Duration::from_millis(10));
    }
}

// Has tools/prove prove the crates as they are, and what they rest on.
pub fn prove_all(options: &Options, crates: &[&str]) -> Result<(), String> {
    let proved = Command::new(options.root.join("tools/prove"))
        .args(crates)
        .stdin(Stdio::null())
        .stdout(Stdio::null())
        .status()
        .map_err(|e| format!("tools/prove: {e}"))?;
    if proved.success() {
        return Ok(());
    }
    Err("what is to be changed must be proved as it is".to_string())
}
