//! Folders to run the tool in, and images to run it on.

use reference::volume::Layout;
use std::fs;
use std::io::Write;
use std::path::PathBuf;
use std::process::{self, Command, Stdio};
use std::sync::atomic::{AtomicU64, Ordering};
use volumes::{put_section, section, Entry};

/// The tool.
pub const TOOL: &str = env!("CARGO_BIN_EXE_gaffreel");

/// Document 01's example: r 0, T 32, N 16, S 1, P 16, 120 sectors.
pub const SAMPLE: Layout = Layout {
    reserved: 0,
    log2_run: 4,
    tag_size: 32,
    sections: 1,
    provided: 16,
};

/// A layout with reserved sectors and two sections.
pub const OTHER: Layout = Layout {
    reserved: 2,
    log2_run: 3,
    tag_size: 32,
    sections: 2,
    provided: 10,
};

/// Tags of 20 bytes: r 0, T 20, N 8, S 1, P 8, 128 sectors.
pub const TAG_20: Layout = Layout {
    reserved: 0,
    log2_run: 3,
    tag_size: 20,
    sections: 1,
    provided: 8,
};

/// The tag of sector 17 lies across two sectors: r 0, T 30, N 32, S 1, P 24, 128 sectors.
pub const ACROSS_SECTORS: Layout = Layout {
    reserved: 0,
    log2_run: 5,
    tag_size: 30,
    sections: 1,
    provided: 24,
};

/// A folder of its own, removed at the end.
pub struct Folder {
    path: PathBuf,
}

/// How a run ended.
#[derive(Debug, PartialEq, Eq)]
pub struct Ended {
    pub status: i32,
    pub out: Vec<u8>,
    pub err: String,
}

impl Folder {
    pub fn new() -> Folder {
        static COUNT: AtomicU64 = AtomicU64::new(0);
        let number = COUNT.fetch_add(1, Ordering::Relaxed);
        let name = format!("gaffreel-tool-{}-{number}", process::id());
        let path = std::env::temp_dir().join(name);
        fs::create_dir(&path).unwrap();
        Folder { path }
    }

    /// A folder with one file.
    pub fn with(name: &str, bytes: &[u8]) -> Folder {
        let folder = Folder::new();
        folder.put(name, bytes);
        folder
    }

    pub fn path(&self, name: &str) -> PathBuf {
        self.path.join(name)
    }

    pub fn put(&self, name: &str, bytes: &[u8]) {
        fs::write(self.path(name), bytes).unwrap();
    }

    pub fn get(&self, name: &str) -> Vec<u8> {
        fs::read(self.path(name)).unwrap()
    }

    /// The names in the folder, in order.
    pub fn names(&self) -> Vec<String> {
        let entries = fs::read_dir(&self.path).unwrap();
        let mut names: Vec<String> = entries
            .map(|entry| entry.unwrap().file_name().into_string().unwrap())
            .collect();
        names.sort();
        names
    }

    /// A program to be run in the folder.
    pub fn program(&self, program: &str, words: &[&str]) -> Command {
        let mut command = Command::new(program);
        command.args(words).current_dir(&self.path);
        command.stdin(Stdio::null());
        command
    }

    /// Runs the tool in the folder, without input.
    pub fn run(&self, words: &[&str]) -> Ended {
        ended(&mut self.program(TOOL, words))
    }

    /// Runs the tool with an input.
    pub fn run_with_input(&self, words: &[&str], input: &[u8]) -> Ended {
        let mut command = self.program(TOOL, words);
        command.stdin(Stdio::piped());
        command.stdout(Stdio::piped()).stderr(Stdio::piped());
        let mut child = command.spawn().unwrap();
        // A run that is refused may end before it reads.
        let _ = child.stdin.take().unwrap().write_all(input);
        Ended::from(child.wait_with_output().unwrap())
    }
}

impl Drop for Folder {
    fn drop(&mut self) {
        let _ = fs::remove_dir_all(&self.path);
    }
}

/// Runs a program to its end.
pub fn ended(command: &mut Command) -> Ended {
    Ended::from(command.output().unwrap())
}

impl From<process::Output> for Ended {
    fn from(output: process::Output) -> Ended {
        Ended {
            status: output.status.code().expect("no signal ended it"),
            out: output.stdout,
            err: String::from_utf8(output.stderr).unwrap(),
        }
    }
}

impl Ended {
    /// A run that ended well with this output.
    pub fn good(out: &str) -> Ended {
        Ended::with(0, out, "")
    }

    pub fn with(status: i32, out: &str, err: &str) -> Ended {
        Ended {
            status,
            out: out.into(),
            err: err.into(),
        }
    }

    pub fn text(&self) -> &str {
        str::from_utf8(&self.out).unwrap()
    }
}

/// A volume whose journal has sections of these numbers, ids and entries.
pub fn with_sections(layout: &Layout, sections: &[(usize, u64, &[Entry])]) -> Vec<u8> {
    let geometry = layout.geometry().unwrap();
    let mut volume = volumes::formatted(layout, 0);
    for (number, id, entries) in sections {
        let bytes = section(&geometry, *id, entries);
        put_section(&mut volume, &geometry, *number, &bytes);
    }
    volume
}

/// Changes a byte of a sector's data.
pub fn damage(volume: &mut [u8], layout: &Layout, sector: u64) {
    let home = layout.geometry().unwrap().home(sector).unwrap();
    volume[home.data * 512 + 100] ^= 1;
}
