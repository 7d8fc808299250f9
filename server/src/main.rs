//! Speaks MySQL's client protocol over verified XA row stores in memory. README.md has the options.
#![forbid(unsafe_code)]

mod answers;
mod channel;
mod chatter;
mod conversation;
mod faults;
mod follower;
mod guest;
mod login;
mod mirror;
mod options;
mod packets;
mod pool;
mod port;
mod record;
mod sql;
mod statements;
mod status;
mod stop;
mod store;
mod system;
mod tls;
mod tokens;
mod variables;
mod waits;

use options::Options;
use port::Port;
use serde_json::{json, Value as Json};
use std::fs;
use std::net::Shutdown;
use std::os::unix::fs::MetadataExt;
use std::path::Path;
use std::process::ExitCode;
use std::sync::Arc;
use std::thread;
use std::time::{Duration, Instant, SystemTime};
use stop::Stop;
use store::{lock, say, Store};

/// How often the server looks whether it should end, or the file of faults has changed.
const TICK: Duration = Duration::from_millis(50);
/// How often it writes status and history.
const WRITES: Duration = Duration::from_secs(1);
/// How long statements have to end.
const LAST: Duration = Duration::from_secs(10);

fn main() -> ExitCode {
    let options = match options::read(std::env::args_os()) {
        Ok(options) => Arc::new(options),
        Err(why) => return give_up(2, &why),
    };
    let watch = match Watch::begin(options.fault.as_deref(), options.stores) {
        Ok(watch) => watch,
        Err(why) => return give_up(2, &why),
    };
    system::allow_open_files();
    match Server::open(&options, watch) {
        Ok(server) => server.run(),
        Err(why) => give_up(1, &format!("it doesn't start: {}", why)),
    }
}

fn give_up(status: u8, why: &str) -> ExitCode {
    say(&format!("nigbaru-server: {}", why));
    ExitCode::from(status)
}

/// When a file was changed, how long it is, and which it is: two that were written in the same moment differ in that
/// alone.
type Looks = (SystemTime, u64, u64);

/// The file of faults, and what it was like when it was read.
struct Watch<'a> {
    path: Option<&'a Path>,
    stores: usize,
    seen: Option<Looks>,
    plans: Vec<faults::Plan>,
}

impl<'a> Watch<'a> {
    fn begin(path: Option<&'a Path>, stores: usize) -> Result<Watch<'a>, String> {
        let mut watch = Watch { path, stores, seen: None, plans: Vec::new() };
        watch.seen = watch.looks();
        watch.plans = match path {
            Some(path) => watch.read(path)?,
            None => Vec::new(),
        };
        Ok(watch)
    }

    fn looks(&self) -> Option<Looks> {
        let about = fs::metadata(self.path?).ok()?;
        Some((about.modified().ok()?, about.len(), about.ino()))
    }

    fn read(&self, path: &Path) -> Result<Vec<faults::Plan>, String> {
        let text = fs::read_to_string(path).map_err(|fault| format!("--fault {}: {}", path.display(), fault))?;
        faults::read(&text, self.stores).map_err(|why| format!("--fault {}: {}", path.display(), why))
    }

    /// The plans, if the file has changed. One that can't be read leaves the faults as they are.
    fn changed(&mut self) -> Option<Vec<faults::Plan>> {
        let path = self.path?;
        let looks = self.looks();
        if looks.is_none() || looks == self.seen {
            return None;
        }
        self.seen = looks;
        match self.read(path) {
            Ok(plans) => Some(plans),
            Err(why) => {
                say(&format!("the faults stay as they were: {}", why));
                None
            }
        }
    }
}

struct Server<'a> {
    options: Arc<Options>,
    stop: Arc<Stop>,
    stores: Vec<Arc<Store>>,
    ports: Vec<Arc<Port>>,
    threads: Vec<thread::JoinHandle<()>>,
    watch: Watch<'a>,
}

impl<'a> Server<'a> {
    fn open(options: &Arc<Options>, watch: Watch<'a>) -> Result<Server<'a>, String> {
        let stop = Arc::new(Stop::default());
        stop.listen_for_signals().map_err(|fault| format!("signals can't be listened for: {}", fault))?;
        let (mut stores, mut found) = (Vec::new(), Vec::new());
        for number in 1..=options.stores {
            let store = Arc::new(Store::open(number, options, &stop)?);
            found.extend(port::open(&store, number, options)?);
            stores.push(store);
        }
        let mut server =
            Server { options: Arc::clone(options), stop, stores, ports: Vec::new(), threads: Vec::new(), watch };
        server.write_status().map_err(|fault| format!("--status {}", fault))?;
        server.set_faults(&server.watch.plans.clone());
        for (port, listener) in found {
            server.threads.push(Arc::clone(&port).listen(listener));
            server.ports.push(port);
        }
        Ok(server)
    }

    fn set_faults(&self, plans: &[faults::Plan]) {
        self.stores.iter().zip(plans).for_each(|(store, plan)| store.set_faults(plan));
    }

    /// Serves until a signal comes, or a file can't be written; the exit status.
    fn run(mut self) -> ExitCode {
        let mut written = Instant::now();
        while !self.stop.is_over() {
            thread::sleep(TICK);
            if let Some(plans) = self.watch.changed() {
                self.set_faults(&plans);
                // (told once they hold in all stores: who waits for this line sends nothing that isn't counted)
                let count: usize = plans.iter().map(|plan| plan.faults.len()).sum();
                say(&format!("the faults are read again: {} of all stores, and counts begin anew", count));
            }
            for store in &self.stores {
                store.hand_over();
                store.refresh();
            }
            // A port that is out closes once its thread is woken.
            self.ports.iter().filter(|port| port.store.outage().is_some()).for_each(|port| port.wake());
            if written.elapsed() >= WRITES {
                self.write();
                written = Instant::now();
            }
        }
        self.end()
    }

    /// Writes history and status.
    fn write(&self) {
        self.stores.iter().for_each(|store| store.write_history());
        if let Err(fault) = self.write_status() {
            say(&format!("the status can't be written: {}", fault));
        }
    }

    /// Writes the status, if that is wanted, under another name first, so that who reads it has it whole.
    fn write_status(&self) -> Result<(), String> {
        let path = match &self.options.status {
            Some(path) => path,
            None => return Ok(()),
        };
        let stores: Vec<Json> = self.stores.iter().map(|store| status::json_of(store)).collect();
        let mut next = path.clone().into_os_string();
        next.push(".next");
        let text = format!("{}\n", json!({ "stores": stores }));
        fs::write(&next, text)
            .and_then(|()| fs::rename(&next, path))
            .map_err(|fault| format!("{}: {}", path.display(), fault))
    }

    /// Accepts nobody further, lets statements end, and writes what is to be written.
    fn end(self) -> ExitCode {
        self.stop.end();
        self.stores.iter().for_each(|store| {
            store.pool.close();
            store.waits.close();
        });
        let began = Instant::now();
        // (a unix socket that somebody has removed can't be woken, and isn't waited for)
        while self.threads.iter().any(|it| !it.is_finished()) && began.elapsed() < WRITES {
            self.ports.iter().for_each(|port| port.wake());
            thread::sleep(TICK / 10);
        }
        while self.stores.iter().any(|store| !lock(&store.connections).is_empty()) && began.elapsed() < LAST + LAST / 10
        {
            let how = if began.elapsed() < LAST { Shutdown::Read } else { Shutdown::Both };
            self.stores.iter().for_each(|store| store.shut_all(how));
            thread::sleep(TICK / 10);
        }
        self.write();
        match self.stop.why() {
            None => ExitCode::SUCCESS,
            Some(why) => give_up(1, &format!("it ends: {}", why)),
        }
    }
}
