//! Starts the processes, kills some of them, waits until all that live have released enough, and compares what they
//! left.

use std::error::Error;
use std::path::{Path, PathBuf};
use std::process::{Child, Command, Stdio};
use std::sync::atomic::{AtomicU32, Ordering};
use std::time::{Duration, Instant};
use std::{env, fmt, fs, io, process, thread};

use streams::Random;

use crate::host::{self, Breach, Halt, Point};
use crate::promises::{self, Promises};
use crate::rows::{self, Row};
use crate::state::{self, Counts, Saved};
use crate::{halted_file, key_file, keys_file, N};

const POLL: Duration = Duration::from_millis(15);
/// What is sent has arrived after this time, mostly.
const ARRIVAL: Duration = Duration::from_millis(30);
/// Rows must have grown by so many since the last restart.
const GROWN: usize = 5;
/// Kills at any time, beside one at each point of a call.
const FREE_KILLS: usize = 3;

type Failure = Box<dyn Error>;

pub struct Plan {
    /// The program that has the subcommands `replica` and `byzantine`.
    pub binary: PathBuf,
    pub seed: u64,
    /// Whether one is Byzantine, one is stopped for good and one killed and restarted.
    pub faults: bool,
    /// How many releases every live row must have.
    pub releases: usize,
    /// A run that isn't done by then has failed.
    pub deadline: Duration,
    pub sync: bool,
    /// A duty that honest hosts don't keep to, which is there to be found.
    pub breach: Option<Breach>,
}

/// Who fails, and how.
#[derive(Clone, Copy, Debug, PartialEq, Eq)]
pub struct Roles {
    pub byzantine: u16,
    pub stopped: u16,
    pub restarted: u16,
}

impl Roles {
    fn draw(random: &mut Random) -> Roles {
        let mut left: Vec<u16> = (0..N).collect();
        let mut next = || left.swap_remove(random.index(left.len()));
        Roles { byzantine: next(), stopped: next(), restarted: next() }
    }
}

/// One kill with a restart: where it hit, how long the process was down.
#[derive(Clone, Copy, Debug)]
pub struct Kill {
    pub point: Option<Point>,
    pub down: Duration,
}

/// Where a replica stands at the end.
#[derive(Clone, Copy, Debug)]
pub struct Standing {
    pub replica: u16,
    pub releases: usize,
    pub view: u64,
}

impl Standing {
    fn of((replica, saved): &(u16, Saved)) -> Standing {
        Standing { replica: *replica, releases: saved.row.len(), view: saved.view }
    }
}

impl fmt::Display for Standing {
    fn fmt(&self, f: &mut fmt::Formatter<'_>) -> fmt::Result {
        write!(f, "replica {}: {} released, view {}", self.replica, self.releases, self.view)
    }
}

#[derive(Debug)]
pub struct Summary {
    pub roles: Option<Roles>,
    /// Of each honest replica, by number.
    pub standings: Vec<Standing>,
    pub kills: Vec<Kill>,
    /// Over all honest processes.
    pub counts: Counts,
    /// Records of honest replicas in which no second one of a view was found.
    pub promises: usize,
    pub elapsed: Duration,
    /// Where the processes had their files; it is removed.
    pub folder: PathBuf,
}

/// A folder of its own, removed at the end.
struct Folder(PathBuf);

impl Folder {
    fn create() -> io::Result<Folder> {
        static NEXT: AtomicU32 = AtomicU32::new(0);
        let number = NEXT.fetch_add(1, Ordering::Relaxed);
        let path = env::temp_dir().join(format!("hydrangea-cluster-{}-{number}", process::id()));
        fs::create_dir(&path)?;
        Ok(Folder(path))
    }
}

impl Drop for Folder {
    fn drop(&mut self) {
        _ = fs::remove_dir_all(&self.0);
    }
}

/// The processes. However the supervisor ends, they are killed; one whose supervisor was killed itself ends when its
/// input does.
struct Fleet<'a> {
    plan: &'a Plan,
    folder: &'a Path,
    children: Vec<Option<Child>>,
}

impl Drop for Fleet<'_> {
    fn drop(&mut self) {
        self.kill_all();
    }
}

impl Fleet<'_> {
    fn start(&mut self, own: u16, subcommand: &str, words: &[String]) -> io::Result<()> {
        let mut command = Command::new(&self.plan.binary);
        command.arg(subcommand).arg(self.folder).arg(own.to_string()).args(words);
        command.stdin(Stdio::piped()).stdout(Stdio::null());
        self.children[usize::from(own)] = Some(command.spawn()?);
        Ok(())
    }

    fn start_replica(&mut self, own: u16, halt: Option<Halt>) -> io::Result<()> {
        let mut words = Vec::new();
        if self.plan.sync {
            words.push("--sync".to_string());
        }
        if let Some(breach) = self.plan.breach {
            words.extend(["--breach".to_string(), breach.word().to_string()]);
        }
        if let Some(Halt { call, point }) = halt {
            words.extend(["--halt".to_string(), call.to_string(), point.word().to_string()]);
        }
        self.start(own, "replica", &words)
    }

    /// SIGKILL.
    fn kill(&mut self, own: u16) {
        if let Some(mut child) = self.children[usize::from(own)].take() {
            _ = child.kill();
            _ = child.wait();
        }
    }

    fn kill_all(&mut self) {
        (0..N).for_each(|own| self.kill(own));
    }

    /// No process ended by itself.
    fn check(&mut self) -> Result<(), Failure> {
        for (own, child) in self.children.iter_mut().enumerate() {
            if let Some(status) = child.as_mut().map(Child::try_wait).transpose()?.flatten() {
                return Err(format!("process {own} ended by itself: {status}").into());
            }
        }
        Ok(())
    }
}

struct Run<'a> {
    plan: &'a Plan,
    fleet: Fleet<'a>,
    random: Random,
    end: Instant,
    roles: Option<Roles>,
    kills: Vec<Kill>,
    promises: Promises,
}

/// Runs a cluster; the summary, if all rows are one chain and those that live have grown.
pub fn run(plan: &Plan) -> Result<Summary, Failure> {
    let started = Instant::now();
    let folder = Folder::create()?;
    let mut random = Random::new(plan.seed);
    let roles = plan.faults.then(|| Roles::draw(&mut random));
    let fleet = Fleet { plan, folder: &folder.0, children: (0..N).map(|_| None).collect() };
    let (end, promises) = (started + plan.deadline, Promises::default());
    let mut run = Run { plan, fleet, random, end, roles, kills: Vec::new(), promises };
    run.play()?;
    run.fleet.kill_all();
    let saved = run.load_honest()?;
    let rows: Option<Vec<Row>> = saved.iter().map(|(own, saved)| Row::of(*own, saved)).collect();
    rows::check(&rows.ok_or("a saved replica can't be restored")?)?;
    Ok(run.summarise(&saved, started.elapsed()))
}

impl Run<'_> {
    fn play(&mut self) -> Result<(), Failure> {
        self.write_keys()?;
        match self.roles {
            Some(roles) => self.play_faults(roles),
            None => {
                (0..N).try_for_each(|own| self.fleet.start_replica(own, None))?;
                self.wait_for_rows(&(0..N).collect::<Vec<_>>(), 0)
            }
        }
    }

    /// All kills of the one that is restarted, and somewhere between them the end of the one that is stopped.
    fn play_faults(&mut self, roles: Roles) -> Result<(), Failure> {
        let mut points = [&Point::ALL.map(Some)[..], &[None; FREE_KILLS]].concat();
        let stop_before = self.random.index(points.len());
        let mut halt = self.draw_halt(&mut points);
        self.start_all(roles, halt)?;
        for turn in 0.. {
            if turn == stop_before {
                self.pause(150)?;
                self.fleet.kill(roles.stopped);
            }
            self.kill_restarted(roles.restarted, halt)?;
            if points.is_empty() {
                break;
            }
            halt = self.draw_halt(&mut points);
            self.fleet.start_replica(roles.restarted, halt)?;
        }
        self.fleet.start_replica(roles.restarted, None)?;
        let live: Vec<u16> = (0..N).filter(|own| ![roles.byzantine, roles.stopped].contains(own)).collect();
        self.wait_for_rows(&live, GROWN)
    }

    /// Random keys: all for the honest, its own for the Byzantine process.
    fn write_keys(&mut self) -> io::Result<()> {
        let keys: Vec<u8> = (0..2 * N).flat_map(|_| self.random.number().to_le_bytes()).collect();
        fs::write(keys_file(self.fleet.folder), &keys)?;
        let Some(Roles { byzantine, .. }) = self.roles else { return Ok(()) };
        fs::write(key_file(self.fleet.folder, byzantine), &keys[usize::from(byzantine) * 16..][..16])
    }

    /// Starts all; the halt is for the one that is restarted.
    fn start_all(&mut self, roles: Roles, halt: Option<Halt>) -> io::Result<()> {
        for own in 0..N {
            if own == roles.byzantine {
                self.fleet.start(own, "byzantine", &[self.random.number().to_string()])?;
            } else {
                self.fleet.start_replica(own, halt.filter(|_| own == roles.restarted))?;
            }
        }
        Ok(())
    }

    /// The next kill: a point of some call, or none for any time.
    fn draw_halt(&mut self, points: &mut Vec<Option<Point>>) -> Option<Halt> {
        let point = points.swap_remove(self.random.index(points.len()))?;
        Some(Halt { call: self.random.between(1, 40), point })
    }

    /// Kills the process where it halts, or at any time, and leaves it down for a while.
    fn kill_restarted(&mut self, own: u16, halt: Option<Halt>) -> Result<(), Failure> {
        match halt {
            Some(Halt { point, .. }) => self.wait_for_halt(own, point)?,
            None => self.pause(250)?,
        }
        self.fleet.kill(own);
        let down = Duration::from_millis(self.random.below(100));
        thread::sleep(down);
        self.kills.push(Kill { point: halt.map(|halt| halt.point), down });
        Ok(())
    }

    /// Waits until the process stands still; the file then has the call only if it was put in place.
    fn wait_for_halt(&mut self, own: u16, point: Point) -> Result<(), Failure> {
        let halted = halted_file(self.fleet.folder, own);
        let what = format!("replica {own} to come to the point {}", point.word());
        self.wait_until(&what, |_| Ok(halted.exists()))?;
        thread::sleep(ARRIVAL); // had it sent something, that would be known by now
        self.check_promises()?;
        let calls: u64 = fs::read_to_string(&halted)?.parse()?;
        fs::remove_file(&halted)?;
        let saved = state::load(self.fleet.folder, own)?.map_or(0, |saved| saved.counts.calls);
        if saved != calls - u64::from(point != Point::Saved) {
            return Err(
                format!("replica {own} has {saved} calls saved at the point {} of {calls}", point.word()).into()
            );
        }
        Ok(())
    }

    /// Waits until these rows have the releases asked for, and have grown.
    fn wait_for_rows(&mut self, live: &[u16], grown: usize) -> Result<(), Failure> {
        let before = self.row_lengths(live)?;
        let releases = self.plan.releases;
        self.wait_until(&format!("rows of {releases}, grown by {grown} from {before:?}"), |run| {
            let now = run.row_lengths(live)?;
            Ok(now.iter().zip(&before).all(|(now, before)| *now >= releases.max(before + grown)))
        })
    }

    fn row_lengths(&self, of: &[u16]) -> io::Result<Vec<usize>> {
        let saved = self.load_honest()?;
        Ok(saved.iter().filter(|(own, _)| of.contains(own)).map(|(_, saved)| saved.row.len()).collect())
    }

    /// What each honest process saved last. One that was killed before its first save has done nothing.
    fn load_honest(&self) -> io::Result<Vec<(u16, Saved)>> {
        let left = |own| state::load(self.fleet.folder, own)?.map_or_else(|| host::opened(own), Ok);
        let is_honest = |own: &u16| self.roles.is_none_or(|roles| roles.byzantine != *own);
        (0..N).filter(is_honest).map(|own| Ok((own, left(own)?))).collect()
    }

    /// Looks through all states for a record signed twice, or known to others before it was saved.
    fn check_promises(&mut self) -> Result<(), Failure> {
        let earlier = self.load_honest()?;
        self.promises.note(&earlier, self.roles.map(|roles| roles.byzantine))?;
        Ok(promises::check_saved(&earlier, &self.load_honest()?)?)
    }

    fn summarise(&self, saved: &[(u16, Saved)], elapsed: Duration) -> Summary {
        let mut counts = Counts::default();
        saved.iter().for_each(|(_, saved)| counts.add(saved.counts.clone()));
        Summary {
            roles: self.roles,
            standings: saved.iter().map(Standing::of).collect(),
            kills: self.kills.clone(),
            counts,
            promises: self.promises.count(),
            elapsed,
            folder: self.fleet.folder.to_path_buf(),
        }
    }

    /// Up to so many milliseconds.
    fn pause(&mut self, most: u64) -> Result<(), Failure> {
        thread::sleep(Duration::from_millis(self.random.below(most)));
        self.fleet.check()
    }

    fn wait_until(&mut self, what: &str, is_so: impl Fn(&Self) -> io::Result<bool>) -> Result<(), Failure> {
        while !is_so(self)? {
            self.fleet.check()?;
            self.check_promises()?;
            if Instant::now() > self.end {
                return Err(format!("no time left, still waiting for {what}; {}", self.standings()?).into());
            }
            thread::sleep(POLL);
        }
        self.check_promises()
    }

    /// Where all stand, for a failure's message.
    fn standings(&self) -> io::Result<String> {
        let standings = self.load_honest()?.iter().map(|left| Standing::of(left).to_string()).collect::<Vec<_>>();
        Ok(standings.join("; "))
    }
}

impl fmt::Display for Summary {
    fn fmt(&self, f: &mut fmt::Formatter<'_>) -> fmt::Result {
        let role = |own: u16| match self.roles {
            Some(roles) if own == roles.stopped => ", stopped",
            Some(roles) if own == roles.restarted => ", killed and restarted",
            _ => "",
        };
        writeln!(f, "one chain after {:.1} s", self.elapsed.as_secs_f64())?;
        if let Some(roles) = self.roles {
            writeln!(f, "replica {}: Byzantine", roles.byzantine)?;
        }
        for standing in &self.standings {
            writeln!(f, "{standing}{}", role(standing.replica))?;
        }
        for kill in &self.kills {
            let point = kill.point.map_or("at any time", Point::word);
            writeln!(f, "killed: {point}, down for {} ms", kill.down.as_millis())?;
        }
        let Counts { calls, sent, refused, no_frame, foreign, unsigned, without_contents, unbacked } = &self.counts;
        writeln!(f, "calls accepted: {calls}, records sent: {sent}, not to be sent: {unbacked}")?;
        writeln!(f, "signed by honest replicas, one of a kind and view, and saved: {}", self.promises)?;
        let numbers = (0..).zip(refused).filter(|(_, count)| **count > 0);
        let numbers: Vec<String> = numbers.map(|(number, count)| format!("{number}: {count}")).collect();
        writeln!(f, "refused by number: {}", numbers.join(", "))?;
        write!(
            f,
            "not handed in: unsigned {unsigned}, from another {foreign}, without contents {without_contents}, no frame {no_frame}"
        )
    }
}
