//! Calls played on both sides: rounds, medians and means.

use std::hint::black_box;
use std::time::Instant;

use streams::{Call, Kind, Opening};

use crate::sides::{Library, Oracle, Side};

/// What is counted of a call.
#[derive(Clone, Copy, Debug, PartialEq, Eq)]
pub enum Mark {
    /// Made, but not timed.
    Untimed,
    Accepted(Kind),
    Refused(Kind),
}

impl Mark {
    pub fn of(call: &Call, accepted: bool) -> Mark {
        match accepted {
            true => Mark::Accepted(Kind::of(call)),
            false => Mark::Refused(Kind::of(call)),
        }
    }
}

/// An opened replica and the calls that it gets.
pub struct Script {
    pub opening: Opening,
    pub calls: Vec<(Call, Mark)>,
}

/// Of the timed calls each one's nanoseconds, library then oracle: the median over the rounds.
pub struct Times {
    marks: Vec<Mark>,
    sides: [Vec<f64>; 2],
}

impl Times {
    /// The times of each case, each script played on one side and at once on the other.
    pub fn measure(cases: &[Vec<Script>], rounds: usize) -> Vec<Times> {
        let opening = cases[0][0].opening;
        let mut sides: [Box<dyn Side>; 2] = [Box::new(Library::new(opening)), Box::new(Oracle::new(opening))];
        let times = medians_of(cases, rounds, |case| time_case(&mut sides, case));
        cases.iter().zip(times).map(|(case, sides)| Times { marks: timed_marks(case), sides }).collect()
    }

    /// The mean over the calls that are asked for; none where there are none.
    pub fn mean(&self, asked: impl Fn(Mark) -> bool) -> Option<[f64; 2]> {
        let count = self.marks.iter().filter(|mark| asked(**mark)).count();
        let sum = |times: &Vec<f64>| -> f64 {
            times.iter().zip(&self.marks).filter(|(_, mark)| asked(**mark)).map(|(time, _)| time).sum()
        };
        (count > 0).then(|| self.sides.each_ref().map(|times| sum(times) / count as f64))
    }

    pub fn count(&self, asked: impl Fn(Mark) -> bool) -> usize {
        self.marks.iter().filter(|mark| asked(**mark)).count()
    }
}

/// The marks of the calls that are timed.
fn timed_marks(case: &[Script]) -> Vec<Mark> {
    let marks = case.iter().flat_map(|script| &script.calls).map(|(_, mark)| *mark);
    marks.filter(|mark| *mark != Mark::Untimed).collect()
}

/// Of each case the nanoseconds of its calls, one side and the other: each call's median over the rounds, less what measuring
/// takes by itself. A round plays all cases, so that a slow while of the machine slows all; the first round warms up and
/// isn't counted.
pub fn medians_of<C>(cases: &[C], rounds: usize, mut time: impl FnMut(&C) -> [Vec<u32>; 2]) -> Vec<[Vec<f64>; 2]> {
    let mut times: Vec<[Vec<Vec<u32>>; 2]> = cases.iter().map(|_| Default::default()).collect();
    let mut nothing = Vec::new();
    for round in 0..=rounds {
        nothing.push(time_nothing());
        for (case, times) in cases.iter().zip(&mut times) {
            let [one, other] = time(case);
            if round > 0 {
                times[0].push(one);
                times[1].push(other);
            }
        }
    }
    let clock = medians(&nothing).sum::<f64>() / nothing[0].len() as f64;
    let less_clock = |rounds: Vec<Vec<u32>>| medians(&rounds).map(|time| (time - clock).max(0.0)).collect();
    times.into_iter().map(|sides| sides.map(less_clock)).collect()
}

/// Of each place its median over the rounds: a round in which something else ran meanwhile doesn't count.
fn medians(rounds: &[Vec<u32>]) -> impl Iterator<Item = f64> + '_ {
    (0..rounds[0].len()).map(|place| {
        let mut times: Vec<u32> = rounds.iter().map(|round| round[place]).collect();
        times.sort_unstable();
        times[times.len() / 2].into()
    })
}

/// Of each case the mean over its inputs of a call that keeps no state, by the library and then by the other. A call says whether its answer
/// is the right one. It is made twice and the second is timed: else the side that comes first would fetch the input into
/// the cache for the other.
pub fn measure_calls<T>(cases: &[Vec<T>], calls: [fn(&T) -> bool; 2], rounds: usize) -> Vec<[f64; 2]> {
    let mean = |times: Vec<f64>| times.iter().sum::<f64>() / times.len() as f64;
    let times = medians_of(cases, rounds, |inputs| calls.map(|call| time_inputs(inputs, call)));
    times.into_iter().map(|sides| sides.map(mean)).collect()
}

fn time_inputs<T>(inputs: &[T], call: fn(&T) -> bool) -> Vec<u32> {
    let time = |input| {
        assert!(call(input));
        let start = Instant::now();
        black_box(call(input));
        start.elapsed().as_nanos() as u32
    };
    inputs.iter().map(time).collect()
}

fn time_case(sides: &mut [Box<dyn Side>; 2], scripts: &[Script]) -> [Vec<u32>; 2] {
    let mut times: [Vec<u32>; 2] = Default::default();
    for script in scripts {
        for (side, times) in sides.iter_mut().zip(&mut times) {
            time_calls(&mut **side, script, times);
        }
    }
    times
}

/// Each call timed by itself.
fn time_calls(side: &mut dyn Side, script: &Script, times: &mut Vec<u32>) {
    side.open(script.opening);
    for (call, mark) in &script.calls {
        let start = Instant::now();
        black_box(side.make(call));
        let time = start.elapsed().as_nanos() as u32;
        if *mark != Mark::Untimed {
            times.push(time);
        }
    }
}

/// What measuring takes by itself: it is timed in every round, like the calls.
fn time_nothing() -> Vec<u32> {
    (0..1000).map(|_| black_box(Instant::now()).elapsed().as_nanos() as u32).collect()
}
