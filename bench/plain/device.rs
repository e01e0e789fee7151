//! Kinds of device: the bid of a state, and what a tick makes of a state.

/// A kind of device with its parameters. A pump is a heat pump, a unit a cogeneration unit.
pub enum Kind {
    Freezer {
        low: i64,
        high: i64,
        power: i64,
        warm: i64,
        cool: i64,
    },
    Pump {
        low: i64,
        high: i64,
        power: i64,
        loss: i64,
        gain: i64,
    },
    Unit {
        low: i64,
        high: i64,
        power: i64,
        loss: i64,
        gain: i64,
    },
    Battery {
        capacity: i64,
        charge: i64,
        discharge: i64,
        spread: i64,
    },
    Solar,
    Load,
    Objective,
    /// The state is the number of an array.
    Manual,
}

const TEMPERATURE: i64 = 1_000_000;
const CHANGE: i64 = 1_000_000;
pub const POWER: i64 = 1_000_000_000;
const SPREAD: i64 = 1000;

impl Kind {
    /// Whether the parameters are within their limits.
    pub fn is_valid(&self) -> bool {
        match *self {
            Kind::Freezer {
                low,
                high,
                power,
                warm: a,
                cool: b,
            }
            | Kind::Pump {
                low,
                high,
                power,
                loss: a,
                gain: b,
            }
            | Kind::Unit {
                low,
                high,
                power,
                loss: a,
                gain: b,
            } => {
                let band = -TEMPERATURE <= low && low < high && high <= TEMPERATURE;
                band && (0..=POWER).contains(&power)
                    && (0..=CHANGE).contains(&a)
                    && (0..=CHANGE).contains(&b)
            }
            Kind::Battery {
                capacity,
                charge,
                discharge,
                spread,
            } => {
                let powers = (0..=POWER).contains(&charge) && (0..=POWER).contains(&discharge);
                (1..=POWER).contains(&capacity) && powers && (0..=SPREAD).contains(&spread)
            }
            Kind::Solar | Kind::Load | Kind::Objective | Kind::Manual => true,
        }
    }

    /// Whether a device of the kind may have the state.
    pub fn fits(&self, state: i64) -> bool {
        match *self {
            Kind::Freezer { .. } | Kind::Pump { .. } | Kind::Unit { .. } => {
                (-TEMPERATURE..=TEMPERATURE).contains(&state)
            }
            Kind::Battery { capacity, .. } => (0..=capacity).contains(&state),
            Kind::Solar | Kind::Load => (0..=POWER).contains(&state),
            Kind::Objective => (-POWER..=POWER).contains(&state),
            Kind::Manual => true,
        }
    }

    /// Whether a tick changes devices of the kind.
    pub fn ticks(&self) -> bool {
        matches!(
            self,
            Kind::Freezer { .. } | Kind::Pump { .. } | Kind::Unit { .. } | Kind::Battery { .. }
        )
    }

    /// The state after a tick, by the power at the end of the phase before.
    pub fn after_tick(&self, state: i64, power: i64, minutes: i64) -> i64 {
        let next = match *self {
            Kind::Freezer { warm, cool, .. } => state + warm - if power > 0 { cool } else { 0 },
            Kind::Pump { loss, gain, .. } => state - loss + if power > 0 { gain } else { 0 },
            Kind::Unit { loss, gain, .. } => state - loss + if power < 0 { gain } else { 0 },
            Kind::Battery { capacity, .. } => {
                return (state + (power * minutes).div_euclid(60)).clamp(0, capacity)
            }
            Kind::Solar | Kind::Load | Kind::Objective | Kind::Manual => return state,
        };
        next.clamp(-TEMPERATURE, TEMPERATURE)
    }

    /// Writes the bid of a state: the demand at each step.
    pub fn fill_bid(&self, state: i64, arrays: &[Vec<i64>], bid: &mut [i64]) {
        let last = bid.len() as i64 - 1;
        match *self {
            Kind::Freezer {
                low, high, power, ..
            } => {
                if state >= high {
                    bid.fill(power);
                } else if state <= low {
                    bid.fill(0);
                } else {
                    fill_levels(
                        bid,
                        [power, 0, 0],
                        (state - low) * last / (high - low) + 1,
                        last + 1,
                    );
                }
            }
            Kind::Pump {
                low, high, power, ..
            } => {
                if state <= low {
                    bid.fill(power);
                } else if state >= high {
                    bid.fill(0);
                } else {
                    fill_levels(
                        bid,
                        [power, 0, 0],
                        (high - state) * last / (high - low) + 1,
                        last + 1,
                    );
                }
            }
            Kind::Unit {
                low, high, power, ..
            } => {
                if state <= low {
                    bid.fill(-power);
                } else if state >= high {
                    bid.fill(0);
                } else {
                    let begin = -(-(state - low) * last).div_euclid(high - low);
                    fill_levels(bid, [0, -power, 0], begin, last + 1);
                }
            }
            Kind::Battery {
                capacity,
                charge,
                discharge,
                spread,
            } => {
                let middle = (capacity - state) * last / capacity;
                fill_levels(
                    bid,
                    [charge, 0, -discharge],
                    middle - spread,
                    middle + spread + 1,
                );
            }
            Kind::Solar | Kind::Objective => bid.fill(-state),
            Kind::Load => bid.fill(state),
            Kind::Manual => bid.copy_from_slice(&arrays[state as usize]),
        }
    }
}

/// Writes three levels: one at the steps before the first end, the next before the second, the last from there on.
fn fill_levels(bid: &mut [i64], levels: [i64; 3], first_end: i64, second_end: i64) {
    let steps = bid.len() as i64;
    let (first, second) = (
        first_end.clamp(0, steps) as usize,
        second_end.clamp(0, steps) as usize,
    );
    bid[..first].fill(levels[0]);
    bid[first..second].fill(levels[1]);
    bid[second..].fill(levels[2]);
}
