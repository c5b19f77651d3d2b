//! Policies: who is to carry a packet on.

const MOST_WAIT: u64 = 100;
const FULL_PROGRESS: u64 = 10_000;

/// What a policy is asked with: distances to the target, in decimetres.
#[derive(Clone, Debug, PartialEq, Eq)]
pub struct Distances {
    pub ours: u64,
    /// `None` if the sender is unknown.
    pub sender: Option<u64>,
    /// In the order of the location table.
    pub neighbours: Vec<u64>,
}

#[derive(Clone, Copy, Debug, PartialEq, Eq)]
pub enum Answer {
    /// The neighbour with this index gets the packet.
    Neighbour(usize),
    /// The packet waits this many milliseconds.
    Wait(u64),
    NoProgress,
    None,
}

#[derive(Clone, Copy, Debug, PartialEq, Eq)]
pub enum Policy {
    Greedy,
    Contention,
}

impl Policy {
    pub const BOTH: [Policy; 2] = [Policy::Greedy, Policy::Contention];

    pub fn name(self) -> &'static str {
        match self {
            Policy::Greedy => "greedy",
            Policy::Contention => "contention",
        }
    }

    pub fn answer(self, distances: &Distances) -> Answer {
        match self {
            Policy::Greedy => greedy(distances),
            Policy::Contention => contention(distances),
        }
    }
}

/// The nearest neighbour, the first of equals, if it is nearer than we are.
fn greedy(distances: &Distances) -> Answer {
    let mut best = distances.ours;
    let mut answer = Answer::None;
    for (index, &distance) in distances.neighbours.iter().enumerate() {
        if distance < best {
            best = distance;
            answer = Answer::Neighbour(index);
        }
    }
    answer
}

/// A wait that is shorter the farther the packet has come with the last hop.
fn contention(distances: &Distances) -> Answer {
    let Some(sender) = distances.sender else {
        return Answer::Wait(MOST_WAIT);
    };
    if sender <= distances.ours {
        return Answer::NoProgress;
    }
    let progress = (sender - distances.ours).min(FULL_PROGRESS);
    Answer::Wait(MOST_WAIT - (MOST_WAIT - 1) * progress / FULL_PROGRESS)
}

#[cfg(test)]
mod tests {
    use super::{Answer, Distances, Policy};

    fn distances(ours: u64, sender: Option<u64>, neighbours: &[u64]) -> Distances {
        Distances {
            ours,
            sender,
            neighbours: neighbours.to_vec(),
        }
    }

    #[test]
    fn greedy_takes_the_first_of_the_nearest() {
        let cases: [(&[u64], Answer); 7] = [
            (&[], Answer::None),
            (&[10], Answer::None),
            (&[11, 10, 12], Answer::None),
            (&[9], Answer::Neighbour(0)),
            (&[9, 8, 8, 9], Answer::Neighbour(1)),
            (&[0, 0, 0], Answer::Neighbour(0)),
            (&[12, 9, 3], Answer::Neighbour(2)),
        ];
        for (neighbours, answer) in cases {
            for sender in [None, Some(0), Some(99)] {
                let distances = distances(10, sender, neighbours);
                assert_eq!(Policy::Greedy.answer(&distances), answer, "{neighbours:?}");
            }
        }
    }

    #[test]
    fn contention_waits_by_progress() {
        let cases = [
            (1, 100),
            (101, 100),
            (102, 99),
            (9_999, 2),
            (10_000, 1),
            (10_001, 1),
            (900_000_000, 1),
        ];
        for (progress, wait) in cases {
            let distances = distances(7, Some(7 + progress), &[0]);
            assert_eq!(Policy::Contention.answer(&distances), Answer::Wait(wait));
        }
        for (sender, answer) in [
            (None, Answer::Wait(100)),
            (Some(7), Answer::NoProgress),
            (Some(6), Answer::NoProgress),
            (Some(0), Answer::NoProgress),
        ] {
            assert_eq!(
                Policy::Contention.answer(&distances(7, sender, &[])),
                answer
            );
        }
    }
}
