//! The sheet: its bytes, its numbers, and the refusals 1 to 9 that stand between the two.

/// The only version there is.
pub const VERSION: u8 = 1;
/// Bytes before the first following set.
pub const HEAD: usize = 23;
/// Bytes of the largest sheet: 64 states and 32 commands.
pub const LARGEST: usize = 16_407;
/// Most states a sheet may have.
pub const MOST_STATES: u64 = 64;
/// Most commands a sheet may have.
pub const MOST_COMMANDS: u64 = 32;

/// Bytes of the version and of the length field together.
const FRAME: usize = 5;
/// What the length field counts when there are no following sets.
const HEAD_AFTER_FRAME: u64 = 18;

/// Why something was turned down: the number of the refusal and the place it points at.
#[derive(Clone, Copy, Debug, PartialEq, Eq)]
pub struct Refusal {
    pub number: u8,
    pub place: u64,
}

impl Refusal {
    /// A refusal with this number and place.
    pub fn new(number: u8, place: u64) -> Refusal {
        Refusal { number, place }
    }
}

/// A sheet as numbers. `following` holds all states of command 0, then of command 1, and so on.
#[derive(Clone, Debug, PartialEq, Eq)]
pub struct Sheet {
    pub states: u64,
    pub commands: u64,
    pub initial: u64,
    pub goal: u64,
    pub following: Vec<u64>,
}

impl Sheet {
    /// Builds a sheet whose following sets are given by a rule over command and state.
    pub fn from_rule(
        (states, commands): (u64, u64),
        initial: u64,
        goal: u64,
        rule: impl Fn(u64, u64) -> u64,
    ) -> Sheet {
        let mut following = Vec::new();
        for command in 0..commands {
            for state in 0..states {
                following.push(rule(command, state));
            }
        }
        Sheet {
            states,
            commands,
            initial,
            goal,
            following,
        }
    }

    /// The states that may follow `state` under `command`. Both must exist.
    pub fn set(&self, command: u64, state: u64) -> u64 {
        self.following[(command * self.states + state) as usize]
    }

    /// The image of a set, or nothing if some state of it cannot take the command.
    pub fn image(&self, command: u64, set: u64) -> Option<u64> {
        let mut union = 0;
        let mut left = set;
        while left != 0 {
            let next = self.set(command, u64::from(left.trailing_zeros()));
            if next == 0 {
                return None;
            }
            union |= next;
            left &= left - 1;
        }
        Some(union)
    }

    /// Whether every state of the set is wanted.
    pub fn inside_goal(&self, set: u64) -> bool {
        set & !self.goal == 0
    }

    /// The sheet's bytes, or the refusal that the writer gives.
    pub fn to_bytes(&self) -> Result<Vec<u8>, Refusal> {
        let mut bytes = vec![0; HEAD + 8 * self.following.len()];
        write(
            self.states,
            self.commands,
            self.initial,
            self.goal,
            &self.following,
            &mut bytes,
        )?;
        Ok(bytes)
    }
}

/// Reads a sheet from exactly these bytes, or gives the first of the refusals 1 to 8.
pub fn read(bytes: &[u8]) -> Result<Sheet, Refusal> {
    let stated = check_frame(bytes)?;
    let states = u64::from(bytes[5]);
    let commands = u64::from(bytes[6]);
    check_counts(states, commands)?;
    if stated != HEAD_AFTER_FRAME + 8 * commands * states {
        return Err(Refusal::new(5, 1));
    }
    let initial = number_at(bytes, 7);
    let goal = number_at(bytes, 15);
    let mut following = Vec::new();
    for offset in (HEAD..bytes.len()).step_by(8) {
        following.push(number_at(bytes, offset));
    }
    check_sets(states, initial, goal, &following)?;
    Ok(Sheet {
        states,
        commands,
        initial,
        goal,
        following,
    })
}

/// Writes a sheet to the start of `output` and tells how many bytes it took, or gives the first of
/// the refusals 4 to 9 and leaves `output` as it was.
pub fn write(
    states: u64,
    commands: u64,
    initial: u64,
    goal: u64,
    following: &[u64],
    output: &mut [u8],
) -> Result<usize, Refusal> {
    check_counts(states, commands)?;
    if following.len() as u64 != commands * states {
        return Err(Refusal::new(5, 1));
    }
    check_sets(states, initial, goal, following)?;
    let needed = HEAD + 8 * following.len();
    if output.len() < needed {
        return Err(Refusal::new(9, needed as u64));
    }
    output[0] = VERSION;
    output[1..5].copy_from_slice(&((needed - FRAME) as u32).to_be_bytes());
    output[5] = states as u8;
    output[6] = commands as u8;
    output[7..15].copy_from_slice(&initial.to_be_bytes());
    output[15..23].copy_from_slice(&goal.to_be_bytes());
    for (index, set) in following.iter().enumerate() {
        let offset = HEAD + 8 * index;
        output[offset..offset + 8].copy_from_slice(&set.to_be_bytes());
    }
    Ok(needed)
}

/// The reading view: the eight bytes of one following set, as a part of the sheet. The part is
/// empty if the command or the state is missing; a refused sheet has neither.
pub fn following(sheet: &[u8], command: u64, state: u64) -> &[u8] {
    let Ok(numbers) = read(sheet) else {
        return &sheet[..0];
    };
    if command >= numbers.commands || state >= numbers.states {
        return &sheet[..0];
    }
    let offset = HEAD + 8 * (command * numbers.states + state) as usize;
    &sheet[offset..offset + 8]
}

/// Refusals 1 to 3; gives the stated length.
fn check_frame(bytes: &[u8]) -> Result<u64, Refusal> {
    if bytes.len() < FRAME {
        return Err(Refusal::new(1, bytes.len() as u64));
    }
    if bytes[0] != VERSION {
        return Err(Refusal::new(2, 0));
    }
    let stated = u64::from(u32::from_be_bytes([bytes[1], bytes[2], bytes[3], bytes[4]]));
    let after = (bytes.len() - FRAME) as u64;
    if stated != after || stated < HEAD_AFTER_FRAME {
        return Err(Refusal::new(3, 1));
    }
    Ok(stated)
}

/// Refusal 4.
fn check_counts(states: u64, commands: u64) -> Result<(), Refusal> {
    if !(1..=MOST_STATES).contains(&states) {
        return Err(Refusal::new(4, 5));
    }
    if !(1..=MOST_COMMANDS).contains(&commands) {
        return Err(Refusal::new(4, 6));
    }
    Ok(())
}

/// Refusals 6 to 8.
fn check_sets(states: u64, initial: u64, goal: u64, following: &[u64]) -> Result<(), Refusal> {
    if initial == 0 || names_missing(states, initial) {
        return Err(Refusal::new(6, 7));
    }
    if names_missing(states, goal) {
        return Err(Refusal::new(7, 15));
    }
    for (index, set) in following.iter().enumerate() {
        if names_missing(states, *set) {
            return Err(Refusal::new(8, (HEAD + 8 * index) as u64));
        }
    }
    Ok(())
}

/// Whether the set has a bit at or above the state count.
fn names_missing(states: u64, set: u64) -> bool {
    states < 64 && set >> states != 0
}

/// The big-endian number in the eight bytes at this offset.
fn number_at(bytes: &[u8], offset: usize) -> u64 {
    bytes[offset..offset + 8]
        .iter()
        .fold(0, |number, byte| number << 8 | u64::from(*byte))
}
