//! Two writers and two readers on one channel: every merge of the writers' steps, with the readers opening at every point of it.
//! It prints what `test_interleaved` prints, whose first lines say how to read the others.

use crate::kernel::{Answer, ChannelNo, Kernel, Memory, TaskNo, MEMORY_SIZE};
use std::io::{self, Write};

const CHANNEL: ChannelNo = ChannelNo(0);
const FIRST: &[u8; 9] = b"the first";
const WORDS: [&[u8; 9]; 2] = [b"A's words", b"B's words"];
const WRITERS: [u64; 2] = [1, 2];
const READERS: [u64; 2] = [3, 4];

/// Three of each writer.
const STEPS: usize = 6;
/// Before each step, and behind the last.
const POINTS: usize = STEPS + 1;

const TITLES: &str = "\
-- A and B each begin, write and put a message. Before each step and behind the last, two readers are shown what they hold.
-- A line: whose steps come, the point where reader 1 opens, and for each point where reader 2 opens, what both are shown:
-- 0 is the message before, A and B are theirs, - is nothing, and ! would be a message that is not whole.";

pub fn run(mut output: impl Write) -> io::Result<()> {
    writeln!(output, "{TITLES}")?;
    writeln!(output, "-- three buffers")?;
    merges(3, 0, &mut output)?;
    writeln!(
        output,
        "-- two buffers, and in front what became of the steps: x was refused"
    )?;
    merges(2, STEPS, &mut output)?;
    output.flush()
}

/// Every merge, of which bit i says that step i is A's, with reader 1 opening at that point and at each later one.
fn merges(buffers: usize, first: usize, output: &mut impl Write) -> io::Result<()> {
    for merge in (0u32..1 << STEPS).filter(|merge| merge.count_ones() == 3) {
        let names: String = (0..STEPS)
            .map(|i| if merge >> i & 1 == 1 { 'A' } else { 'B' })
            .collect();
        for opens1 in first..POINTS {
            write!(output, "{names} {opens1}")?;
            for opens2 in 0..POINTS {
                let (done, shown) = Scene::new(buffers).play(merge, [opens1, opens2]);
                write!(output, " |")?;
                if buffers < 3 {
                    write!(output, " {done} ")?;
                }
                write!(output, " {} {}", shown[0], shown[1])?;
            }
            writeln!(output)?;
        }
    }
    Ok(())
}

struct Scene {
    kernel: Kernel,
    memory: Memory,
}

impl Scene {
    /// The first message is put, and the writers and readers are asleep.
    fn new(buffers: usize) -> Scene {
        let mut kernel = Kernel::fresh();
        let mut memory = [0; MEMORY_SIZE];
        let start = |kernel: &mut Kernel, memory: &mut Memory| -> Answer {
            for priority in [4, 3, 2, 1] {
                kernel.create_nrt(priority)?;
            }
            kernel.open_channel(FIRST.len(), buffers)?;
            kernel.begin_write(CHANNEL, memory)?;
            kernel.piece(CHANNEL, 0, FIRST, memory)?;
            kernel.put(CHANNEL)
        };
        start(&mut kernel, &mut memory).expect("there is room for all");
        Scene { kernel, memory }
    }

    /// What became of each step, and what each reader is shown at each point.
    fn play(mut self, merge: u32, opens: [usize; 2]) -> (String, [String; 2]) {
        let mut done = String::new();
        let mut shown = [String::new(), String::new()];
        let mut steps = [0; 2];
        for point in 0..POINTS {
            for reader in 0..2 {
                if point == opens[reader] {
                    self.opens(READERS[reader]);
                }
                shown[reader].push(self.looks(READERS[reader]));
            }
            if point < STEPS {
                let writer = if merge >> point & 1 == 1 { 0 } else { 1 };
                done.push(self.writes(writer, steps[writer]));
                steps[writer] += 1;
            }
        }
        (done, shown)
    }

    /// Main activates a task, which makes its call and sleeps, so that main runs again. Its session stays open.
    fn turn<T>(&mut self, task: u64, call: impl FnOnce(&mut Scene) -> T) -> T {
        self.kernel.activate(TaskNo(task)).expect("it sleeps");
        let given = call(self);
        self.kernel.sleep().expect("it is not main");
        given
    }

    /// A writer's step: . where it took effect, x where it was refused.
    fn writes(&mut self, writer: usize, step: usize) -> char {
        let answer = self.turn(WRITERS[writer], |scene| match step {
            0 => scene.kernel.begin_write(CHANNEL, &mut scene.memory),
            1 => scene
                .kernel
                .piece(CHANNEL, 0, WORDS[writer], &mut scene.memory),
            _ => scene.kernel.put(CHANNEL),
        });
        if answer.is_ok() {
            '.'
        } else {
            'x'
        }
    }

    /// A reading that begins after the first put is refused only where the reader has one.
    fn opens(&mut self, reader: u64) {
        self.turn(reader, |scene| scene.kernel.begin_reading(CHANNEL))
            .expect("a message was put");
    }

    /// What a reader is shown: 0, A or B; - is a refusal, with nothing shown; anything else is !.
    fn looks(&mut self, reader: u64) -> char {
        self.turn(reader, |scene| {
            let (shown, answer) = scene.kernel.showing(CHANNEL, &scene.memory);
            match answer {
                Err(_) if shown.is_empty() => '-',
                Ok(_) if shown == FIRST => '0',
                Ok(_) if shown == WORDS[0] => 'A',
                Ok(_) if shown == WORDS[1] => 'B',
                _ => '!',
            }
        })
    }
}
