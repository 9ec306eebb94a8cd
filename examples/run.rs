//! The same as run.c, from Rust.

mod or1k {
    /// Places in a core's state, after its registers.
    pub const PC: usize = 32;
    pub const DELAY: usize = 33;
    pub const SR: usize = 35;
    pub const ESR: usize = 38;
    pub const MODE: usize = 41;
    pub const PICMR: usize = 44;
    pub const STATE_WORDS: usize = 46;

    const SR_RESET: u32 = 0x8001;
    const PICMR_RESET: u32 = 3;
    const RUNNING: u32 = 3;
    const NO_LIMIT: u32 = 0;
    const DEFAULT_VECTORS: [u32; 7] = [0x200, 0x600, 0x700, 0xb00, 0xc00, 0xe00, 0x800];

    // As include/or1k.h declares them.
    extern "C" {
        fn or1k_plain_run(
            memory: *mut u8,
            memory_length: usize,
            states: *mut u32,
            states_length: usize,
            schedule: *const u8,
            schedule_length: usize,
            levels: *const u32,
            levels_length: usize,
            limit: u32,
            vectors: *const u32,
            vectors_length: usize,
        ) -> u64;
        fn or1k_fast_run(
            memory: *mut u8,
            memory_length: usize,
            states: *mut u32,
            states_length: usize,
            schedule: *const u8,
            schedule_length: usize,
            levels: *const u32,
            levels_length: usize,
            limit: u32,
            vectors: *const u32,
            vectors_length: usize,
            cache: *mut u64,
            cache_length: usize,
        ) -> u64;
    }

    pub fn plain_run(memory: &mut [u8], states: &mut [u32], schedule: &[u8], levels: &[u32]) -> u64 {
        // SAFETY: slices are all that the header asks for: initialised, as long as they say, and nobody else's while they are lent.
        unsafe {
            or1k_plain_run(
                memory.as_mut_ptr(),
                memory.len(),
                states.as_mut_ptr(),
                states.len(),
                schedule.as_ptr(),
                schedule.len(),
                levels.as_ptr(),
                levels.len(),
                NO_LIMIT,
                DEFAULT_VECTORS.as_ptr(),
                DEFAULT_VECTORS.len(),
            )
        }
    }

    pub fn fast_run(memory: &mut [u8], states: &mut [u32], schedule: &[u8], levels: &[u32], cache: &mut [u64]) -> u64 {
        // SAFETY: as above.
        unsafe {
            or1k_fast_run(
                memory.as_mut_ptr(),
                memory.len(),
                states.as_mut_ptr(),
                states.len(),
                schedule.as_ptr(),
                schedule.len(),
                levels.as_ptr(),
                levels.len(),
                NO_LIMIT,
                DEFAULT_VECTORS.as_ptr(),
                DEFAULT_VECTORS.len(),
                cache.as_mut_ptr(),
                cache.len(),
            )
        }
    }

    pub fn reset(entry: u32) -> [u32; STATE_WORDS] {
        let mut state = [0; STATE_WORDS];
        state[PC] = entry;
        state[SR] = SR_RESET;
        state[ESR] = SR_RESET;
        state[MODE] = RUNNING;
        state[PICMR] = PICMR_RESET;
        state
    }
}

const PROGRAM: [u32; 4] = [0x9c600005, 0xe0841800, 0x03ffffff, 0x15000000];
const MEMORY_BYTES: usize = 4096;
const STEPS: usize = 6;

fn print(run: &str, answer: u64, state: &[u32]) {
    println!("{run}");
    let refusal = answer >> 60;
    if refusal != 0 {
        println!("refused={refusal}");
        return;
    }
    println!("executed={}", answer & 0xfffff);
    println!("raised={}", answer >> 20 & 0xfffff);
    println!("reused={}", answer >> 40 & 0xfffff);
    let [mode, pc, delay, sr] = [or1k::MODE, or1k::PC, or1k::DELAY, or1k::SR].map(|place| state[place]);
    println!("core=0 mode={mode} pc={pc:08x} delay={delay} sr={sr:08x}");
    for (i, value) in state[..or1k::PC].iter().enumerate() {
        if *value != 0 {
            println!("r{i}={value:08x}");
        }
    }
}

fn main() {
    let mut start = PROGRAM.map(u32::to_be_bytes).concat();
    start.resize(MEMORY_BYTES, 0);
    let mut schedule = [0; STEPS];
    let levels = [0; STEPS]; // all interrupt lines low

    let (mut memory, mut state) = (start.clone(), or1k::reset(0));
    print("plain run", or1k::plain_run(&mut memory, &mut state, &schedule, &levels), &state);

    let (mut memory, mut state) = (start, or1k::reset(0));
    let mut cache = vec![0; MEMORY_BYTES / 4];
    print("fast run", or1k::fast_run(&mut memory, &mut state, &schedule, &levels, &mut cache), &state);
    print("fast run again, from there", or1k::fast_run(&mut memory, &mut state, &schedule, &levels, &mut cache), &state);
    schedule[STEPS - 1] = 1;
    print("fast run of core 1", or1k::fast_run(&mut memory, &mut state, &schedule, &levels, &mut cache), &state);
}
