//! Two programs that fit the console's rows and make a search for the fewest fences work; harder ones may exist.

pub struct Hard {
    pub name: &'static str,
    pub listing: String,
    /// What the console prints, whole.
    pub answer: &'static str,
    pub reason: &'static str,
}

pub fn hard() -> Vec<Hard> {
    vec![
        Hard {
            name: "R and forwarded SB",
            listing: R_AND_FORWARDED.to_string(),
            answer: "fences 3\nbefore 0 3\nbefore 1 1\nbefore 1 3\n",
            reason: "R needs one between e and d, and forwarded SB one in each thread, after a and after f",
        },
        Hard {
            name: "four rounds of SB",
            listing: rounds(4),
            answer: "fences 8\nbefore 0 1\nbefore 0 5\nbefore 0 9\nbefore 0 13\n\
                     before 1 1\nbefore 1 5\nbefore 1 9\nbefore 1 13\n",
            reason: "each round needs both fences of SB",
        },
    ]
}

/// Each fence has several places to stand at, so that many sets look promising.
const R_AND_FORWARDED: &str = "bound 2
thread
store d 1
store e 1
store a 1
load r3 a
load r0 f
thread
store e 2
load r2 d
store f 1
load r3 f
load r0 a
fault at 0 5 at 1 5 mem e 2 reg 1 r2 0
fault at 0 5 at 1 5 reg 0 r3 1 reg 0 r0 0 reg 1 r3 1 reg 1 r0 0
";

/// Store buffering again and again, each round over its own two variables; between rounds the threads wait for each
/// other, so that few standings need many fences.
fn rounds(count: usize) -> String {
    let mut threads = [Vec::new(), Vec::new()];
    let mut faults = String::new();
    let mut variables = 'a'..='h';
    for round in 0..count {
        let own = [(); 2].map(|()| variables.next().expect("two variables for each round"));
        let judged = threads[0].len() + 2;
        for (thread, instructions) in threads.iter_mut().enumerate() {
            let other = own[1 - thread];
            instructions.extend([format!("store {} 1\n", own[thread]), format!("load r0 {other}\n")]);
            if round + 1 < count {
                instructions.extend([format!("load r0 {other}\n"), format!("jeq r0 0 {judged}\n")]);
            }
        }
        faults += &format!("fault at 0 {judged} at 1 {judged} reg 0 r0 0 reg 1 r0 0\n");
    }
    format!("bound 1\nthread\n{}thread\n{}{faults}", threads[0].concat(), threads[1].concat())
}
