//! Which blocks of the archive's code the inputs enter. The compiler counts each block's entries in a table of bytes and has another of the blocks' places, and
//! hands both over before `main` (clang's SanitizerCoverage); what it says of comparisons is of no use here.
use guided::check::Checker;
use judge::document::program_answers;
use judge::library::nd_answer;
use judge::met::Met;
use judge::rules::DOCUMENT;
use std::collections::BTreeMap;
use std::fs;
use std::io;
use std::process::Command;
use std::slice;
use std::sync::atomic::{AtomicU8, AtomicUsize, Ordering::Relaxed};

static COUNTERS: [AtomicUsize; 2] = [AtomicUsize::new(0), AtomicUsize::new(0)];
static PLACES: [AtomicUsize; 2] = [AtomicUsize::new(0), AtomicUsize::new(0)];

fn keep(table: &[AtomicUsize; 2], from: usize, until: usize) {
    table[0].store(from, Relaxed);
    table[1].store(until, Relaxed);
}

/// The table that was handed over.
fn held<T>(table: &[AtomicUsize; 2]) -> &'static [T] {
    let [from, until] = [table[0].load(Relaxed), table[1].load(Relaxed)];
    assert!(from < until, "the archive counts no blocks: oracle/guided makes one that does");
    // SAFETY: the linker's own bounds of a table that stands as long as the program.
    unsafe { slice::from_raw_parts(from as *const T, (until - from) / size_of::<T>()) }
}

#[no_mangle]
extern "C" fn __sanitizer_cov_8bit_counters_init(from: usize, until: usize) {
    keep(&COUNTERS, from, until);
}

#[no_mangle]
extern "C" fn __sanitizer_cov_pcs_init(from: usize, until: usize) {
    keep(&PLACES, from, until);
}

macro_rules! unheard {
    ($($name:ident)*) => { $(#[no_mangle] extern "C" fn $name(_one: u64, _other: u64) {})* };
}
unheard! {
    __sanitizer_cov_trace_cmp1 __sanitizer_cov_trace_cmp2 __sanitizer_cov_trace_cmp4 __sanitizer_cov_trace_cmp8 __sanitizer_cov_trace_const_cmp1
    __sanitizer_cov_trace_const_cmp2 __sanitizer_cov_trace_const_cmp4 __sanitizer_cov_trace_const_cmp8 __sanitizer_cov_trace_switch
}

/// A function, and how far behind its first block those stand that were not entered.
struct Function {
    name: String,
    place: usize,
    blocks: usize,
    missed: Vec<usize>,
}

/// The functions' names by their places, as `nm` tells them of this program.
fn names() -> io::Result<BTreeMap<usize, String>> {
    let listed = Command::new("nm").arg(std::env::current_exe()?).output()?.stdout;
    let mut names = BTreeMap::new();
    for line in String::from_utf8_lossy(&listed).lines() {
        let words: Vec<&str> = line.split_whitespace().collect();
        if let [place, "t" | "T", name] = words[..] {
            names.insert(usize::from_str_radix(place, 16).unwrap_or(0), name.to_string());
        }
    }
    let own = names.iter().find(|(_, name)| *name == "nd_answer").map_or(0, |(&place, _)| place);
    let loaded = (nd_answer as *const () as usize).wrapping_sub(own);
    Ok(names.into_iter().map(|(place, name)| (place.wrapping_add(loaded), name)).collect())
}

/// Notes the blocks that the last input entered. A counter is a byte and comes round to 0, so it is asked after each input and begins anew.
fn note(entered: &mut [bool]) {
    entered.iter_mut().zip(held::<AtomicU8>(&COUNTERS)).for_each(|(entered, counter)| *entered |= counter.swap(0, Relaxed) != 0);
}

fn functions(entered: &[bool]) -> io::Result<Vec<Function>> {
    let names = names()?;
    let mut functions: Vec<Function> = vec![];
    for ([place, is_first], entered) in held::<[usize; 2]>(&PLACES).iter().zip(entered) {
        if is_first & 1 == 1 {
            let name = names.get(place).cloned().unwrap_or_else(|| format!("{place:x}"));
            functions.push(Function { name, place: *place, blocks: 0, missed: vec![] });
        }
        let function = functions.last_mut().expect("a function's first block comes first");
        function.blocks += 1;
        if !entered {
            function.missed.push(place.wrapping_sub(function.place));
        }
    }
    Ok(functions)
}

/// How often each number answers a job or a haplotype; 0 is an answer.
fn told(numbers: &BTreeMap<u32, u64>) -> String {
    numbers.iter().map(|(number, count)| format!(" {number}:{count}")).collect()
}

pub fn report(mut checker: Checker, folders: &[&str]) -> io::Result<()> {
    let (mut inputs, mut numbers) = (0, BTreeMap::new());
    let mut entered = vec![false; held::<AtomicU8>(&COUNTERS).len()];
    for folder in folders {
        for file in fs::read_dir(folder)? {
            let job = fs::read(file?.path())?;
            checker.check(&job).expect("no difference");
            note(&mut entered);
            inputs += 1;
            program_answers(&DOCUMENT, &job, &mut Met::default()).iter().for_each(|answer| *numbers.entry(answer.refusal).or_insert(0) += 1);
        }
    }
    let functions = functions(&entered)?;
    let sum = |one: fn(&Function) -> usize| functions.iter().map(one).sum::<usize>();
    let (missed, blocks) = (sum(|f| f.missed.len()), sum(|f| f.blocks));
    let begun = functions.iter().filter(|f| f.missed.len() < f.blocks).count();
    println!("{inputs} inputs enter {} of {blocks} blocks, {begun} of {} functions", blocks - missed, functions.len());
    println!("answers by refusal (0: answered):{}", told(&numbers));
    for f in functions.iter().filter(|f| !f.missed.is_empty()) {
        let places: String = f.missed.iter().map(|place| format!(" +{place:x}")).collect();
        println!("  {}: {} of {} blocks not entered, at{places}", f.name, f.missed.len(), f.blocks);
    }
    Ok(())
}
