//! The blocks of the archive's code in the harness: where a function starts, where a jump leads, and what follows a conditional one.
use std::collections::{BTreeMap, BTreeSet};

/// The functions that the calls enter.
const ENTRIES: [&str; 3] = ["nd_answer", "nd_apply_haplotype", "nd_apply_haplotypes"];

#[derive(Default)]
struct Function {
    name: String,
    blocks: BTreeSet<u64>,
    /// addresses that its calls and jumps name
    named: BTreeSet<u64>,
}

/// The blocks in ascending order, each with its function's name.
pub struct Blocks(pub Vec<(u64, String)>);

/// `0000000000401136 <nd_answer>:`
fn function_of(line: &str) -> Option<(u64, &str)> {
    let (address, name) = line.split_once(" <")?;
    Some((u64::from_str_radix(address, 16).ok()?, name.strip_suffix(">:")?))
}

/// `  401140:\tjne    401150 <nd_answer+0x1a>`: the address, the operation, and the address that it names.
fn operation_of(line: &str) -> Option<(u64, &str, Option<u64>)> {
    let (address, words) = line.trim_start().split_once(":\t")?;
    let mut words = words.split_whitespace();
    let operation = words.next()?;
    let named = words.next().and_then(|word| u64::from_str_radix(word, 16).ok());
    Some((u64::from_str_radix(address, 16).ok()?, operation, named))
}

fn functions(listing: &str) -> BTreeMap<u64, Function> {
    let mut found: BTreeMap<u64, Function> = BTreeMap::new();
    let (mut at, mut starts_block) = (0, false);
    for line in listing.lines() {
        if let Some((address, name)) = function_of(line) {
            found.insert(address, Function { name: name.to_string(), blocks: BTreeSet::from([address]), ..Function::default() });
            (at, starts_block) = (address, false);
            continue;
        }
        let (Some((address, operation, named)), Some(function)) = (operation_of(line), found.get_mut(&at)) else { continue };
        if starts_block {
            function.blocks.insert(address);
        }
        let jumps = operation.starts_with('j');
        starts_block = jumps && operation != "jmp";
        if jumps || operation == "call" {
            function.named.extend(named);
        }
        if jumps {
            function.blocks.extend(named);
        }
    }
    found
}

impl Blocks {
    /// Those of the functions that the calls enter, and of what these call, by `objdump --disassemble --no-show-raw-insn` of the harness.
    pub fn of(listing: &str) -> Blocks {
        let all = functions(listing);
        let mut waiting: Vec<u64> = all.iter().filter(|(_, function)| ENTRIES.contains(&function.name.as_str())).map(|(&address, _)| address).collect();
        assert_eq!(waiting.len(), ENTRIES.len(), "the listing of the harness has not all of {ENTRIES:?}");
        let mut reached = BTreeSet::new();
        while let Some(address) = waiting.pop() {
            if all[&address].name.contains("@plt") || !reached.insert(address) {
                continue;
            }
            waiting.extend(all[&address].named.iter().filter(|named| all.contains_key(named)));
        }
        let in_one = |address: u64| {
            let (function, next) = (&all[&address], all.range(address + 1..).next().map_or(u64::MAX, |(&next, _)| next));
            function.blocks.iter().filter(move |block| (address..next).contains(block)).map(|&block| (block, function.name.clone()))
        };
        Blocks(reached.into_iter().flat_map(in_one).collect())
    }

    /// As `calls --guided` reads them.
    pub fn addresses(&self) -> String {
        self.0.iter().map(|(address, _)| format!("{address:x}\n")).collect()
    }

    /// For each function with a block that none reached: how many of how many.
    pub fn unreached(&self, reached: &[bool]) -> Vec<(String, usize, usize)> {
        let mut by_function: BTreeMap<&str, (usize, usize)> = BTreeMap::new();
        for ((_, name), &is) in self.0.iter().zip(reached) {
            let counts = by_function.entry(name).or_default();
            counts.0 += usize::from(!is);
            counts.1 += 1;
        }
        by_function.into_iter().filter(|(_, counts)| counts.0 > 0).map(|(name, counts)| (name.to_string(), counts.0, counts.1)).collect()
    }
}
