//! The planted mistakes: the documents with one rule misread, each under its words.
use crate::answer::Target;
use crate::rules::{Rules, DOCUMENT, SIZE_LIMIT};
use std::collections::HashSet;

pub struct Mistake {
    pub words: &'static str,
    /// the name of the rule that is misread
    pub rule: &'static str,
    pub rules: Rules,
}

/// `words: rule = what it is misread as`.
macro_rules! mistakes {
    ($($words:literal: $rule:ident = $misread:expr;)*) => {
        pub const MISTAKES: &[Mistake] = &[
            $(Mistake { words: $words, rule: stringify!($rule), rules: Rules { $rule: $misread, ..DOCUMENT } }),*
        ];
    };
}

mistakes! {
    "letters counted in A C G T order": code = |letter, letters| DOCUMENT.code(letter, letters).map(|code| [0, 2, 1, 3][code]);
    "lower case read as another byte": code = |letter, letters| DOCUMENT.code(if letter.is_ascii_lowercase() { b'N' } else { letter }, letters);
    "windows with another byte left out": code = |letter, _| DOCUMENT.code(letter, 1);
    "a negative sequence counted up": window_adds = |_| 1;
    "entries must exceed minkfreq": n_and_d = |a, b, minkfreq| DOCUMENT.n_and_d(a, b, minkfreq + 1);
    "seqsim rounded once, not after the division": seqsim = |n, d| if n == 0 || d == 0 { DOCUMENT.seqsim(n, d) } else { (1.0 - n as f64 / d as f64) as f32 };
    "seqsim 1.0 where d is zero": seqsim = |n, d| if d == 0 { 1.0 } else { DOCUMENT.seqsim(n, d) };
    "sizes not raised to 1": sizesim = |a, b| if a == b { 1.0 } else { a.min(b) as f32 / a.max(b) as f32 };
    "a sizesim equal to its threshold skipped": sizesim_is_below = |sizesim, threshold| sizesim <= threshold;
    "a seqsim equal to its threshold skipped": seqsim_is_below = |seqsim, threshold| seqsim <= threshold;
    "signs of the sizes not compared": sign = |_| 1;
    "size zero taken as plus": sign = |size| if size == 0 { 1 } else { size.signum() };
    "`<=` for `<` in overlaps": overlaps = |a, b| a.0.max(b.0) <= a.1.min(b.1);
    "a zero-length interval overlaps nothing": overlaps = |a, b| a.0.max(b.0) < a.1.min(b.1);
    "a zero-length interval at another's start lies inside it": overlaps = |a, b| DOCUMENT.overlaps(a, b) || (b.0 == b.1 && a.0 == b.0 && a.1 > b.0);
    "a zero-length interval at another's end lies inside it": overlaps = |a, b| DOCUMENT.overlaps(a, b) || (b.0 == b.1 && a.0 < b.0 && a.1 == b.0);
    "two zero-length intervals at one place overlap": overlaps = |a, b| DOCUMENT.overlaps(a, b) || (a.0 == a.1 && a == b);
    "only the earlier row may lie inside": overlaps = |a, b| a.0.max(b.0) < a.1.min(b.1) || (a.0 == a.1 && b.0 < a.0 && b.1 > a.0);
    "only neighbours are asked": may_follow = |full, chain, overlaps| full && chain.last().is_none_or(|&last| !overlaps(last));
    "only the first row of a chain is asked": may_follow = |full, chain, overlaps| full && chain.first().is_none_or(|&first| !overlaps(first));
    "the first of two equal chains wins": chain_replaces = |score, best| score > best.score;
    "a later list wins on an equal score": list_replaces = |score, best| score >= best.score && score > 0.0;
    "part lists from the shortest up": list_lengths = |m, fnmax| DOCUMENT.list_lengths(m, fnmax).into_iter().rev().collect();
    "stop after maxpaths scored": most_scored = |maxpaths| maxpaths;
    "extensions queued lowest node first": extension_order = |later| later.collect();
    "the latest queued among equals taken": turn = |size, haplotype, queued| DOCUMENT.turn(size, haplotype, -queued);
    "distance of magnitudes, signs forgotten": turn = |size, haplotype, queued| DOCUMENT.turn(size.abs(), haplotype.abs(), queued);
    "the empty chain accepts under squish": g = |squish, list, length| DOCUMENT.g(squish, list, length).or(Some(0));
    "squish not looked at": g = |_, list, length| DOCUMENT.g(false, list, length);
    "gaps counted against all parts": g =
        |squish, list, length| if squish { DOCUMENT.g(squish, list, length) } else { Some((list.n + u64::from(list.partial)).abs_diff(length)) };
    "fpenalty times partial not rounded (fused)": score =
        |s, seqsim, sizesim, partial, g| (-s.fpenalty).mul_add(partial as f32, (seqsim + sizesim) / 2.0) - s.gpenalty * g as f32;
    "gpenalty taken off before fpenalty": score =
        |s, seqsim, sizesim, partial, g| (seqsim + sizesim) / 2.0 - s.gpenalty * g as f32 - s.fpenalty * partial as f32;
    "a score of exactly 0 replaces the start": list_replaces = |score, best| score > best.score || (score == 0.0 && best.target == Target::Nothing);
    "one part more may be left out": list_lengths = |m, fnmax| DOCUMENT.list_lengths(m, fnmax + 1);
    "whole only when m exceeds pileupmax": only_the_whole = |m, pileupmax| m > pileupmax;
    "zero parts never give a list": only_the_whole = |m, pileupmax| m > 0 && m >= pileupmax;
    "a bare graph searched as a full one": may_follow = |_, chain, overlaps| DOCUMENT.may_follow(true, chain, overlaps);
    "one-to-one: the first node among equals": node_replaces = |score, best| score > best.score;
    "one-to-one when V reaches maxnodes": is_one_to_one = |s, v| s.one_to_one || v >= s.maxnodes as usize;
    "one-to-one: seqsim 0 is a candidate": is_candidate = |_| true;
    "one-to-one tries every part list": node_only_the_whole = DOCUMENT.only_the_whole;
    "complete always yes": is_complete = |_, _, _| true;
    "complete no when the last chain was scored at the limit": is_complete = |queued, scored, most| queued == 0 && scored < most;
    "full yes for any part list": target = |_| Target::Whole;
    "nodes printed for rows": row_number = |row| row as u32 + 1;
    "minus zero refused": float_is_good = |float, top| DOCUMENT.float_is_good(float, top) && float.to_bits() != 0x8000_0000;
    "a float at its upper limit refused": float_is_good = |float, top| float >= 0.0 && float < top;
    "equal starts refused": falls = |start, before| start <= before;
    "a start equal to its end refused": is_reversed = |start, end| start >= end;
    "a size at its limit refused": size_is_over = |size| size.unsigned_abs() >= SIZE_LIMIT;
    "9 looked for before 7 and 8": refusals = || &[1, 2, 3, 4, 27, 5, 6, 9, 7, 8, 14, 10, 16, 11, 12];
    "22 looked for before 21": form_faults = || &[20, 22, 21, 27, 24, 13, 23, 25];
    "padding not looked at": form_faults = || &[20, 21, 22, 27, 24, 13, 25];
    "bytes after the end not looked at": form_faults = || &[20, 21, 22, 27, 24, 13, 23];
    "14 looked for after 9": refusals = || &[1, 2, 3, 4, 27, 5, 6, 7, 8, 9, 14, 10, 16, 11, 12];
    "14 looked for before 8": refusals = || &[1, 2, 3, 4, 27, 5, 6, 7, 14, 8, 9, 10, 16, 11, 12];
    "14 looked for with the rooms, as the last": refusals = || &[1, 2, 3, 4, 27, 5, 6, 7, 8, 9, 10, 16, 11, 12, 14];
    "14 looked for before the lengths": refusals = || &[1, 2, 3, 4, 27, 5, 14, 6, 7, 8, 9, 10, 16, 11, 12];
    "14 not looked for": refusals = || &[1, 2, 3, 4, 27, 5, 6, 7, 8, 9, 10, 16, 11, 12];
    "14 for neighbours only": repeats = |numbers| numbers.windows(2).any(|pair| pair[0] == pair[1]);
    "14 for the first number only": repeats = |numbers| numbers.iter().skip(1).any(|number| *number == numbers[0]);
    "14 for a number that falls": repeats = |numbers| numbers.windows(2).any(|pair| pair[0] >= pair[1]);
    "record numbers compared by 16 bits": repeats = |numbers| DOCUMENT.repeats(&numbers.iter().map(|number| number & 0xffff).collect::<Vec<u32>>());
    "record number 0 taken as none": repeats = |numbers| DOCUMENT.repeats(&numbers.iter().copied().filter(|&number| number != 0).collect::<Vec<u32>>());
    "more record numbers than variants accepted": numbers_disagree = |numbers, v| numbers < v;
    "the second buffer's room not asked": second_is_short = |_, _, _| false;
    "the second buffer's room asked in search mode only": second_is_short = |room, v, searches| searches && room < v;
    "the second buffer may be one short": second_is_short = |room, v, _| room + 1 < v;
    "a second buffer of V entries refused": second_is_short = |room, v, _| room <= v;
    "the records of the nodes": records = |numbers, rows| rows.iter().map(|&row| numbers.get(row + 1).copied().unwrap_or(0)).collect();
    "records in the table's order, from its first row": records = |numbers, rows| numbers[..rows.len()].to_vec();
    "records from the chain's end": records = |numbers, rows| DOCUMENT.records(numbers, rows).into_iter().rev().collect();
    "records in ascending order": records = |numbers, rows| {
        let mut records = DOCUMENT.records(numbers, rows);
        records.sort();
        records
    };
    "rows given as records": records = |_, rows| rows.iter().map(|&row| row as u32).collect();
    "the rest of the second buffer set to 0": second_after = |before, records, refused|
        if refused { before.to_vec() } else { DOCUMENT.second_after(&vec![0; before.len()], records, refused) };
    "a refusal clears the second buffer": second_after =
        |before, records, refused| if refused { vec![0; before.len()] } else { DOCUMENT.second_after(before, records, refused) };
    "the records at the second buffer's end": second_after = |before, records, _| [&before[..before.len() - records.len()], records].concat();
    "a job's record numbers from 1": present_numbers = |v| (1..=v as u32).collect();
    "`records` printed last": lines = || &["rows", "score", "sizesim", "seqsim", "full", "scored", "complete", "records"];
    "a seventeenth haplotype taken": count_is_refused = |count| count == 0 || count > 17;
    "a sixteenth haplotype refused": count_is_refused = |count| count == 0 || count > 15;
    "no haplotypes taken": count_is_refused = |count| count > 16;
    "27 looked for before 22": form_faults = || &[20, 21, 27, 22, 24, 13, 23, 25];
    "27 not looked for in the form": form_faults = || &[20, 21, 22, 24, 13, 23, 25];
    "27 looked for before 4": refusals = || &[1, 2, 3, 27, 4, 5, 6, 7, 8, 14, 9, 10, 16, 11, 12];
    "27 looked for after 5": refusals = || &[1, 2, 3, 4, 5, 27, 6, 7, 8, 14, 9, 10, 16, 11, 12];
    "27 looked for after 6": refusals = || &[1, 2, 3, 4, 5, 6, 27, 7, 8, 14, 9, 10, 16, 11, 12];
    "27 not looked for in the library": refusals = || &[1, 2, 3, 4, 5, 6, 7, 8, 14, 9, 10, 16, 11, 12];
    "a haplotype without parts has no next": next_may_begin = |parts| parts > 0;
    "a variant taken behind 0x05": variant_may_follow_next = || true;
    "8 parts in all haplotypes together": parts_exceed_memory = |parts| parts.iter().sum::<usize>() > 8;
    "8 parts asked of the first haplotype only": parts_exceed_memory = |parts| parts[0] > 8;
    "8 parts asked of the last haplotype only": parts_exceed_memory = |parts| parts.last().is_some_and(|&m| m > 8);
    "the parts asked among the table, however many haplotypes": parts_wait = |_| false;
    "the parts asked last, with one haplotype too": parts_wait = |_| true;
    "a part's 9 answers the whole job": answers_the_whole = |number, from_parts| !from_parts || number == 9;
    "a part's 5 answers the whole job": answers_the_whole = |number, from_parts| !from_parts || number == 5;
    "any haplotype's refusal answers the whole job": answers_the_whole = |_, _| true;
    "the table's refusal told for each haplotype": answers_the_whole = |_, _| false;
    "the first refused haplotype ends the answers": is_answered = |at, first_refused| at <= first_refused;
    "a refused haplotype passed over": is_answered = |at, first_refused| at != first_refused;
    "V rows of room for all haplotypes together": rows_needed = |v, _| v;
    "room for one row less of the last haplotype": rows_needed = |v, count| (v * count).saturating_sub(1);
    "seven words of report for each": reports_are_short = |words, count| words < 7 * count;
    "the reports' room not asked": reports_are_short = |_, _| false;
    "room of the queue asked for each haplotype": entries_needed = |of_one, count| of_one * count;
    "unequal numbers of ends taken": ends_disagree = |part_ends, feature_ends, parts, features| {
        let shared = part_ends.len().min(feature_ends.len());
        part_ends.len() > shared || DOCUMENT.ends_disagree(part_ends, &feature_ends[..shared], parts, features)
    };
    "a last end before the slice's end taken": ends_disagree = |part_ends, feature_ends, parts, features| {
        let last = |ends: &[u64], length: usize| ends.last().map_or(0, |&end| length.min(end as usize));
        DOCUMENT.ends_disagree(part_ends, feature_ends, last(part_ends, parts), last(feature_ends, features))
    };
    "falling ends taken": ends_disagree = |part_ends, feature_ends, parts, features| {
        let rising = |ends: &[u64]| ends.iter().scan(0, |most: &mut u64, &end| { *most = end.max(*most); Some(*most) }).collect::<Vec<u64>>();
        let wrong_last = part_ends.last() != Some(&(parts as u64)) || feature_ends.last() != Some(&(features as u64));
        wrong_last || DOCUMENT.ends_disagree(&rising(part_ends), &rising(feature_ends), parts, features)
    };
    "each haplotype has the parts before it too": stretch = |ends, at| 0..ends[at] as usize;
    "each haplotype has the first one's parts": stretch = |ends, _| 0..ends[0] as usize;
    "rows and records one behind the other, without gaps": answer_front = |_, _, listed| listed;
    "each haplotype's rows at the front": answer_front = |_, _, _| 0;
    "a refused haplotype's stretch cleared": stretch_after =
        |before, list, refused| if refused { vec![0; before.len()] } else { DOCUMENT.stretch_after(before, list, refused) };
    "the rest of a stretch set to 0": stretch_after =
        |before, list, refused| if refused { before.to_vec() } else { DOCUMENT.stretch_after(&vec![0; before.len()], list, refused) };
    "a refused haplotype's report left as it was": report_after = |before, said| if said[0] != 0 { before } else { said };
    "a refused haplotype's seven words left as they were": report_after = |before, said| if said[0] != 0 {
        [said[0], before[1], before[2], before[3], before[4], before[5], before[6], before[7]]
    } else {
        said
    };
    "an accepted haplotype's refusal left as it was": report_after = |before, said| if said[0] != 0 { said } else {
        [before[0], said[1], said[2], said[3], said[4], said[5], said[6], said[7]]
    };
    "the first refused haplotype's number returned": returned = |own| own.iter().copied().find(|&number| number != 0).unwrap_or(0);
    "the last haplotype's number returned": returned = |own| own.last().copied().unwrap_or(0);
    "the only haplotype's refusal told in its report": returned = |own| if own == [9] { 0 } else { DOCUMENT.returned(own) };
    "`hap` printed for one haplotype too": hap_lines_stand = |_| true;
    "`hap` not printed": hap_lines_stand = |_| false;
    "`hap` from 1": hap_number = |at| at + 1;
    "an unread letter counted as A with letters 1": code = |letter, _| DOCUMENT.code(letter, 0);
    "lower case unread with letters 1": code = |letter, letters| DOCUMENT.code(letter, letters).filter(|_| letters == 0 || !letter.is_ascii_lowercase());
    "n counted as A with letters 1, and N not": code = |letter, letters| if letter == b'n' { Some(0) } else { DOCUMENT.code(letter, letters) };
    "only N and n unread with letters 1": code = |letter, letters| DOCUMENT.code(letter, if b"Nn".contains(&letter) { letters } else { 0 });
    "a window kept whose last letter is unread": is_kept = |codes, at, k| DOCUMENT.is_kept(codes, at, k - 1);
    "a window kept whose first letter is unread": is_kept = |codes, at, k| DOCUMENT.is_kept(codes, at + 1, k - 1);
    "a window kept that has one letter with a code": is_kept = |codes, at, k| codes[at..at + k].iter().any(Option::is_some);
    "the window behind an unread letter lost": is_kept = |codes, at, k| DOCUMENT.is_kept(codes, at, k) && (at == 0 || codes[at - 1].is_some());
    "the window before an unread letter lost": is_kept = |codes, at, k| DOCUMENT.is_kept(codes, at, k) && codes.get(at + k).is_none_or(Option::is_some);
    "nothing counted behind the first unread letter": is_kept = |codes, at, k| DOCUMENT.is_kept(codes, 0, at + k);
    "nothing counted of a sequence with an unread letter": is_kept = |codes, _, _| DOCUMENT.is_kept(codes, 0, codes.len());
    "a job's letters read by 1": present_letters = || 1;
    "letters 2 accepted": letters_are_refused = |letters| letters > 2;
    "letters 1 refused": letters_are_refused = |letters| letters > 0;
    "letters compared by a byte": letters_are_refused = |letters| DOCUMENT.letters_are_refused(letters & 0xff);
    "letters not looked at": letters_are_refused = |_| false;
    "a variant of either edition taken": is_of_the_edition = |_, _| true;
    "a variant of edition 1 taken behind settings of edition 2": is_of_the_edition = |first, kind| kind == 0x02 || DOCUMENT.is_of_the_edition(first, kind);
    "a variant of edition 2 taken behind settings of edition 1": is_of_the_edition = |first, kind| kind == 0x12 || DOCUMENT.is_of_the_edition(first, kind);
    "letters 2 accepted in a job": letters_are_no_flag = |held| held > 2;
    "a job's letters 1 a 24": letters_are_no_flag = |held| held > 0;
    "a job's letters not looked at": letters_are_no_flag = |_| false;
    "a job's letters lost": letters_of = |_| 0;
    "a job's letters turned round": letters_of = |held| u32::from(held == 0);
    "a job's record numbers off by one": record_number = |held, _| held.wrapping_add(1);
    "a job's record numbers lost, the rows in their place": record_number = |_, row| row as u32;
    "a job's record numbers read highest byte first": record_number = |held, _| held.swap_bytes();
    "a job's record numbers read as 16 bits": record_number = |held, _| held & 0xffff;
    "22 and 28 in each other's place in moving": move_refusals = || &[20, 28, 22, 29, 30];
    "22 and 29 in each other's place in moving": move_refusals = || &[20, 29, 28, 22, 30];
    "22 and 30 in each other's place in moving": move_refusals = || &[20, 30, 28, 29, 22];
    "28 and 29 in each other's place in moving": move_refusals = || &[20, 22, 29, 28, 30];
    "28 and 30 in each other's place in moving": move_refusals = || &[20, 22, 30, 29, 28];
    "29 and 30 in each other's place in moving": move_refusals = || &[20, 22, 28, 30, 29];
    "22 looked for before the form in moving": move_refusals = || &[22, 20, 28, 29, 30];
    "28 looked for before the form in moving": move_refusals = || &[28, 20, 22, 29, 30];
    "29 looked for before the form in moving": move_refusals = || &[29, 20, 22, 28, 30];
    "30 looked for before the form in moving": move_refusals = || &[30, 20, 22, 28, 29];
    "the form not looked at in moving": move_refusals = || &[22, 28, 29, 30];
    "a job moved to the edition that it has": move_is_none = |_, asked| !(1..=2).contains(&asked);
    "edition 0 taken as 1": move_is_none = |own, asked| DOCUMENT.move_is_none(own, asked.max(1));
    "an edition over 2 taken as 2": move_is_none = |own, asked| DOCUMENT.move_is_none(own, asked.min(2));
    "record numbers lost on the way back": number_would_be_lost = |_, _| false;
    "28 for a number over its row only": number_would_be_lost = |number, row| number as usize > row;
    "28 for the first row only": number_would_be_lost = |number, row| row == 0 && number != 0;
    "28 for a number that is its row": number_would_be_lost = |number, row| number as usize == row;
    "letters lost on the way back": reading_would_be_lost = |_| false;
    "29 for letters 0": reading_would_be_lost = |held| held == 0;
    "room just enough refused in moving": room_is_little = |room, need| room <= need;
    "one byte too little taken in moving": room_is_little = |room, need| room + 1 < need;
    "the room not looked at in moving": room_is_little = |_, _| false;
    "26 asked of a job to be moved": move_asks_too = || &[26];
    "the table's refusals asked of a job to be moved": move_asks_too = || &[1, 2, 3, 4, 7, 8, 14, 9, 16];
    "a repeated number refused in moving": move_asks_too = || &[14];
    "a NaN's bits lost in moving": shared_bytes = |body| {
        let is_nan = |word: &[u8]| word.try_into().is_ok_and(|four| f32::from_le_bytes(four).is_nan());
        let plain = |word: &[u8]| if is_nan(word) { f32::NAN.to_le_bytes().to_vec() } else { word.to_vec() };
        if body.len() == 40 { [body[..24].to_vec(), body[24..].chunks(4).flat_map(plain).collect()].concat() } else { body.to_vec() }
    };
    "minus zero made plain in moving": shared_bytes = |body| {
        let plain = |word: &[u8]| if word == [0, 0, 0, 0x80] { vec![0; 4] } else { word.to_vec() };
        if body.len() == 40 { [body[..24].to_vec(), body[24..].chunks(4).flat_map(plain).collect()].concat() } else { body.to_vec() }
    };
    "record numbers from 1 in moving": moved_number = |row| row as u32 + 1;
    "record numbers 0 in moving": moved_number = |_| 0;
    "letters 1 in moving": moved_letters = || 1;
    "a refused move clears what is lent": lent_after = |before, moved, refused| if refused { vec![0; before.len()] } else { DOCUMENT.lent_after(before, moved, refused) };
    "what fits written by a refused move": lent_after = |before, moved, _| DOCUMENT.lent_after(before, &moved[..moved.len().min(before.len())], false);
    "the rest of what is lent to a move set to 0": lent_after =
        |before, moved, refused| if refused { before.to_vec() } else { DOCUMENT.lent_after(&vec![0; before.len()], moved, refused) };
    "a refused move tells the length": written = |length, _| length as u64;
    "16 looked for before 10": refusals = || &[1, 2, 3, 4, 27, 5, 6, 7, 8, 14, 9, 16, 10, 11, 12];
    "16 looked for before 9": refusals = || &[1, 2, 3, 4, 27, 5, 6, 7, 8, 14, 16, 9, 10, 11, 12];
    "16 looked for after 11": refusals = || &[1, 2, 3, 4, 27, 5, 6, 7, 8, 14, 9, 10, 11, 16, 12];
    "16 looked for after 12": refusals = || &[1, 2, 3, 4, 27, 5, 6, 7, 8, 14, 9, 10, 11, 12, 16];
    "16 not looked for": refusals = || &[1, 2, 3, 4, 27, 5, 6, 7, 8, 14, 9, 10, 11, 12];
    "16 for a row with one zero": is_blank = |row| row.contains(&0);
    "16 for a row whose first entry is zero": is_blank = |row| row.first() == Some(&0);
    "16 for a row whose other entries are zero": is_blank = |row| DOCUMENT.is_blank(&row[1..]);
    "16 for a row whose entries sum to zero": is_blank = |row| row.iter().map(|&x| i64::from(x)).sum::<i64>() == 0;
    "16 for a row without a count above zero": is_blank = |row| row.iter().all(|&x| x <= 0);
    "16 for a part too": blank_is_refused = |variants, parts, _, _| variants.contains(&true) || parts.contains(&true);
    "16 for the first variant only": blank_is_refused = |variants, _, _, _| variants[0];
    "16 not for the last variant": blank_is_refused = |variants, _, _, _| variants[..variants.len() - 1].contains(&true);
    "16 only where every variant's row is all zero": blank_is_refused = |variants, _, _, _| !variants.contains(&false);
    "16 in search mode only": blank_is_refused = |variants, _, searches, _| searches && variants.contains(&true);
    "16 in one-to-one only": blank_is_refused = |variants, _, searches, _| !searches && variants.contains(&true);
    "16 in a full graph only": blank_is_refused = |variants, _, _, full| full && variants.contains(&true);
    "51 looked for before 50": meta_refusals = || &[51, 50, 52, 53];
    "52 looked for before 50": meta_refusals = || &[52, 50, 51, 53];
    "53 looked for before 52": meta_refusals = || &[50, 51, 53, 52];
    "53 not looked for, and the sum wraps": meta_refusals = || &[50, 51, 52];
    "no samples taken": samples_are_refused = |samples| samples > 8;
    "nine samples taken": samples_are_refused = |samples| samples == 0 || samples > 9;
    "eight samples refused": samples_are_refused = |samples| samples == 0 || samples > 7;
    "a sample index at the count taken": index_is_refused = |index, samples| index > samples;
    "unequal counts joined up to the shorter": counts_disagree = |_, _| false;
    "more samples on the right taken": counts_disagree = |left, right| left > right;
    "a coverage sum of all bits refused": sum_passes = |left, right| left.checked_add(right).is_none_or(|sum| sum == u64::MAX);
    "a refusal gives the blank asked for": blank_on_refusal = |asked| asked;
    "a sample's flag is its index": flag_of = |index| index;
    "the larger coverage kept": coverage_of_both = |left, right| left.max(right);
    "the right tag over the left": tag_of_both = |left, right| DOCUMENT.tag_of_both(right, left);
    "the larger tag kept": tag_of_both = |left, right| left.max(right);
    "tag 0 taken as none": tag_of_both = |left, right| if left < 2 { right } else { left };
    "the flags added": flags_of_both = |left, right| left.wrapping_add(right);
    "the flags of both alone": flags_of_both = |left, right| left & right;
    "the id of the right": id_of_both = |_, right| right;
    "a refused combining combined anyway": left_after = |_, combined, _| combined;
    "54 looked for before 10": proposal_refusals = || &[1, 2, 3, 4, 5, 6, 7, 8, 9, 54, 10, 16];
    "54 looked for before 16": proposal_refusals = || &[1, 2, 3, 4, 5, 6, 7, 8, 9, 10, 54, 16];
    "54 looked for first": proposal_refusals = || &[54, 1, 2, 3, 4, 5, 6, 7, 8, 9, 10, 16];
    "16 not looked for in a check": proposal_refusals = || &[1, 2, 3, 4, 5, 6, 7, 8, 9, 10, 54];
    "54 for 64 rows": proposal_is_long = |rows, positions| rows >= 64 || positions > 64;
    "54 for rows only": proposal_is_long = |rows, _| rows > 64;
    "54 for positions only": proposal_is_long = |_, positions| positions > 64;
    "proposed rows in any order": rows_ascend = |rows| rows.iter().collect::<HashSet<_>>().len() == rows.len();
    "a proposed row twice": rows_ascend = |rows| rows.is_sorted();
    "a proposed list below the lower end": is_a_part_list = |positions, lists, m| {
        let rises = positions.windows(2).all(|pair| pair[0] < pair[1]) && positions.iter().all(|&position| (position as usize) < m);
        DOCUMENT.is_a_part_list(positions, lists, m) || rises && !positions.is_empty()
    };
    "the empty list proposed": is_a_part_list = |positions, lists, m| positions.is_empty() || DOCUMENT.is_a_part_list(positions, lists, m);
    "positions in any order": is_a_part_list = |positions, lists, m| {
        let mut sorted = positions.to_vec();
        sorted.sort();
        DOCUMENT.is_a_part_list(&sorted, lists, m)
    };
    "only the whole haplotype proposed": is_a_part_list = |positions, _, m| positions.len() == m;
    "equal bits not asked": is_that_score = |score, proposed| score > 0.0 && (score - proposed).abs() < 0.001;
    "any score proposed": is_that_score = |score, _| score > 0.0;
    "a score of 0 taken": is_that_score = |score, proposed| score >= 0.0 && score.to_bits() == proposed.to_bits();
    "a score below 0 taken": is_that_score = |score, proposed| score != 0.0 && score.to_bits() == proposed.to_bits();
    "no path in one-to-one": mode_forbids = |s, _| s.one_to_one;
    "no path where V exceeds maxnodes": mode_forbids = |s, v| v > s.maxnodes as usize;
}
