#!/usr/bin/env bash
# Deliberate faults: each is put into a copy of the reference, and the comparison with the proved library must catch it.
# All stand in one copy, which is built once; GAWHERINO_FAULT says which of them is on, and with none the copy must pass. Prints for each
# fault which tests caught it; the last line says whether all were caught. A few minutes. A word as argument tries only the faults that
# have it in their name.
set -u
only=${1-}
cd "$(dirname "$0")" || exit 2
room=$(mktemp -d) || exit 2
trap 'rm -rf "$room"' EXIT
export GAWHERINO_STATICLIB=${GAWHERINO_STATICLIB:-$(cd .. && pwd)/target/staticlib} GAWHERINO_SECONDS=1 GAWHERINO_SHRINK=0
mkdir "$room/copy" && cp -R Cargo.toml Cargo.lock build.rs src tests "$room/copy" && cp -R ../include "$room" || exit 2
names=() kinds=() kind=calls

# fault NAME FILE OLD NEW: OLD stands once in the file; in NEW the word FAULT is true if the fault is on
fault() {
    names+=("$1") kinds+=("$kind")
    OLD=$3 NEW=${4//FAULT/crate::fault(${#names[@]})} perl -0pi -e '
        BEGIN { $old = $ENV{OLD}; $new = $ENV{NEW} } $n = s/\Q$old\E/$new/g; die "$ARGV: the fault fits $n places\n" if $n != 1
    ' "$room/copy/src/reference/$2" || { echo "BROKEN  $1"; exit 2; }
}

fault "a pair dropped once its stakes meet" lookahead.rs 'match (longest, self.longest(x, y)) {' 'if FAULT && x == y { continue; } match (longest, self.longest(x, y)) {'
fault "k one short" lookahead.rs 'k = k.max(longest + 1)' 'k = k.max(longest + !FAULT as usize)'
fault "starts left out of the critical sets" lookahead.rs 'least(plan, &plan.critical_sets())' 'least(plan, &plan.critical_sets()[FAULT as usize..])'
fault "every fork counted" plan.rs 'self.sets_of(&members(&self.reached()))' 'if FAULT { self.every_set() } else { self.sets_of(&members(&self.reached())) }'
fault "every fork counted where there are no starts" plan.rs 'self.sets_of(&members(&self.reached()))' 'if FAULT && members(&self.starts).is_empty() { self.every_set() } else { self.sets_of(&members(&self.reached())) }'
fault "a plan without starts refused" calls.rs 'if let Some(k) = lookahead::look_ahead(plan) {' 'if FAULT && !plan.starts.contains(&true) { return refuse(13, "no starts"); } if let Some(k) = lookahead::look_ahead(plan) {'
fault "reached: after one step" plan.rs 'if marked[from] {' 'if marked[from] && (!FAULT || self.starts[from]) {'
fault "reached: after one pass over the lines" plan.rs 'if marked == before {' 'if FAULT || marked == before {'
fault "reached: without the last code" plan.rs 'self.lines.iter().flatten()' 'self.lines[..self.m - FAULT as usize].iter().flatten()'
fault "rest of the table's buffer cleared" calls.rs 'put(table, &table_of(&plan, k));' 'put(table, &table_of(&plan, k)); if FAULT { table[table_length(plan.n, plan.m)..].fill(0); }'
fault "9 for a short evidence buffer only under 15" calls.rs 'lent(letters, evidence_length(plan.n), "letters")?;' 'if !FAULT || lookahead::look_ahead(plan).is_none() { lent(letters, evidence_length(plan.n), "letters")?; }'
fault "12 before 11" record.rs 'if record.legs as usize == MOST_LEGS {' 'if record.legs as usize == MOST_LEGS && !(FAULT && code as usize >= plan.m) {'
fault "a leg's code cut to 8 bits" record.rs 'if code as usize >= plan.m {' 'let code = if FAULT { code % 256 } else { code }; if code as usize >= plan.m {'
fault "12 for a code above 255 before 10" calls.rs 'let fed = record::feed(' 'if FAULT && letter > 255 { return refuse(12, "the leg above 255"); } let fed = record::feed('
fault "ending from position 0 when k codes are held" record.rs 'Ok(sets[first_unbooked..].to_vec())' 'Ok(if FAULT { &sets[..sets.len() - first_unbooked] } else { &sets[first_unbooked..] }.to_vec())'
fault "a leg books before it is read" record.rs 'let set = &sets[position - at_base];' 'let before = possible(plan, &base, record.held_codes()); let set = if FAULT { &before[(position - at_base).min(before.len() - 1)] } else { &sets[position - at_base] };'
fault "a verdict without the proper-prefix condition" walk.rs '(0..word.len()).all(|length| size(&walkers(&word[..length])) != 1)' '(FAULT || (0..word.len()).all(|length| size(&walkers(&word[..length])) != 1))'
fault "a sole survivor called maximal nonselector" walk.rs 'size(&can_walk) >= 2' 'size(&can_walk) >= 2 - FAULT as usize'
fault "reached sets without the way back" walk.rs 'map(|(&is_in, can)| is_in && can)' 'map(|(&is_in, can)| is_in && (can || FAULT))'
fault "7 by neighbours only" plan.rs 'whole[..line].contains(' 'whole[if FAULT { line.saturating_sub(1) } else { 0 }..line].contains('
fault "an empty part refused inside the lines" plan.rs '(starts_at..starts_at + p).any(' '(starts_at..starts_at + p.max(FAULT as usize)).any('
fault "p's range off by one" plan.rs 'if p > n {' 'if p > n + FAULT as usize {'
fault "the mask at n = 64" table.rs 'n < MOST_STAKES && set >> n != 0' '(if FAULT { set >> n.min(63) != 0 } else { n < MOST_STAKES && set >> n != 0 })'
fault "an empty loop said yes" claim.rs 'turn < 1 || lead' '(turn < 1 && !FAULT) || lead'
fault "yes to a claim under an unreachable stake's name" claim.rs 'plan.critical_sets().iter().any(|(name, _)| is_claimed(name))' '(FAULT || plan.critical_sets().iter().any(|(name, _)| is_claimed(name)))'
fault "yes to a claim whose set counts under another name" claim.rs 'claim.starts_with(&[stake, code])' 'claim.starts_with(&[stake, code]) || (FAULT && plan.named(stake, code) == plan.named(claim[0], claim[1]))'
fault "no to a claim whose set an unreachable stake names too" claim.rs 'holds_of_any_set(plan, claim, letters) &&' 'holds_of_any_set(plan, claim, letters) && !(FAULT && plan.every_set().iter().any(|(name, set)| !plan.critical_sets().iter().any(|(other, _)| other == name) && Some(set) == plan.named(claim[0], claim[1]).as_ref())) &&'
fault "10 for a base that no walk reaches" record.rs 'let base = if legs < k {' 'if FAULT && legs >= k && !plan.reached()[record.booked as usize] { return refuse(10, "the base"); } let base = if legs < k {'
fault "14 only for a base that some walk reaches" record.rs 'if size(set) > 1 {' 'if size(set) > 1 && !(FAULT && record.legs as usize >= k && !plan.reached()[record.booked as usize]) {'
fault "a verdict refused for a set that doesn't count" walk.rs 'let Some(set) = plan.named(stake, code) else {' 'if FAULT && (stake as usize) < plan.n && !plan.reached()[stake as usize] { return refuse(12, "the set"); } let Some(set) = plan.named(stake, code) else {'
fault "255 with any code names the starts" plan.rs '(stake, code) == STARTS' '(stake, code) == STARTS || (FAULT && stake == STARTS.0)'
fault "step: a round more" walk.rs 'let rounds = size(&from);' 'let rounds = size(&from) + FAULT as usize;'
fault "step: no round for the last member" walk.rs 'let led_to = step(plan, &from, code as u8);' 'let led_to = step(plan, &from, code as u8); if FAULT { return Ok((led_to, size(&from).saturating_sub(1))); }'
fault "step: the rounds of the set led to" walk.rs 'Ok((led_to, rounds))' 'let rounds = if FAULT { size(&led_to) } else { rounds }; Ok((led_to, rounds))'
fault "step: the highest member skipped" walk.rs 'let from = from_number(set, plan.n);' 'let mut from = from_number(set, plan.n); if FAULT { members(&from).last().into_iter().for_each(|&last| from[last] = false); }'
fault "step: the highest member counted, but what it leads to left out" walk.rs 'let rounds = size(&from)' 'let led_to = if FAULT { let all_but_last = members(&from).split_last().map_or(vec![], |(_, others)| others.to_vec()); step(plan, &(0..plan.n).map(|s| all_but_last.contains(&s)).collect::<Stakes>(), code as u8) } else { led_to }; let rounds = size(&from)'
fault "step: the set itself given back" calls.rs 'put(next, &[to_number(&led_to)]);' 'put(next, &[if FAULT { set } else { to_number(&led_to) }]);'
fault "step: one round for the empty set" walk.rs 'let rounds = size(&from)' 'let rounds = size(&from).max(FAULT as usize)'
fault "step: the empty set refused" walk.rs 'if (plan.n..MOST_STAKES).any(|bit| set >> bit & 1 == 1) {' 'if FAULT && set == 0 { return refuse(12, "empty"); } if (plan.n..MOST_STAKES).any(|bit| set >> bit & 1 == 1) {'
fault "step: leading nowhere refused with 13" walk.rs 'let led_to = step(plan, &from, code as u8);' 'let led_to = step(plan, &from, code as u8); if FAULT && size(&from) > 0 && size(&led_to) == 0 { return refuse(13, "nowhere"); }'
fault "step: bit n passed over" walk.rs '(plan.n..MOST_STAKES).any(' '(plan.n + FAULT as usize..MOST_STAKES).any('
fault "step: the code cut to 8 bits" walk.rs 'return refuse(12, if code > 255 {' 'if FAULT && (code as u8 as usize) < plan.m { return step_from(plan, set, code % 256); } return refuse(12, if code > 255 {'
fault "step: 12 before 9" calls.rs 'lent(next, 1, "next")?;' 'if FAULT { walks::step_from(&plan, set, letter)?; } lent(next, 1, "next")?;'
fault "write: lines by code before from" plan.rs 'lines.sort();' 'lines.sort(); if FAULT { lines.sort_by_key(|&[from, code, to, party]| (code, from, to, party)); }'
fault "write: lines by to before code" plan.rs 'let lines_at = HEADER + starts.len();' 'if FAULT { lines.sort_by_key(|&[from, code, to, party]| (from, to, code, party)); } let lines_at = HEADER + starts.len();'
fault "write: starts descending" plan.rs 'let starts = members(&read.starts);' 'let mut starts = members(&read.starts); if FAULT { starts.reverse(); }'
fault "write: 9 by the length of the plan given" calls.rs 'lent(out, form.len(), "out")?;' 'lent(out, if FAULT { plan.len() } else { form.len() }, "out")?;'
fault "write: 9 one byte late" calls.rs 'let form = plan::one_form(&plan::read(plan)?);' 'let mut form = plan::one_form(&plan::read(plan)?); if FAULT && out.len() + 1 == form.len() { form.pop(); }'
fault "write: 9 before 1 to 7" calls.rs 'fn write(plan: &[u8], out: &mut [u8]) -> Result<u32, Refusal> {' 'fn write(plan: &[u8], out: &mut [u8]) -> Result<u32, Refusal> { if FAULT { lent(out, 16, "out")?; }'
fault "write: the rest of the buffer cleared" calls.rs 'put(out, &form);' 'put(out, &form); if FAULT { out[form.len()..].fill(0); }'
fault "a set's first two stakes alone" lookahead.rs 'let stakes = members(set);' 'let mut stakes = members(set); if FAULT { stakes.truncate(2); }'
fault "needs: every fork counted" lookahead.rs 'reached[stake]));' 'reached[stake] || FAULT));'
fault "needs: an endless fork counted that no walk reaches" lookahead.rs 'if size(&set) == 0 || !counts {' 'if FAULT && !counts && need(&mut pairs, &set).is_none() { numbers.push(HAS_NONE); continue; } if size(&set) == 0 || !counts {'
fault "needs: a set counted under every name if it counts under one" lookahead.rs 'for (set, counts) in sets {' 'let every = sets.clone(); for (set, counts) in sets { let counts = counts || (FAULT && every.contains(&(set.clone(), true)));'
fault "needs: 65,535 for a set that doesn't count" lookahead.rs 'if size(&set) == 0 || !counts {' 'if FAULT && !counts { numbers.push(HAS_NONE); continue; } if size(&set) == 0 || !counts {'
fault "needs: 0 for empty starts" lookahead.rs 'if size(&set) == 0 || !counts {' 'if FAULT && size(&set) == 0 && numbers.is_empty() { numbers.push(0); continue; } if size(&set) == 0 || !counts {'
fault "needs: 0 for an empty fork" lookahead.rs 'if size(&set) == 0 || !counts {' 'if FAULT && size(&set) == 0 && counts && !numbers.is_empty() { numbers.push(0); continue; } if size(&set) == 0 || !counts {'
fault "needs: 65,534 for a set of one stake" lookahead.rs 'if size(&set) == 0 || !counts {' 'if size(&set) <= FAULT as usize || !counts {'
fault "needs: 65,535 for all behind an endless set" lookahead.rs 'numbers.push(match need(&mut pairs, &set) {' 'if FAULT && numbers.contains(&HAS_NONE) { numbers.push(HAS_NONE); continue; } numbers.push(match need(&mut pairs, &set) {'
fault "needs: 65,534 for all behind an endless set" lookahead.rs 'numbers.push(match need(&mut pairs, &set) {' 'if FAULT && numbers.contains(&HAS_NONE) { numbers.push(NOT_COUNTED); continue; } numbers.push(match need(&mut pairs, &set) {'
fault "needs: 65,535 for every set of a plan without k" calls.rs 'lent(needs, numbers.len(), "needs")?;' 'let numbers: Vec<u16> = if FAULT && numbers.contains(&65_535) { numbers.iter().map(|&number| if number == 65_534 { number } else { 65_535 }).collect() } else { numbers }; lent(needs, numbers.len(), "needs")?;'
fault "needs: 65,534 for an endless set" lookahead.rs 'None => HAS_NONE,' 'None => if FAULT { NOT_COUNTED } else { HAS_NONE },'
fault "needs: one too large" lookahead.rs 'Some(k) => k as u16,' 'Some(k) => k as u16 + FAULT as u16,'
fault "needs: one too large for sets of several stakes" lookahead.rs 'Some(k) => k as u16' 'Some(k) if FAULT && k > 0 => k as u16 + 1, Some(k) => k as u16'
fault "needs: the length of the longest shared word" lookahead.rs 'Some(k) => k as u16' 'Some(k) if FAULT => k.saturating_sub(1) as u16, Some(k) => k as u16'
fault "needs: a number cut to 8 bits" lookahead.rs 'Some(k) => k as u16' 'Some(k) if FAULT => k as u8 as u16, Some(k) => k as u16'
fault "needs: stakes and codes exchanged" lookahead.rs 'sets.push((plan.fork(stake, code), ' 'let place = stake * plan.m + code; let (stake, code) = if FAULT { (place % plan.n, place / plan.n) } else { (stake, code) }; sets.push((plan.fork(stake, code), '
fault "needs: the starts last" calls.rs 'lent(needs, numbers.len(), "needs")?;' 'let numbers = if FAULT { [&numbers[1..], &numbers[..1]].concat() } else { numbers }; lent(needs, numbers.len(), "needs")?;'
fault "needs: the plan's k for the starts" calls.rs 'lent(needs, numbers.len(), "needs")?;' 'let numbers = if FAULT && numbers[0] != 65_534 { let k = lookahead::largest(&numbers).map_or(65_535, |k| k as u16); [&[k][..], &numbers[1..]].concat() } else { numbers }; lent(needs, numbers.len(), "needs")?;'
fault "needs: one number less" calls.rs 'let numbers = lookahead::needs(&plan::read_for(plan, party)?);' 'let mut numbers = lookahead::needs(&plan::read_for(plan, party)?); if FAULT { numbers.pop(); }'
fault "needs: the forks alone answered" calls.rs 'Ok(numbers.len() as u32)' 'Ok(numbers.len() as u32 - FAULT as u32)'
fault "needs: 15 for a plan without k" calls.rs 'lent(needs, numbers.len(), "needs")?;' 'lent(needs, numbers.len(), "needs")?; if FAULT && numbers.contains(&65_535) { return refuse(15, "no k"); }'
fault "needs: no starts refused with 13" calls.rs 'lent(needs, numbers.len(), "needs")?;' 'lent(needs, numbers.len(), "needs")?; if FAULT && !plan::read(plan)?.starts.contains(&true) { return refuse(13, "no starts"); }'
fault "needs: written as far as is lent, and then 9" calls.rs 'lent(needs, numbers.len(), "needs")?;' 'if FAULT && needs.len() < numbers.len() { let lent = needs.len(); put(needs, &numbers[..lent]); } lent(needs, numbers.len(), "needs")?;'
fault "needs: 9 one number late" calls.rs 'lent(needs, numbers.len(), "needs")?;' 'let numbers = if FAULT && needs.len() + 1 == numbers.len() { numbers[..needs.len()].to_vec() } else { numbers }; lent(needs, numbers.len(), "needs")?;'
fault "needs: 9 for n × m + 1 lent" calls.rs 'lent(needs, numbers.len(), "needs")?;' 'lent(needs, numbers.len() + FAULT as usize, "needs")?;'
fault "needs: 9 before 7" calls.rs 'fn needs(plan: &[u8], party: u32, needs: &mut [u16]) -> Result<u32, Refusal> {' 'fn needs(plan: &[u8], party: u32, needs: &mut [u16]) -> Result<u32, Refusal> { if FAULT && plan::read(plan).is_err_and(|refusal| refusal.number == 7) { lent(needs, plan[2] as usize * plan[4] as usize + 1, "needs")?; }'
fault "needs: the rest of the buffer cleared" calls.rs 'put(needs, &numbers);' 'put(needs, &numbers); if FAULT { needs[numbers.len()..].fill(0); }'
fault "together: 65,534 for a number" lookahead.rs 'number != NOT_COUNTED' '(FAULT || number != NOT_COUNTED)'
fault "together: 65,535 passed over" lookahead.rs 'if numbers.contains(&HAS_NONE) {' 'let sound: Vec<u16> = numbers.iter().copied().filter(|&number| !FAULT || number != HAS_NONE).collect(); let numbers = &sound; if numbers.contains(&HAS_NONE) {'
fault "together: without the starts" lookahead.rs 'let others = numbers.iter()' 'let others = numbers.iter().skip(FAULT as usize)'
fault "together: the starts alone" lookahead.rs 'let others = numbers.iter()' 'let others = numbers.iter().take(if FAULT { 1 } else { usize::MAX })'
fault "together: the set behind the one that the evidence names" lookahead.rs '1 + stake as usize * m + code as usize' '1 + FAULT as usize + stake as usize * m + code as usize'
fault "page: the stake left-aligned" page.rs 'line.up_to(4, &name.0.to_string());' 'line.up_to(if FAULT { name.0.to_string().len() } else { 4 }, &name.0.to_string());'
fault "page: the code left-aligned" page.rs 'line.up_to(9, &name.1.to_string());' 'line.up_to(if FAULT { 5 + name.1.to_string().len() } else { 9 }, &name.1.to_string());'
fault "page: the need left-aligned" page.rs 'line.up_to(16, &need.to_string());' 'line.up_to(if FAULT { 10 + need.to_string().len() } else { 16 }, &need.to_string());'
fault "page: a dash in column 11" page.rs 'line.at(16, "-");' 'line.at(if FAULT { 11 } else { 16 }, "-");'
fault "page: a dash in column 15" page.rs '} else { 16 }, "-");' '} else if FAULT { 15 } else { 16 }, "-");'
fault "page: dashes in all columns of the need" page.rs 'if need == HAS_NONE {' 'if need == HAS_NONE { if FAULT { line.at(11, "-----"); }'
fault "page: 65535 for a dash" page.rs 'if need == HAS_NONE {' 'if need == HAS_NONE && !FAULT {'
fault "page: the need filled up with zeros" page.rs 'if need == HAS_NONE ' 'if FAULT && need != HAS_NONE { line.at(11, "000000"); } if need == HAS_NONE '
fault "page: one too large a need" page.rs 'let mut line = Line::blank();' 'let need = if FAULT && need != HAS_NONE { need + 1 } else { need }; let mut line = Line::blank();'
fault "page: a need of four digits cut to three" page.rs 'let mut line = Line::blank();' 'let need = if FAULT && need != HAS_NONE { need % 1000 } else { need }; let mut line = Line::blank();'
fault "page: stake and code exchanged" page.rs 'let mut line = Line::blank();' 'let name = if FAULT && name != STARTS { (name.1, name.0) } else { name }; let mut line = Line::blank();'
fault "page: stakes counted from 1" page.rs 'let mut line = Line::blank();' 'let name = if FAULT && name != STARTS { (name.0 + 1, name.1) } else { name }; let mut line = Line::blank();'
fault "page: a bar of 22 at the most" page.rs 'stakes.min(23)' 'stakes.min(23 - FAULT as usize)'
fault "page: a bar of 24 at the most" page.rs 'page += "\n";' 'if FAULT && size(&set) > 23 { page += "#"; } page += "\n";'
fault "page: the bar from column 17 on" page.rs 'line.at(18,' 'line.at(18 - FAULT as usize,'
fault "page: the bar right-aligned" page.rs 'line.at(18 - ' 'let wide = if FAULT { 23 - stakes.min(23) } else { 0 }; line.at(wide + 18 - '
fault "page: a bar of all stakes of the plan" page.rs 'size(&set)).0' 'if FAULT { plan.n } else { size(&set) }).0'
fault "page: a bar of all stakes that walks reach" page.rs 'page.extend(line(' 'let set = if FAULT { plan.reached() } else { set }; page.extend(line('
fault "page: a bar of dashes" page.rs '"#".repeat(' '(if FAULT { "-" } else { "#" }).repeat('
fault "page: a hash sign too few" page.rs 'repeat(stakes' 'repeat((stakes - FAULT as usize)'
fault "page: a bar as long as the need" page.rs 'let mut line = Line::blank();' 'let stakes = if FAULT { need as usize } else { stakes }; let mut line = Line::blank();'
fault "page: a line for 65,534" page.rs 'if need == NOT_COUNTED {' 'if need == NOT_COUNTED && !FAULT {'
fault "page: a line for a fork that no walk reaches" page.rs 'if need == NOT_COUNTED ' 'if need == NOT_COUNTED && !(FAULT && plan.named(name.0, name.1).is_some_and(|set| size(&set) > 0)) '
fault "page: a line for starts that are none" page.rs 'if need == NOT_COUNTED ' 'if need == NOT_COUNTED && !(FAULT && name == STARTS) '
fault "page: no line for a need of 0" page.rs 'if need == NOT_COUNTED ' 'if (FAULT && need == 0) || need == NOT_COUNTED '
fault "page: no line for a dash" page.rs 'need == 0) || ' 'need == 0) || (FAULT && need == HAS_NONE) || '
fault "page: the starts' line with a blank stake" page.rs 'line.at(1, "from");' 'if !FAULT { line.at(1, "from"); }'
fault "page: the starts' line with a code 0" page.rs 'if name == STARTS {' 'if name == STARTS { if FAULT { line.up_to(9, "0"); }'
fault "page: the word from a column to the right" page.rs 'line.at(1, ' 'line.at(1 + FAULT as usize, '
fault "page: 255 for the word from" page.rs 'if name == STARTS {' 'if name == STARTS && !FAULT {'
fault "page: the starts last" page.rs 'for (name, need) in names.into_iter().zip(needs(plan)) {' 'let mut sets: Vec<_> = names.into_iter().zip(needs(plan)).collect(); if FAULT { sets.rotate_left(1); } for (name, need) in sets {'
fault "page: code by code" page.rs 'for (name, need) in sets {' 'if FAULT { sets[1..].sort_by_key(|((stake, code), _)| (*code, *stake)); } for (name, need) in sets {'
fault "page: without trailing blanks" page.rs 'page += "\n";' 'if FAULT { page.truncate(page.trim_end_matches(" ").len()); } page += "\n";'
fault "page: lines of 39 characters where a bar leaves room" page.rs 'page += "\n";' 'if FAULT && page.ends_with(" ") { page.pop(); } page += "\n";'
fault "page: no line feed behind the last line" calls.rs 'let text = pages::page(&plan::read_for(plan, party)?);' 'let mut text = pages::page(&plan::read_for(plan, party)?); if FAULT { text.pop(); }'
fault "page: 9 before 1 to 7" calls.rs 'fn page(plan: &[u8], party: u32, page: &mut [u8], length: &mut [u64]) -> Result<u32, Refusal> {' 'fn page(plan: &[u8], party: u32, page: &mut [u8], length: &mut [u64]) -> Result<u32, Refusal> { if FAULT && plan::read(plan).is_err() { lent(page, 41, "page")?; }'
fault "page: 9 for the length before 1 to 7" calls.rs 'let mut text = pages::page(' 'if FAULT { lent(length, 1, "length")?; } let mut text = pages::page('
fault "page: 9 by 41 × (n × m + 1)" calls.rs 'lent(page, text.len(), "page")?;' 'if FAULT { let plan = plan::read_for(plan, party)?; lent(page, 41 * (plan.n * plan.m + 1), "page")?; } lent(page, text.len(), "page")?;'
fault "page: 9 one byte late" calls.rs 'lent(page, text.len(), "page")?;' 'let text = if FAULT && page.len() + 1 == text.len() { text[..page.len()].to_string() } else { text }; lent(page, text.len(), "page")?;'
fault "page: 9 one line late" calls.rs 'lent(page, text.len(), "page")?;' 'let text = if FAULT && page.len() < text.len() && page.len() + 41 >= text.len() { text[..text.len() - 41].to_string() } else { text }; lent(page, text.len(), "page")?;'
fault "page: written as far as is lent, and then 9" calls.rs 'lent(page, text.len(), "page")?;' 'if FAULT && page.len() < text.len() { let room = page.len(); put(page, &text.as_bytes()[..room]); } lent(page, text.len(), "page")?;'
fault "page: the length written, and then 9" calls.rs 'lent(page, text.len(), "page")?;' 'if FAULT && !length.is_empty() { put(length, &[text.len() as u64]); } lent(page, text.len(), "page")?;'
fault "page: written, and then 9 for the length" calls.rs 'lent(page, text.len(), "page")?;' 'lent(page, text.len(), "page")?; if FAULT && length.is_empty() { put(page, text.as_bytes()); }'
fault "page: no 9 for a length without a place" calls.rs 'lent(page, text.len(), "page")?;' 'lent(page, text.len(), "page")?; if FAULT && length.is_empty() { put(page, text.as_bytes()); return Ok(0); }'
fault "page: 15 for a plan without k" calls.rs 'lent(page, text.len(), "page")?;' 'lent(page, text.len(), "page")?; if FAULT && lookahead::look_ahead(&plan::read_for(plan, party)?).is_none() { return refuse(15, "no k"); }'
fault "page: no starts refused with 13" calls.rs 'lent(page, text.len(), "page")?;' 'lent(page, text.len(), "page")?; if FAULT && !plan::read(plan)?.starts.contains(&true) { return refuse(13, "no starts"); }'
fault "page: 9 for an empty page into nothing" calls.rs 'lent(page, text.len(), "page")?;' 'if FAULT && text.is_empty() { lent(page, 1, "page")?; } lent(page, text.len(), "page")?;'
fault "page: 9 for as many bytes as the page has" calls.rs 'lent(page, text.len(), "page")?;' 'lent(page, text.len() + FAULT as usize, "page")?;'
fault "page: the rest of the buffer cleared" calls.rs 'put(page, text.as_bytes());
    put(length' 'put(page, text.as_bytes()); if FAULT { page[text.len()..].fill(0); }
    put(length'
fault "page: a byte 0 behind the page" calls.rs 'page[text.len()..].fill(0); }' 'page[text.len()..].fill(0); } if FAULT && page.len() > text.len() { page[text.len()] = 0; }'
fault "page: the length not written" calls.rs 'put(length, &[text.len() as u64]);
    Ok(0)' 'if !FAULT { put(length, &[text.len() as u64]); }
    Ok(0)'
fault "page: the length of an empty page not written" calls.rs 'put(length, &[text.len() as u64]); }
    Ok(0)' 'if !FAULT || !text.is_empty() { put(length, &[text.len() as u64]); } }
    Ok(0)'
fault "page: how many lines for the length" calls.rs 'put(length, &[text.len() as u64]); } }
    Ok(0)' 'put(length, &[text.len() as u64 / if FAULT { 41 } else { 1 }]); } }
    Ok(0)'
fault "page: the length cut to 16 bits" calls.rs '{ 1 }]); } }
    Ok(0)' '{ 1 }]); if FAULT { put(length, &[text.len() as u16 as u64]); } } }
    Ok(0)'
fault "page: the length answered" calls.rs '} } }
    Ok(0)' '} } } if FAULT { return Ok(text.len() as u32); }
    Ok(0)'
fault "group: a number cut to 8 bits" mod.rs 'list.contains(&number)' 'list.contains(&if FAULT { number % 256 } else { number })'
fault "group: caller and logger exchanged" mod.rs 'place as u32 + 1)' 'if FAULT && place > 0 { 4 - place as u32 } else { place as u32 + 1 })'
fault "in doubt: with k legs behind" doubt.rs 'pairs.share(x, y, legs)' 'pairs.share(x, y, legs + FAULT as usize)'
fault "in doubt: one leg short" doubt.rs '(0..legs).rev()' '(FAULT as usize..legs).rev()'
fault "in doubt: with the legs before and not behind" doubt.rs 'Some((walk, position))' 'Some((walk, if FAULT { legs } else { position }))'
fault "in doubt: between a stake and itself" doubt.rs 'x != y &&' '(FAULT || x != y) &&'
fault "in doubt: a walk from any stake" doubt.rs 'members(&plan.starts)' 'if FAULT { (0..plan.n).collect() } else { members(&plan.starts) }'
fault "in doubt: behind forks that no walk reaches" doubt.rs 'let mut done = Vec::new();' 'let mut done = Vec::new(); if FAULT { let reached = plan.reached(); to_do.extend((0..plan.n).filter(|&s| !reached[s]).map(|s| (s, s, vec![]))); }'
fault "in doubt: at the starts alone" doubt.rs 'for (code, x, y) in pairs.edges(s, t) {' 'for (code, x, y) in pairs.edges(s, t) { if FAULT { break; }'
fault "in doubt: two starts only" doubt.rs 'if s <= t {' 'if s < t || (s == t && !FAULT) {'
fault "in doubt: at the starts and their own forks alone" doubt.rs 'if !seen[x * plan.n + y] {' 'if !seen[x * plan.n + y] && !(FAULT && x == y) {'
fault "in doubt: not under 15" lookahead.rs 'Shared::Endless => true' 'Shared::Endless => !FAULT'
fault "edition 0 accepted" forms.rs '1 => Some(3),' '1 => Some(3), 0 if FAULT => Some(3),'
fault "edition 3 accepted" forms.rs '2 => Some(4),' '2 => Some(4), 3 if FAULT => Some(4),'
fault "edition 2 refused" forms.rs '2 => Some(4),' '2 if !FAULT => Some(4),'
fault "lines of four bytes in edition 1" forms.rs '1 => Some(3),' '1 => Some(3 + FAULT as usize),'
fault "the edition cut to 8 bits" plan.rs 'let Some(width) = line_length(edition) else {' 'let edition = if FAULT { edition % 256 } else { edition }; let Some(width) = line_length(edition) else {'
fault "edition 2: three bytes a line up to the total" plan.rs 'if lines_at + width * e > total {' 'let padded; let bytes = if FAULT { padded = [bytes, &[0; 4096]].concat(); padded.as_slice() } else { bytes }; if lines_at + (if FAULT { 3 } else { width }) * e > total {'
fault "edition 2: three bytes a line beside the starts" plan.rs 'let part_of_lines = lines_at..lines_at + width * e;' 'let part_of_lines = lines_at..lines_at + (if FAULT { 3 } else { width }) * e;'
fault "party: the byte before" plan.rs 'bytes[place + 3] } else { 0 };' 'bytes[place + 3 - FAULT as usize] } else { 0 };'
fault "party: the first byte of a line" plan.rs 'let place = lines_at + width * line;' 'let place = lines_at + width * line; if FAULT && width == 4 { return [bytes[place + 1], bytes[place + 2], bytes[place + 3], bytes[place]]; }'
fault "party: three bits of its byte" plan.rs 'if width == 4 { bytes[place' 'if FAULT && width == 4 { bytes[place + 3] % 8 } else if width == 4 { bytes[place'
fault "party: 6 for one above 7" plan.rs 'if to as usize >= n {' 'if to as usize >= n || (FAULT && lines.iter().any(|line| line[3] > 7)) {'
fault "party: 7 by three bytes of a line" plan.rs 'u32::from_be_bytes(line)' 'u32::from_be_bytes(if FAULT { [0, line[0], line[1], line[2]] } else { line })'
fault "party: 7 by three bits of it" plan.rs 'u32::from_be_bytes(if ' 'u32::from_be_bytes(if FAULT { [line[0], line[1], line[2], line[3] % 8] } else if '
fault "party: 7 for parties 0 to 7 alone" plan.rs 'if (0..e).any(|line| ' 'if (0..e).any(|line| !(FAULT && lines[line][3] > 7) && '
fault "party: 16 before 7" plan.rs 'let whole: Vec<u32> =' 'if FAULT && lines.iter().any(|line| line[3] > 7) { return refuse(16, "a line"); } let whole: Vec<u32> ='
fault "party: 16 before 6" plan.rs 'for &[from, code, to, _] in &lines {' 'if FAULT && lines.iter().any(|line| line[3] > 7) { return refuse(16, "a line"); } for &[from, code, to, _] in &lines {'
fault "party: no 16 for the last line" plan.rs 'if lines.iter().any(|&[_, _, _, party]|' 'if lines[..e - (FAULT && e > 0) as usize].iter().any(|&[_, _, _, party]|'
fault "party: no 16 for a line" plan.rs 'if lines[..e - ' 'if !FAULT && lines[..e - '
fault "party: no 16 for party 8 in a line" plan.rs 'party as u32 > LAST_PARTY)' 'party as u32 > LAST_PARTY + FAULT as u32)'
fault "party: 16 for party 7 in a line" plan.rs 'party as u32 > LAST_PARTY + ' 'party as u32 + FAULT as u32 > LAST_PARTY + '
fault "party: no 16 for the party named" plan.rs 'if party > LAST_PARTY {' 'if party > LAST_PARTY && !FAULT {'
fault "party: no 16 for party 8 named" plan.rs 'if party > LAST_PARTY ' 'if party > LAST_PARTY + FAULT as u32 '
fault "party: 16 for party 7 named" plan.rs 'if party > LAST_PARTY ' 'if party > LAST_PARTY - FAULT as u32 '
fault "party: the number named cut to 8 bits" plan.rs 'pub fn of(&self, party: u32) -> Result<Plan, Refusal> {' 'pub fn of(&self, party: u32) -> Result<Plan, Refusal> { let party = if FAULT { party % 256 } else { party };'
fault "party: the number named cut to 16 bits" plan.rs 'pub fn of(&self, party: u32) -> Result<Plan, Refusal> {' 'pub fn of(&self, party: u32) -> Result<Plan, Refusal> { let party = if FAULT { party % 65_536 } else { party };'
fault "party: 3 accepted for edition 1" plan.rs 'if self.edition == 1 && party != 0 {' 'if self.edition == 1 && party != 0 && !(FAULT && party == 3) {'
fault "party: edition 1 is every party's" plan.rs 'if self.edition == 1 && party != 0 ' 'if FAULT && self.edition == 1 && party != 0 { return self.of(0); } if self.edition == 1 && party != 0 '
fault "party: any accepted for edition 1 without lines" plan.rs 'if self.edition == 1 && party != 0 &&' 'if self.edition == 1 && party != 0 && !(FAULT && self.lines.is_empty()) &&'
fault "party: one without lines refused with 16" plan.rs 'Ok(Plan { n: self.n,' 'if FAULT && self.e > 0 && lines.iter().all(Vec::is_empty) { return refuse(16, "no lines"); } Ok(Plan { n: self.n,'
fault "party: one without lines has no starts" plan.rs 'starts: self.starts.clone(), lines })' 'starts: if FAULT && self.e > 0 && lines.iter().all(Vec::is_empty) { vec![false; self.n] } else { self.starts.clone() }, lines })'
fault "party: lines of all" plan.rs 'if of as u32 == party {' 'if of as u32 == party || FAULT {'
fault "party: lines of those before, too" plan.rs 'if of as u32 == party ' 'if of as u32 == party || (FAULT && (of as u32) < party) '
fault "party: lines of 0, too" plan.rs 'if of as u32 == party ' 'if of as u32 == party || (FAULT && of == 0) '
fault "party: prepare names 0" calls.rs 'let plan = plan::read_for(plan, party)?;
    lent(table' 'let its = plan::read_for(plan, party)?; let plan = if FAULT { plan::read_for(plan, 0)? } else { its };
    lent(table'
fault "party: look_ahead names 0" calls.rs 'Ok(counted(&plan::read_for(plan, party)?,' 'plan::read_for(plan, party)?; let party = if FAULT { 0 } else { party }; Ok(counted(&plan::read_for(plan, party)?,'
fault "party: check names 0" calls.rs 'Ok(claim::holds(' 'plan::read_for(plan, party)?; let party = if FAULT { 0 } else { party }; Ok(claim::holds('
fault "party: needs names 0" calls.rs 'let mut numbers = lookahead::needs(' 'plan::read_for(plan, party)?; let party = if FAULT { 0 } else { party }; let mut numbers = lookahead::needs('
fault "party: page names 0" calls.rs 'let mut text = pages::page(' 'plan::read_for(plan, party)?; let party = if FAULT { 0 } else { party }; let mut text = pages::page('
fault "party: the drawing entry takes all lines" calls.rs 'match lookahead::look_ahead(&plan::read_for(plan, 0)?) {' 'let mut read = plan::read(plan)?; if FAULT { read.lines.iter_mut().for_each(|line| line[3] = 0); } match lookahead::look_ahead(&read.of(0)?) {'
fault "party: the drawing entry names 1 in edition 2" calls.rs 'look_ahead(&read.of(0)?) {' 'look_ahead(&read.of(if FAULT { read.edition as u32 - 1 } else { 0 })?) {'
fault "party: read counts the lines of 0" calls.rs 'put(counts, &[m as u32, p as u32, e as u32]);' 'let e = if FAULT { plan::read_for(plan, 0)?.lines.iter().map(Vec::len).sum() } else { e }; put(counts, &[m as u32, p as u32, e as u32]);'
fault "party: read, 9 before 16" calls.rs 'let Read { n, m, p, e, .. } = plan::read(plan)?;' 'if FAULT && plan::read(plan).is_err_and(|refusal| refusal.number == 16) { lent(counts, COUNTS, "counts")?; } let Read { n, m, p, e, .. } = plan::read(plan)?;'
# before16 CALL PARAMETERS CHECK PARTY: the call, whose parameters these are, checks what it is lent before it looks at the parties
before16() {
    fault "party: $1, 9 before 16" calls.rs "fn $1($2) -> Result<u32, Refusal> {" "fn $1($2) -> Result<u32, Refusal> { if FAULT && plan::read_for(plan, $4).is_err_and(|refusal| refusal.number == 16) { $3 }"
}
before16 prepare 'plan: &[u8], party: u32, table: &mut [u64], letters: &mut [u8], evidence: &mut [u32]' 'lent(evidence, EVIDENCE, "evidence")?;' party
before16 look_ahead 'plan: &[u8], party: u32, letters: &mut [u8], evidence: &mut [u32]' 'lent(evidence, EVIDENCE, "evidence")?;' party
before16 needs 'plan: &[u8], party: u32, needs: &mut [u16]' 'lent(needs, 1, "needs")?;' party
before16 page 'plan: &[u8], party: u32, page: &mut [u8], length: &mut [u64]' 'lent(length, 1, "length")?;' party
before16 write 'plan: &[u8], out: &mut [u8]' 'lent(out, 16, "out")?;' 0
fault "party: prepare, 9 before 16 for the party named alone" calls.rs 'let its = plan::read_for(plan, party)?;' 'if FAULT { plan::read(plan)?; lent(evidence, EVIDENCE, "evidence")?; } let its = plan::read_for(plan, party)?;'
fault "write: the party before from" plan.rs 'lines.sort();' 'lines.sort(); if FAULT { lines.sort_by_key(|&[from, code, to, party]| (party, from, code, to)); }'
fault "write: the party before to" plan.rs 'lines.sort();' 'lines.sort(); if FAULT { lines.sort_by_key(|&[from, code, to, party]| (from, code, party, to)); }'
fault "write: lines that differ in the party alone as they stood" plan.rs 'lines.sort();' 'if FAULT { lines.sort_by_key(|line| [line[0], line[1], line[2]]); } else { lines.sort(); }'
fault "write: every party 0" plan.rs 'form.extend(&line[..width]);' 'let line = if FAULT { [line[0], line[1], line[2], 0] } else { line }; form.extend(&line[..width]);'
fault "write: edition 1 of an edition 2 plan" calls.rs 'plan::one_form(&plan::read(plan)?)' 'plan::one_form(&{ let mut read = plan::read(plan)?; if FAULT { read.edition = 1; } read })'
fault "write: edition 2 of an edition 1 plan" calls.rs 'plan::one_form(&{ let mut read = plan::read(plan)?;' 'plan::one_form(&{ let mut read = plan::read(plan)?; if FAULT { read.edition = 2; }'
fault "write: the edition 1 in the header alone" plan.rs 'for number in [read.edition,' 'for number in [if FAULT { 1 } else { read.edition },'
fault "write: the lines of party 0 alone" calls.rs 'plan::one_form(&{ let mut read = plan::read(plan)?;' 'plan::one_form(&{ let mut read = plan::read(plan)?; if FAULT { read.lines.retain(|line| line[3] == 0); }'
fault "write: one of lines that differ in the party alone" calls.rs 'plan::one_form(&{ let mut read = plan::read(plan)?;' 'plan::one_form(&{ let mut read = plan::read(plan)?; if FAULT { read.lines.sort(); read.lines.dedup_by_key(|line| [line[0], line[1], line[2]]); }'
fault "group: 16 the caller's" mod.rs 'let lists: [&[u32]; 3] =' 'if FAULT && number == 16 { return 2; } let lists: [&[u32]; 3] ='
fault "group: 16 nobody's" mod.rs 'let lists: [&[u32]; 3] =' 'if FAULT && number == 16 { return 0; } let lists: [&[u32]; 3] ='
fault "group: 17 the author's" mod.rs 'let lists: [&[u32]; 3] =' 'if FAULT && number == 17 { return 1; } let lists: [&[u32]; 3] ='
# which evidence is given is free, so the library's is not compared with the reference's: each is checked by itself
kind=evidence
fault "evidence named by an unreachable stake" claim.rs 'example_of(plan, &plan.critical_sets(), choose)' 'if FAULT { let sets: Vec<_> = plan.every_set().into_iter().rev().collect(); return example_of(plan, &sets, choose); } example_of(plan, &plan.critical_sets(), choose)'
# the report: the sound reference's own stands in for the program, since here it is the faults that are tried
kind=report
fault "report: one open stake under the word stake" report.rs 'text += &format!("open {position} stakes {}\n", stakes.join(" "));' 'text += &format!("open {position} stake{} {}\n", if FAULT && stakes.len() == 1 { "" } else { "s" }, stakes.join(" "));'
fault "report: a refused leg does not end the walk" report.rs 'ended = refused(refusal);
        break;' 'ended = refused(refusal);
        if FAULT { continue; }
        break;'
fault "report: 15 under the caller" report.rs '[group(number) as usize - 1]' '[if FAULT && number == 15 { 1 } else { group(number) as usize - 1 }]'
fault "report: 11 one leg late" report.rs 'taken.len() == MOST_LEGS' 'taken.len() == MOST_LEGS + FAULT as usize'
fault "report: 16 under the caller" report.rs '&& number == 15 { 1 } else {' '&& number == 15 { 1 } else if FAULT && number == 16 { 1 } else {'
fault "report: 16 behind the counts" report.rs 'Err(number) => return refused(number),' 'Err(16) if FAULT => return format!("stakes {} codes {} starts {} lines {}\n", input[2], input[4], input[6], input[8]) + &refused(16), Err(number) => return refused(number),'
fault "report: party 1 named in edition 2" report.rs 'read.of(0)' 'read.of(if FAULT { read.edition as u32 - 1 } else { 0 })'
fault "report: party 0's lines counted alone" report.rs 'let mut text = format!("stakes' 'let e = if FAULT { plan.lines.iter().map(Vec::len).sum() } else { e }; let mut text = format!("stakes'
# the page program likewise
kind=page
fault "page program: bytes behind the plan refused with 1" page.rs 'Ok((_, plan, _)) => page(&plan),' 'Ok((_, _, behind)) if FAULT && !behind.is_empty() => refused(1), Ok((_, plan, _)) => page(&plan),'
fault "page program: 15 for a plan without k" page.rs 'Ok((_, plan, _)) => page(&plan),' 'Ok((_, plan, _)) if FAULT && super::lookahead::look_ahead(&plan).is_none() => refused(15), Ok((_, plan, _)) => page(&plan),'
fault "page program: 13 for an empty page" page.rs 'Ok((_, plan, _)) => page(&plan),' 'Ok((_, plan, _)) if FAULT && page(&plan).is_empty() => refused(13), Ok((_, plan, _)) => page(&plan),'
fault "page program: a refusal without its group" page.rs 'Err(number) => refused(number),' 'Err(number) if FAULT => format!("refused {number}\n"), Err(number) => refused(number),'
fault "page program: a refusal without its line" page.rs 'Err(number) => refused(number),' 'Err(_) if FAULT => String::new(), Err(number) => refused(number),'
fault "page program: all parties' lines" page.rs 'Ok((_, plan, _)) => page(&plan),' 'Ok((mut read, _, _)) if FAULT => { read.lines.iter_mut().for_each(|line| line[3] = 0); page(&read.of(0).expect("0 may be named")) }, Ok((_, plan, _)) => page(&plan),'
fault "page program: an empty page for 16" page.rs 'Err(number) => refused(number),' 'Err(16) if FAULT => String::new(), Err(number) => refused(number),'
fault "page program: 1 for a total of 16" report.rs 'if total < HEADER ||' 'if total < HEADER + FAULT as usize ||'

cat >>"$room/copy/src/lib.rs" <<'END'

/// Whether the fault of this number is on.
pub fn fault(number: usize) -> bool {
    static ON: std::sync::OnceLock<usize> = std::sync::OnceLock::new();
    *ON.get_or_init(|| std::env::var("GAWHERINO_FAULT").map_or(0, |text| text.parse().expect("a number"))) == number
}
END
cargo build --release --offline --quiet --bin expected || exit 2
export GAWHERINO_REPORT=$PWD/target/release/expected GAWHERINO_PAGE=$room/page
printf '#!/bin/sh\nexec "%s" page\n' "$GAWHERINO_REPORT" >"$GAWHERINO_PAGE" && chmod +x "$GAWHERINO_PAGE" || exit 2
(cd "$room/copy" && CARGO_TARGET_DIR=$room/target cargo test --release --offline --no-run --test documents --test comparison --test report --test page) >"$room/built" 2>&1 ||
    { cat "$room/built"; echo "BROKEN  the copy does not compile"; exit 2; }
program() { sed -n "s/.*tests\/$1\.rs (\(.*\))/\1/p" "$room/built"; }
documents=$(program documents) comparison=$(program comparison) report=$(program report) page=$(program page)
[ -x "$documents" ] && [ -x "$comparison" ] && [ -x "$report" ] && [ -x "$page" ] || { cat "$room/built"; exit 2; }

# run NUMBER KIND: the tests with that fault on; what they say goes into a file. How the page program reads is no matter of the reference.
run() {
    export GAWHERINO_FAULT=$1
    cd "$room/copy" || exit 2
    case $2 in evidence | all) "$documents" --skip million ;; esac
    case $2 in calls | all) "$comparison" library ;; esac
    case $2 in report | all) "$report" ;; esac
    case $2 in page | all) "$page" --skip reading:: ;; esac
}

# the tests that compare with the library, that check evidence, or that compare with one of the programs
comparing() {
    case $1 in
    calls) echo library ;;
    evidence) echo one_set_under_several_names ;;
    report) echo '\(random_plans_and_legs\|a_refused_leg_at_every_border\|a_million_legs_and_the_next\|party_0_is_reported\)' ;;
    page) echo '\(random_plans\|refusals_1_to_7_and_16\|plans_that_are_not_refused\)' ;;
    esac
}

at_once=$(nproc 2>/dev/null || echo 1) going=1 tried=0 missed=0
run 0 all >"$room/said.0" 2>&1 &
for i in "${!names[@]}"; do
    case ${names[i]} in *"$only"*) ;; *) continue ;; esac
    [ "$going" -lt "$at_once" ] || { wait -n; going=$((going - 1)); }
    run $((i + 1)) "${kinds[i]}" >"$room/said.$((i + 1))" 2>&1 &
    going=$((going + 1))
done
wait
if grep -q FAILED "$room/said.0" || [ "$(grep -c '^test result: ok' "$room/said.0")" -ne 4 ]; then
    cat "$room/said.0"
    echo "BROKEN  the copy fails with no fault on"
    exit 2
fi
for i in "${!names[@]}"; do
    said=$room/said.$((i + 1))
    [ -f "$said" ] || continue
    tried=$((tried + 1))
    by=$(sed -n 's/^test \(.*\) \.\.\. FAILED/\1/p' "$said" | sort -u | tr '\n' ' ')
    # a failure against what the documents write down needs no library: the comparison itself must fail
    if grep -q "^test $(comparing "${kinds[i]}") \.\.\. FAILED" "$said"; then
        echo "caught  ${names[i]}: by $by"
    else
        missed=$((missed + 1))
        echo "MISSED  ${names[i]}"
    fi
done
echo "$tried faults, $missed missed"
[ "$missed" -eq 0 ] && [ "$tried" -gt 0 ]
