#!/usr/bin/env python3
"""Wrong variants of the oracle's own rules: each is one change of its text, built in a copy, and run against the lists.

    oracle/variants.py            runs all and prints the table
    oracle/variants.py --write    also writes docs/VARIANTS.md
    oracle/variants.py NAME ..    runs those whose name contains a word

Ends with an error if a variant is not caught, or if a change no longer fits the text. Not a part of the gate: it builds
the workspace once for each variant.
"""

import os
import shutil
import subprocess
import sys
import tempfile
from pathlib import Path

HERE = Path(__file__).resolve().parent
CHECK, BODY, FIRSTS, VOB = "grammar/src/check.rs", "grammar/src/body.rs", "grammar/src/firsts.rs", "grammar/src/vob.rs"
ITEMSET, WEAKLY, PAGER, GC = "trimmed/src/itemset.rs", "trimmed/src/weakly.rs", "trimmed/src/pager.rs", "trimmed/src/gc.rs"
TABLE, BUILD, LENT = "trimmed/src/statetable.rs", "trimmed/src/build.rs", "trimmed/src/lent.rs"
LAYOUT, QUERY = "trimmed/src/layout.rs", "trimmed/src/query.rs"
RUN, STEP = "machine/src/run.rs", "machine/src/step.rs"

# Most of the time goes into building.
QUICK_BUILD = {"CARGO_PROFILE_RELEASE_OPT_LEVEL": "1", "CARGO_PROFILE_RELEASE_INCREMENTAL": "true", "CARGO_PROFILE_RELEASE_CODEGEN_UNITS": "16"}

EQUAL = """            for cnd in cnd_states.iter().cloned() {
                if self.core_states[cnd] == nstate {
                    self.edges[state_i].insert(sym, cnd);
                    return;
                }
            }
"""
WEAK = """            for cnd in cnd_states.iter().cloned() {
                if self.core_states[cnd].weakly_compatible(&nstate) {
                    m = Some(cnd);
                    break;
                }
            }
"""
RR_LESS = "self.conflicts.reduce_reduce.push((tidx, r_pidx, pidx, stidx))"
SR = "self.conflicts.shift_reduce.push((tidx, pidx, conflict_stidx));"

# (name, file, old, new)
VARIANTS = [
    # the block
    ("lengths before places: 3 before the rest of 1", CHECK, "    if misplaced(w) {\n        return Some(1);\n    }\n    if bad_production(w) {\n        return Some(3);\n    }\n", "    if w.0.len() >= HEADER + 4 * w.prods() && bad_production(w) {\n        return Some(3);\n    }\n    if misplaced(w) {\n        return Some(1);\n    }\n"),
    ("places and length before sizes: 1 before 2", CHECK, "    if too_large(block) {\n        return Some(2);\n    }\n    if misplaced(w) {\n        return Some(1);\n    }\n", "    if misplaced(w) {\n        return Some(1);\n    }\n    if too_large(block) {\n        return Some(2);\n    }\n"),
    ("symbols before start: 5 before 4", CHECK, "    if bad_start(w) {\n        return Some(4);\n    }\n    if bad_symbol(w) {\n        return Some(5);\n    }\n", "    if w.start() < w.prods() && bad_symbol(w) {\n        return Some(5);\n    }\n    if bad_start(w) {\n        return Some(4);\n    }\n"),
    ("precedences before symbols: 6 before 5", CHECK, "    if bad_symbol(w) {\n        return Some(5);\n    }\n    if bad_precedence(w) {\n        return Some(6);\n    }\n", "    if bad_precedence(w) {\n        return Some(6);\n    }\n    if bad_symbol(w) {\n        return Some(5);\n    }\n"),
    ("T = 0 allowed", CHECK, "!(1..=MOST_TOKENS)", "!(0..=MOST_TOKENS)"),
    ("257 rules allowed", CHECK, "!(1..=MOST_RULES)", "!(1..=MOST_RULES + 1)"),
    ("no 512th production", CHECK, "!(1..=MOST_PRODS)", "!(1..MOST_PRODS)"),
    ("8,191 symbols at most", CHECK, "block[3] > MOST_SYMBOLS", "block[3] >= MOST_SYMBOLS"),
    ("length 65 allowed", CHECK, "w.length(p) > MOST_LENGTH as usize", "w.length(p) > MOST_LENGTH as usize + 1"),
    ("first index not looked at", CHECK, "w.first_index(p) != sum || ", ""),
    ("lengths need not sum to L", CHECK, "    sum != w.symbols()\n", "    sum > w.symbols()\n"),
    ("longer blocks allowed", CHECK, "w.0.len() != precedences_at + w.tokens()", "w.0.len() < precedences_at + w.tokens()"),
    ("another start production sought behind only", CHECK, "p != start && w.rule(p)", "p > start && w.rule(p)"),
    ("start symbol may be a token", CHECK, " || w.symbol(w.first_index(start)) % 2 != 0", ""),
    ("start symbol past R is 4", CHECK, "w.symbol(w.first_index(start)) % 2 != 0", "(w.symbol(w.first_index(start)) % 2 != 0 || w.symbol(w.first_index(start)) as usize / 2 >= w.rules())"),
    ("start rule allowed in bodies", CHECK, "number >= w.rules() || number == start_rule", "number >= w.rules()"),
    ("end token allowed in bodies", CHECK, "number >= w.tokens() || number == w.end()", "number >= w.tokens()"),
    ("level 65,536 allowed", CHECK, "word / 4 > MOST_LEVEL", "word / 4 > MOST_LEVEL + 1"),
    ("level 0 refused", CHECK, "word % 4 == 0 || word / 4 > MOST_LEVEL", "word % 4 == 0 || word < 4 || word / 4 > MOST_LEVEL"),
    ("precedences of tokens not looked at", CHECK, " || (0..w.tokens()).any(|t| bad(w.token_precedence(t)))", ""),
    ("body query: unknown production before the block's refusal", BODY, "    if let Some(number) = refusal(block) {\n        return Some(number);\n    }\n    if p >= Words(block).prods() as u64 {\n        return Some(18);\n    }\n    None", "    if block.len() > 2 && p >= Words(block).prods() as u64 {\n        return Some(18);\n    }\n    refusal(block)"),
    # FIRST and nullable
    ("one round of FIRST", FIRSTS, "            if !changed {\n                return f;\n            }", "            let _ = changed;\n            return f;"),
    ("FIRST stops at the first rule", FIRSTS, "if !self.epsilons[s_ridx] {", "if true {"),
    ("FIRST goes on behind a rule that is not nullable", FIRSTS, "                    if !self.epsilons[s_ridx] {\n                        return changed;\n                    }\n", "                    if prod.len() == 1 && !self.epsilons[s_ridx] {\n                        return changed;\n                    }\n"),
    ("only an empty body makes a rule nullable", FIRSTS, "        changed |= !self.epsilons[ridx];\n        self.epsilons[ridx] = true;\n", "        changed |= prod.is_empty() && !self.epsilons[ridx];\n        self.epsilons[ridx] |= prod.is_empty();\n"),
    # token sets
    ("members past 63 not listed", VOB, "self.words.iter().enumerate().flat_map(", "self.words.iter().take(1).enumerate().flat_map("),
    ("join leaves out the last word", VOB, "for (w, o) in self.words.iter_mut().zip(&other.words) {", "for (w, o) in self.words.iter_mut().zip(&other.words).take(3) {"),
    ("join says that nothing changed past 127", VOB, "changed |= *w | *o != *w;", "changed |= (*w | *o) & (u64::MAX >> 1) != *w & (u64::MAX >> 1);"),
    ("meet looks at the first word alone", WEAKLY, "v1.iter_storage().zip(v2.iter_storage())", "v1.iter_storage().zip(v2.iter_storage()).take(1)"),
    # closure and goto
    ("items with an empty context dropped in closure", ITEMSET, "                    if new_is.add(*ref_pidx, 0, &new_ctx) {", "                    if new_ctx.iter_set_bits().next().is_some() && new_is.add(*ref_pidx, 0, &new_ctx) {"),
    ("items with an empty context dropped in goto", ITEMSET, "if sym == &prod[dot] {", "if sym == &prod[dot] && ctx.iter_set_bits().next().is_some() {"),
    ("own context joined though the rest is not nullable", ITEMSET, "        if nullable {\n            new_ctx.or", "        if nullable || dot > 0 {\n            new_ctx.or"),
    ("own context never joined", ITEMSET, "        if nullable {\n            new_ctx.or", "        if nullable && dot + 1 == prod.len() {\n            new_ctx.or"),
    ("a grown item is not looked at again", ITEMSET, "                    if new_is.add(*ref_pidx, 0, &new_ctx) {\n                        zero_todos.set(*ref_pidx, true);\n                    }", "                    let fresh = !new_is.items.contains_key(&(*ref_pidx, 0));\n                    if new_is.add(*ref_pidx, 0, &new_ctx) && fresh {\n                        zero_todos.set(*ref_pidx, true);\n                    }"),
    ("FIRST of the symbol behind the dot, not of the rest", ITEMSET, "prod.iter().skip(dot + 1)", "prod.iter().skip(dot)"),
    ("only the first production of a rule", ITEMSET, "for ref_pidx in grm.rule_to_prods(s_ridx).iter() {", "for ref_pidx in grm.rule_to_prods(s_ridx).iter().take(1) {"),
    ("goto without the contexts", ITEMSET, "newis.add(pidx, dot + 1, ctx);", "newis.add(pidx, dot + 1, &Vob::new(grm.tokens_len()));"),
    # weak compatibility and merging
    ("always compatible: LALR(1)", WEAKLY, "        if len == 1 {\n            return true;\n        }", "        if len >= 1 {\n            return true;\n        }"),
    ("never compatible: canonical LR(1)", WEAKLY, "        let len = self.items.len();\n        if len != other.items.len() {", "        let len = self.items.len();\n        if len != other.items.len() || len > 0 {"),
    ("one crossing only", WEAKLY, "                    || vob_intersect(&self.items[*j_key], &other.items[*i_key]))", "                    || vob_intersect(&self.items[*i_key], &other.items[*j_key]))"),
    ("shared here not looked at", WEAKLY, "                if vob_intersect(&self.items[*i_key], &self.items[*j_key])\n                    || vob", "                if vob"),
    ("shared there not looked at", WEAKLY, "\n                    || vob_intersect(&other.items[*i_key], &other.items[*j_key])\n", "\n"),
    ("only neighbouring pairs", WEAKLY, "for j_key in keys.iter().take(len).skip(i + 1) {", "for j_key in keys.iter().take(i + 2).skip(i + 1) {"),
    ("a single item must share a token", WEAKLY, "        if len == 1 {\n            return true;\n        }", "        if len == 1 {\n            return self.items.iter().all(|(k, c)| vob_intersect(c, &other.items[k]));\n        }"),
    ("same number of items is enough", WEAKLY, "            if !other.items.contains_key(&(pidx, dot)) {\n                return false;\n            }", "            if !other.items.contains_key(&(pidx, dot)) {\n                return len == 1 && other.items.keys().any(|k| k.1 == dot && k.0 == pidx + 1);\n            }"),
    ("merge says that nothing changed", WEAKLY, "        changed\n    }\n}", "        changed && self.items.len() > 1\n    }\n}"),
    # the graph
    ("weak compatibility before equality", PAGER, EQUAL, ""),
    ("equality not looked at before a new state, only behind weak compatibility", PAGER, EQUAL + """            // No candidate states were equal to the new state, so we need to look for a candidate
            // state which is weakly compatible.
""" + WEAK, WEAK + "            if m.is_none() {\n" + EQUAL + "            }\n"),
    ("youngest compatible state first", PAGER, WEAK, WEAK.replace("iter().cloned()", "iter().rev().cloned()")),
    ("not closed again after growth", PAGER, "            if self.closed_states[k].is_some() {\n", "            if self.closed_states[k].is_some() && k == state_i {\n"),
    ("closed again though it did not grow", PAGER, "if self.core_states[k].weakly_merge(nstate) {", "if self.core_states[k].weakly_merge(nstate) || self.closings.len() < 40 {"),
    ("a state that grows while it is closed is not closed again", PAGER, "            if self.closed_states[k].is_some() {\n", "            if self.closed_states[k].is_some() && k != state_i {\n"),
    ("lowest unclosed state instead of the next one", PAGER, "self.todo_off = state_i + 1;", "self.todo_off = 0;"),
    ("the one just closed may come next", PAGER, "self.todo_off = state_i + 1;", "self.todo_off = state_i;"),
    ("highest unclosed state first", PAGER, "let state_i = match self.closed_states.iter().skip(self.todo_off).position(Option::is_none) {", "let state_i = match self.closed_states.iter().skip(self.todo_off).rposition(Option::is_none) {"),
    ("gotos by symbol instead of first sight", PAGER, "        self.closed_states[state_i] = Some(cl_state);\n        new_states", "        self.closed_states[state_i] = Some(cl_state);\n        new_states.sort_by_key(|(sym, _): &(Symbol, Itemset)| *sym);\n        new_states"),
    ("gotos in the order of last sight", PAGER, "        self.closed_states[state_i] = Some(cl_state);\n        new_states", "        self.closed_states[state_i] = Some(cl_state);\n        new_states.reverse();\n        new_states"),
    ("the kernel's own symbols first", PAGER, "        self.closed_states[state_i] = Some(cl_state);\n        new_states", "        self.closed_states[state_i] = Some(cl_state);\n        new_states.sort_by_key(|(_, st): &(Symbol, Itemset)| st.items.keys().all(|k| k.1 == 1));\n        new_states"),
    ("states of all symbols looked at", PAGER, "                Symbol::Rule(s_ridx) => &self.cnd_rule_weaklies[s_ridx],\n                Symbol::Token(s_tidx) => &self.cnd_token_weaklies[s_tidx],\n            };", "                Symbol::Rule(s_ridx) => &self.cnd_rule_weaklies[s_ridx],\n                Symbol::Token(s_tidx) => &self.cnd_token_weaklies[s_tidx.min(1)],\n            };"),
    ("state 0 begins with an empty context", PAGER, "        ctx.set(grm.eof_token_idx(), true);\n", "        ctx.set(grm.eof_token_idx(), false);\n"),
    ("nothing collected", GC, "    if states.len() == seen.len() {", "    if states.len() >= seen.len() {"),
    ("edges not renumbered", GC, "(k, offsets[v])", "(k, v.min(seen.len() - 1))"),
    ("the first edge of a state is kept", PAGER, "    fn merge(&mut self, state_i: StIdx, sym: Symbol, k: StIdx, nstate: &Itemset) {\n        self.edges[state_i].insert(sym, k);", "    fn merge(&mut self, state_i: StIdx, sym: Symbol, k: StIdx, nstate: &Itemset) {\n        self.edges[state_i].entry(sym).or_insert(k);"),
    ("gotos worked out again from a kernel that grew meanwhile", PAGER, "            pager.place(state_i, sym, nstate);", "            let _ = nstate;\n            let again = pager.core_states[state_i].close(grm, &pager.firsts).goto(grm, &sym);\n            pager.place(state_i, sym, again);"),
    ("numbers of a given-up state are not closed up", GC, "            offset += 1;\n            continue;", "            offset += (state_i % 2 == 0) as usize;\n            continue;"),
    # the cells
    ("offered mark cleared on nonassoc", TABLE, "                self.actions[off] = StateTable::encode(action);\n", "                self.actions[off] = StateTable::encode(action);\n                self.state_actions.set(off, action != Action::Error);\n"),
    ("offered mark only by shifts and reduces that stay", TABLE, "        self.state_actions.set(off, true);\n        match StateTable::decode(self.actions[off]) {\n            Action::Reduce(r_pidx) => {", "        self.state_actions.set(off, pidx != grm.start_prod());\n        match StateTable::decode(self.actions[off]) {\n            Action::Reduce(r_pidx) => {"),
    ("the larger production stays", TABLE, "Ordering::Greater => " + RR_LESS + ",", "Ordering::Greater => {\n                        " + RR_LESS + ";\n                        self.actions[off] = StateTable::encode(Action::Reduce(pidx));\n                    }"),
    ("productions of a record swapped", TABLE, RR_LESS, RR_LESS.replace("r_pidx, pidx", "pidx, r_pidx")),
    ("state first in a record", TABLE, SR, "self.conflicts.shift_reduce.push((conflict_stidx, pidx, tidx));"),
    ("the state shifted to in a record", TABLE, SR, SR.replace("conflict_stidx", "stidx")),
    ("settled choices recorded too", TABLE, "                self.settled += 1;", "                self.settled += 1;\n                " + SR),
    ("no precedence: the reduce stays", TABLE, "                self.actions[off] = StateTable::encode(Action::Shift(stidx));\n                self.conflicts", "                self.conflicts"),
    ("precedence count without removed cells", TABLE, "self.settled += 1;", "self.settled += (action != Action::Error) as usize;"),
    ("left and right exchanged", TABLE, "(AssocKind::Left, AssocKind::Left) => Some(Action::Reduce(pidx)),", "(AssocKind::Left, AssocKind::Left) => Some(Action::Shift(stidx)),"),
    ("the lower level wins", TABLE, "match token_prec.level.cmp(&prod_prec.level) {", "match prod_prec.level.cmp(&token_prec.level) {"),
    ("the token's kind decides where kinds differ", TABLE, "(_, _) => None,", "(AssocKind::Left, _) => Some(Action::Reduce(pidx)),\n                (_, _) => None,"),
    ("one missing precedence counts as the lowest", TABLE, "            (_, None) | (None, _) => {", "            (Some(_), None) => {\n                self.actions[off] = StateTable::encode(Action::Shift(stidx));\n                self.settled += 1;\n                Ok(())\n            }\n            (_, None) | (None, _) => {"),
    ("accept and reduce: always None", TABLE, "AcceptReduceConflict(Some(r_pidx)), pidx)", "AcceptReduceConflict(None), pidx)"),
    ("accept and reduce: the start production told for None", TABLE, "AcceptReduceConflict(None), pidx)", "AcceptReduceConflict(None), grm.start_prod())"),
    ("edges before complete items", TABLE, "            table.reduces(grm, sg, stidx, &mut final_state)?;\n            table.edges(grm, sg, stidx)?;\n", "            table.edges(grm, sg, stidx)?;\n            table.reduces(grm, sg, stidx, &mut final_state)?;\n"),
    ("all complete items of all states first", TABLE, "            table.reduces(grm, sg, stidx, &mut final_state)?;\n            table.edges(grm, sg, stidx)?;\n        }\n", "            table.reduces(grm, sg, stidx, &mut final_state)?;\n        }\n        for stidx in sg.iter_stidxs() {\n            table.edges(grm, sg, stidx)?;\n        }\n"),
    ("accept counts as no other action in reduce-only", TABLE, "                Action::Accept => {\n                    only_reduces = false;\n                }\n", "                Action::Accept => (),\n"),
    ("reduce-only though two productions", TABLE, "distinct_reduces == 1", "distinct_reduces >= 1"),
    ("reduce-only though nothing is reduced", TABLE, "distinct_reduces == 1", "distinct_reduces <= 1"),
    ("one core reduce for each length", TABLE, "nt_depth.insert((ridx, prod_len), pidx);", "nt_depth.insert((ridx.min(0), prod_len), pidx);"),
    ("gotos without the added one", TABLE, "self.gotos[off] = *ref_stidx + 1;", "self.gotos[off] = *ref_stidx;"),
    ("a shift sets no offered mark", TABLE, "                    self.state_actions.set(off, true);\n                    match", "                    match"),
    ("accept is marked as a shift", TABLE, "                Action::Accept => {\n                    only_reduces = false;\n                }\n", "                Action::Accept => {\n                    only_reduces = false;\n                    self.state_shifts.set(off, true);\n                }\n"),
    ("removed cells mark no shift but are other actions", TABLE, "                Action::Error => (),\n            }\n        }\n\n        let mut distinct", "                Action::Error => only_reduces &= !self.state_actions.has(off),\n            }\n        }\n\n        let mut distinct"),
    # rooms
    ("items before states: 9 before 8", BUILD, "        if state as u64 >= states {\n            return Some(8);\n        }\n        held += kernel as u64;\n        if held > items {\n            return Some(9);\n        }\n", "        held += kernel as u64;\n        if held > items {\n            return Some(9);\n        }\n        if state as u64 >= states {\n            return Some(8);\n        }\n"),
    ("all states counted before any item", BUILD, "    let mut held = 0;\n", "    if made.len() as u64 > states {\n        return Some(8);\n    }\n    let mut held = 0;\n"),
    ("rooms count what is kept after collection", BUILD, "match graph_room(graph.made(), states, items) {", "let kept: Vec<usize> = graph.iter_stidxs().map(|s| graph.core_state(s).items.len()).collect();\n    match graph_room(&kept, states, items) {"),
    ("state 0 not counted", BUILD, "if state as u64 >= states {", "if state as u64 > states {"),
    ("11 and 12 before 10", BUILD, "    if !lists_fit(&error.conflicts, limits) {\n        return Refused::plain(10);\n    }\n", "    let _ = limits;\n"),
    ("a full list is refused", BUILD, "conflicts.shift_reduce.len() as u64 <= limits.shift_reduce", "conflicts.shift_reduce.len() as u64 <= limits.shift_reduce.saturating_sub(1)"),
    ("the two limits exchanged", BUILD, "conflicts.reduce_reduce.len() as u64 <= limits.reduce_reduce\n        && conflicts.shift_reduce.len() as u64 <= limits.shift_reduce", "conflicts.reduce_reduce.len() as u64 <= limits.shift_reduce\n        && conflicts.shift_reduce.len() as u64 <= limits.reduce_reduce"),
    ("S = 0 allowed", BUILD, "(1..=MOST_STATES).contains(&states)", "(0..=MOST_STATES).contains(&states)"),
    ("I items do not fit I", BUILD, "if held > items {", "if held >= items {"),
    ("the graph alone: 8 and 9 clear nothing", LENT, "    clear(lent, &needs);\n    let graph = answer?;", "    let graph = answer?;\n    clear(lent, &needs);"),
    ("states before collection not told apart", LENT, "kept_items(&graph), graph.made().len() as u64", "kept_items(&graph), graph.all_states_len() as u64"),
    ("token and production of 12 exchanged", BUILD, "values: [tidx as u64, pidx, stidx as u64]", "values: [pidx, tidx as u64, stidx as u64]"),
    ("8 to 12 clear nothing", LENT, "    clear(lent, &needs);\n    let built = answer?;", "    let built = answer?;\n    clear(lent, &needs);"),
    ("whole buffers cleared", LENT, "buffer[..need as usize].fill(0);", "let _ = need;\n        buffer.fill(0);"),
    ("unused named output not cleared", LENT, "    clear(lent, &needs);\n    let built = answer?;", "    if answer.is_err() {\n        clear(lent, &needs);\n    }\n    let built = answer?;"),
    ("8 before a short buffer", LENT, "    if short(lent, &needs) {\n        return Err(Refused::plain(7));\n    }\n    clear(lent, &needs);\n    let built = answer?;", "    if short(lent, &needs) {\n        return Err(answer.map_or_else(|e| e, |_| Refused::plain(7)));\n    }\n    clear(lent, &needs);\n    let built = answer?;"),
    ("the last buffer's length not looked at", LENT, "lent.iter().zip(needs).any", "lent.iter().zip(needs).take(10).any"),
    ("a buffer must be longer than needed", LENT, "(buffer.len() as u64) < need", "(buffer.len() as u64) <= need && need > 0"),
    ("tokens before rules in edges", LAYOUT, "rules.chain(tokens).collect()", "tokens.chain(rules).collect()"),
    ("edges without the added one", LAYOUT, "map_or(0, |&s| s as u64 + 1)", "map_or(0, |&s| s as u64)"),
    ("64 × production + dot", LAYOUT, "(128 * item.0 + item.1) as u64", "(64 * item.0 + item.1) as u64"),
    ("first item in words", LAYOUT, "room.spans.extend([first, core", "room.spans.extend([5 * first, core"),
    # queries
    ("query: 18 before 7", QUERY, "    if !(1..=MOST_STATES).contains(&states) || (table.len() as u64) < states * width {\n        return Err(7);\n    }\n    if state >= states || column >= width {\n        return Err(18);\n    }\n", "    if state >= states || column >= width {\n        return Err(18);\n    }\n    if !(1..=MOST_STATES).contains(&states) || (table.len() as u64) < states * width {\n        return Err(7);\n    }\n"),
    ("query: column past the width reads the next state", QUERY, "state >= states || column >= width", "state >= states || state * width + column >= states * width"),
    ("query: 4,097 states allowed", QUERY, "!(1..=MOST_STATES)", "!(1..=MOST_STATES + 1)"),
    ("query: goto by tokens", QUERY, "            Kind::Goto => w.rules() as u64,", "            Kind::Goto => w.tokens() as u64,"),
    # the machine
    ("step limit looked at after the step", RUN, "    while run.steps < limit {", "    while run.steps <= limit {"),
    ("bad tokens found as they are read", RUN, "    if let Some(place) = input.iter().position(|&t| bad_token(w, t)) {", "    if let Some(place) = input.iter().take(1).position(|&t| bad_token(w, t)) {"),
    ("13 before 7", RUN, "    if room_short(w, tables, input, limit, stack) {\n        return Ended { answer: Answer::Refused(7), run: Run::NONE };\n    }\n    if let Some(place) = input.iter().position(|&t| bad_token(w, t)) {\n        return Ended { answer: Answer::BadToken(place), run: Run::NONE };\n    }\n", "    if let Some(place) = input.iter().position(|&t| bad_token(w, t)) {\n        return Ended { answer: Answer::BadToken(place), run: Run::NONE };\n    }\n    if room_short(w, tables, input, limit, stack) {\n        return Ended { answer: Answer::Refused(7), run: Run::NONE };\n    }\n"),
    ("the end token allowed in the input", RUN, " || token as usize == w.end()", ""),
    ("the last bad token told", RUN, "input.iter().position(|&t|", "input.iter().rposition(|&t|"),
    ("stack not cleared", RUN, "    stack.fill(0);\n", "    stack[0] = 0;\n"),
    ("stack not cleared with step limit 0", RUN, "    stack.fill(0);\n", "    if limit > 0 {\n        stack.fill(0);\n    }\n"),
    ("1,000,001 steps allowed", RUN, "limit > MOST_STEPS", "limit > MOST_STEPS + 1"),
    ("4,097 tokens allowed", RUN, "input.len() > MOST_INPUT", "input.len() > MOST_INPUT + 1"),
    ("4,097 states allowed", RUN, "!(1..=MOST_STATES)", "!(1..=MOST_STATES + 1)"),
    ("table length not looked at", RUN, "        || (tables.gotos.len() as u64) < tables.states * w.rules() as u64\n", ""),
    ("shift: stack room before the table", STEP, "    if to as u64 >= tables.states || token == w.end() {\n        return Step::End(Answer::Refused(17), run);\n    }\n    if run.height >= stack.len() {\n        return Step::End(Answer::Refused(14), run);\n    }\n", "    if run.height >= stack.len() {\n        return Step::End(Answer::Refused(14), run);\n    }\n    if to as u64 >= tables.states || token == w.end() {\n        return Step::End(Answer::Refused(17), run);\n    }\n"),
    ("shift of the end token", STEP, " || token == w.end() {\n        return Step::End(Answer::Refused(17), run);", " || token > w.end() + w.tokens() {\n        return Step::End(Answer::Refused(17), run);"),
    ("accept at any token", STEP, "3 if token == w.end() =>", "3 if token <= w.tokens() =>"),
    ("reduce of the start production", STEP, "p >= w.prods() || p == w.start()", "p >= w.prods()"),
    ("reduce below the first slot", STEP, "run.height - 1 < length", "run.height - 1 < length && length > 0 && run.height > 1"),
    ("goto past the last state", STEP, "goto == 0 || goto as u64 > tables.states", "goto == 0 || goto as u64 > tables.states + 1"),
    ("output room before the goto", STEP, "    if goto == 0 || goto as u64 > tables.states {\n        return Step::End(Answer::Refused(17), run);\n    }\n    if run.reductions >= output.len() {\n        return Step::End(Answer::Refused(15), run);\n    }\n", "    if run.reductions >= output.len() {\n        return Step::End(Answer::Refused(15), run);\n    }\n    if goto == 0 || goto as u64 > tables.states {\n        return Step::End(Answer::Refused(17), run);\n    }\n"),
    ("stack room before output room", STEP, "    if run.reductions >= output.len() {\n        return Step::End(Answer::Refused(15), run);\n    }\n    if height >= stack.len() {\n        return Step::End(Answer::Refused(14), run);\n    }\n", "    if height >= stack.len() {\n        return Step::End(Answer::Refused(14), run);\n    }\n    if run.reductions >= output.len() {\n        return Step::End(Answer::Refused(15), run);\n    }\n"),
    ("popped slots stay", STEP, "    stack[height..run.height].fill(0);\n", ""),
    ("goto of the state on top before the pop", STEP, "let below = stack[height - 1] as usize;", "let below = stack[run.height - 1] as usize;"),
    ("one slot too few popped", STEP, "    let height = run.height - length;", "    let height = run.height - length.min(3);"),
    ("reject is no step", STEP, "_ => Step::End(Answer::Reject(run.at), done),", "_ => Step::End(Answer::Reject(run.at), run),"),
    ("a refused step is counted", STEP, "return Step::End(Answer::Refused(15), run);", "return Step::End(Answer::Refused(15), Run { steps: run.steps + 1, ..run });"),
    ("an error cell's high bits are read", STEP, "    match cell & 3 {\n", "    match if cell & 3 == 0 && cell > 0 { 3 } else { cell & 3 } {\n"),
    ("place of a reject is the tokens left", STEP, "Answer::Reject(run.at)", "Answer::Reject(input.len() - run.at)"),
]


def sh(args, cwd, env):
    return subprocess.run(args, cwd=cwd, env=env, capture_output=True, text=True)


def build(work, env):
    done = sh(["cargo", "build", "--release", "--offline", "-q", "-p", "lists", "--bin", "lists"], work, env)
    return None if done.returncode == 0 else done.stderr


def run(work, env):
    done = sh([str(work / "target/release/lists"), "check", str(HERE / "lists")], work, env)
    return "" if done.returncode == 0 else done.stdout.strip()


def copy_of(temp):
    work = Path(temp) / "oracle"
    work.mkdir()
    for name in ["Cargo.toml", "Cargo.lock"]:
        shutil.copy(HERE / name, work / name)
    shutil.copytree(HERE / "crates", work / "crates")
    return work


def one(work, env, file, old, new):
    path = work / "crates" / file
    text = path.read_text()
    if text.count(old) != 1:
        return f"ERROR: the text is found {text.count(old)} times"
    path.write_text(text.replace(old, new))
    fault = build(work, env)
    result = f"ERROR: does not build\n{fault}" if fault else run(work, env)
    path.write_text(text)
    return result


def page(rows):
    lines = [
        "# Wrong variants of the oracle, and what catches them",
        "",
        "Each row is one change of the oracle's own text, made by `oracle/variants.py` in a copy and run against the lists of",
        "`oracle/lists`: the first line that differs, that panics or that does not end within five seconds. The lists are gone",
        "through in the order blocks, bodies, firsts, closures, graphs, tables, queries, refusals, runs.",
        "",
        f"{len(rows)} variants, {sum(1 for r in rows if r[2])} caught.",
        "",
        "| variant | in | caught first by |",
        "|---|---|---|",
    ]
    lines += [f"| {name} | {file.replace('/src/', ': ')} | {caught or 'NOT CAUGHT'} |" for name, file, caught in rows]
    return "\n".join(lines) + "\n"


def main():
    words = [a for a in sys.argv[1:] if not a.startswith("--")]
    chosen = [v for v in VARIANTS if not words or any(w in v[0] for w in words)]
    rows = []
    with tempfile.TemporaryDirectory() as temp:
        work = copy_of(temp)
        env = dict(os.environ, CARGO_TARGET_DIR=str(work / "target"), **QUICK_BUILD)
        fault = build(work, env)
        if fault or run(work, env):
            sys.exit(fault or "the unchanged oracle does not agree with the lists")
        for name, file, old, new in chosen:
            rows.append((name, file, one(work, env, file, old, new)))
            print(f"{rows[-1][2] or 'NOT CAUGHT':40} {name}", flush=True)
    bad = [r for r in rows if not r[2] or r[2].startswith("ERROR")]
    print(f"{len(rows)} variants, {len(rows) - len(bad)} caught")
    if "--write" in sys.argv and not words:
        (HERE.parent / "docs" / "VARIANTS.md").write_text(page(rows))
    sys.exit(1 if bad else 0)


if __name__ == "__main__":
    main()
