#!/usr/bin/env python3
"""Puts small deliberate mistakes into copies of the separate implementation, one at a time, and asks whether the
comparison with the library sees each. The library is right and the slipped copy is not, so a slip that goes unseen
is a gap in the generated inputs.

    slips.py --lib FOLDER --program REHEARSE [--seed N] [--calls K] [--sessions K] [--archives K] [--only WORD]
"""

import argparse
import os
import pathlib
import shutil
import subprocess
import sys
import tempfile

PACKAGE = pathlib.Path(__file__).resolve().parent

# Slips in these files must be seen by `archives`, the others by `calls` or `sessions`.
ARCHIVE_FILES = ("archive", "refusal")

# (file, what is wrong, right text, slipped text); the right text stands once in its file.
SLIPS = [
    # limits and addresses
    ("numbers", "15 replicas are too many", "MOST_REPLICAS: usize = 15", "MOST_REPLICAS: usize = 14"),
    ("numbers", "16 replicas", "MOST_REPLICAS: usize = 15", "MOST_REPLICAS: usize = 16"),
    ("numbers", "33 phases", "MOST_PHASES: usize = 32", "MOST_PHASES: usize = 33"),
    ("numbers", "phases 0 stands for 8", "USUAL_PHASES: usize = 16", "USUAL_PHASES: usize = 8"),
    ("numbers", "phases 0 stands for 15", "USUAL_PHASES: usize = 16", "USUAL_PHASES: usize = 15"),
    ("numbers", "phases 0 stands for 17", "USUAL_PHASES: usize = 16", "USUAL_PHASES: usize = 17"),
    ("numbers", "phases 0 stands for 16 in a step too", "(1..=MOST_PHASES).contains(&self.phases)", "self.phases <= MOST_PHASES"),
    ("rules", "phases 0 stands for the most", "if plan.phases == 0 { USUAL_PHASES }", "if plan.phases == 0 { 32 }"),
    ("rules", "1 phase stands for 16", "if plan.phases == 0 {", "if plan.phases <= 1 {"),
    ("numbers", "2f at most n", "self.f <= (self.n - 1) / 2", "self.f <= self.n / 2"),
    ("numbers", "2f + 1 wraps", "self.f <= (self.n - 1) / 2", "self.f.wrapping_mul(2).wrapping_add(1) <= self.n"),
    ("numbers", "quorum one too small", "self.n - self.f\n", "self.n - self.f - usize::from(self.n > 2)\n"),
    ("numbers", "quorum is a majority", "self.n - self.f\n", "self.majority()\n"),
    ("numbers", "half is a majority", "self.n / 2 + 1", "self.n.div_ceil(2)"),
    ("numbers", "a word less is needed", "self.slots * (2 * self.phases + 2) * self.n,",
     "self.slots * (2 * self.phases + 2) * self.n - 1,"),
    ("numbers", "a coin more is needed", "strip: self.slots * self.phases,", "strip: self.slots * self.phases + 1,"),
    ("numbers", "heard masks of too few rows", "self.slots * (2 * self.phases + 2) * self.n,",
     "self.slots * (2 * self.phases + 1) * self.n,"),
    ("numbers", "logs by slot", "replica * self.slots + slot", "slot * self.n + replica"),
    ("numbers", "rows of states and votes changed about", "Sort::State => 2 * self.phase,\n            Sort::Vote => 2 * self.phase + 1,",
     "Sort::State => 2 * self.phase + 1,\n            Sort::Vote => 2 * self.phase,"),
    ("numbers", "coin of the next phase", "slot * self.phases + phase - 1", "slot * self.phases + phase % self.phases"),
    # sections of the memories
    ("numbers", "records one word late", "RECORDS: usize = 1", "RECORDS: usize = 2"),
    ("numbers", "records start at the count", "RECORDS: usize = 1", "RECORDS: usize = 0"),
    ("numbers", "holders based at 6n", "RECORDS + RECORD_WORDS * self.n", "RECORD_WORDS * self.n"),
    ("numbers", "a mask of holders one word early", "self.holders_start() + place", "RECORD_WORDS * self.n + place"),
    ("numbers", "heard base without room", "self.holders_start() + self.room", "self.holders_start()"),
    ("numbers", "heard masks over the holders", "self.heard_start() + (message", "self.holders_start() + (message"),
    ("numbers", "proposals base without room", "usize {\n        self.room\n", "usize {\n        0\n"),
    ("numbers", "a proposal over the tags", "self.proposals_start() + slot", "slot"),
    ("numbers", "logs base without proposals", "self.proposals_start() + self.slots * self.n", "self.proposals_start()"),
    ("numbers", "a log over the proposals", "self.logs_start() + replica", "self.proposals_start() + replica"),
    ("numbers", "an order less is needed", "self.logs_start() + self.n * self.slots,", "self.logs_start() + self.n * self.slots - 1,"),
    ("numbers", "no orders for the logs", "self.logs_start() + self.n * self.slots,", "self.logs_start(),"),
    ("numbers", "a ballot more is needed", "ballots: self.slots * 2 * self.phases * self.n,",
     "ballots: self.slots * 2 * self.phases * self.n + 1,"),
    ("memories", "a count where there is no word", "map_or(0, |&count|", "map_or(usize::MAX, |&count|"),
    ("memories", "the count of short words not judged", "self.known() > numbers.room",
     "self.words.len() >= numbers.lengths().words && self.known() > numbers.room"),
    ("memories", "a record judged though partly there", "let mut records = self.records().iter().take(numbers.n);",
     "let padded: Vec<u16> = self.words.iter().copied().chain([0; 5]).collect();\n"
     "        let mut records = padded[1..].as_chunks::<6>().0.iter().take(numbers.n);"),
    ("memories", "records judged only if all are there", "self.records().iter().take(numbers.n)",
     "self.records().iter().filter(|_| self.records().len() >= numbers.n).take(numbers.n)"),
    ("memories", "heard marks outlive an opening", "self.words[..needs.words].fill(0)", "self.words[..numbers.heard_start()].fill(0)"),
    ("memories", "logs outlive an opening", "self.orders[..needs.orders].fill(0)", "self.orders[..numbers.logs_start()].fill(0)"),
    ("memories", "an order past the run's part cleared", "self.orders[..needs.orders].fill(0)", "self.orders.fill(0)"),
    ("memories", "short orders accepted", "            && self.orders.len() >= needs.orders\n", ""),
    ("memories", "short ballots accepted", "            && self.ballots.len() >= needs.ballots\n", ""),
    ("call", "crash of a record that is not there", "        return Err(Refusal::ShortTable);", "        return Ok(());"),
    ("call", "crash gives 2 before 3 and 4", "    rules::crash(numbers, who, &mut record)?;",
     "    if lent.is_none() {\n        return Err(Refusal::ShortTable);\n    }\n    rules::crash(numbers, who, &mut record)?;"),
    # coin
    ("coin", "another recurrence", "coins[entry - 5]", "coins[entry - 4]"),
    ("coin", "31 entries a slot", "start + 32 * slot + earlier", "start + 31 * slot + earlier"),
    ("coin", "start 511", "&& start < PATTERN;", "&& start <= PATTERN;"),
    ("coin", "a strip of no phases", "(1..=MOST_PHASES).contains(&phases) &&", "phases <= MOST_PHASES &&"),
    ("coin", "bits of a byte looked up in the other order", ">> (7 - entry % 8)", ">> (entry % 8)"),
    ("coin", "bits of a byte packed in the other order", "<< (7 - entry % 8)", "<< (entry % 8)"),
    ("coin", "seven entries packed to a byte", "bytes[entry / 8] |= entries[entry] << (7 - entry % 8)",
     "bytes[entry / 7 % 64] |= entries[entry] << (7 - entry % 7)"),
    ("coin", "the byte of the entry before", "COINS[entry / 8]", "COINS[entry.saturating_sub(1) / 8]"),
    ("coin", "earlier entries of the byte left in the coin", "(7 - entry % 8)) & 1", "(7 - entry % 8))"),
    ("coin", "the last byte blank", "entry < entries.len()", "entry < 504"),
    ("coin", "the last entry is 1", "    bytes\n}", "    bytes[63] |= 2;\n    bytes\n}"),
    ("coin", "round before the last byte", "earlier) % PATTERN)", "earlier) % 504)"),
    ("coin", "round at 512, the unused bit read", "earlier) % PATTERN)", "earlier) % 512)"),
    ("coin", "the unused bit read within a row", "(start + 32 * slot + earlier) % PATTERN)",
     "((start + 32 * slot) % PATTERN + earlier) % 512)"),
    ("coin", "rows begin at a byte's first entry", "start + 32 * slot", "start / 8 * 8 + 32 * slot"),
    ("coin", "a row's first eight entries again", "32 * slot + earlier)", "32 * slot + earlier % 8)"),
    # spoiled records
    ("memories", "a sixth round", "self.round > FIND\n", "self.round > FIND + 1\n"),
    ("memories", "a full log is spoiled", "|| slot > numbers.slots\n", "|| slot >= numbers.slots\n"),
    ("memories", "in a round past the last slot", "(slot == numbers.slots && self.round != IDLE)", "false"),
    ("memories", "phase of a vote round not looked at", "matches!(self.round, STATE | VOTE) &&", "self.round == STATE &&"),
    ("memories", "phase of a find round looked at", "matches!(self.round, STATE | VOTE) &&",
     "matches!(self.round, STATE | VOTE | FIND) &&"),
    ("memories", "phase 0 of a state round", "!(1..=numbers.phases)", "!(0..=numbers.phases)"),
    ("memories", "a full tag room is spoiled", "self.known() > numbers.room", "self.known() >= numbers.room"),
    ("memories", "records behind the run's judged", "self.records().iter().take(numbers.n)", "self.records().iter()"),
    ("memories", "records of short words not judged", "self.records().iter().take(numbers.n)",
     "self.records().iter().filter(|_| self.words.len() >= numbers.lengths().words).take(numbers.n)"),
    # memories
    ("memories", "a write past the run's part", "self.words[..needs.words].fill(0)", "self.words.fill(0)"),
    ("memories", "known tags outlive an opening", "self.words[..needs.words].fill(0)", "self.words[RECORDS..needs.words].fill(0)"),
    ("memories", "tags behind the known ones found", "&self.orders[..self.known()]", "&self.orders"),
    ("memories", "old holders come alive", "self.words[numbers.holder_cell(place)] = bit(holder)",
     "self.words[numbers.holder_cell(place)] |= bit(holder)"),
    ("memories", "held by the first place only", "self.known_places(numbers).any(|(other, holders)| other == tag && holders",
     "self.known_places(numbers).find(|&(other, _)| other == tag).is_some_and(|(_, holders)| holders"),
    ("memories", "greatest pending tag", "first_ranked(self.pending(numbers, replica))", "self.pending(numbers, replica).max()"),
    ("memories", "oldest pending tag", "first_ranked(self.pending(numbers, replica))", "self.pending(numbers, replica).next()"),
    ("memories", "tag 0 proposed", "*tag != 0 && !log", "!log"),
    ("memories", "a tag of the log proposed again", " && !log.contains(tag)", " && (log.is_empty() || *tag > 0)"),
    ("memories", "entries past the closed slots looked at",
     "let log = self.log(numbers, replica, self.slot(replica))", "let log = self.log(numbers, replica, self.slot(replica).max(1))"),
    ("memories", "a state may say ?", "Sort::State => matches!(self.ballots[numbers.ballot_cell(message, sender)], ZERO | ONE)",
     "Sort::State => matches!(self.ballots[numbers.ballot_cell(message, sender)], ZERO | ONE | UNDECIDED)"),
    ("memories", "old marks of a proposal come alive",
     "self.orders[numbers.proposal_cell(slot, sender)] = tag;\n        self.words[numbers.heard_cell(message, sender)] =",
     "self.orders[numbers.proposal_cell(slot, sender)] = tag;\n        self.words[numbers.heard_cell(message, sender)] |="),
    ("memories", "old marks of a state or vote come alive",
     "self.ballots[numbers.ballot_cell(message, sender)] = word;\n        self.words[numbers.heard_cell(message, sender)] =",
     "self.ballots[numbers.ballot_cell(message, sender)] = word;\n        self.words[numbers.heard_cell(message, sender)] |="),
    ("memories", "a mark on no proposal counted", "            .filter(|&tag| tag != 0)\n", ""),
    ("memories", "one's own counts only if it is marked", "sender == receiver || self.is_marked(", "self.is_marked("),
    ("memories", "ballots counted that were not heard", " && self.was_heard(numbers, message, sender, receiver) {", " {"),
    ("memories", "1 looked for first", "if self.zeros > 0 {\n            Some(ZERO)", "if self.zeros > self.ones {\n            Some(ZERO)"),
    # steps
    ("rules", "opening takes start 511", "&& start < PATTERN {", "&& start <= PATTERN {"),
    ("rules", "2 before 3",
     "if !numbers.within_limits() || memories.are_spoiled(numbers) {",
     "if !numbers.within_limits() || (memories.fit(numbers) && memories.are_spoiled(numbers)) {"),
    ("rules", "5 before the sender's 4", "    if named.iter().any(|&replica| replica >= numbers.n) {",
     "    if memories.record(named[0]).is_some_and(|record| named[0] < numbers.n && record.crashed != 0) {\n"
     "        return Err(Refusal::Dark);\n    }\n    if named.iter().any(|&replica| replica >= numbers.n) {"),
    ("rules", "only 1 is crashed", "Some(record) if record.crashed == 0 =>", "Some(record) if record.crashed != 1 =>"),
    ("rules", "room one smaller", "memories.known() == numbers.room =>", "memories.known() + 1 >= numbers.room =>"),
    ("rules", "relay of tag 0 is unknown",
     "    if tag == 0 {\n        return Err(Refusal::BlankTag);\n    }\n    let place = memories.place(tag).ok_or(Refusal::UnknownTag)?;",
     "    let place = memories.place(tag).ok_or(Refusal::UnknownTag)?;\n    if tag == 0 {\n        return Err(Refusal::BlankTag);\n    }"),
    ("rules", "12 before 11", "    if slot == numbers.slots {\n        return Err(Refusal::LogFull);",
     "    if slot == numbers.slots && memories.first_pending(numbers, who).is_some() {\n        return Err(Refusal::LogFull);"),
    ("rules", "begin keeps the phase", "round: EXCHANGE, phase: 0, ..record", "round: EXCHANGE, ..record"),
    ("rules", "18 before 17", "    if !memories.was_sent(numbers, message, sender) {",
     "    if !memories.was_sent(numbers, message, sender) && !memories.was_heard(numbers, message, sender, receiver) {"),
    ("rules", "a proposal of any phase", "else { 0..=0 };", "else if sort == Sort::Proposal { 0..=numbers.phases } else { 0..=0 };"),
    ("rules", "hearing moves the sender's mark", "|= bit(receiver);", "|= bit(receiver) | bit(sender);"),
    ("rules", "exchange with a majority heard", "count() < numbers.quorum()", "count() < numbers.majority()"),
    ("rules", "majority of the states heard",
     "states.zeros >= numbers.majority() {\n        ZERO\n    } else if states.ones >= numbers.majority() {",
     "2 * states.zeros > states.total() {\n        ZERO\n    } else if 2 * states.ones > states.total() {"),
    ("rules", "majority of the proposals heard", ".count() >= numbers.majority())", ".count() > heard.clone().count() / 2)"),
    ("rules", "f for f + 1, outcome 0", "votes.zeros > numbers.f {", "votes.zeros >= numbers.f.max(1) {"),
    ("rules", "f for f + 1, outcome 1", "votes.ones > numbers.f {", "votes.ones >= numbers.f.max(1) {"),
    ("rules", "closed with one's own proposal", "match majority_tag(numbers, who, usize::from(record.slot), memories) {",
     "match Some(memories.orders[numbers.proposal_cell(usize::from(record.slot), who)]) {"),
    ("rules", "15 before an outcome 1", "    if votes.ones > numbers.f {", "    if phase < numbers.phases && votes.ones > numbers.f {"),
    ("rules", "15 a phase early", "if phase == numbers.phases {", "if phase + 1 >= numbers.phases {"),
    ("rules", "15 before 14", "    if votes.total() < numbers.quorum() {",
     "    if votes.total() < numbers.quorum() && phase == numbers.phases {\n        return Err(Refusal::PhasesUsedUp);\n    }\n"
     "    if votes.total() < numbers.quorum() {"),
    ("rules", "the coin though a 0 or 1 was heard", "let voted = votes.any_value();",
     "let voted = votes.any_value().filter(|_| votes.undecided == 0);"),
    ("rules", "a coin is 1 only if it is the number 1", "(slot, phase)] % 2 {\n        0 => ZERO,\n        _ => ONE,",
     "(slot, phase)] {\n        1 => ONE,\n        _ => ZERO,"),
    ("rules", "find wants a quorum", "    let tag = majority_tag(numbers, who, slot, memories).ok_or(Refusal::TooFewHeard)?;",
     "    if memories.heard_proposals(numbers, slot, who).count() < numbers.quorum() {\n        return Err(Refusal::TooFewHeard);\n    }\n"
     "    let tag = majority_tag(numbers, who, slot, memories).ok_or(Refusal::TooFewHeard)?;"),
    ("rules", "find clears the phase", "Record { round: FIND, ..record }", "Record { round: FIND, phase: 0, ..record }"),
    ("rules", "closing clears the phase", "slot: record.slot + 1, empty, ..record", "slot: record.slot + 1, phase: 0, empty, ..record"),
    ("rules", "run on counts the refused advance", "Ok(Ran { advances, stop: Stop::Refused(refusal) })",
     "Ok(Ran { advances: advances + 1, stop: Stop::Refused(refusal) })"),
    ("rules", "run on stops at a coin", "Advanced::ClosedEmpty | Advanced::ClosedWith(_) | Advanced::Found(_) |",
     "Advanced::ClosedEmpty | Advanced::ClosedWith(_) | Advanced::Found(_) | Advanced::NextByCoin(_) |"),
    ("rules", "crash judges a record before the number", "    if who >= numbers.n {\n        return Err(Refusal::NoSuchBench);\n    }\n    if record",
     "    if who >= numbers.n && !record.is_spoiled(numbers) {\n        return Err(Refusal::NoSuchBench);\n    }\n    if record"),
    ("rules", "crash twice", "    if record.crashed != 0 {", "    if record.crashed == 1 {"),
    # notices
    ("numbers", "the notices' row over the votes' row", "Sort::Notice => 1,", "Sort::Notice => 3,"),
    ("numbers", "the notices' row over the proposals' row", "Sort::Notice => 1,", "Sort::Notice => 0,"),
    ("numbers", "rows of proposals and notices changed about", "Sort::Proposal => 0,\n            Sort::Notice => 1,",
     "Sort::Proposal => 1,\n            Sort::Notice => 0,"),
    ("numbers", "ballots one row late", "message.row() - 2)", "message.row() - 1)"),
    ("numbers", "sort 4 refused with 16", "            4 => Some(Sort::Notice),\n", ""),
    ("numbers", "sort 5 is a notice too", "4 => Some(Sort::Notice),", "4 | 5 => Some(Sort::Notice),"),
    ("rules", "a notice of phase 1", "else { 0..=0 };", "else { 0..=usize::from(sort == Sort::Notice) };"),
    ("rules", "a notice of phase 1 alone", "else { 0..=0 };", "else if sort == Sort::Notice { 1..=1 } else { 0..=0 };"),
    ("memories", "17 by an entry of 0",
     "Sort::Notice => self.record(sender).is_some_and(|record| usize::from(record.slot) > message.slot),",
     "Sort::Notice => message.slot < numbers.slots && self.orders[numbers.log_cell(sender, message.slot)] != 0,"),
    ("memories", "17 for a notice of an empty slot", "usize::from(record.slot) > message.slot)",
     "usize::from(record.slot) > message.slot && self.orders[numbers.log_cell(sender, message.slot)] != 0)"),
    ("memories", "a notice of the slot that a sender is in", "usize::from(record.slot) > message.slot)",
     "usize::from(record.slot) >= message.slot)"),
    ("memories", "17 for a notice of an older slot", "usize::from(record.slot) > message.slot)",
     "usize::from(record.slot) == message.slot + 1)"),
    ("memories", "17 for a notice of a crashed sender", "usize::from(record.slot) > message.slot)",
     "record.crashed == 0 && usize::from(record.slot) > message.slot)"),
    ("memories", "one's own notice counts only if it is marked", "sender == receiver || self.is_marked(",
     "(sender == receiver && message.sort != Sort::Notice) || self.is_marked("),
    ("memories", "a close does not mark its notice",
     "self.orders[numbers.log_cell(sender, slot)] = entry;\n        self.words[numbers.heard_cell(message, sender)] = bit(sender);",
     "self.orders[numbers.log_cell(sender, slot)] = entry;\n        self.words[numbers.heard_cell(message, sender)] |= 0;"),
    ("memories", "old marks of a notice come alive",
     "self.orders[numbers.log_cell(sender, slot)] = entry;\n        self.words[numbers.heard_cell(message, sender)] =",
     "self.orders[numbers.log_cell(sender, slot)] = entry;\n        self.words[numbers.heard_cell(message, sender)] |="),
    ("memories", "a close of an empty slot sends no notice",
     "self.orders[numbers.log_cell(sender, slot)] = entry;\n        self.words[numbers.heard_cell(message, sender)] =",
     "self.orders[numbers.log_cell(sender, slot)] = entry;\n        if entry == 0 {\n            return;\n        }\n"
     "        self.words[numbers.heard_cell(message, sender)] ="),
    ("memories", "a mark on an unsent notice heeded", "            .filter(move |&sender| self.was_sent(numbers, message, sender))\n", ""),
    ("memories", "an unheard notice heeded",
     "            .filter(move |&sender| self.was_heard(numbers, message, sender, receiver))\n            .map(move |sender| self.orders[numbers.log_cell(",
     "            .map(move |sender| self.orders[numbers.log_cell("),
    ("memories", "a crashed sender's notice not heeded", "self.was_sent(numbers, message, sender))\n",
     "self.was_sent(numbers, message, sender)\n"
     "                && self.record(sender).is_some_and(|record| record.crashed == 0))\n"),
    ("rules", "the highest sender's notice", "usize::from(record.slot), who).next();", "usize::from(record.slot), who).last();"),
    ("rules", "the smallest entry of the notices", "usize::from(record.slot), who).next();", "usize::from(record.slot), who).min();"),
    ("rules", "an empty notice ignored", "usize::from(record.slot), who).next();",
     "usize::from(record.slot), who).find(|&entry| entry != 0);"),
    ("rules", "a first notice ignored if it is empty", "usize::from(record.slot), who).next();",
     "usize::from(record.slot), who).next().filter(|&entry| entry != 0);"),
    ("rules", "a notice of the next slot heeded", "usize::from(record.slot), who).next();",
     "usize::from(record.slot), who)\n"
     "        .chain(memories.heard_notices(numbers, usize::from(record.slot) + 1, who)).next();"),
    ("rules", "a notice of the slot before heeded", "usize::from(record.slot), who).next();",
     "usize::from(record.slot), who)\n"
     "        .chain(memories.heard_notices(numbers, usize::from(record.slot).saturating_sub(1), who)).next();"),
    ("rules", "a notice behind 14", "    if let Some(entry) = noticed {",
     "    let tried = advance_by_round(numbers, who, record, &mut memories.clone());\n"
     "    if tried == Err(Refusal::TooFewHeard) {\n        return tried;\n    }\n    if let Some(entry) = noticed {"),
    ("rules", "a notice behind 15", "    if let Some(entry) = noticed {",
     "    let tried = advance_by_round(numbers, who, record, &mut memories.clone());\n"
     "    if tried == Err(Refusal::PhasesUsedUp) {\n        return tried;\n    }\n    if let Some(entry) = noticed {"),
    ("rules", "a notice behind a round that is accepted", "    if let Some(entry) = noticed {",
     "    let tried = advance_by_round(numbers, who, record, &mut memories.clone());\n"
     "    if let Some(entry) = noticed.filter(|_| tried.is_err()) {"),
    ("rules", "a notice behind an outcome of the votes", "    if let Some(entry) = noticed {",
     "    let tried = advance_by_round(numbers, who, record, &mut memories.clone());\n"
     "    if let Some(entry) = noticed.filter(|_| record.round != VOTE || !tried.is_ok_and(Advanced::closes)) {"),
    ("rules", "a notice in the find round only", "= noticed {", "= noticed.filter(|_| record.round == FIND) {"),
    ("rules", "no notice in the find round", "= noticed {", "= noticed.filter(|_| record.round != FIND) {"),
    ("rules", "no notice in the exchange", "= noticed {", "= noticed.filter(|_| record.round != EXCHANGE) {"),
    ("rules", "no notice in the vote round", "= noticed {", "= noticed.filter(|_| record.round != VOTE) {"),
    ("rules", "no notice in phase 1", "= noticed {", "= noticed.filter(|_| record.phase != 1) {"),
    ("rules", "13 although a notice was heard", "= noticed {", "= noticed.filter(|_| record.round != IDLE) {"),
    ("rules", "run on of an idle replica refused", "    let mut last = advance_from(",
     "    if record.round == IDLE {\n        return Err(Refusal::Idle);\n    }\n    let mut last = advance_from("),
    ("rules", "run on goes on behind a notice", " | Advanced::ByNotice { .. }", ""),
    ("rules", "begin refused after a heard notice", "    let tag = memories.first_pending(numbers, who)",
     "    if memories.heard_notices(numbers, slot, who).next().is_some() {\n        return Err(Refusal::Busy);\n    }\n"
     "    let tag = memories.first_pending(numbers, who)"),
    ("rules", "a close by a notice clears the phase", "        close(numbers, who, record, entry, memories);\n        return Ok(Advanced::ByNotice",
     "        close(numbers, who, Record { phase: 0, ..record }, entry, memories);\n        return Ok(Advanced::ByNotice"),
    ("rules", "a notice completes the round first", "        close(numbers, who, record, entry, memories);\n        return Ok(Advanced::ByNotice",
     "        let _ = advance_by_round(numbers, who, record, memories);\n        close(numbers, who, record, entry, memories);\n"
     "        return Ok(Advanced::ByNotice"),
    ("rules", "a close by a notice sends none", "        close(numbers, who, record, entry, memories);\n        return Ok(Advanced::ByNotice",
     "        memories.orders[numbers.log_cell(who, usize::from(record.slot))] = entry;\n"
     "        memories.set_record(who, Record { round: IDLE, slot: record.slot + 1, ..record });\n        return Ok(Advanced::ByNotice"),
    # the conductor
    ("conductor", "23 by a majority", "lit.len() < numbers.quorum()", "lit.len() < numbers.majority()"),
    ("conductor", "23 at the quorum", "lit.len() < numbers.quorum()", "lit.len() <= numbers.quorum() && lit.len() < numbers.n"),
    ("conductor", "23 only if nobody is lit", "lit.len() < numbers.quorum()", "lit.is_empty()"),
    ("conductor", "23 if one has crashed", "lit.len() < numbers.quorum()", "lit.len() < numbers.n"),
    ("conductor", "22 before 23", "        if lit.len() < numbers.quorum() {",
     "        level_slot(numbers, &lit, memories).ok_or(Refusal::NotLevel)?;\n        if lit.len() < numbers.quorum() {"),
    ("conductor", "22 before 23 where some are lit", "        if lit.len() < numbers.quorum() {",
     "        if !lit.is_empty() {\n            level_slot(numbers, &lit, memories).ok_or(Refusal::NotLevel)?;\n        }\n"
     "        if lit.len() < numbers.quorum() {"),
    ("conductor", "11 before 22", "        let slot = level_slot(",
     "        if lit.iter().any(|&who| memories.record(who).is_some_and(|record| usize::from(record.slot) == numbers.slots)) {\n"
     "            return Err(Refusal::LogFull);\n        }\n        let slot = level_slot("),
    ("conductor", "12 before 22", "        let slot = level_slot(",
     "        if lit.iter().all(|&who| memories.first_pending(numbers, who).is_none()) {\n"
     "            return Err(Refusal::NothingPending);\n        }\n        let slot = level_slot("),
    ("conductor", "12 before the conductor's 11", "        if slot == numbers.slots {",
     "        let mut pending = lit.iter().filter_map(|&who| memories.first_pending(numbers, who));\n"
     "        if slot == numbers.slots && pending.next().is_some() {"),
    ("conductor", "a full rack is not level", "return Err(Refusal::LogFull)", "return Err(Refusal::NotLevel)"),
    ("conductor", "the conductor takes a short strip", "rules::admit_rack(numbers, memories)?;",
     "rules::admit_rack(numbers, &Memories { strip: vec![0; 1024 * 32], ..memories.clone() })?;"),
    ("conductor", "the conductor gives 2 before 3", "rules::admit_rack(numbers, memories)?;",
     "if numbers.within_limits() && !memories.fit(numbers) {\n            return Err(Refusal::ShortTable);\n        }\n"
     "        rules::admit_rack(numbers, memories)?;"),
    ("conductor", "23 before 2", "rules::admit_rack(numbers, memories)?;",
     "if let Err(refusal) = rules::admit_rack(numbers, memories) {\n"
     "            let few = refusal == Refusal::ShortTable && memories.lit(numbers).len() < numbers.quorum();\n"
     "            return Err(if few { Refusal::TooFewLit } else { refusal });\n        }"),
    ("conductor", "those in a round are level", "record.round == IDLE && ", ""),
    ("conductor", "those behind the lowest lit one are level", " && usize::from(record.slot) == slot", ""),
    ("conductor", "only the lowest lit one is looked at", "records.iter().all(level)", "records.iter().take(1).all(level)"),
    ("conductor", "22 by the lit ones' messages only", "(0..numbers.n).any(|sender| memories.was_sent(",
     "lit.iter().any(|&sender| memories.was_sent("),
    ("conductor", "22 by the crashed ones' messages only", "(0..numbers.n).any(|sender| memories.was_sent(",
     "(0..numbers.n).filter(|sender| !lit.contains(sender)).any(|sender| memories.was_sent("),
    ("conductor", "22 overlooks notices", "        .messages(slot)\n", "        .messages(slot)\n        .filter(|message| message.sort != Sort::Notice)\n"),
    ("conductor", "22 overlooks votes", "        .messages(slot)\n", "        .messages(slot)\n        .filter(|message| message.sort != Sort::Vote)\n"),
    ("conductor", "22 overlooks states", "        .messages(slot)\n", "        .messages(slot)\n        .filter(|message| message.sort != Sort::State)\n"),
    ("conductor", "22 overlooks proposals", "        .messages(slot)\n",
     "        .messages(slot)\n        .filter(|message| message.sort != Sort::Proposal)\n"),
    ("conductor", "22 overlooks later phases", "        .messages(slot)\n", "        .messages(slot)\n        .filter(|message| message.phase < 2)\n"),
    ("conductor", "22 overlooks the last phase", "        .messages(slot)\n",
     "        .messages(slot)\n        .filter(|message| message.phase < numbers.phases.max(2))\n"),
    ("conductor", "22 by the next slot's messages too", "        .messages(slot)\n", "        .messages(slot)\n        .chain(numbers.messages(slot + 1))\n"),
    ("conductor", "22 by marks on unsent messages", "any(|sender| memories.was_sent(numbers, message, sender))",
     "any(|sender| memories.was_sent(numbers, message, sender) || memories.words[numbers.heard_cell(message, sender)] != 0)"),
    ("conductor", "the largest tag conducted", "first_ranked(pending)", "pending.max()"),
    ("conductor", "the first lit one's tag conducted", "first_ranked(pending)", "{ pending }.next()"),
    ("conductor", "the lowest lit one's tag conducted", "let pending = lit.iter()", "let pending = lit.iter().take(1)"),
    ("conductor", "a crashed one's tag conducted", "let pending = lit.iter().filter_map(|&who| memories",
     "let pending = (0..numbers.n).filter_map(|who| memories"),
    ("conductor", "a tag that one has logged not conducted", "first_ranked(pending)",
     "first_ranked(pending.filter(|tag| !lit.iter().any(|&who| memories.log(numbers, who, slot).contains(tag))))"),
    ("conductor", "those with the tag in the log lack nothing", "!memories.holds(numbers, *who, tag)",
     "!memories.holds(numbers, *who, tag) && !memories.log(numbers, *who, slot).contains(&tag)"),
    ("conductor", "no relays", "filter(lacks)", "filter(lacks).take(0)"),
    ("conductor", "one relay only", "filter(lacks)", "filter(lacks).take(1)"),
    ("conductor", "the crashed ones hold the tag too", "    let steps = plan.steps()",
     "    let place = memories.place(plan.tag).unwrap_or_default();\n"
     "    (0..numbers.n).for_each(|who| memories.hold(numbers, place, who));\n"
     "    let mut is_accepted = |call: &Call| call.make(numbers, memories).is_ok();\n    let steps = plan.steps()"),
    ("conductor", "a relay counted among the steps", "Ok(Conducted { steps, relays })", "Ok(Conducted { steps: steps + relays, relays })"),
    ("conductor", "begins not counted", "Ok(Conducted { steps, relays })", "Ok(Conducted { steps: steps.saturating_sub(plan.lit.len()), relays })"),
    ("conductor", "one's own messages counted as heard", "Ok(Conducted { steps, relays })",
     "Ok(Conducted { steps: steps + 3 * plan.lit.len(), relays })"),
    ("conductor", "counts by the formula", "Ok(Conducted { steps, relays })",
     "Ok(Conducted { steps: steps * 0 + 3 * plan.lit.len().pow(2) + plan.lit.len(), relays })"),
    ("conductor", "relays counted as L - 1", "Ok(Conducted { steps, relays })",
     "Ok(Conducted { steps, relays: relays * 0 + plan.lit.len() - 1 })"),
    ("conductor", "counts changed about", "Ok(Conducted { steps, relays })", "Ok(Conducted { steps: relays, relays: steps })"),
    ("conductor", "refused inner steps counted", "call.make(numbers, memories).is_ok();",
     "{\n        let _ = call.make(numbers, memories);\n        true\n    };"),
    ("conductor", "a refused inner step ends the call", "plan.steps().filter(&mut is_accepted)", "plan.steps().take_while(&mut is_accepted)"),
    ("conductor", "a refused inner step refuses the call", "    let steps = plan.steps()",
     "    let before = memories.clone();\n"
     "    if let Some(refusal) = plan.steps().find_map(|call| call.make(numbers, memories).err()) {\n"
     "        return Err(refusal);\n    }\n    *memories = before;\n"
     "    let mut is_accepted = |call: &Call| call.make(numbers, memories).is_ok();\n    let steps = plan.steps()"),
    ("conductor", "those that could not begin hear nothing", "    let steps = plan.steps()",
     "    let mut plan = plan;\n"
     "    plan.lit.retain(|&who| memories.first_pending(numbers, who).is_some());\n"
     "    let mut is_accepted = |call: &Call| call.make(numbers, memories).is_ok();\n    let steps = plan.steps()"),
    ("conductor", "only those begin that have the tag pending", "    let steps = plan.steps()",
     "    let mut plan = plan;\n"
     "    plan.lit.retain(|&who| memories.first_pending(numbers, who) == Some(plan.tag));\n"
     "    let mut is_accepted = |call: &Call| call.make(numbers, memories).is_ok();\n    let steps = plan.steps()"),
    ("conductor", "no vote round", "ROUNDS.into_iter().flat_map", "ROUNDS.into_iter().take(2).flat_map"),
    ("conductor", "no begins", "        begins.chain(", "        begins.take(0).chain("),
    ("conductor", "advances before hears", "hears.chain(advances)", "advances.chain(hears)"),
    ("conductor", "a round without its last hear", "        hears.chain(advances)",
     "        let count = (self.lit.len() * (self.lit.len() - 1)).saturating_sub(1);\n        hears.take(count).chain(advances)"),
    ("conductor", "the votes are not heard", "        hears.chain(advances)",
     "        hears.filter(move |_| sort != Sort::Vote).chain(advances)"),
    ("conductor", "a quorum heard and no more", "        others.map(move |sender|", "        others.take(self.lit.len() / 2 + 1).map(move |sender|"),
    ("conductor", "run on for advance", "Call::Advance { who }", "Call::RunOn { who }"),
    ("conductor", "notices heard at the end", "ROUNDS.into_iter().flat_map",
     "ROUNDS.into_iter().chain([Sort::Notice]).flat_map"),
    ("conductor", "notices heard before each advance", "        hears.chain(advances)",
     "        let told = |receiver| self.hears(receiver, Sort::Notice).chain([Call::Advance { who: receiver }]);\n"
     "        hears.chain(advances.take(0)).chain(self.lit.iter().flat_map(move |&receiver| told(receiver)))"),
    ("conductor", "states and votes of phase 2", "usize::from(sort.has_phases())", "2 * usize::from(sort.has_phases())"),
    ("conductor", "messages of the slot before", "let (slot, phase) = (self.slot,", "let (slot, phase) = (self.slot.saturating_sub(1),"),
    ("memories", "only 1 is dark for the conductor", "self.record(*replica).is_some_and(|record| record.crashed == 0)",
     "self.record(*replica).is_some_and(|record| record.crashed != 1)"),
    # urgent orders
    ("rank", "urgent tags last, as before", "(!is_urgent(tag), tag)", "(is_urgent(tag), tag)"),
    ("rank", "the larger of two urgent tags", "(!is_urgent(tag), tag)", "(!is_urgent(tag), if is_urgent(tag) { !tag } else { tag })"),
    ("rank", "the larger of two that are not urgent", "(!is_urgent(tag), tag)",
     "(!is_urgent(tag), if is_urgent(tag) { tag } else { !tag })"),
    ("rank", "urgency after the number", "(!is_urgent(tag), tag)", "(false, tag << 1 | u64::from(!is_urgent(tag)))"),
    ("rank", "urgent by bit 62", "tag & URGENT != 0", "tag & (1 << 62) != 0"),
    ("rank", "urgent by bit 31", "tag & URGENT != 0", "tag & (1 << 31) != 0"),
    ("rank", "2^63 is not urgent", "tag & URGENT != 0", "tag > URGENT"),
    ("rank", "2^64 - 1 is not urgent", "tag & URGENT != 0", "tag & URGENT != 0 && tag != u64::MAX"),
    ("rank", "urgent only below 2^63 + 2^32", "tag & URGENT != 0", "tag >> 32 == URGENT >> 32"),
    ("rules", "begin goes by the number alone", "memories.first_pending(numbers, who)", "memories.pending(numbers, who).min()"),
    ("conductor", "the conductor goes by the number alone",
     "filter_map(|&who| memories.first_pending(numbers, who));\n        let tag = first_ranked(pending)",
     "flat_map(|&who| memories.pending(numbers, who));\n        let tag = pending.min()"),
    ("conductor", "the smallest of the lit ones' first-ranked", "first_ranked(pending)", "pending.min()"),
    ("rules", "an urgent tag proposed without its bit", "send_proposal(numbers, slot, who, tag)",
     "send_proposal(numbers, slot, who, tag & (u64::MAX >> 1))"),
    ("rules", "x and x + 2^63 make a majority", "filter(|&other| other == tag)", "filter(|&other| other << 1 == tag << 1)"),
    ("memories", "x is not pending with x + 2^63 in the log", "!log.contains(tag)", "!log.iter().any(|entry| entry << 1 == tag << 1)"),
    ("step_file", "an urgent entry is a negative number", 'format!(" {tag}")', 'format!(" {}", *tag as i64)'),
    # longer bands: limits
    ("numbers", "1,024 slots are too many", "MOST_SLOTS: usize = 1024", "MOST_SLOTS: usize = 1023"),
    ("numbers", "1,025 slots", "MOST_SLOTS: usize = 1024", "MOST_SLOTS: usize = 1025"),
    ("numbers", "64 slots at most, as before", "MOST_SLOTS: usize = 1024", "MOST_SLOTS: usize = 64"),
    ("numbers", "1,024 tags are too many", "MOST_ROOM: usize = 1024", "MOST_ROOM: usize = 1023"),
    ("numbers", "1,025 tags", "MOST_ROOM: usize = 1024", "MOST_ROOM: usize = 1025"),
    ("numbers", "256 tags at most, as before", "MOST_ROOM: usize = 1024", "MOST_ROOM: usize = 256"),
    ("numbers", "a run has 64 slots at most, a strip 1,024", "(1..=MOST_SLOTS).contains(&self.slots)", "(1..=64).contains(&self.slots)"),
    ("coin", "a strip has 64 slots at most", "(1..=MOST_SLOTS).contains(&slots)", "(1..=64).contains(&slots)"),
    ("coin", "a strip of 1,025 slots", "(1..=MOST_SLOTS).contains(&slots)", "(1..=MOST_SLOTS + 1).contains(&slots)"),
    ("rules", "an opening has 64 slots at most", "numbers.within_limits() && start", "numbers.slots <= 64 && numbers.within_limits() && start"),
    ("rules", "an opening has 255 slots at most", "numbers.within_limits() && start", "numbers.slots <= 255 && numbers.within_limits() && start"),
    ("rules", "an opening has room 256 at most", "numbers.within_limits() && start", "numbers.room <= 256 && numbers.within_limits() && start"),
    ("rules", "a step has 64 slots at most", "if !numbers.within_limits() || memories", "if numbers.slots > 64 || !numbers.within_limits() || memories"),
    ("rules", "a step has room 256 at most", "if !numbers.within_limits() || memories", "if numbers.room > 256 || !numbers.within_limits() || memories"),
    ("rules", "a crash has 64 slots at most", "    if !numbers.within_limits() {", "    if numbers.slots > 64 || !numbers.within_limits() {"),
    ("rules", "a crash has room 256 at most", "    if !numbers.within_limits() {", "    if numbers.room > 256 || !numbers.within_limits() {"),
    ("rules", "8 at 256 tags", "memories.known() == numbers.room =>", "memories.known() >= numbers.room.min(256) =>"),
    ("rules", "11 at 64 slots", "    if slot == numbers.slots {", "    if slot >= numbers.slots.min(64) {"),
    ("rules", "11 at 1,023 slots", "    if slot == numbers.slots {", "    if slot >= numbers.slots.min(1023) {"),
    ("conductor", "the conductor's 11 at 256 slots", "if slot == numbers.slots {", "if slot >= numbers.slots.min(256) {"),
    ("rules", "16 from slot 64 on", "(slot < numbers.slots &&", "(slot < numbers.slots.min(64) &&"),
    ("rules", "16 from slot 256 on", "(slot < numbers.slots &&", "(slot < numbers.slots.min(256) &&"),
    ("rules", "16 for slot 1,023", "(slot < numbers.slots &&", "(slot < numbers.slots.min(1023) &&"),
    ("rules", "17 for slot 1,024 of 1,024", "    let message = message(numbers, sort, slot, phase).ok_or(Refusal::NoSuchMessage)?;",
     "    if slot == 1024 {\n        return Err(Refusal::Unsent);\n    }\n"
     "    let message = message(numbers, sort, slot, phase).ok_or(Refusal::NoSuchMessage)?;"),
    ("memories", "slot 1,025 of 1,024 is not spoiled", "|| slot > numbers.slots\n", "|| (slot > numbers.slots && slot != 1025)\n"),
    ("memories", "1,025 tags of 1,024 are not spoiled", "self.known() > numbers.room", "self.known() > numbers.room && self.known() != 1025"),
    ("memories", "a record above slot 64 is spoiled", "|| slot > numbers.slots\n", "|| slot > numbers.slots.min(64)\n"),
    # longer bands: "slot numbers take two bytes wherever they are stored"
    ("memories", "a slot of 8 bits stored in a record", "[record.crashed, record.round, record.slot,", "[record.crashed, record.round, record.slot & 255,"),
    ("memories", "a slot of 8 bits read from a record", "Record { crashed, round, slot, phase, empty, fast }\n",
     "Record { crashed, round, slot: slot & 255, phase, empty, fast }\n"),
    ("memories", "a slot of 10 bits stored in a record", "[record.crashed, record.round, record.slot,", "[record.crashed, record.round, record.slot & 1023,"),
    ("memories", "a count of known tags of 8 bits", "self.words[0] += 1;", "self.words[0] = (self.words[0] + 1) & 255;"),
    ("memories", "a count of known tags of 10 bits", "self.words[0] += 1;", "self.words[0] = (self.words[0] + 1) & 1023;"),
    ("memories", "only 256 known tags looked at", "&self.orders[..self.known()]", "&self.orders[..self.known().min(256)]"),
    ("memories", "only 256 entries of a log looked at", "&self.orders[numbers.log_cell(replica, 0)..][..closed]",
     "&self.orders[numbers.log_cell(replica, 0)..][..closed.min(256)]"),
    ("memories", "a notice by the low bytes of slots", "usize::from(record.slot) > message.slot)", "record.slot as u8 > message.slot as u8)"),
    ("numbers", "heard masks of slots modulo 64", "(message.slot * (2 * self.phases + 2) +", "(message.slot % 64 * (2 * self.phases + 2) +"),
    ("numbers", "heard masks of slots modulo 256", "(message.slot * (2 * self.phases + 2) +", "(message.slot % 256 * (2 * self.phases + 2) +"),
    ("numbers", "heard cells counted in 16 bits", "+ (message.slot * (2 * self.phases + 2) + message.row()) * self.n + sender",
     "+ (((message.slot * (2 * self.phases + 2) + message.row()) * self.n + sender) as u16) as usize"),
    ("numbers", "ballots of slots modulo 256", "(message.slot * 2 * self.phases", "(message.slot % 256 * 2 * self.phases"),
    ("numbers", "ballots counted in 16 bits", "(message.slot * 2 * self.phases + message.row() - 2) * self.n + sender",
     "(((message.slot * 2 * self.phases + message.row() - 2) * self.n + sender) as u16) as usize"),
    ("numbers", "proposals of slots modulo 256", "self.proposals_start() + slot * self.n", "self.proposals_start() + slot % 256 * self.n"),
    ("numbers", "logs of slots modulo 256", "replica * self.slots + slot", "replica * self.slots + slot % 256"),
    ("numbers", "coins of slots modulo 64", "slot * self.phases + phase - 1", "slot % 64 * self.phases + phase - 1"),
    ("numbers", "coins of slots modulo 256", "slot * self.phases + phase - 1", "slot % 256 * self.phases + phase - 1"),
    ("coin", "rows of the coin table by slots modulo 64", "start + 32 * slot + earlier", "start + 32 * (slot % 64) + earlier"),
    ("coin", "rows of the coin table by slots modulo 256", "start + 32 * slot + earlier", "start + 32 * (slot % 256) + earlier"),
    ("coin", "rows of the coin table end at slot 1,022", ".take(slots).enumerate()", ".take(slots.min(1023)).enumerate()"),
    # longer bands: step files
    ("step_file", "kind 8 is unknown", "0 | 8 => Some(", "0 => Some("),
    ("step_file", "kind 9 is unknown", "4 | 9 => Some(", "4 => Some("),
    ("step_file", "kind 10 is a hear", "4 | 9 => Some(4 + slot_bytes(kind))", "4 | 9 | 10 => Some(4 + slot_bytes(kind))"),
    ("step_file", "kind 10 has a body of one byte", "3 | 5 | 6 | 7 => Some(1)", "3 | 5 | 6 | 7 | 10 => Some(1)"),
    ("step_file", "kind 8 has one byte of slots", "matches!(kind, 8 | 9)", "kind == 9"),
    ("step_file", "kind 9 has one byte of the slot", "matches!(kind, 8 | 9)", "kind == 8"),
    ("step_file", "kind 0 has two bytes of slots", "matches!(kind, 8 | 9)", "matches!(kind, 0 | 8 | 9)"),
    ("step_file", "kind 4 has two bytes of the slot", "matches!(kind, 8 | 9)", "matches!(kind, 4 | 8 | 9)"),
    ("step_file", "the body of kind 8 one byte longer", "Some(7 + slot_bytes(kind))", "Some(7 + slot_bytes(kind) + usize::from(kind == 8))"),
    ("step_file", "the body of kind 9 one byte longer", "Some(4 + slot_bytes(kind))", "Some(4 + slot_bytes(kind) + usize::from(kind == 9))"),
    ("step_file", "the body of kind 8 one byte short",
     "    let body = file[place + 1..].get(..length).ok_or(Refusal::CutRecord)?;\n    Ok((decode(kind, body), place + 1 + length))",
     "    let length = length - usize::from(kind == 8);\n    let mut body = file[place + 1..].get(..length).ok_or(Refusal::CutRecord)?.to_vec();\n"
     "    body.push(0);\n    Ok((decode(kind, &body), place + 1 + length))"),
    ("step_file", "the body of kind 9 one byte short",
     "    let body = file[place + 1..].get(..length).ok_or(Refusal::CutRecord)?;\n    Ok((decode(kind, body), place + 1 + length))",
     "    let length = length - usize::from(kind == 9);\n    let mut body = file[place + 1..].get(..length).ok_or(Refusal::CutRecord)?.to_vec();\n"
     "    body.push(0);\n    Ok((decode(kind, &body), place + 1 + length))"),
    ("step_file", "a cut body of kind 8 is filled up", "get(..length).ok_or(Refusal::CutRecord)?;\n    Ok((decode(kind, body), place + 1 + length))",
     "get(..length);\n    let filled = [&file[place + 1..], &[0; 9]].concat();\n"
     "    let body = body.or((kind == 8).then_some(&filled[..])).ok_or(Refusal::CutRecord)?;\n"
     "    Ok((decode(kind, body), file.len().min(place + 1 + length)))"),
    ("step_file", "a cut body of kind 9 is filled up", "get(..length).ok_or(Refusal::CutRecord)?;\n    Ok((decode(kind, body), place + 1 + length))",
     "get(..length);\n    let filled = [&file[place + 1..], &[0; 9]].concat();\n"
     "    let body = body.or((kind == 9).then_some(&filled[..])).ok_or(Refusal::CutRecord)?;\n"
     "    Ok((decode(kind, body), file.len().min(place + 1 + length)))"),
    ("step_file", "bytes of the slots changed about in kind 8", "n: who, f, slots, phases, room",
     "n: who, f, slots: if kind == 8 { usize::from((slots as u16).swap_bytes()) } else { slots }, phases, room"),
    ("step_file", "bytes of the slot changed about in kind 9", "receiver: who, sender, sort, slot, phase }\n        }\n        5",
     "receiver: who, sender, sort, slot: if kind == 9 { usize::from((slot as u16).swap_bytes()) } else { slot }, phase }\n        }\n        5"),
    ("step_file", "the second byte of the slot count dropped", "n: who, f, slots, phases, room", "n: who, f, slots: slots & 255, phases, room"),
    ("step_file", "the second byte of the slot dropped", "receiver: who, sender, sort, slot, phase }\n        }\n        5",
     "receiver: who, sender, sort, slot: slot & 255, phase }\n        }\n        5"),
    ("step_file", "two bytes for the phases of kind 8", "[1, slot_bytes(kind), 1, 2, 2]", "[1, 1, slot_bytes(kind), 2, 2]"),
    ("step_file", "two bytes for the phase of kind 9", "[1, 1, slot_bytes(kind), 1]", "[1, 1, 1, slot_bytes(kind)]"),
    ("step_file", "two bytes for the sort of kind 9", "[1, 1, slot_bytes(kind), 1]", "[1, slot_bytes(kind), 1, 1]"),
    ("step_file", "kind 9 is read as a run on", "        4 | 9 => {\n", "        4 => {\n"),
    ("step_file", "slots of kind 8 cut down to 255", "n: who, f, slots, phases, room", "n: who, f, slots: slots.min(255), phases, room"),
    ("step_file", "the program has 17 slots", "slots: 16, phases: 16", "slots: 17, phases: 16"),
    ("step_file", "the program has 1,024 slots", "slots: 16, phases: 16", "slots: 1024, phases: 16"),
    ("step_file", "the program has room 1,024", "phases: 16, room: 64", "phases: 16, room: 1024"),
    ("step_file", "long memories let more slots in", "        || numbers.slots > most.slots\n", ""),
    ("step_file", "the number of closed slots has 8 bits", "{light} {}{entries}\", record.slot)", "{light} {}{entries}\", record.slot as u8)"),
    ("step_file", "64 entries of a log shown", "log.iter().map(entry)", "log.iter().take(64).map(entry)"),
    ("step_file", "1,023 entries of a log shown", "log.iter().map(entry)", "log.iter().take(1023).map(entry)"),
    # logs for the archive: limits and refusals
    ("archive", "1,024 entries are too many", "MOST_ENTRIES: usize = 1024", "MOST_ENTRIES: usize = 1023"),
    ("archive", "1,025 entries", "MOST_ENTRIES: usize = 1024", "MOST_ENTRIES: usize = 1025"),
    ("archive", "64 entries at most", "MOST_ENTRIES: usize = 1024", "MOST_ENTRIES: usize = 64"),
    ("archive", "1 for no entries", "if count > MOST_ENTRIES {", "if !(1..=MOST_ENTRIES).contains(&count) {"),
    ("archive", "any entries", "if count > MOST_ENTRIES {", "if count > usize::MAX / PLANES {"),
    ("archive", "8,192 bytes are too many", "MOST_STORED: usize = 8192", "MOST_STORED: usize = 8191"),
    ("archive", "8,193 bytes get 24", "MOST_STORED: usize = 8192", "MOST_STORED: usize = 8193"),
    ("archive", "8,184 bytes at most", "MOST_STORED: usize = 8192", "MOST_STORED: usize = 8184"),
    ("archive", "8,200 bytes", "MOST_STORED: usize = 8192", "MOST_STORED: usize = 8200"),
    ("archive", "1,024 bytes at most", "MOST_STORED: usize = 8192", "MOST_STORED: usize = MOST_ENTRIES"),
    ("archive", "1 for no bytes", "if stored.len() > MOST_STORED {", "if !(1..=MOST_STORED).contains(&stored.len()) {"),
    ("archive", "24 for no bytes", "if !stored.len().is_multiple_of(PLANES) {",
     "if stored.is_empty() || !stored.len().is_multiple_of(PLANES) {"),
    ("archive", "the limit by whole eights", "if stored.len() > MOST_STORED {", "if stored.len() / PLANES > MOST_ENTRIES {"),
    ("archive", "an output of more than 8,192 bytes gets 1", "if count > MOST_ENTRIES {",
     "if count > MOST_ENTRIES || stored.len() > MOST_STORED {"),
    ("archive", "an output of more than 1,024 entries gets 1", "if stored.len() > MOST_STORED {",
     "if stored.len() > MOST_STORED || entries.len() > MOST_ENTRIES {"),
    ("archive", "an output that is no multiple of 8 is odd", "    if stored.len() < PLANES * count {",
     "    if !stored.len().is_multiple_of(PLANES) {\n        return Err(Refusal::OddLength);\n    }\n"
     "    if stored.len() < PLANES * count {"),
    ("archive", "an odd length is one that is not even", "is_multiple_of(PLANES)", "is_multiple_of(2)"),
    ("archive", "an odd length by 4", "is_multiple_of(PLANES)", "is_multiple_of(PLANES / 2)"),
    ("archive", "an odd length by 16", "is_multiple_of(PLANES)", "is_multiple_of(2 * PLANES)"),
    ("archive", "no length is odd", "is_multiple_of(PLANES)", "is_multiple_of(1)"),
    ("archive", "fewer than 8 bytes are not odd", "if !stored.len().is_multiple_of(PLANES) {",
     "if stored.len() > PLANES && !stored.len().is_multiple_of(PLANES) {"),
    ("archive", "an odd length is a short table", "Err(Refusal::OddLength)", "Err(Refusal::ShortTable)"),
    ("archive", "an odd length is a bad plan", "Err(Refusal::OddLength)", "Err(Refusal::BadPlan)"),
    ("refusal", "an odd length for the archive is 25", "    OddLength,", "    OddLength = 25,"),
    ("refusal", "an odd length for the archive is 23", "    TooFewLit,\n    OddLength,", "    OddLength,\n    TooFewLit,"),
    ("archive", "2 before 1 for entries", "    if count > MOST_ENTRIES {",
     "    if stored.len() < PLANES * entries.len() {\n        return Err(Refusal::ShortTable);\n    }\n    if count > MOST_ENTRIES {"),
    ("archive", "2 before 1 for bytes", "    if stored.len() > MOST_STORED {",
     "    if entries.len() < stored.len() / PLANES {\n        return Err(Refusal::ShortTable);\n    }\n    if stored.len() > MOST_STORED {"),
    ("archive", "2 before 1 for whole eights of bytes", "    if stored.len() > MOST_STORED {",
     "    if stored.len().is_multiple_of(8) && entries.len() < stored.len() / PLANES {\n        return Err(Refusal::ShortTable);\n    }\n"
     "    if stored.len() > MOST_STORED {"),
    ("archive", "24 before 1", "    if stored.len() > MOST_STORED {",
     "    if stored.len() % PLANES != 0 {\n        return Err(Refusal::OddLength);\n    }\n    if stored.len() > MOST_STORED {"),
    ("archive", "24 before 1 where there is room", "    if stored.len() > MOST_STORED {",
     "    if stored.len() % PLANES != 0 && entries.len() > stored.len() / PLANES {\n        return Err(Refusal::OddLength);\n    }\n"
     "    if stored.len() > MOST_STORED {"),
    ("archive", "2 before 24", "    if !stored.len().is_multiple_of(PLANES) {",
     "    if entries.len() < stored.len() / PLANES {\n        return Err(Refusal::ShortTable);\n    }\n"
     "    if !stored.len().is_multiple_of(PLANES) {"),
    ("archive", "2 before 24, counted up", "    if !stored.len().is_multiple_of(PLANES) {",
     "    if entries.len() < stored.len().div_ceil(PLANES) {\n        return Err(Refusal::ShortTable);\n    }\n"
     "    if !stored.len().is_multiple_of(PLANES) {"),
    ("archive", "2 for a log that just fits", "stored.len() < PLANES * count", "stored.len() <= PLANES * count"),
    ("archive", "2 for a log of no entries in no bytes", "stored.len() < PLANES * count", "stored.len() < PLANES * count.max(1)"),
    ("archive", "2 for an output of more bytes", "stored.len() < PLANES * count", "stored.len() != PLANES * count"),
    ("archive", "2 only below a byte for each entry", "stored.len() < PLANES * count", "stored.len() < count"),
    ("archive", "2 by the whole entries that fit", "stored.len() < PLANES * count", "stored.len().div_ceil(PLANES) < count"),
    ("archive", "a byte short, and the last one is left out",
     "    if stored.len() < PLANES * count {\n        return Err(Refusal::ShortTable);\n    }\n    for plane in 0..PLANES {\n"
     "        let bytes = &mut stored[plane * count..][..count];\n        for (byte, entry) in bytes.iter_mut().zip(entries) {",
     "    if stored.len() + 1 < PLANES * count {\n        return Err(Refusal::ShortTable);\n    }\n    for plane in 0..PLANES {\n"
     "        for (byte, entry) in stored.iter_mut().skip(plane * count).zip(entries) {"),
    ("archive", "no 2 for entries: planes as far as they fit",
     "    if stored.len() < PLANES * count {\n        return Err(Refusal::ShortTable);\n    }\n    for plane in 0..PLANES {\n"
     "        let bytes = &mut stored[plane * count..][..count];\n        for (byte, entry) in bytes.iter_mut().zip(entries) {",
     "    for plane in 0..PLANES {\n        for (byte, entry) in stored.iter_mut().skip(plane * count).zip(entries) {"),
    ("archive", "2 for entries that just fit", "entries.len() < count", "entries.len() <= count"),
    ("archive", "2 for an output of more entries", "entries.len() < count", "entries.len() != count"),
    ("archive", "2 below an entry for each byte", "entries.len() < count", "entries.len() < stored.len()"),
    ("archive", "an entry short, and the last one is left out",
     "    if entries.len() < count {\n        return Err(Refusal::ShortTable);\n    }\n    for (place, entry) in entries[..count].iter_mut()",
     "    if entries.len() + 1 < count {\n        return Err(Refusal::ShortTable);\n    }\n"
     "    for (place, entry) in entries.iter_mut().take(count)"),
    ("archive", "no 2 for bytes: entries as far as they fit",
     "    if entries.len() < count {\n        return Err(Refusal::ShortTable);\n    }\n    for (place, entry) in entries[..count].iter_mut()",
     "    for (place, entry) in entries.iter_mut().take(count)"),
    # logs for the archive: what a refusal and what lies behind the result is left as
    ("archive", "an output that is too short is cleared", "    if stored.len() < PLANES * count {\n",
     "    if stored.len() < PLANES * count {\n        stored.fill(0);\n"),
    ("archive", "a first plane is written before 2", "    if stored.len() < PLANES * count {\n",
     "    if stored.len() < PLANES * count {\n        stored.iter_mut().zip(entries).for_each(|(byte, entry)| *byte = (entry >> 56) as u8);\n"),
    ("archive", "a byte is written before 1", "    if count > MOST_ENTRIES {\n",
     "    if count > MOST_ENTRIES {\n        stored.iter_mut().take(1).for_each(|byte| *byte = 0);\n"),
    ("archive", "entries that are too few are cleared", "    if entries.len() < count {\n",
     "    if entries.len() < count {\n        entries.fill(0);\n"),
    ("archive", "an entry is written before 24", "    if !stored.len().is_multiple_of(PLANES) {\n",
     "    if !stored.len().is_multiple_of(PLANES) {\n        entries.iter_mut().take(1).for_each(|entry| *entry = 0);\n"),
    ("archive", "an entry is written before 1", "    if stored.len() > MOST_STORED {\n",
     "    if stored.len() > MOST_STORED {\n        entries.iter_mut().take(1).for_each(|entry| *entry = 0);\n"),
    ("archive", "bytes behind the planes are cleared", "    for plane in 0..PLANES {\n",
     "    stored[PLANES * entries.len()..].fill(0);\n    for plane in 0..PLANES {\n"),
    ("archive", "a byte behind the planes is cleared", "    for plane in 0..PLANES {\n",
     "    stored[PLANES * entries.len()..].iter_mut().take(1).for_each(|byte| *byte = 0);\n    for plane in 0..PLANES {\n"),
    ("archive", "entries behind the log are cleared", "    for (place, entry) in entries[..count]",
     "    entries[count..].fill(0);\n    for (place, entry) in entries[..count]"),
    ("archive", "an entry behind the log is cleared", "    for (place, entry) in entries[..count]",
     "    entries[count..].iter_mut().take(1).for_each(|entry| *entry = 0);\n    for (place, entry) in entries[..count]"),
    # logs for the archive: planes
    ("archive", "the lowest byte first", "entry.to_be_bytes()", "entry.to_le_bytes()"),
    ("archive", "planes from the last to the first", "&mut stored[plane * count..]", "&mut stored[(PLANES - 1 - plane) * count..]"),
    ("archive", "one entry behind the other",
     "        let bytes = &mut stored[plane * count..][..count];\n        for (byte, entry) in bytes.iter_mut().zip(entries) {",
     "        for (byte, entry) in stored.iter_mut().skip(plane).step_by(PLANES).zip(entries) {"),
    ("archive", "the last entry first in each plane", "bytes.iter_mut().zip(entries)", "bytes.iter_mut().rev().zip(entries)"),
    ("archive", "the last plane left out", "for plane in 0..PLANES {", "for plane in 0..PLANES - 1 {"),
    ("archive", "the first plane left out", "for plane in 0..PLANES {", "for plane in 1..PLANES {"),
    ("archive", "planes one byte too far apart", "        let bytes = &mut stored[plane * count..]",
     "        let apart = count + usize::from(count < stored.len() / PLANES);\n        let bytes = &mut stored[plane * apart..]"),
    ("archive", "planes one byte too close", "&mut stored[plane * count..][..count]", "&mut stored[plane * count.saturating_sub(1)..][..count]"),
    ("archive", "planes as far apart as the output lets them", "        let bytes = &mut stored[plane * count..]",
     "        let apart = stored.len() / PLANES;\n        let bytes = &mut stored[plane * apart..]"),
    ("archive", "the last entry of each plane left out", "[plane * count..][..count]", "[plane * count..][..count.saturating_sub(1)]"),
    ("archive", "two planes changed about", "entry.to_be_bytes()[plane]", "entry.to_be_bytes()[if plane / 2 == 2 { 9 - plane } else { plane }]"),
    ("archive", "the fifth plane has the fourth's bytes", "entry.to_be_bytes()[plane]", "entry.to_be_bytes()[if plane == 4 { 3 } else { plane }]"),
    ("archive", "the halves of entries changed about", "entry.to_be_bytes()[plane]", "entry.to_be_bytes()[plane ^ 4]"),
    ("archive", "entries of 32 bits", "entry.to_be_bytes()[plane]", "(entry & 0xffff_ffff).to_be_bytes()[plane]"),
    ("archive", "an urgent tag stored without its bit", "entry.to_be_bytes()[plane]", "(entry << 1 >> 1).to_be_bytes()[plane]"),
    ("archive", "planes shifted by seven bits", "entry.to_be_bytes()[plane]", "(entry >> (7 * (7 - plane))) as u8"),
    ("archive", "bytes added to what is there", "*byte = entry", "*byte |= entry"),
    ("archive", "no bytes of an empty slot written", "zip(entries) {", "zip(entries).filter(|(_, entry)| **entry != 0) {"),
    ("archive", "no entries above the 255th", "let count = entries.len();",
     "let count = entries.len();\n    let entries = &entries[..count.min(255)];"),
    ("archive", "the 1,024th entry left out", "zip(entries) {", "zip(entries).take(1023) {"),
    # logs for the archive: entries
    ("archive", "the lowest byte read first", "u64::from_be_bytes(", "u64::from_le_bytes("),
    ("archive", "planes read from the last to the first", "stored[plane * count + place]", "stored[(PLANES - 1 - plane) * count + place]"),
    ("archive", "one entry read behind the other", "stored[plane * count + place]", "stored[place * PLANES + plane]"),
    ("archive", "the last entry read first", "stored[plane * count + place]", "stored[plane * count + count - 1 - place]"),
    ("archive", "the byte before is read", "stored[plane * count + place]", "stored[(plane * count + place).saturating_sub(1)]"),
    ("archive", "the last plane not read", "|plane| stored[plane * count + place])",
     "|plane| if plane == 7 { 0 } else { stored[plane * count + place] })"),
    ("archive", "the first plane not read", "|plane| stored[plane * count + place])",
     "|plane| if plane == 0 { 0 } else { stored[plane * count + place] })"),
    ("archive", "two planes read changed about", "stored[plane * count + place]",
     "stored[if plane / 2 == 1 { 5 - plane } else { plane } * count + place]"),
    ("archive", "bytes read with a sign", "u64::from_be_bytes(array::from_fn(|plane| stored[plane * count + place]))",
     "(0..PLANES).fold(0, |entry: u64, plane| entry << 8 | stored[plane * count + place] as i8 as u64)"),
    ("archive", "an urgent tag read without its bit", "*entry = u64::from_be_bytes(array::from_fn(|plane| stored[plane * count + place]));",
     "*entry = u64::from_be_bytes(array::from_fn(|plane| stored[plane * count + place])) << 1 >> 1;"),
    ("archive", "bytes read at a seventh bit", "u64::from_be_bytes(array::from_fn(|plane| stored[plane * count + place]))",
     "(0..PLANES).fold(0, |entry: u64, plane| entry << 7 | u64::from(stored[plane * count + place]))"),
    ("archive", "entries added to what is there", "*entry = u64", "*entry |= u64"),
    ("archive", "planes read by the length of the output",
     "    for (place, entry) in entries[..count].iter_mut().enumerate() {\n"
     "        *entry = u64::from_be_bytes(array::from_fn(|plane| stored[plane * count + place]));",
     "    let apart = entries.len();\n    for (place, entry) in entries[..count].iter_mut().enumerate() {\n"
     "        *entry = u64::from_be_bytes(array::from_fn(|plane| stored[(plane * apart + place) % stored.len()]));"),
    ("archive", "the last entry not read", "entries[..count].iter_mut()", "entries[..count.saturating_sub(1)].iter_mut()"),
    ("archive", "no entries above the 255th read", "entries[..count].iter_mut()", "entries[..count.min(255)].iter_mut()"),
    ("archive", "the 1,024th entry not read", "entries[..count].iter_mut()", "entries[..count.min(1023)].iter_mut()"),
    # counts: when they are raised
    ("rules", "entering find is fast, and its close too", "Record { round: FIND, ..record }",
     "Record { round: FIND, fast: record.fast + u16::from(record.phase == 1), ..record }"),
    ("rules", "fast at the vote, before find closes",
     "    close_by_outcome(numbers, who, record, tag, memories);\n    Ok(Advanced::Found(tag))\n}\n\n"
     "/// \"Outcome 1 closes it with the tag that has a majority among the proposals heard\".\n"
     "fn close_with_majority(numbers: &Numbers, who: usize, record: Record, memories: &mut Memories) -> Advanced {\n"
     "    match majority_tag(numbers, who, usize::from(record.slot), memories) {\n        Some(tag) => {\n"
     "            close_by_outcome(numbers, who, record, tag, memories);\n            Advanced::ClosedWith(tag)\n        }\n"
     "        None => {\n            memories.set_record(who, Record { round: FIND, ..record });",
     "    close(numbers, who, record, tag, memories);\n    Ok(Advanced::Found(tag))\n}\n\n"
     "fn close_with_majority(numbers: &Numbers, who: usize, record: Record, memories: &mut Memories) -> Advanced {\n"
     "    match majority_tag(numbers, who, usize::from(record.slot), memories) {\n        Some(tag) => {\n"
     "            close_by_outcome(numbers, who, record, tag, memories);\n            Advanced::ClosedWith(tag)\n        }\n"
     "        None => {\n            let fast = record.fast + u16::from(record.phase == 1);\n"
     "            memories.set_record(who, Record { round: FIND, fast, ..record });"),
    ("rules", "find of phase 1 is not fast", "    close_by_outcome(numbers, who, record, tag, memories);\n    Ok(Advanced::Found(tag))",
     "    close(numbers, who, record, tag, memories);\n    Ok(Advanced::Found(tag))"),
    ("rules", "an empty slot of phase 1 is not fast", "close_by_outcome(numbers, who, record, 0, memories);", "close(numbers, who, record, 0, memories);"),
    ("rules", "a slot with an order in phase 1 is not fast", "u16::from(record.phase == 1)", "u16::from(record.phase == 1 && entry == 0)"),
    ("rules", "a close in any phase is fast", "u16::from(record.phase == 1)", "1"),
    ("rules", "a close in phase 2 is fast", "u16::from(record.phase == 1)", "u16::from(record.phase == 2)"),
    ("rules", "a close in phase 1 or 2 is fast", "u16::from(record.phase == 1)", "u16::from((1..=2).contains(&record.phase))"),
    ("rules", "a close in phase 0 is fast too", "u16::from(record.phase == 1)", "u16::from(record.phase <= 1)"),
    ("rules", "a close in phase 257 is fast too", "u16::from(record.phase == 1)", "u16::from(record.phase as u8 == 1)"),
    ("rules", "going on from phase 1 is fast", "Record { phase: record.phase + 1, ..record }",
     "Record { phase: record.phase + 1, fast: record.fast + u16::from(phase == 1), ..record }"),
    ("rules", "a vote for 0 raises the empty count", "Record { round: VOTE, ..record }",
     "Record { round: VOTE, empty: record.empty + u16::from(vote == ZERO), ..record }"),
    ("rules", "slots with an order raise the empty count", "u16::from(entry == 0)", "u16::from(entry != 0)"),
    ("rules", "every close raises the empty count", "u16::from(entry == 0)", "1"),
    ("rules", "only phase 1 raises the empty count", "u16::from(entry == 0)", "u16::from(entry == 0 && record.phase == 1)"),
    ("rules", "the empty count taken from the log", "let empty = record.empty + u16::from(entry == 0);",
     "let empties = memories.log(numbers, who, usize::from(record.slot)).iter().filter(|&&old| old == 0).count();\n"
     "    let empty = empties as u16 + u16::from(entry == 0);"),
    ("rules", "an empty count of 8 bits", "let empty = record.empty + u16::from(entry == 0);", "let empty = (record.empty + u16::from(entry == 0)) & 255;"),
    ("rules", "an empty count of 10 bits", "let empty = record.empty + u16::from(entry == 0);", "let empty = (record.empty + u16::from(entry == 0)) & 1023;"),
    ("rules", "a fast count of 8 bits", "let fast = record.fast + u16::from(record.phase == 1);",
     "let fast = (record.fast + u16::from(record.phase == 1)) & 255;"),
    ("rules", "a fast count of 10 bits", "let fast = record.fast + u16::from(record.phase == 1);",
     "let fast = (record.fast + u16::from(record.phase == 1)) & 1023;"),
    ("rules", "a run on raises no count", "    Ok(Ran { advances, stop: Stop::Closed(last) })",
     "    let closed = memories.record(who).unwrap_or_default();\n"
     "    memories.set_record(who, Record { empty: record.empty, fast: record.fast, ..closed });\n"
     "    Ok(Ran { advances, stop: Stop::Closed(last) })"),
    ("conductor", "the conductor raises no count", "    Ok(Conducted { steps, relays })",
     "    for &who in &plan.lit {\n        let record = memories.record(who).unwrap_or_default();\n"
     "        memories.set_record(who, Record { fast: record.fast.saturating_sub(1), ..record });\n    }\n"
     "    Ok(Conducted { steps, relays })"),
    # counts: a close by notice
    ("rules", "a notice in phase 1 is fast", "        close(numbers, who, record, entry, memories);\n        return Ok(Advanced::ByNotice",
     "        close_by_outcome(numbers, who, record, entry, memories);\n        return Ok(Advanced::ByNotice"),
    ("rules", "a notice in a round of phase 1 is fast",
     "        close(numbers, who, record, entry, memories);\n        return Ok(Advanced::ByNotice",
     "        let fast = record.fast + u16::from(record.round != IDLE && record.phase == 1);\n"
     "        close(numbers, who, Record { fast, ..record }, entry, memories);\n        return Ok(Advanced::ByNotice"),
    ("rules", "a notice when idle behind phase 1 is fast",
     "        close(numbers, who, record, entry, memories);\n        return Ok(Advanced::ByNotice",
     "        let fast = record.fast + u16::from(record.round == IDLE && record.phase == 1);\n"
     "        close(numbers, who, Record { fast, ..record }, entry, memories);\n        return Ok(Advanced::ByNotice"),
    ("rules", "a notice in find of phase 1 is fast",
     "        close(numbers, who, record, entry, memories);\n        return Ok(Advanced::ByNotice",
     "        let fast = record.fast + u16::from(record.round == FIND && record.phase == 1);\n"
     "        close(numbers, who, Record { fast, ..record }, entry, memories);\n        return Ok(Advanced::ByNotice"),
    ("rules", "a notice ahead of an outcome is fast",
     "        close(numbers, who, record, entry, memories);\n        return Ok(Advanced::ByNotice",
     "        let tried = advance_by_round(numbers, who, record, &mut memories.clone());\n"
     "        let reached = record.round == VOTE && record.phase == 1 && tried.is_ok_and(Advanced::closes);\n"
     "        let fast = record.fast + u16::from(reached);\n"
     "        close(numbers, who, Record { fast, ..record }, entry, memories);\n        return Ok(Advanced::ByNotice"),
    ("rules", "a close by notice leaves the empty count", "        close(numbers, who, record, entry, memories);\n        return Ok(Advanced::ByNotice",
     "        close(numbers, who, record, entry, memories);\n        let closed = memories.record(who).unwrap_or_default();\n"
     "        memories.set_record(who, Record { empty: record.empty, ..closed });\n        return Ok(Advanced::ByNotice"),
    # counts: refusal 3
    ("memories", "as many empty as closed slots is spoiled", "self.empty > self.slot ||", "self.empty >= self.slot.max(1) ||"),
    ("memories", "as many fast as closed slots is spoiled", "|| self.fast > self.slot\n", "|| self.fast >= self.slot.max(1)\n"),
    ("memories", "an empty count one above is not spoiled", "self.empty > self.slot ||", "self.empty > self.slot.saturating_add(1) ||"),
    ("memories", "a fast count one above is not spoiled", "|| self.fast > self.slot\n", "|| self.fast > self.slot.saturating_add(1)\n"),
    ("memories", "the empty count not judged", "self.empty > self.slot || self.fast > self.slot", "self.fast > self.slot"),
    ("memories", "the fast count not judged", "self.empty > self.slot || self.fast > self.slot", "self.empty > self.slot"),
    ("memories", "spoiled only if both counts are above", "self.empty > self.slot || self.fast", "self.empty > self.slot && self.fast"),
    ("memories", "spoiled if the counts' sum is above", "self.empty > self.slot || self.fast > self.slot",
     "u32::from(self.empty) + u32::from(self.fast) > u32::from(self.slot)"),
    ("memories", "counts judged by the slot count", "|| self.counts_exceed()\n",
     "|| usize::from(self.empty.max(self.fast)) > numbers.slots\n"),
    ("memories", "counts judged by their low bytes", "self.empty > self.slot || self.fast > self.slot",
     "self.empty as u8 > self.slot as u8 || self.fast as u8 > self.slot as u8"),
    ("memories", "counts judged with a sign", "self.empty > self.slot || self.fast > self.slot",
     "self.empty as i16 > self.slot as i16 || self.fast as i16 > self.slot as i16"),
    ("memories", "counts judged when idle only", "|| self.counts_exceed()\n", "|| (self.round == IDLE && self.counts_exceed())\n"),
    ("memories", "counts judged in a round only", "|| self.counts_exceed()\n", "|| (self.round != IDLE && self.counts_exceed())\n"),
    ("memories", "a crashed one's counts not judged", "|| self.counts_exceed()\n", "|| (self.crashed == 0 && self.counts_exceed())\n"),
    ("memories", "counts judged by a crash alone", "Record::from(words).is_spoiled(numbers))",
     "Record { empty: 0, fast: 0, ..Record::from(words) }.is_spoiled(numbers))"),
    ("memories", "a crash alone judges crashed ones' counts", "Record::from(words).is_spoiled(numbers))",
     "{\n            let record = Record::from(words);\n            let uncounted = Record { empty: 0, fast: 0, ..record };\n"
     "            if record.crashed == 0 { record.is_spoiled(numbers) } else { uncounted.is_spoiled(numbers) }\n        })"),
    ("memories", "the last replica's counts not judged", "records.any(|&words| Record::from(words).is_spoiled(numbers))",
     "records.by_ref().enumerate().any(|(who, &words)| {\n            let record = Record::from(words);\n"
     "            let uncounted = Record { empty: 0, fast: 0, ..record };\n"
     "            if who + 1 == numbers.n { uncounted.is_spoiled(numbers) } else { record.is_spoiled(numbers) }\n        })"),
    ("memories", "counts of short words not judged", "Record::from(words).is_spoiled(numbers))",
     "{\n            let record = Record::from(words);\n            let uncounted = Record { empty: 0, fast: 0, ..record };\n"
     "            if self.fit(numbers) { record.is_spoiled(numbers) } else { uncounted.is_spoiled(numbers) }\n        })"),
    ("memories", "a record judged without its counts", "let mut records = self.records().iter().take(numbers.n);",
     "let padded: Vec<u16> = self.words.iter().copied().chain([0; 2]).collect();\n"
     "        let mut records = padded[1..].as_chunks::<6>().0.iter().take(numbers.n);"),
    ("memories", "a record judged without its fast count", "let mut records = self.records().iter().take(numbers.n);",
     "let padded: Vec<u16> = self.words.iter().copied().chain([0; 1]).collect();\n"
     "        let mut records = padded[1..].as_chunks::<6>().0.iter().take(numbers.n);"),
    ("rules", "only the acting one's counts judged", "    admit_rack(numbers, memories)?;\n    if named",
     "    let mut uncounted = memories.clone();\n    for other in (0..numbers.n.min(15)).filter(|&other| other != named[0]) {\n"
     "        if let Some(record) = memories.record(other) {\n"
     "            uncounted.set_record(other, Record { empty: 0, fast: 0, ..record });\n        }\n    }\n"
     "    admit_rack(numbers, &uncounted)?;\n    if named"),
    ("rules", "only the others' counts judged", "    admit_rack(numbers, memories)?;\n    if named",
     "    let mut uncounted = memories.clone();\n    if let Some(record) = memories.record(named[0]).filter(|_| named[0] < numbers.n) {\n"
     "        uncounted.set_record(named[0], Record { empty: 0, fast: 0, ..record });\n    }\n"
     "    admit_rack(numbers, &uncounted)?;\n    if named"),
    ("conductor", "the conductor judges no counts", "        rules::admit_rack(numbers, memories)?;",
     "        let mut uncounted = memories.clone();\n        for who in 0..numbers.n.min(15) {\n"
     "            if let Some(record) = memories.record(who) {\n"
     "                uncounted.set_record(who, Record { empty: 0, fast: 0, ..record });\n            }\n        }\n"
     "        rules::admit_rack(numbers, &uncounted)?;"),
    ("rules", "a crash judges no counts", "    if record.is_spoiled(numbers) {", "    if (Record { empty: 0, fast: 0, ..*record }).is_spoiled(numbers) {"),
    ("rules", "a crash judges counts before the number", "    if who >= numbers.n {\n        return Err(Refusal::NoSuchBench);\n    }\n    if record",
     "    if who >= numbers.n && !record.counts_exceed() {\n        return Err(Refusal::NoSuchBench);\n    }\n    if record"),
    ("rules", "5 before 3 of counts", "    if record.is_spoiled(numbers) {",
     "    if record.crashed != 0 && record.counts_exceed() {\n        return Err(Refusal::Dark);\n    }\n    if record.is_spoiled(numbers) {"),
    # counts: where they stand, and what leaves them
    ("numbers", "records of four words before the holders", "RECORDS + RECORD_WORDS * self.n", "RECORDS + 4 * self.n"),
    ("numbers", "records of seven words before the holders", "RECORDS + RECORD_WORDS * self.n", "RECORDS + 7 * self.n"),
    ("memories", "counts read changed about", "fn from([crashed, round, slot, phase, empty, fast]", "fn from([crashed, round, slot, phase, fast, empty]"),
    ("memories", "counts stored changed about", "record.phase, record.empty, record.fast];", "record.phase, record.fast, record.empty];"),
    ("memories", "counts read before the phase", "fn from([crashed, round, slot, phase, empty, fast]", "fn from([crashed, round, slot, empty, fast, phase]"),
    ("memories", "an opening leaves the counts", "self.words[..needs.words].fill(0);",
     "let kept: Vec<Record> = (0..numbers.n).filter_map(|who| self.record(who)).collect();\n        self.words[..needs.words].fill(0);\n"
     "        for (who, Record { empty, fast, .. }) in kept.into_iter().enumerate() {\n"
     "            self.set_record(who, Record { empty, fast, ..Record::default() });\n        }"),
    ("rules", "a crash clears the counts", "    record.crashed = 1;", "    *record = Record { crashed: 1, empty: 0, fast: 0, ..*record };"),
    ("rules", "begin clears the counts", "Record { round: EXCHANGE, phase: 0, ..record }", "Record { round: EXCHANGE, phase: 0, empty: 0, fast: 0, ..record }"),
    ("rules", "a state that is sent clears the fast count", "Record { round: STATE, ..record }", "Record { round: STATE, fast: 0, ..record }"),
    ("rules", "a vote clears the empty count", "Record { round: VOTE, ..record }", "Record { round: VOTE, empty: 0, ..record }"),
    ("rules", "find clears the fast count", "Record { round: FIND, ..record }", "Record { round: FIND, fast: 0, ..record }"),
    ("rules", "a next phase clears the empty count", "Record { phase: record.phase + 1, ..record }", "Record { phase: record.phase + 1, empty: 0, ..record }"),
    ("rules", "submit clears the counts", "            memories.add_tag(numbers, tag, who);",
     "            memories.add_tag(numbers, tag, who);\n            let record = memories.record(who).unwrap_or_default();\n"
     "            memories.set_record(who, Record { empty: 0, fast: 0, ..record });"),
    ("rules", "relay clears the counts", "    memories.hold(numbers, place, who);\n    Ok(())",
     "    memories.hold(numbers, place, who);\n    let record = memories.record(who).unwrap_or_default();\n"
     "    memories.set_record(who, Record { empty: 0, fast: 0, ..record });\n    Ok(())"),
    ("rules", "hear clears the receiver's counts", "|= bit(receiver);\n",
     "|= bit(receiver);\n    let record = memories.record(receiver).unwrap_or_default();\n"
     "    memories.set_record(receiver, Record { empty: 0, fast: 0, ..record });\n"),
    # step files
    ("step_file", "a byte more is taken", "REHEARSAL_BYTES: usize = 65_536", "REHEARSAL_BYTES: usize = 65_537"),
    ("step_file", "a byte less is taken", "REHEARSAL_BYTES: usize = 65_536", "REHEARSAL_BYTES: usize = 65_535"),
    ("step_file", "the program has 8 phases", "slots: 16, phases: 16", "slots: 16, phases: 8"),
    ("step_file", "the program has 15 phases", "slots: 16, phases: 16", "slots: 16, phases: 15"),
    ("step_file", "the program has 17 phases", "slots: 16, phases: 16", "slots: 16, phases: 17"),
    ("step_file", "2 at 16 phases", "numbers.phases > most.phases", "numbers.phases >= most.phases"),
    ("step_file", "long memories let more phases in", "        || numbers.phases > most.phases\n", ""),
    ("step_file", "2 before 1", "if is_larger(&rules::planned(&plan, start)?, most) {", "if is_larger(&plan, most) {"),
    ("step_file", "no lines of benches after 19 and 20", "                break;\n", "                return played;\n"),
    ("step_file", "accepted records not counted", "            played.refused(number, refusal);\n        }\n        seen",
     "            played.refused(number, refusal);\n        } else {\n            number -= 1;\n        }\n        seen"),
    ("step_file", "a second opening opens", "            (Call::Open { .. }, Some(_)) | (_, None) =>", "            (_, None) =>"),
    ("step_file", "highest byte first", "bytes.iter().rev()", "bytes.iter()"),
    ("step_file", "an empty slot is 0", '" -".to_string()', '" 0".to_string()'),
]


def options():
    parser = argparse.ArgumentParser(description=__doc__, formatter_class=argparse.RawDescriptionHelpFormatter)
    parser.add_argument("--lib", required=True, help="the folder of librushhopper.a")
    parser.add_argument("--program", required=True, help="the rehearsal program")
    parser.add_argument("--seed", default="1")
    parser.add_argument("--calls", default="1000000")
    parser.add_argument("--sessions", default="2000")
    parser.add_argument("--archives", default="1000000")
    parser.add_argument("--only", default="", help="only slips whose file or description has this text")
    return parser.parse_args()


def programs(slip):
    return ["archives"] if slip[0] in ARCHIVE_FILES else ["calls", "sessions"]


def build(copy, lib, names):
    command = ["cargo", "build", "--quiet", "--release", "--offline", "--features", "library"]
    for name in names:
        command += ["--bin", name]
    environment = dict(os.environ, RUSHHOPPER_LIB=os.path.abspath(lib), RUSTFLAGS="-Awarnings")
    subprocess.run(command, cwd=copy, env=environment, check=True)


def sees(command):
    """The first line of a difference; a copy that stops with a panic is seen too. None if neither occurs."""
    done = subprocess.run(command, capture_output=True, text=True, errors="replace", env=dict(os.environ, RUST_BACKTRACE="0"))
    for line in done.stdout.splitlines():
        if line.startswith("difference"):
            return line
    return None if done.returncode in (0, 1) else "stopped: " + " ".join(done.stderr.split())


def verdict(copy, arguments, names):
    build(copy, arguments.lib, names)
    for name in names:
        command = [copy / "target" / "release" / name, "--seed", arguments.seed, "--runs", getattr(arguments, name)]
        if name == "sessions":
            command += ["--program", os.path.abspath(arguments.program)]
        seen = sees(command)
        if seen:
            return f"{name}: {seen[:90]}"
    return None


def try_slip(copy, slip, arguments):
    name, _, right, slipped = slip
    source = copy / "src" / f"{name}.rs"
    text = source.read_text()
    if text.count(right) != 1:
        sys.exit(f"the text stands {text.count(right)} times in {name}.rs:\n{right}")
    source.write_text(text.replace(right, slipped))
    try:
        return verdict(copy, arguments, programs(slip))
    finally:
        source.write_text(text)


def main():
    arguments = options()
    slips = [slip for slip in SLIPS if arguments.only in slip[0] or arguments.only in slip[1]]
    unseen = 0
    with tempfile.TemporaryDirectory() as folder:
        copy = pathlib.Path(folder) / "separate"
        shutil.copytree(PACKAGE, copy, ignore=shutil.ignore_patterns("target"))
        if verdict(copy, arguments, sorted({name for slip in slips for name in programs(slip)})):
            sys.exit("the copy differs before any slip")
        for slip in slips:
            seen = try_slip(copy, slip, arguments)
            unseen += seen is None
            print(f"{'unseen' if seen is None else 'seen':8}{slip[1]:45}{seen or ''}", flush=True)
    print(f"{len(slips) - unseen} of {len(slips)} slips seen")
    return 1 if unseen else 0


if __name__ == "__main__":
    sys.exit(main())
