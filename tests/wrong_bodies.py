#!/usr/bin/env python3
"""Plants wrong bodies in copies of crates, one in each function, and sees that the checker refuses each.

    tests/wrong_bodies.py [LIBRARIES] [WORD..]

LIBRARIES is a folder of proved libraries, NAME.rlib; without it they are those that `rt ci` left in crates/. With words, only bodies whose
names hold one of these are tried. A body counts as refused if a goal of the clause that its row names stays open. A body that does not
compile, or is refused only because a proof file names what it took away, is a failure, and so is one that is proved. The body that takes a
lock is refused by the types alone: its row says the checker's words.

Bodies of one crate are planted together, since each function is proved by the contracts of those that it calls. A body that calls the
function of another is planted in a later round. docs/TESTED.md has the table of bodies; `--table` prints it.
"""
import collections
import os
import re
import shutil
import subprocess
import sys
import tempfile

TOP = os.path.dirname(os.path.dirname(os.path.realpath(__file__)))
Body = collections.namedtuple("Body", "name crate file function clause round edits")

STORE, SIMULATION = "sim_store", "sim_store_simulation"
BODIES = [
    Body("the result of a cycle before is taken", STORE, "store.rt", "store::WaveStore::accept", "", 1, [
        ("        if job.cycle() != self.run.simulation().cycles() {", "        if job.cycle() > self.run.simulation().cycles() {")]),
    Body("a second result of a process is taken", STORE, "store.rt", "store::check", "", 2, [
        ("    if simulation.is_deposited(number) {", "    if simulation.is_deposited(number) && !simulation.is_due(number) {")]),
    Body("a result is dropped", STORE, "store.rt", "store::WaveStore::deposit", "ok", 1, [
        ("                self.run.deposit(done);", "                let _dropped = done;")]),
    Body("a cycle without an event is passed over", STORE, "run.rt", "run::Run::go_to", "ok", 1, [
        ("        self.simulation.go_on(time, &mut self.log)?;",
         "        let changes = self.log.count();\n"
         "        self.simulation.go_on(time, &mut self.log)?;\n"
         "        if self.log.count() == changes {\n"
         "            self.simulation.go_on(time, &mut self.log)?;\n"
         "        }")]),
    Body("a run has one cycle more than its limit", STORE, "run.rt", "run::Run::go_to", "ok", 2, [
        ("        if self.simulation.cycles() == self.limit as usize {", "        if self.simulation.cycles() > self.limit as usize {")]),
    Body("a run that finishes in its last cycle is over the limit", STORE, "run.rt", "run::Run::go_on", "ok", 1, [
        ("            _ => Ok(self.end(Step::Finished)),",
         "            _ if self.simulation.cycles() == self.limit as usize => Ok(self.end(Step::LimitReached)),\n"
         "            _ => Ok(self.end(Step::Finished)),")]),
    Body("the run begins again", STORE, "run.rt", "run::Run::advance", "ok", 1, [
        ("        self.go_on()\n    }",
         "        let design = self.simulation.design().try_copy()?;\n"
         "        let Ok((begun, log)) = Simulation::begin(_alloc, design) else {\n"
         "            return Err(StoreError::Memory);\n"
         "        };\n"
         "        self.simulation = begun;\n"
         "        self.log = log;\n"
         "        Ok(Step::Next)\n    }")]),
    Body("the last record is given twice", STORE, "store.rt", "store::WaveStore::records_since", "ok", 1, [
        ("        let found = records_from(alloc, log, number)?;",
         "        let mut found = records_from(alloc, log, number)?;\n"
         "        let mut last = records_from(alloc, log, self.run.simulation().cycles())?;\n"
         "        if let Some(record) = last.pop() {\n"
         "            let _twice = found.push(record);\n"
         "        }")]),
    Body("a result updates the nets", SIMULATION, "simulation.rt", "simulation::Simulation::deposit", "invariant", 1, [
        ("        put_results(&mut contents.state, number, results);",
         "        put_results(&mut contents.state, number, results);\n"
         "        let mut log = Log::new(*contents.totals.allocator(), Past::none());\n"
         "        contents.state.update(contents.time, contents.delta, &mut log, contents.totals.as_mut_slice());")]),
    Body("a process that is executed in place updates the nets", SIMULATION, "simulation.rt", "simulation::execute_unmarked", "of", 1, [
        ("        numbers.as_slice(),\n        contents.time,\n        &compiled.codes,\n        &mut compiled.frame,\n    )?;",
         "        numbers.as_slice(),\n        contents.time,\n        &compiled.codes,\n        &mut compiled.frame,\n    )?;\n"
         "    let mut log = Log::new(alloc, Past::none());\n"
         "    contents.state.update(contents.time, contents.delta, &mut log, contents.totals.as_mut_slice());")]),
    Body("a waiting process is forgotten over a delta cycle", SIMULATION, "simulation.rt", "simulation::leave", "left", 1, [
        ("        Phase::NonPostponed => {}", "        Phase::NonPostponed => waiting.clear(),")]),
    Body("a delta cycle of a postponed process is carried out", SIMULATION, "simulation.rt", "simulation::upcoming", "", 1, [
        ("        (Phase::Postponed, _) if is_delta => Upcoming::PostponedDelta,",
         "        (Phase::Postponed, _) if is_delta && !is_waited => Upcoming::PostponedDelta,")]),
    Body("the next cycle is of another design", SIMULATION, "simulation.rt", "simulation::Simulation::go_on", "ok", 1, [
        ("        begin_phase(contents, Phase::NonPostponed);\n        Ok(())",
         "        begin_phase(contents, Phase::NonPostponed);\n"
         "        let alloc = *self.contents.totals.allocator();\n"
         "        let (nets, processes) = (sqlite_items::Items::new(alloc), sqlite_items::Items::new(alloc));\n"
         "        let Ok(empty) = Design::new(alloc, nets, processes, sqlite_items::Items::new(alloc)) else {\n"
         "            return Ok(());\n"
         "        };\n"
         "        self.design = empty;\n"
         "        Ok(())")]),
    Body("records that were given away stay", STORE, "run.rt", "run::Run::give", "given", 1, [
        ("        self.log.give(alloc, last)", "        let given = self.log.give(alloc, last);\n        std::mem::replace(&mut self.log, given)")]),
    Body("records to come begin at time 0", "sim_store_state", "log.rt", "log::Log::give", "past", 1, [
        ("            time: last.0,", "            time: 0,")]),
    Body("the last piece of a listing is lost", "sim_run_session", "beside.rt", "beside::carry_and_write", "listed", 1, [
        ("            names.write(&piece, out)?;", "            names.write(&Log::new(alloc, Past::none()), out)?;")]),
    Body("a driver is listed twice", "sim_containers", "times.rt", "times::TimeQueue::take_due", "drivers", 1, [
        ("        taken.list(&mut drivers);",
         "        taken.list(&mut drivers);\n"
         "        if let Some(first) = drivers.pop() {\n"
         "            let _once = drivers.push(first);\n"
         "            let _twice = drivers.push(first);\n"
         "        }")]),
    Body("a token has the bytes after it as well", "sim_text_tokens", "lexeme.rt", "lexeme::Lexeme::bytes", "", 1, [
        ("        let len = end.saturating_sub(start);", "        let len = end;")]),
    Body("a name is kept as it is written", "sim_text_tokens", "lexeme.rt", "lexeme::name_text", "", 1, [
        ("    let word = bytes.to_ascii_lowercase(alloc)?;\n    Ok(Items::from_vec(word))", "    Items::from_slice(alloc, bytes)")]),
    Body("all processes of a net share a driver", "sim_flat_expansion", "processes.rt", "processes::targets", "loop", 1, [
        ("        let number = drivers.len();",
         "        if drivers.as_slice().iter().any(|driver| driver.net == net_at(object_nets, *target)) {\n"
         "            continue;\n"
         "        }\n"
         "        let number = drivers.len();")]),
    Body("numbers are drawn under a lock", "sim_run_claims", "drawing.rt", "drawing::Claims::draw",
         "error[unsatisfied-bound]: the trait bound `(): Wait` is not satisfied", 1, [
        ("        let found = self.table.shared.fetch_add::<Draws>(seat, 0, 1);",
         "        let counter = std::sync::Mutex::new(0u64);\n"
         "        let mut word = counter.lock(&());\n"
         "        let found = *word;\n"
         "        *word += 1;")]),
]


def plant(tree, bodies):
    """Makes a copy of a crate in a tree, with these bodies, and returns whether each text that one of them replaces stands there once."""
    crate = bodies[0].crate
    to = f"{tree}/crates/{crate}"
    shutil.rmtree(to, ignore_errors=True)
    for part in os.listdir(f"{TOP}/crates/{crate}"):
        if part in ("src", "specs", "proofs"):
            shutil.copytree(f"{TOP}/crates/{crate}/{part}", f"{to}/{part}")
    is_found = True
    for body in bodies:
        path = f"{to}/src/{body.file}"
        with open(path, encoding="utf-8") as file:
            text = file.read()
        for old, new in body.edits:
            is_found = is_found and text.count(old) == 1
            text = text.replace(old, new)
        with open(path, "w", encoding="utf-8") as file:
            file.write(text)
    return is_found


def open_goals(said, body):
    """Returns the goals of a body's function that stay open, by what the check said; None if the function is proved."""
    folder, goals, notes = "/".join(body.function.split("::")), [], []
    for line in said.split("\n"):
        # a proof file that names what the body took away says nothing of the contract
        answer = re.match(rf"(?:\./)?proofs/{folder}/\w+\.antt:\d+:\d+: error: `([^`]+)`: (?!`goal\.)", line)
        note = re.match(r"note: src/\S+: it is not proved that .*\(`([^`]+)`\)", line)
        if answer:
            goals.append(answer[1])
        elif note:
            notes.append(note[1])
        elif line.startswith(f"fn {body.crate}::{body.function}: "):
            return None if line.endswith(": proved") else goals + notes
        elif line.startswith("fn "):
            # the notes before it were on this function
            notes = []
    return []


def is_of(goal, clause):
    """Returns whether a goal is that a clause holds on return; of `invariant` that of the type; of `loop` that of a loop, by which the clause is proved."""
    if clause == "loop":
        return goal.startswith("loop-") and "preserved" in goal
    if clause == "invariant":
        return goal.startswith("invariant_of-")
    return goal.startswith("returns") and (goal.endswith(f"-clause-{clause}") if clause else "-clause-" not in goal)


def verdict(body, said):
    """Returns what is wrong with the refusal of a body, or nothing."""
    if body.clause.startswith("error["):
        return "" if body.clause in said else "the types do not refuse it"
    goals = open_goals(said, body)
    if goals is None:
        return "it is not refused"
    if not any(is_of(it, body.clause) for it in goals):
        return f"`{body.clause}` is not among the open goals: {', '.join(goals) or 'none'}"
    return ""


def tried(tree, bodies):
    """Returns what is wrong with the refusal of each of some bodies of one crate, planted together, and prints what the check said of those."""
    if not plant(tree, bodies):
        return ["a text that it replaces does not stand once in its file"] * len(bodies)
    crate = bodies[0].crate
    words = [it for body in bodies for it in ("--only", f"{crate}::{body.function}")]
    ran = subprocess.run([f"{tree}/tools/check", crate, *words], stdin=subprocess.DEVNULL, stdout=subprocess.PIPE, stderr=subprocess.STDOUT,
                         check=False)
    said = ran.stdout.decode(errors="replace")
    wrong = [verdict(it, said) for it in bodies]
    if any(wrong):
        print(said)
    return wrong


def prepare(tree, libraries):
    """Makes a tree in which tools/check takes proved libraries."""
    os.makedirs(f"{tree}/out/checked")
    os.makedirs(f"{tree}/tools")
    shutil.copy2(f"{TOP}/crates.txt", tree)
    shutil.copy2(f"{TOP}/tools/check", f"{tree}/tools")
    for crate in os.listdir(f"{TOP}/crates"):
        library = f"{libraries}/{crate}.rlib" if libraries else f"{TOP}/crates/{crate}/out/rlib/{crate}.rlib"
        if os.path.isdir(library):
            os.symlink(os.path.realpath(library), f"{tree}/out/checked/{crate}.rlib")


def main(words):
    if words == ["--table"]:
        for it in BODIES:
            print(f"| {it.name} | `{it.function.split('::', 1)[1]}` ({it.crate}, `{it.file}`) | {it.clause} |")
        return 0
    libraries = words.pop(0) if words and os.path.isdir(words[0]) else None
    bodies = [it for it in BODIES if not words or any(word in it.name or word == it.crate for word in words)]
    failed = 0
    with tempfile.TemporaryDirectory() as tree:
        prepare(tree, libraries)
        for crate, number in dict.fromkeys((it.crate, it.round) for it in bodies):
            those = [it for it in bodies if (it.crate, it.round) == (crate, number)]
            for body, wrong in zip(those, tried(tree, those)):
                print(f"wrong_bodies: {crate}: {body.name}: {wrong or 'refused'}", flush=True)
                failed += bool(wrong)
    print(f"{len(bodies) - failed} passed, {failed} failed")
    return 1 if failed else 0


if __name__ == "__main__":
    sys.exit(main(sys.argv[1:]))
