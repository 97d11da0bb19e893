#!/usr/bin/env python3
"""Tries all interleavings of a thread that waits for messages and of others that put, take and close: `inbox.py`, without arguments.

The model is `Inbox` and `Bell` of sim_run_team, step by step: a step is one atomic operation of the code, and its line stands beside it.
First the code is read: each function of which the model has steps must have the body that BODIES tells. So whoever changes one of these
functions changes the model too. Then each row of RUNS is carried out in every order of the threads' steps, with one look before a thread
sleeps. In each order

- no state is reached from which nobody can go on while a thread sleeps;
- each message that was put is read once, or was taken by another thread, or is still there; those of one thread are read in order;
- from each state all threads can come to their end.

At last the same with steps that are exchanged or left out, in WRONG: each must be seen. The last line is `N passed, M failed`.

As everywhere here, an atomic operation is taken for sequentially consistent, and waking for what the C library promises.
"""
import os
import re
import sys

FOLDER = f"{os.path.dirname(os.path.dirname(os.path.realpath(__file__)))}/crates/sim_run_team/src"
# the bodies of the functions that the model has steps of, without comments
BODIES = {
    ("bell.rt", "ring"): "if self.asleep.load(Ordering::SeqCst) != 0 { self.wake(); }",
    ("bell.rt", "wake"): "self.asleep.store(0, Ordering::SeqCst); self.asleep.wake_one();",
    ("bell.rt", "announce"): "self.asleep.store(1, Ordering::SeqCst);",
    ("bell.rt", "withdraw"): "self.asleep.store(0, Ordering::SeqCst);",
    ("bell.rt", "sleep"): "self.asleep.park(rt, 1);",
    ("inbox.rt", "put"): "self.messages.push(rt, message)?; self.bell.ring(); Ok(())",
    ("inbox.rt", "take"): "self.messages.pop(rt)",
    ("inbox.rt", "close"): "self.closed.store(1, Ordering::SeqCst); self.bell.ring();",
    ("inbox.rt", "is_closed"): "self.closed.load(Ordering::SeqCst) != 0",
    ("inbox.rt", "seen"): "for _ in 0..looks { if let Some(message) = self.take(rt) { return Some(message); } spin_loop(); } None",
    ("inbox.rt", "look_or_sleep"): "self.bell.announce(); let message = self.take(rt); if message.is_some() || self.is_closed() { "
                                   "self.bell.withdraw(); } else { self.bell.sleep(rt); } message",
    ("inbox.rt", "next"): "for _ in rt.forever() { if self.is_closed() { return None; } if let Some(message) = self.seen(rt, looks) { "
                          "return Some(message); } if let Some(message) = self.look_or_sleep(rt) { return Some(message); } } None",
}
# what each step of a call is, and the line of the code; `next` is called again until it answers None
RING = [("hear", "if self.asleep.load(Ordering::SeqCst) != 0 {"), ("rest", "self.asleep.store(0, Ordering::SeqCst);"),
        ("wake", "self.asleep.wake_one();")]
PUT = [("push", "self.messages.push(rt, message)?;"), *RING]
TAKE = [("take", "self.messages.pop(rt)")]
CLOSE = [("shut", "self.closed.store(1, Ordering::SeqCst);"), *RING]
NEXT = [("end if closed", "if self.is_closed() {"), ("look", "if let Some(message) = self.take(rt) {"), ("announce", "self.bell.announce();"),
        ("look again", "let message = self.take(rt);"), ("leave if closed", "if message.is_some() || self.is_closed() {"),
        ("sleep", "self.bell.sleep(rt);")]
WITHDRAW = "self.bell.withdraw();"
# what the threads beside the waiting one do, one after another
RUNS = [
    ["close"],
    ["put 1", "close"],
    ["put 1", "put 2", "close"],
    ["put 1", "take", "close"],
    ["put 1", "take", "put 2", "put 3", "close"],
    ["put 1"], ["put 1", "put 2"],
]
# the same by two threads and by three
GROUPS = [
    (["put 1", "close"], ["take"]), (["put 1", "put 2"], ["close"]), (["put 1"], ["put 2", "close"]), (["put 1", "put 2"], ["take", "take"]),
    (["put 1"], ["put 2"], ["take"]), (["put 1"], ["put 2"], ["put 3"]),
]
# the numbers of messages for which there is room
ROOMS = [1, 2, 3]
CALLS = {"put": PUT, "take": TAKE, "close": CLOSE}
# programs with steps exchanged or left out, which must be seen
WRONG = {
    "a thread looks, then announces that it sleeps": ("next", [NEXT[0], NEXT[1], NEXT[3], NEXT[2], NEXT[4], NEXT[5]]),
    "a thread does not look once more": ("next", [NEXT[0], NEXT[1], NEXT[2], NEXT[4], NEXT[5]]),
    "a thread does not ask once more whether the inbox is closed": ("next", [*NEXT[:4], NEXT[5]]),
    "a thread does not ask whether the inbox is closed": ("next", NEXT[1:]),
    "it is rung before the message is there": ("put", [*RING, PUT[0]]),
    "it is rung before the inbox is closed": ("close", [*RING, CLOSE[0]]),
    "a put does not ring": ("put", PUT[:1]),
    "a close does not ring": ("close", CLOSE[:1]),
    "a close is ignored": ("close", RING),
    "a thread is woken and its bell is not reset": ("put", [PUT[0], RING[0], RING[2]]),
    "a bell is reset and the thread is not woken": ("put", PUT[:3]),
}


def body(file, name):
    """Returns the body of a function of the code in one line."""
    with open(f"{FOLDER}/{file}", encoding="utf-8") as opened:
        text = re.sub(r"^\s*//.*\n", "", opened.read(), flags=re.M)
    found = re.search(rf"\bfn {name}\b[^{{]*\{{\n(.*?)^    \}}$", text, re.M | re.S)
    return " ".join(found[1].split()) if found else None


def other_thread(calls, words):
    """Returns the steps of a thread that makes some calls, as (step, message, how many steps of the call are left)."""
    steps = []
    for word in words:
        name, _, message = word.partition(" ")
        steps += [(step, int(message or 0), len(calls[name]) - at) for at, (step, _) in enumerate(calls[name])]
    return tuple(steps)


def step_of_other(shared, thread, steps, room):
    """Returns what is shared and the thread after its next step, and whether it wakes the waiting one."""
    (messages, asleep, closed), (place, taken) = shared, thread
    step, new, left = steps[place]
    wakes = False
    if step == "push":
        if len(messages) == room:
            # it comes back, and the call ends
            return shared, (place + left, (*taken, new)), False
        messages = (*messages, new)
    elif step == "take":
        taken, messages = (*taken, *messages[:1]), messages[1:]
    elif step == "shut":
        closed = 1
    elif step == "hear" and not asleep:
        return shared, (place + sum(it in ("hear", "rest", "wake") for it, _, _ in steps[place : place + left]), taken), False
    elif step == "rest":
        asleep = 0
    elif step == "wake":
        wakes = True
    return (messages, asleep, closed), (place + 1, taken), wakes


def step_of_waiting(shared, thread, program):
    """Returns what is shared and the waiting thread after its next step; its place is the number of a step, or `withdraw`, `asleep` or `end`."""
    (messages, asleep, closed), (place, kept, read) = shared, thread
    if place == "withdraw":
        return (messages, 0, closed), (0, (), (*read, *kept))
    step = program[place][0]
    if step == "end if closed" and closed:
        return shared, ("end", (), read)
    if step == "look" and messages:
        return (messages[1:], asleep, closed), (0, (), (*read, messages[0]))
    if step == "announce":
        asleep = 1
    elif step == "look again":
        messages, kept = messages[1:], messages[:1]
    elif step == "leave if closed" and (kept or closed):
        return shared, ("withdraw", kept, read)
    elif step == "sleep":
        if kept:
            return shared, ("withdraw", kept, read)
        return shared, ("asleep" if asleep else 0, (), read)
    return (messages, asleep, closed), (place + 1, kept, read)


def fault_of(shared, waiting, others, puts, closes):
    """Returns what is wrong where no thread can go on."""
    messages, _, _ = shared
    if waiting[0] == "asleep" and (messages or closes):
        return "a thread sleeps though there is a message or the inbox was closed"
    found = [*waiting[2], *(it for _, taken in others for it in taken), *messages]
    if sorted(found) != puts:
        return f"of the messages {puts} these are found: {found}"
    is_ordered = len(others) > 1 or list(waiting[2]) == sorted(waiting[2])
    return "" if is_ordered else f"messages are read as {waiting[2]}"


def fault(next_program, calls, parts, room):
    """Returns what is wrong in some order of the steps with room for so many messages, or nothing."""
    steps = [other_thread(calls, words) for words in parts]
    puts = sorted(int(word.split()[1]) for words in parts for word in words if word.startswith("put"))
    closes = any("close" in words for words in parts)
    first = ((), 0, 0), (0, (), ()), tuple((0, ()) for _ in parts)
    seen, todo, before, ends = {first}, [first], {}, []
    while todo:
        state = todo.pop()
        shared, waiting, others = state
        after = []
        if waiting[0] not in ("asleep", "end"):
            after.append((*step_of_waiting(shared, waiting, next_program), others))
        for number, thread in enumerate(others):
            if thread[0] < len(steps[number]):
                now, moved, wakes = step_of_other(shared, thread, steps[number], room)
                woken = (0, (), waiting[2]) if wakes and waiting[0] == "asleep" else waiting
                after.append((now, woken, (*others[:number], moved, *others[number + 1 :])))
        if not after:
            ends.append(state)
            found = fault_of(shared, waiting, others, puts, closes)
            if found:
                return found
        for it in after:
            before.setdefault(it, set()).add(state)
            if it not in seen:
                seen.add(it)
                todo.append(it)
    # from each state an end is reached, or a state where the thread sleeps and nobody owes it anything
    good, todo = set(ends), list(ends)
    while todo:
        for it in before.get(todo.pop(), ()):
            if it not in good:
                good.add(it)
                todo.append(it)
    return "" if good == seen else "a thread never comes to an end"


def cases():
    """Yields what the other threads do, and the room for messages."""
    for room in ROOMS:
        for parts in [*([it] for it in RUNS), *GROUPS]:
            yield parts, room


def first_fault(next_program, calls):
    return next((found for parts, room in cases() for found in [fault(next_program, calls, parts, room)] if found), "")


def checks():
    """Yields what is checked, and what is wrong."""
    for (file, name), wanted in BODIES.items():
        found = body(file, name)
        yield f"{file}: {name}", "" if found == wanted else f"the model has another body than {found}"
    lines = " ".join(BODIES.values())
    for _, line in [*PUT, *TAKE, *CLOSE, *NEXT, ("", WITHDRAW)]:
        yield f"the line {line}", "" if line in lines else "no function has it"
    for parts, room in cases():
        yield f"{parts}, room for {room}", fault(NEXT, CALLS, parts, room)
    for name, (call, program) in WRONG.items():
        found = first_fault(program if call == "next" else NEXT, {**CALLS, call: program})
        yield name, "" if found else "no order of the steps shows it"


def main():
    passed = failed = 0
    for name, wrong in checks():
        passed, failed = passed + (not wrong), failed + bool(wrong)
        if wrong:
            print(f"inbox: {name}: {wrong}", flush=True)
    print(f"{passed} passed, {failed} failed")
    return 1 if failed or not passed else 0


if __name__ == "__main__":
    sys.exit(main())
