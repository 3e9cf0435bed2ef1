"""Programs of firmware with one bug each, for `scripts/bench planted`: rings, mailboxes, a handshake, timers, a debouncer, a channel that copies.

Of an outline of the gallery or of scripts/bench.d/planted what is replaced in it; or BROKEN, where the bug is the one of its twin in
examples/outlines/broken."""

BROKEN = None

RING_WRITES = """    slot[k mod 2] := k;
    { put = k - 1 and full[k mod 2] = 0 and slot[k mod 2] = k }
    atomic full[k mod 2] := 1; put := put + 1 end
"""
RING_SAYS_SO_FIRST = """    atomic full[k mod 2] := 1; put := put + 1 end;
    slot[k mod 2] := k
"""
RING_TAKES = """    got := slot[k mod 2];
    { taken = k - 1 and total = sum_to(k - 1) and full[k mod 2] = 1 and got = k }
    total := total + got;
    { taken = k - 1 and total = sum_to(k) and full[k mod 2] = 1 }
    atomic full[k mod 2] := 0; taken := taken + 1 end
"""
RING_FREES_FIRST = """    atomic full[k mod 2] := 0; taken := taken + 1 end;
    got := slot[k mod 2];
    total := total + got
"""
BUFFER_WRITES = """    slot := x;
    { full = 0 and put < N and slot = code(put) }
    atomic full := 1; put := put + 1 end
"""
BUFFER_SAYS_SO_FIRST = """    atomic full := 1; put := put + 1 end;
    slot := x
"""
MAILBOX_TAKES = """  copy := slot;
  { full = 1 and copy = message }
  full := 0
"""
MAILBOX_FREES_FIRST = """  full := 0;
  copy := slot
"""
MAIN_TAKES = """      { items > 0 and (tail = number implies got = sent) }
      tail := tail + 1
"""
SHARED_TAKES = """    got := box;
    { state = 2 and who = sender and got = box }
    state := 0
"""
SHARED_FREES_FIRST = """    state := 0;
    { who = sender }
    got := box
"""
SHARED_WRITES = """  box := message[i];
  { by = i and sender = i and box = message[i] }
  atomic state := 2; by := 0 end
"""
SHARED_SAYS_SO_FIRST = """  atomic state := 2; by := 0 end;
  box := message[i]
"""
HALVES_AT_ONCE = "do lo := lo + 1; hi := (if lo = 0 then hi + 1 else hi) end"
BOTH_HALVES = """      more[which] := sampled;
      which := which + 1;
      ready := 1
"""
ONE_HALF = """      which := which + 1;
      ready := 1;
      more[which + 1] := sampled
"""

# An outline, the bug in words, and what is replaced.
BUGS = [
    ("ring", "the producer doesn't wait for an empty slot", BROKEN),
    ("ring", "a slot is said to be full before it is", [(RING_WRITES, RING_SAYS_SO_FIRST)]),
    ("ring", "a slot is free before its item is taken", [(RING_TAKES, RING_FREES_FIRST)]),
    ("ring", "the consumer takes from the other slot", [("got := slot[k mod 2]", "got := slot[(k + 1) mod 2]")]),
    ("interrupt_ring", "an item is counted before it lies in its slot", BROKEN),
    ("interrupt_ring", "one item more than there are slots", [("if items < 16", "if items <= 16")]),
    ("interrupt_ring", "an item goes into the slot after its own", [("slot[head band 15] :=", "slot[(head + 1) band 15] :=")]),
    ("interrupt_ring", "an item is taken from an empty ring", [("if items > 0", "if items >= 0")]),
    ("interrupt_ring", "the mask of the reader is that of 8 slots", [("slot[tail band 15]", "slot[tail band 7]")]),
    ("interrupt_ring", "the device is read a second time", [("slot[head band 15] := value", "slot[head band 15] := device")]),
    ("byte_ring", "one item more than there are slots", [("if items < 32", "if items <= 32")]),
    ("byte_ring", "items go into the wrong half", [("if head band 16 = 0", "if head band 16 != 0")]),
    ("byte_ring", "the first item is taken again and again", [("got := held(tail)", "got := slot[0][0]")]),
    ("byte_ring", "the reader doesn't look whether there is an item", [("if items > 0", "if items >= 0")]),
    ("mailbox", "the slot is said to be full before it is", BROKEN),
    ("mailbox", "the slot is free before the message is taken", [(MAILBOX_TAKES, MAILBOX_FREES_FIRST), ("full := 1\n  { true }", "full := 1;\n  await full = 0;\n  slot := 0")]),
    ("mailbox", "the receiver doesn't wait", [("await full = 1;", "await full = 1 or full = 0;")]),
    ("handshake", "the receiver doesn't wait for the request", [("  await req = 1;\n  { ack = 0 and req = 1 }\n", "")]),
    ("handshake", "the request comes before the data", [("data := message;\n", "req := 1;\n"), ("{ req = 0 and ack = 0 and data = message }\n  req := 1", "{ true }\n  data := message")]),
    ("handshake", "the acknowledgement comes before the copy", [("atomic copy := data; ack := 1 end;", "ack := 1;\n  copy := data;")]),
    ("interrupt", "the handler counts where interrupts are off", [("await off = 0 do", "await true do")]),
    ("two_halves", "the high half isn't looked at again", BROKEN),
    ("two_halves", "the carry comes a step later", [(HALVES_AT_ONCE, "do lo := lo + 1 end;\n    hi := (if lo = 0 then hi + 1 else hi)")]),
    ("two_halves", "the low half isn't read again", [("    t_lo := lo;\n    { begun(t_hi) and", "    { begun(t_hi) and")]),
    ("shared_mailbox", "a task looks, and claims the box in a step of its own", BROKEN),
    ("shared_mailbox", "the box is free before the message is taken", [(SHARED_TAKES, SHARED_FREES_FIRST)]),
    ("shared_mailbox", "the box is said to be full before it is", [(SHARED_WRITES, SHARED_SAYS_SO_FIRST)]),
    ("buffer", "the slot is said to be full before it is", [(BUFFER_WRITES, BUFFER_SAYS_SO_FIRST)]),
    ("sequence_lock", "the count isn't odd while both words change", [("    count := count + 1;\n    { count = k + k - 1 }\n", "")]),
    ("sequence_lock", "the reader takes an odd count", [("while s band 1 = 1 or count != s", "while count != s")]),
    ("debouncer", "the count goes on after a sample like the state", [("      count := 0\n    else", "      skip\n    else")]),
    ("debouncer", "two samples are enough", [("if count = 3", "if count = 2")]),
    ("debouncer", "the pin is read a second time", [("if seen = state", "if pin = state")]),
    ("timer", "the end is computed, and wraps", [("now - begun >= delay", "now >= begun + delay")]),
    ("timer", "the difference is the wrong way round", [("now - begun >= delay", "begun - now >= delay")]),
    ("timer", "the beginning is read after the count of ticks", [("atomic begun := now; passed := 0 end;", "begun := now;\n  skip;\n  passed := 0;")]),
    ("dma", "the channel is started before the last word is there", [("for k in 0..3 do\n    source[k] := data[k]\n  end;\n  busy := 1;", "for k in 0..2 do\n    source[k] := data[k]\n  end;\n  busy := 1;\n  source[3] := data[3];")]),
    ("dma", "the processor doesn't wait", [("  await done = 1;\n", "")]),
    ("dma", "the last word isn't copied", [("while next < 4", "while next < 3")]),
    ("dma", "the buffer is cleared while it is copied", [("  busy := 1;\n", "  busy := 1;\n  source[3] := 0;\n")]),
    ("double_buffer", "a buffer is ready before both halves lie there", [(BOTH_HALVES, ONE_HALF)]),
    ("double_buffer", "the reader takes the buffer that is filled", [("got_more := more[which + 1]", "got_more := more[which]")]),
    ("double_buffer", "the handler doesn't wait for the reader", [("if ready = 0 then", "if ready <= 1 then")]),
]
