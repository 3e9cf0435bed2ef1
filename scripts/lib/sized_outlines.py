"""Outlines whose number of parts, slots or bits can be chosen: a counter, a ring, and a lock whose exclusion is said in three ways."""

COUNTER = """let N = PARTS
words x:BITS c[1..N]:BITS

invariant x = (sum i in 1..N: c[i])

pre  x = 0 and all i in 1..N: c[i] = 0
post x = N

part p[i in 1..N]
  owns c[i]
begin
  { c[i] = 0 }
  atomic x := x + 1; c[i] := c[i] + 1 end
  { c[i] = 1 }
end
"""

# A ring between a handler and a main loop.
RING = """words slot[0..LAST]:BITS head:BITS tail:BITS device:BITS value:BITS got:BITS fixed number:BITS aux sent:BITS
let items = head - tail
invariant items <= SLOTS
invariant number - tail < items implies slot[number band LAST] = sent
pre head = 0 and tail = 0
rely unchanged all but device
guar tail = number and tail' != tail implies got = sent
post false
part handler
  owns head slot value sent
  rely keeps items < SLOTS
begin
  while true do
    if items < SLOTS then
      { items < SLOTS }
      value := device;
      { items < SLOTS }
      slot[head band LAST] := value;
      { items < SLOTS and (head = number implies slot[number band LAST] = value) }
      atomic sent := (if head = number then value else sent); head := head + 1 end
      { true }
    end
  end
end
part main
  owns tail got
  rely keeps items > 0
  rely number - tail < items implies sent' = sent
begin
  while true do
    if items > 0 then
      { items > 0 }
      got := slot[tail band LAST];
      { items > 0 and (tail = number implies got = sent) }
      tail := tail + 1
      { true }
    end
  end
end
"""

# in[i]: part i is inside. WIDTH is how many bits the lock has, EXCLUSION what says that no two parts are inside.
LOCK = """let N = PARTS
words lock:WIDTH in[1..N]:1

SAYS
invariant EXCLUSION

pre  lock = 0 and all i in 1..N: in[i] = 0
guar PRIMED
post all i in 1..N: in[i] = 0

part p[i in 1..N]
  owns in[i]
begin
  { in[i] = 0 }
  await lock = 0 do lock := 1; in[i] := 1 end;
  { in[i] = 1 }
  atomic lock := 0; in[i] := 0 end
  { in[i] = 0 }
end
"""
PAIRS = "let is_exclusive = all i in 1..N - 1: all j in i + 1..N: not (in[i] = 1 and in[j] = 1)"
SUM = "let is_exclusive = lock <= 1 and lock = (sum i in 1..N: (if in[i] = 1 then 1 else 0))"

# The lock is the number of the part that has it.
OWNED_LOCK = """let N = PARTS
words lock:WIDTH in[1..N]:1

PAIRS

invariant all i in 1..N: in[i] = 1 implies lock = i

pre  lock = 0 and all i in 1..N: in[i] = 0
guar is_exclusive'

part p[i in 1..N]
  owns in[i]
  rely lock = i iff lock' = i
begin
  { in[i] = 0 and lock != i }
  await lock = 0 do lock := i end;
  { in[i] = 0 and lock = i }
  in[i] := 1;
  { in[i] = 1 and lock = i }
  in[i] := 0;
  { in[i] = 0 and lock = i }
  lock := 0
  { in[i] = 0 and lock != i }
end
"""


def filled(outline, places):
    for place, content in places.items():
        outline = outline.replace(place, str(content))
    return outline


def counter(parts, bits):
    """Each part adds 1 to a word and to one of its own; the invariant says that the word is the sum of the others."""
    return filled(COUNTER, {"PARTS": parts, "BITS": bits})


def ring(slots, bits):
    """A ring of so many slots, a power of two, whose words have so many bits."""
    return filled(RING, {"LAST": slots - 1, "SLOTS": slots, "BITS": bits})


def lock_by_pairs(parts):
    """A lock whose invariant says of each two parts that they aren't both inside."""
    exclusion = "is_exclusive and all i in 1..N: lock = 0 implies in[i] = 0"
    return filled(LOCK, {"PARTS": parts, "WIDTH": 1, "SAYS": PAIRS, "EXCLUSION": exclusion, "PRIMED": "is_exclusive'"})


def lock_by_owner(parts):
    """A lock whose guarantee says of each two parts that they aren't both inside, and whose invariant is about each part alone."""
    return filled(OWNED_LOCK, {"PAIRS": PAIRS, "PARTS": parts, "WIDTH": parts.bit_length()})


def lock_by_sum(parts):
    """The lock by pairs, of which it is said that the number of parts inside is at most 1."""
    return filled(LOCK, {"PARTS": parts, "WIDTH": parts.bit_length(), "SAYS": SUM, "EXCLUSION": "is_exclusive", "PRIMED": "is_exclusive'"})


# Peterson's lock for many parts: a part goes up a level where another one came to it later, or all others are below.
FILTER_LOCK = """let N = PARTS
words level[1..N]:BITS last[1..N - 1]:BITS in[1..N]:1

pre  (all i in 1..N: level[i] = 0 and in[i] = 0) and all k in 1..N - 1: last[k] = 0
guar all i in 1..N - 1: all j in i + 1..N: not (in[i]' = 1 and in[j]' = 1)
post false

part p[i in 1..N]
  owns level[i] in[i]
begin
  while true do
    for k in 1..N - 1 do
      level[i] := k;
      last[k] := i;
      await last[k] != i or all j in 1..N but i: level[j] < k
    end;
    in[i] := 1;
    atomic in[i] := 0; level[i] := 0 end
  end
end
"""


def filter_lock(parts):
    """Peterson's lock for so many parts, which enter again and again. It has no assertions."""
    return filled(FILTER_LOCK, {"PARTS": parts, "BITS": parts.bit_length()})
