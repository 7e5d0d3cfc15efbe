"""Programs to measure with: many small methods, and a list that is pushed to and popped from many times, right or wrong at the end."""
import sys

LIST = """field value: Int
field next: Ref
predicate list(x: Ref) { acc(x.value) && acc(x.next) && (x.next != null ==> list(x.next)) }
"""
CALLS = """method push(tail: Ref, v: Int) returns (x: Ref)
  requires tail != null ==> list(tail)
  ensures list(x)
  ensures x != null
{
  x := new(value, next)
  x.value := v
  x.next := tail
  fold list(x)
}
method pop(x: Ref) returns (tail: Ref, v: Int)
  requires list(x)
  ensures tail != null ==> list(tail)
{
  unfold list(x)
  v := x.value
  tail := x.next
}
"""


def small(count, wrong):
    """Methods that move some of one number to another; of the wrong ones the last forgets that it may be null."""
    lines = ["field value: Int"]
    for n in range(count):
        needs = "acc(a.value) && acc(b.value)" if not wrong or n < count - 1 else "acc(b.value)"
        lines += [f"method move{n}(a: Ref, b: Ref, n: Int)", f"  requires {needs} && n >= 0", "  ensures acc(a.value) && acc(b.value)",
                  "  ensures a.value + b.value == old(a.value + b.value)", "{", "  a.value := a.value - n", "  b.value := b.value + n", "}"]
    return "\n".join(lines) + "\n"


def calls(count, wrong):
    """So many calls of push, and then as many of pop where the list is not empty."""
    lines = ["method main()", "{", "  var x: Ref := null", "  var v: Int"]
    lines += [f"  x := push(x, {n})" for n in range(count)]
    lines += ["  if (x != null) {\n    x, v := pop(x)\n  }" for _ in range(count)]
    return LIST + CALLS + "\n".join(lines + ["  assert v > 3" if wrong else "  assert true", "}"]) + "\n"


def objects(count, wrong):
    """So many objects that are put on a list, and then taken from it, in one method."""
    lines = ["method main()", "{", "  var x: Ref := null", "  var n: Ref", "  var v: Int"]
    for n in range(count):
        lines += ["  n := new(value, next)", f"  n.value := {n}", "  n.next := x", "  fold list(n)", "  x := n"]
    lines += ["  unfold list(x)\n  v := x.value\n  x := x.next"] * count
    return LIST + "\n".join(lines + [f"  assert v == {int(wrong)}", "}"]) + "\n"


MADE = {"small": small, "calls": calls, "objects": objects}

if __name__ == "__main__":
    print(MADE[sys.argv[1]](int(sys.argv[2]), sys.argv[3:] == ["wrong"]), end="")
