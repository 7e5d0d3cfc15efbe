"""Certificates by hand, with the changes that are refused, for `test_certificate_check.py`."""


class Case:
    """Definitions, a certificate that is accepted, and changes of its lines, counted from 2 as the checker does, with the line and the
    reason of the refusal; a change to nothing leaves the line out."""

    def __init__(self, name, lets, certificate, changes):
        self.name, self.lets, self.certificate, self.changes = name, lets, certificate, changes


CASES = (
    Case("truth values", ["(v1 && (! v1))"], ["var 1", "&& 1 -1", "let 1 2", "gate 2 1", "gate 2 2", "rup -2 0 1 2"], (
        (2, "var 2", (4, "the definition is something else")),
        (3, "&& 1 1", (4, "the definition is something else")),
        (3, "&& 1 2", (3, "no such node")),
        (4, "let 1 -2", (4, "the definition is something else")),
        (4, "let 2 2", (4, "no such definition, or told already")),
        (5, "gate 2 3", (5, "no such case")),
        (5, "gate 1 0", (5, "a node of another operator")),
        (6, "gate 2 1", (7, "the steps do not contradict")),
        (7, "rup -2 0 1", (7, "the steps do not contradict")),
        (7, "rup -2 0 2 3", (7, "no such step")),
        (7, "rup 2 0 1 2", (7, "a step that leaves two literals")),
        (7, "rup -1 0 1 2", (7, "a step that leaves two literals")),
        (7, "rup -2 1 2", (7, "no 0")),
        (7, None, (7, "d1 is not shown to be false")),
    )),
    Case("connectives", ["(v1 || v2)", "(! (v1 ==> v2))", "(v2 && (! d1))", "(d2 && d3)"], [
        "var 1", "var 2", "&& -1 -2", "&& 1 -2", "&& 2 3", "&& 4 5", "let 1 -3", "let 2 4", "let 3 5", "let 4 6",
        "gate 5 1", "gate 5 2", "gate 3 2", "rup -5 0 1 2 3", "gate 6 2", "rup -6 0 5 4"], (
            (8, "let 1 3", (8, "the definition is something else")),
            (4, "&& 1 -2", (8, "the definition is something else")),
            (17, "rup -6 0 5", (17, "the steps do not contradict")),
    )),
    Case("equal truth values", ["((v1 <==> v2) && (v1 && (! v2)))"], [
        "var 1", "var 2", "== 1 2", "&& 1 -2", "&& 3 4", "let 1 5", "gate 3 2", "gate 5 1", "gate 5 2", "gate 4 1", "gate 4 2",
        "rup -5 0 2 3 4 5 1"], (
            (7, "let 1 4", (7, "the definition is something else")),
            (8, "gate 3 4", (8, "no such case")),
            (8, "gate 3 3", (13, "a step that leaves two literals")),
            (8, "gate 3 0", (13, "a step that leaves two literals")),
            (8, "gate 3 1", (13, "a step that leaves two literals")),
    )),
    Case("unequal truth values", ["(v1 != (! v1))", "(! d1)"], [
        "var 1", "== 1 -1", "let 1 -2", "let 2 2", "gate 2 2", "gate 2 3", "rup -1 -2 0 1", "rup -2 0 3 2"], (
            (3, "== 1 1", (4, "the definition is something else")),
            (7, "gate 2 2", (9, "the steps do not contradict")),
    )),
    Case("a choice of truth values", ["((if v1 then v2 else v2) && (! v2))"], [
        "var 1", "var 2", "if 1 2 2", "&& 3 -2", "let 1 4", "gate 3 0", "gate 3 1", "gate 4 1", "gate 4 2", "rup -4 0 3 4 1 2"], (
            (4, "if 2 1 2", (6, "the definition is something else")),
            (11, "rup -4 0 3 4 1 1", (11, "the steps do not contradict")),
    )),
    Case("a choice of values", ["(v1 && ((if v1 then v3 else v4) != v3))"], [
        "var 1", "var 3", "var 4", "if 1 2 3", "== 4 2", "&& 1 -5", "let 1 6", "case 5 0", "gate 6 1", "gate 6 2", "rup -6 0 2 1 3"], (
            (9, "case 5 1", (9, "another value")),
            (9, "case 5 2", (9, "no such case")),
            (5, "if -1 2 3", (8, "the definition is something else")),
    )),
    Case("a map with another value", ["v11[v7 := v3]", "(d1[v7] != v3)"], [
        "var 11", "var 7", "var 3", "put 1 2 3", "at 4 2", "== 5 3", "let 1 4", "let 2 -6", "hit 6"], (
            (3, "var 8", (8, "the definition is something else")),
            (5, "put 1 2 2", (5, "parts of other types")),
            (7, "== 3 5", (9, "the definition is something else")),
            (10, "hit 6 6", (10, "equations too few or too many")),
            (10, "miss 6 6", (10, "a node of another operator")),
    )),
    Case("a map at an equal key", ["v11[v7 := v3]", "((v7 == v8) && (d1[v8] != v3))"], [
        "var 11", "var 7", "var 3", "put 1 2 3", "var 8", "at 4 5", "== 6 3", "== 2 5", "&& 8 -7", "let 1 4", "let 2 9",
        "hit 7 8", "gate 9 1", "gate 9 2", "rup -9 0 2 3 1"], (
            (13, "hit 7", (13, "equations too few or too many")),
            (13, "hit 7 7", (13, "an equation of something else")),
            (16, "rup -9 0 3 1", (16, "the steps do not contradict")),
    )),
    Case("a map at another key", ["v13[v7, v3 := v5]", "((v3 != v4) && (d1[v7, v4] != v13[v7, v4]))"], [
        "var 13", "var 7", "var 3", "var 5", "put 1 2 3 4", "var 4", "at 5 2 6", "at 1 2 6", "== 7 8", "== 3 6", "&& -10 -9",
        "let 1 5", "let 2 11", "miss 9 10", "gate 11 1", "gate 11 2", "rup -11 0 2 3 1"], (
            (15, "miss 9 9", (15, "an equation of something else")),
            (9, "at 1 2 3", (14, "the definition is something else")),
            (6, "put 1 3 2 4", (6, "parts of other types")),
    )),
    Case("a choice of maps", ["(if v1 then v11 else v12)", "((! v1) && (d1[v7] != v12[v7]))"], [
        "var 1", "var 11", "var 12", "if 1 2 3", "var 7", "at 4 5", "at 3 5", "== 6 7", "&& -1 -8", "let 1 4", "let 2 9",
        "case 8 1", "gate 9 1", "gate 9 2", "rup -9 0 2 3 1"], (
            (13, "case 8 0", (13, "another place")),
            (15, "gate 9 1", (16, "the steps do not contradict")),
    )),
    Case("a quantifier", ["(forall q0: Ref :: (v14[q0] ==> (v11[q0] == 0)))", "((d1 && v14[v7]) && (v11[v7] != 0))"], [
        "def 1", "var 14", "var 7", "at 2 3", "var 11", "at 5 3", "int 0", "== 6 7", "&& 4 -8", "&& 1 4", "&& 10 -8", "let 1 1", "let 2 11",
        "inst 1 -9 3", "gate 9 0", "gate 11 1", "gate 11 2", "gate 10 1", "gate 10 2", "rup -11 0 3 4 5 6 1 2"], (
            (13, None, (13, "the definition is something else")),
            (15, "inst 1 9 3", (15, "the body is something else")),
            (15, "inst 1 -9 7", (15, "keys of other types")),
            (15, "inst 1 -9", (15, "numbers too few")),
            (15, "inst 2 -9 3", (15, "no forall that is told")),
            (2, "def 2", (2, "the definition is no forall")),
            (2, "def 3", (2, "no such name")),
    )),
    Case("a path of equations", ["(((v7 == v8) && (null == v8)) && (v7 != null))"], [
        "var 7", "var 8", "== 1 2", "null", "== 4 2", "== 1 4", "&& 3 5", "&& 7 -6", "let 1 8", "path 6 3 5", "gate 8 1", "gate 8 2",
        "gate 7 1", "gate 7 2", "rup -8 0 2 3 4 5 1"], (
            (11, "path 6 3", (11, "it does not lead there")),
            (11, "path 6 5 3", (11, "an equation that does not go on")),
            (11, "path 6", (11, "it does not lead there")),
    )),
    Case("equal places", ["((v7 == v8) && (v11[v7] != v11[v8]))"], [
        "var 7", "var 8", "== 1 2", "var 11", "at 4 1", "at 4 2", "== 5 6", "&& 3 -7", "let 1 8", "same 7 3", "gate 8 1", "gate 8 2",
        "rup -8 0 2 3 1"], (
            (11, "same 7", (11, "equations too few or too many")),
            (11, "same 3", (11, "a node of another operator")),
            (11, "same 7 7", (11, "an equation of something else")),
    )),
    Case("two maps", ["(v11[v7] != v11[v7])"], ["var 11", "var 7", "at 1 2", "== 3 3", "let 1 -4", "same 4"], (
        (7, "path 4", None),
        (5, "== 3 2", (5, "parts of other types")),
    )),
    Case("parts", ["((sPair(v9, sInt(v3)) == sPair(v10, sInt(v4))) && (v3 != v4))"], [
        "var 9", "var 3", "sInt 2", "sPair 1 3", "var 10", "var 4", "sInt 6", "sPair 5 7", "== 4 8", "== 2 6", "&& 9 -10", "let 1 11",
        "== 3 7", "part 9 12", "part 12 10", "gate 11 1", "gate 11 2", "rup -11 0 3 4 1 2"], (
            (15, "part 9 10", (15, "an equation of something else")),
            (4, "sRef 2", (4, "parts of other types")),
            (16, "part 10 12", (16, "a node of another operator")),
    )),
    Case("two constructors", ["(sUnit == sBool(v1))"], ["unit", "var 1", "sBool 2", "== 1 3", "let 1 4", "apart 4"], (
        (4, "sBool -2", (6, "the definition is something else")),
        (6, "let 1 -4", (6, "the definition is something else")),
        (7, "apart 2", (7, "a node of another operator")),
    )),
    Case("one constructor", ["(sBool(v1) != sBool(v1))"], ["var 1", "sBool 1", "== 2 2", "let 1 -3", "path 3"], (
        (6, "apart 3", (6, "one constructor")),
    )),
    Case("a content in itself", ["(v9 == sPair(sUnit, sPair(v9, v10)))"], [
        "var 9", "unit", "var 10", "sPair 1 3", "sPair 2 4", "== 1 5", "let 1 6", "inside 6 1 0"], (
            (9, "inside 6 1", (9, "another part")),
            (9, "inside 6", (9, "numbers too few")),
            (9, "inside 6 0 0", (9, "a node of another operator")),
            (9, "inside 6 1 2", (9, "no such case")),
    )),
    Case("a sum", ["(((v3 + 1) <= v4) && (v4 <= v3))"], [
        "var 3", "int 1", "+ 1 2", "var 4", "<= 3 4", "<= 4 1", "&& 5 6", "let 1 7", "sum 1 -5 1 -6 0 -1 3 -1 2", "gate 7 1", "gate 7 2",
        "rup -7 0 2 3 1"], (
            (10, "sum 1 -5 0 -1 3 -1 2", (10, "a node is left in the sum")),
            (10, "sum 1 -5 -1 -6 0 -1 3 -1 2", (10, "a weight that is not above 0")),
            (10, "sum 2 -5 2 -6 0 -2 3 -2 2", None),
            (10, "sum 1 -5 1 6 0 -1 3 -1 2", (10, "a node is left in the sum")),
            (10, "sum 1 -5 1 -6", (10, "no 0")),
            (10, "sum 1 -5 1 -6 0 -1 3 -1", (10, "a number too few or too many")),
            (10, "sum 1 -5 1 -6 0 -1 3 -1 1", (10, "a node of another operator")),
            (3, "int 0", (9, "the definition is something else")),
            (10, "sum 0 -5 1 -6 0 -1 3 -1 2", (10, "a node of another operator")),
    )),
    Case("ints between", ["((v3 < v4) && (v4 < (v3 + 1)))"], [
        "var 3", "var 4", "<= 2 1", "int 1", "+ 1 4", "<= 5 2", "&& -3 -6", "let 1 7", "sum 1 3 1 6 0 1 5 1 4", "gate 7 1", "gate 7 2",
        "rup -7 0 2 3 1"], ((10, "sum 1 3 1 6 0 1 5", (10, "a node is left in the sum")),)),
    Case("rational numbers", ["((v5 < v6) && (v6 < (v5 + 1.0)))", "(d1 && false)"], [
        "var 5", "var 6", "<= 2 1", "real 1", "+ 1 4", "<= 5 2", "&& -3 -6", "let 1 7", "true", "&& 7 -8", "let 2 9", "gate 9 2",
        "gate 8 0",
        "rup -9 0 1 2"], (
            (14, "sum 1 3 1 6 0 1 5 1 4", (14, "the sum is no contradiction")),
            (15, "rup -9 0 1", (15, "the steps do not contradict")),
    )),
    Case("an equation of sums", ["(((v5 * (1.0 / 2.0)) + (v5 / 2.0)) != v5)"], [
        "var 5", "real 1", "real 2", "/ 2 3", "* 1 4", "/ 1 3", "+ 5 6", "== 7 1", "let 1 -8", "sum 2 8 0 -2 7 -1 5 -1 6"], (
            (11, "sum 1 8 0 -1 7", (11, "a node is left in the sum")),
            (11, "sum 2 8 0 -2 7 -1 5 -1 1", (11, "a node of another operator")),
            (11, "sum -2 8 0 2 7 1 5 1 6", (11, "a weight that is not above 0")),
            (5, "/ 3 2", (10, "the definition is something else")),
    )),
    Case("one of three", ["((v3 != v4) && ((v3 <= v4) && (v4 <= v3)))"], [
        "var 3", "var 4", "== 1 2", "<= 1 2", "<= 2 1", "&& 4 5", "&& -3 6", "let 1 7", "split 3 4 5", "gate 7 1", "gate 7 2", "gate 6 1",
        "gate 6 2", "rup -7 0 2 3 4 5 1"], (
            (10, "split 3 5 4", (10, "other comparisons")),
            (10, "split 4 4 5", (10, "a node of another operator")),
            (10, "split 3 4", (10, "numbers too few or too many")),
    )),
)
