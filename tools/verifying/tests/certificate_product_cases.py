"""Certificates by hand, with the changes that are refused, for `test_certificate_check.py`, of quotients and products."""
from .certificate_cases import Case

OF_PRODUCTS = (
    Case("a quotient", ["((v6 != 0.0) && (((v5 / v6) * v6) != v5))"], [
        "var 5", "var 6", "real 0", "== 2 3", "/ 1 2", "* 5 2", "== 6 1", "&& -4 -7", "let 1 8", "over 4 7", "gate 8 1", "gate 8 2",
        "rup -8 0 2 3 1"], (
            (11, "over 7 4", (11, "no comparison with 0")),
            (11, "over 4 4", (11, "a node of another operator")),
            (4, "real 1", (10, "the definition is something else")),
            (14, "rup -8 0 3 1", (14, "the steps do not contradict")),
    )),
    Case("a quotient by zero", ["((v4 == 0) && ((v3 div v4) != 0))"], [
        "var 4", "int 0", "== 1 2", "var 3", "div 4 1", "== 5 2", "&& 3 -6", "let 1 7", "zero 3 6", "gate 7 1", "gate 7 2",
        "rup -7 0 2 3 1"], (
            (10, "zero 6 3", (10, "a node of another operator")),
            (10, "over 3 6", (10, "a node of another operator")),
    )),
    Case("a remainder", ["((v4 > 0) && ((v3 mod v4) >= v4))"], [
        "var 4", "int 0", "<= 1 2", "var 3", "mod 4 1", "<= 1 5", "&& -3 6", "let 1 7", "below 3 6", "gate 7 1", "gate 7 2",
        "rup -7 0 2 3 1"], (
            (10, "below 6 3", (10, "a node of another operator")),
            (3, "int 1", (9, "the definition is something else")),
            (13, "rup -7 0 3 1", (13, "the steps do not contradict")),
    )),
    Case("a remainder by what is below zero", ["((v4 < 0) && ((v3 mod v4) >= (- v4)))"], [
        "var 4", "int 0", "<= 2 1", "var 3", "mod 4 1", "neg 1", "<= 6 5", "&& -3 7", "let 1 8", "below 3 7", "gate 8 1", "gate 8 2",
        "rup -8 0 2 3 1"], ((11, "below 3 3", (11, "a node of another operator")),)),
    Case("no remainder below zero", ["((v3 mod v4) < 0)"], ["var 3", "var 4", "mod 1 2", "int 0", "<= 4 3", "let 1 -5", "rest 5"], (
        (5, "int 1", (7, "the definition is something else")),
        (8, "rest 4", (8, "a node of another operator")),
    )),
    Case("a quotient and its remainder", ["((v4 != 0) && (((v4 * (v3 div v4)) + (v3 mod v4)) != v3))"], [
        "var 4", "int 0", "== 1 2", "var 3", "div 4 1", "* 1 5", "mod 4 1", "+ 6 7", "== 8 4", "&& -3 -9", "let 1 10", "over 3 9",
        "gate 10 1",
        "gate 10 2", "rup -10 0 2 3 1"], (
            (8, "mod 1 4", (12, "the definition is something else")),
            (13, "over 3 3", (13, "a node of another operator")),
    )),
    Case("a product of two that are not below zero", ["(((v5 >= 0.0) && (v6 >= 0.0)) && ((v5 * v6) < 0.0))"], [
        "var 5", "var 6", "real 0", "<= 3 1", "<= 3 2", "* 1 2", "<= 3 6", "&& 4 5", "&& 8 -7", "let 1 9", "* 3 2", "* 1 3", "+ 10 11",
        "* 3 3",
        "+ 13 6", "<= 12 14", "times 4 5 15", "sum 1 7 1 -15 0 1 14 -1 12 -1 10 -1 11 1 13 1 3", "gate 9 1", "gate 9 2", "gate 8 1",
        "gate 8 2",
        "rup -9 0 3 4 5 6 1 2"], (
            (18, "times 5 4 15", (18, "other products")),
            (18, "above 4 5 15", (18, "other products")),
            (17, "<= 14 12", (18, "other products")),
            (15, "* 3 1", (18, "other products")),
    )),
    Case("a product of two above zero", ["(((v5 > 0.0) && (v6 > 0.0)) && ((v5 * v6) <= 0.0))"], [
        "var 5", "var 6", "real 0", "<= 1 3", "<= 2 3", "* 1 2", "<= 6 3", "&& -4 -5", "&& 8 7", "let 1 9", "* 3 2", "* 1 3", "+ 10 11",
        "* 3 3",
        "+ 13 6", "<= 14 12", "above 4 5 15", "sum 1 -7 1 15 0 1 14 -1 12 -1 10 -1 11 1 13 1 3", "gate 9 1", "gate 9 2", "gate 8 1",
        "gate 8 2",
        "rup -9 0 3 4 5 6 1 2"], (
            (18, "times 4 5 15", (18, "other products")),
            (18, "above 4 7 15", (18, "other products")),
    )),
    Case("factors the other way round", ["((v5 * v6) != (v6 * v5))"], [
        "var 5", "var 6", "* 1 2", "* 2 1", "== 3 4", "let 1 -5", "* 1 1", "== 3 6", "ring 5"], (
            (10, "ring 7", (10, "a node of another operator")),
            (10, "ring 3", (10, "a node of another operator")),
    )),
    Case("a sum times a number", ["(((v3 - v4) * v3) != ((v3 * v3) - (v4 * v3)))"], [
        "var 3", "var 4", "- 1 2", "* 3 1", "* 1 1", "* 2 1", "- 5 6", "== 4 7", "let 1 -8", "+ 5 6", "== 4 9", "- 6 5", "== 4 11",
        "ring 8"], (
            (15, "ring 10", (15, "no law of products")),
            (15, "ring 12", (15, "no law of products")),
    )),
    Case("three factors", ["(((v3 * v4) * v3) != (v3 * (v4 * v3)))"], [
        "var 3", "var 4", "* 1 2", "* 3 1", "* 2 1", "* 1 5", "== 4 6", "let 1 -7", "* 2 5", "== 4 8", "ring 7"], (
            (12, "ring 9", (12, "no law of products")),
    )),
    Case("a product as a rational number", ["(real((v3 * v4)) != (real(v3) * real(v4)))"], [
        "var 3", "var 4", "* 1 2", "toreal 3", "toreal 1", "toreal 2", "* 5 6", "== 4 7", "let 1 -8", "* 6 6", "== 4 9", "ring 8"], (
            (13, "ring 10", (13, "no law of products")),
    )),
)
