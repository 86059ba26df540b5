"""Formulas over the keys of a machine: the cost of a machine, and axes of pictures.

A formula has numbers, keys (`predictor.counters`), texts to compare them with, `+ - * / // % **`,
comparisons, `and or not`, `A if B else C`, and the functions below. Numbers are floating point.
"""

import ast
import math
from collections.abc import Mapping
from types import CodeType

from shared_lib.faults import InputFault

from .keys import KEYS, Value, unknown_key

FUNCTIONS = {"min": min, "max": max, "log2": math.log2, "ceil": math.ceil, "floor": math.floor}

ALLOWED = (
    ast.Expression,
    ast.BinOp,
    ast.Add,
    ast.Sub,
    ast.Mult,
    ast.Div,
    ast.FloorDiv,
    ast.Mod,
    ast.Pow,
    ast.UnaryOp,
    ast.USub,
    ast.UAdd,
    ast.Not,
    ast.BoolOp,
    ast.And,
    ast.Or,
    ast.IfExp,
    ast.Compare,
    ast.Eq,
    ast.NotEq,
    ast.Lt,
    ast.LtE,
    ast.Gt,
    ast.GtE,
)


class Formula:
    """A formula that was read, and can be computed for machines."""

    def __init__(self, text: str):
        self.text = " ".join(text.split())
        self.keys: set[str] = set()
        try:
            tree = ast.parse(self.text, mode="eval")
            tree.body = self._checked(tree.body)
            self._code: CodeType = compile(ast.fix_missing_locations(tree), "<formula>", "eval")
        except (SyntaxError, ValueError, OverflowError, RecursionError, MemoryError):
            raise InputFault(f"{self.text!r} is no formula") from None

    def value(self, values: Mapping[str, Value]) -> float:
        """The formula's value for a machine."""
        numbers = {key: operand(values[key]) for key in self.keys}
        try:
            scope = {"__builtins__": {}, "values": numbers, **FUNCTIONS}
            result = float(eval(self._code, scope))  # checked above: arithmetic alone
        except (ArithmeticError, ValueError, TypeError) as fault:
            raise InputFault(f"{self.text!r} has no value: {fault}") from None
        if not math.isfinite(result):
            raise InputFault(f"{self.text!r} has no finite value")
        return result

    def _checked(self, node: ast.expr) -> ast.expr:
        """The tree with keys as look-ups; refuses what is no part of a formula."""
        if isinstance(node, ast.Attribute) and isinstance(node.value, ast.Name):
            return self._look_up(f"{node.value.id}.{node.attr}")
        if isinstance(node, ast.Name):
            return self._look_up(node.id)
        if isinstance(node, ast.Constant):
            return self._number(node)
        if isinstance(node, ast.Call):
            return self._call(node)
        signs = [part for part in ast.iter_child_nodes(node) if not isinstance(part, ast.expr)]
        if not all(map(is_allowed, [node, *signs])):
            raise InputFault(f"{ast.unparse(node)!r} isn't allowed in a formula")
        for field, child in ast.iter_fields(node):
            if isinstance(child, ast.expr):
                setattr(node, field, self._operand(child, node))
            elif isinstance(child, list) and child and isinstance(child[0], ast.expr):
                setattr(node, field, [self._operand(part, node) for part in child])
        return node

    def _operand(self, node: ast.expr, above: ast.expr) -> ast.expr:
        """A part of a formula; a text stands in comparisons alone."""
        if isinstance(above, ast.Compare) and is_text(node):
            return node
        return self._checked(node)

    def _look_up(self, name: str) -> ast.expr:
        if name not in KEYS:
            raise InputFault(unknown_key(name))
        self.keys.add(name)
        values = ast.Name("values", ast.Load())
        return ast.Subscript(values, ast.Constant(name), ast.Load())

    @staticmethod
    def _number(node: ast.Constant) -> ast.expr:
        if isinstance(node.value, (int, float)) and not isinstance(node.value, bool):
            return ast.Constant(float(node.value))
        raise InputFault(f"{ast.unparse(node)!r} isn't allowed in a formula")

    def _call(self, node: ast.Call) -> ast.expr:
        known = isinstance(node.func, ast.Name) and node.func.id in FUNCTIONS
        if not known or node.keywords or not node.args:
            raise InputFault(f"{ast.unparse(node)!r} isn't allowed in a formula")
        return ast.Call(node.func, [self._checked(argument) for argument in node.args], [])


def is_allowed(node: ast.AST) -> bool:
    """Tells the operations of a formula from all others."""
    return isinstance(node, ALLOWED)


def is_text(node: ast.expr) -> bool:
    """Tells a text from what has a number."""
    return isinstance(node, ast.Constant) and isinstance(node.value, str)


def operand(value: Value) -> float | str:
    """A key's value as a formula sees it."""
    return value if isinstance(value, str) else float(value)
