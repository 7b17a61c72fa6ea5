"""Translates modules of python/nic82599/tools to JavaScript, so that the page computes what nicview and niclint do.

The tools' Python is the only source. The output calls web/python.js for Python's own behaviour: integers of any size,
truth, equality by value, methods of strings and lists. It refuses an unknown construct with its file and line instead
of guessing. Code that needs a process or a file is left out by name, and web/model.js replaces it.
"""

from __future__ import annotations

import ast
import json
from pathlib import Path
from typing import Any

# Methods of Python's own types; the call determines which type has it.
METHODS = set(
    "append extend pop index insert count sort get items keys values setdefault update add discard remove copy clear "
    "split strip lstrip rstrip join startswith endswith partition rpartition replace splitlines upper lower capitalize "
    "removeprefix removesuffix isdigit isascii isidentifier encode decode hex bit_length group start end".split()
)
# Python's own functions, which web/python.js defines under the same names.
BUILTINS = set(
    "len str range int enumerate set sorted list dict zip any all next bool max min sum map filter isinstance iter "
    "bytes reversed ord chr tuple type vars getattr super print abs divmod frozenset UnicodeDecodeError OSError "
    "KeyError TypeError ValueError".split()
)
# Modules whose functions have the same names as such methods.
GENERIC = {"list", "dict", "set", "tuple"}
MODULE_NAMES = ("re", "ipaddress", "ast", "json", "regs", "struct")
# Names that JavaScript reserves.
KEPT = set("new var function this delete case default switch typeof void export const null with arguments eval".split())
# Classes that web/python.js defines.
GIVEN = "TypeError KeyError ValueError AssertionError ThreadPoolExecutor Path IPv4Address IPv6Address".split()
BINARY = {
    ast.Add: "add", ast.Sub: "sub", ast.Mult: "mul", ast.FloorDiv: "floordiv", ast.Mod: "mod", ast.Pow: "pow",
    ast.BitAnd: "and_", ast.BitOr: "or_", ast.BitXor: "xor", ast.LShift: "lshift", ast.RShift: "rshift",
    ast.Div: "truediv",
}  # fmt: skip
COMPARED = {
    ast.Eq: "P.eq({}, {})", ast.NotEq: "!P.eq({}, {})", ast.Lt: "P.lt({}, {})", ast.LtE: "P.le({}, {})",
    ast.Gt: "P.lt({1}, {0})", ast.GtE: "P.le({1}, {0})", ast.In: "P.contains({1}, {0})",
    ast.NotIn: "!P.contains({1}, {0})", ast.Is: "({} === {})", ast.IsNot: "({} !== {})",
}  # fmt: skip


class Unknown(Exception):
    """An unknown construct: its location and its kind."""


def name_of(name: str) -> str:
    """Returns a name in JavaScript."""
    return f"{name}_" if name in KEPT else name


def text_of(value: str) -> str:
    return json.dumps(value)


class Names(ast.NodeVisitor):
    """The names that a function assigns, except names assigned in nested functions and comprehensions."""

    def __init__(self, body: list[ast.stmt]) -> None:
        self.found: dict[str, None] = {}
        self.yields = False
        for one in body:
            self.visit(one)

    def visit_Name(self, node: ast.Name) -> None:
        if isinstance(node.ctx, ast.Store):
            self.found[node.id] = None

    def visit_FunctionDef(self, node: ast.FunctionDef) -> None:
        self.found[node.name] = None

    def visit_ClassDef(self, node: ast.ClassDef) -> None:
        self.found[node.name] = None

    def visit_Lambda(self, node: ast.Lambda) -> None:
        pass

    def visit_Yield(self, node: ast.Yield) -> None:
        self.yields = True
        self.generic_visit(node)

    def visit_YieldFrom(self, node: ast.YieldFrom) -> None:
        self.yields = True
        self.generic_visit(node)

    def visit_Import(self, node: ast.Import) -> None:
        self.found.update(dict.fromkeys((it.asname or it.name).split(".")[0] for it in node.names))

    def visit_ImportFrom(self, node: ast.ImportFrom) -> None:
        self.found.update(dict.fromkeys(it.asname or it.name for it in node.names))

    def visit_ExceptHandler(self, node: ast.ExceptHandler) -> None:
        if node.name:
            self.found[node.name] = None
        self.generic_visit(node)

    def visit_MatchAs(self, node: ast.MatchAs) -> None:
        if node.name:
            self.found[node.name] = None
        self.generic_visit(node)

    def _comprehension(self, node: Any) -> None:
        """In a comprehension, only names assigned by `:=` belong to the function."""
        for one in ast.walk(node):
            if isinstance(one, ast.NamedExpr):
                self.found[one.target.id] = None

    visit_ListComp = visit_SetComp = visit_DictComp = visit_GeneratorExp = _comprehension


class Kinds:
    """What the modules define: classes, enumerations, and methods that aren't properties."""

    def __init__(self, trees: dict[str, ast.Module]) -> None:
        self.classes: set[str] = set(GIVEN)
        self.enums: set[str] = set()
        self.methods: set[str] = set()
        for tree in trees.values():
            for node in ast.walk(tree):
                if isinstance(node, ast.ClassDef):
                    (self.enums if is_enum(node) else self.classes).add(node.name)
                    self.methods |= {it.name for it in functions(node) if not decorated(it, "property")}


def is_enum(node: ast.ClassDef) -> bool:
    return any(isinstance(base, ast.Name) and base.id == "IntEnum" for base in node.bases)


def functions(node: ast.ClassDef) -> list[ast.FunctionDef]:
    return [it for it in node.body if isinstance(it, ast.FunctionDef)]


def decorated(node: ast.FunctionDef | ast.ClassDef, name: str) -> bool:
    return any(ast.unparse(it).split("(")[0] == name for it in node.decorator_list)


class Expressions:
    """Translates expressions."""

    def __init__(self, kinds: Kinds, path: str) -> None:
        self.kinds, self.path = kinds, path
        self.is_in_class = False

    def unknown(self, node: Any) -> Unknown:
        where = f"{self.path}:{getattr(node, 'lineno', 0)}"
        return Unknown(f"{where}: {type(node).__name__} isn't known to web/translate.py")

    def of(self, node: ast.expr) -> str:
        made = getattr(self, f"of_{type(node).__name__}", None)
        if made is None:
            raise self.unknown(node)
        return str(made(node))

    def test(self, node: ast.expr) -> str:
        """Returns an expression as a condition."""
        if isinstance(node, ast.BoolOp):
            word = " && " if isinstance(node.op, ast.And) else " || "
            return f"({word.join(map(self.test, node.values))})"
        if isinstance(node, ast.UnaryOp) and isinstance(node.op, ast.Not):
            return f"!{self.test(node.operand)}"
        return self.of(node) if isinstance(node, ast.Compare) else f"P.truth({self.of(node)})"

    def of_Constant(self, node: ast.Constant) -> str:
        value = node.value
        if value is None or isinstance(value, bool):
            return {None: "null", True: "true", False: "false"}[value]
        if isinstance(value, str):
            return text_of(value)
        if isinstance(value, bytes):
            return f"P.octets([{', '.join(map(str, value))}])"
        if isinstance(value, int):
            return str(value) if abs(value) < 1 << 53 else f"{value}n"
        if isinstance(value, float):
            return repr(value)
        raise self.unknown(node)

    def of_Name(self, node: ast.Name) -> str:
        return f"P.{node.id}" if node.id in BUILTINS and not self.is_own(node.id) else name_of(node.id)

    def is_own(self, _name: str) -> bool:
        return False

    def of_Attribute(self, node: ast.Attribute) -> str:
        if isinstance(node.value, ast.Name) and node.value.id == "str":
            return f"((it) => P.call(it, {text_of(node.attr)}))"
        of = self.of(node.value)
        return f"P.bound({of}, {text_of(node.attr)})" if node.attr in self.kinds.methods else f"{of}.{node.attr}"

    def of_Call(self, node: ast.Call) -> str:
        given = ", ".join(map(self.of, node.args))
        called = node.func
        if isinstance(called, ast.Subscript) and isinstance(called.value, ast.Name) and called.value.id in GENERIC:
            called = called.value  # (the element type has no effect)
        if isinstance(called, ast.Attribute):
            return self.of_method(node, called, given)
        name = called.id if isinstance(called, ast.Name) else ""
        if name == "isinstance":
            return f"P.isinstance({given})"
        if name in self.kinds.enums:
            return f"{name}.of({given})"
        function = self.of(called)
        if node.keywords:
            return f"P.keywords({function}, [{given}], {self.keywords(node)})"
        return f"new {function}({given})" if name in self.kinds.classes else f"{function}({given})"

    def of_method(self, node: ast.Call, called: ast.Attribute, given: str) -> str:
        if isinstance(called.value, ast.Call) and ast.unparse(called.value) == "super()":
            return f"super({given})"
        of = self.of(called.value)
        is_module = isinstance(called.value, ast.Name) and called.value.id in MODULE_NAMES
        if node.keywords:
            return f"P.keywords(P.bound({of}, {text_of(called.attr)}), [{given}], {self.keywords(node)})"
        if called.attr in METHODS and not is_module:
            return f"P.call({of}, {text_of(called.attr)}{', ' if given else ''}{given})"
        made = "new " if called.attr in self.kinds.classes else ""
        return f"{made}{of}.{called.attr}({given})"

    def keywords(self, node: ast.Call) -> str:
        if any(it.arg is None for it in node.keywords):
            raise self.unknown(node)
        return "{" + ", ".join(f"{it.arg}: {self.of(it.value)}" for it in node.keywords) + "}"

    def of_Starred(self, node: ast.Starred) -> str:
        return f"...P.each({self.of(node.value)})"

    def of_Tuple(self, node: ast.Tuple | ast.List) -> str:
        return f"[{', '.join(map(self.of, node.elts))}]"

    of_List = of_Tuple

    def of_Set(self, node: ast.Set) -> str:
        return f"P.set([{', '.join(map(self.of, node.elts))}])"

    def of_Dict(self, node: ast.Dict) -> str:
        parts = []
        for key, value in zip(node.keys, node.values):
            of = self.of(value)
            parts.append(f"[{self.of(key)}, {of}]" if key else f"...P.call({of}, 'items')")
        return f"P.dict([{', '.join(parts)}])"

    def of_Subscript(self, node: ast.Subscript) -> str:
        at = node.slice
        if isinstance(node.value, ast.Dict) and all(node.value.keys):
            # (only the chosen value is evaluated)
            pairs = (f"[{self.of(k)}, () => {self.of(v)}]" for k, v in zip(node.value.keys, node.value.values) if k)
            return f"P.chosen({self.of(at)}, [{', '.join(pairs)}])"
        of = self.of(node.value)
        if isinstance(at, ast.Slice):
            return f"P.slice({of}, {self.bounds(at)})"
        return f"P.at({of}, {self.of(at)})"

    def bounds(self, node: ast.Slice) -> str:
        return ", ".join(self.of(it) if it else "null" for it in (node.lower, node.upper, node.step))

    def of_BinOp(self, node: ast.BinOp) -> str:
        return f"P.{BINARY[type(node.op)]}({self.of(node.left)}, {self.of(node.right)})"

    def of_UnaryOp(self, node: ast.UnaryOp) -> str:
        if isinstance(node.op, ast.Not):
            return self.test(node)
        of = self.of(node.operand)
        return f"(-{of})" if isinstance(node.op, ast.USub) else f"P.invert({of})"

    def of_BoolOp(self, node: ast.BoolOp) -> str:
        word, made = ("and" if isinstance(node.op, ast.And) else "or"), self.of(node.values[-1])
        for one in reversed(node.values[:-1]):
            made = f"P.{word}({self.of(one)}, () => {made})"
        return made

    def of_Compare(self, node: ast.Compare) -> str:
        values = [self.of(it) for it in (node.left, *node.comparators)]
        if len(node.ops) == 1:
            return COMPARED[type(node.ops[0])].format(*values)
        # (the operand between two operators is a name or a number here, so it may be written twice)
        if any(not isinstance(it, (ast.Name, ast.Constant, ast.Attribute, ast.BinOp)) for it in node.comparators[:-1]):
            raise self.unknown(node)
        pairs = zip(node.ops, values, values[1:])
        return "(" + " && ".join(COMPARED[type(op)].format(a, b) for op, a, b in pairs) + ")"

    def of_IfExp(self, node: ast.IfExp) -> str:
        return f"({self.test(node.test)} ? {self.of(node.body)} : {self.of(node.orelse)})"

    def of_NamedExpr(self, node: ast.NamedExpr) -> str:
        return f"({name_of(node.target.id)} = {self.of(node.value)})"

    def of_JoinedStr(self, node: ast.JoinedStr) -> str:
        return "(" + " + ".join(['""', *map(self.of, node.values)]) + ")"

    def of_FormattedValue(self, node: ast.FormattedValue) -> str:
        form = self.of(node.format_spec) if node.format_spec else '""'
        value = self.of(node.value)
        return f"P.form({f'P.repr({value})' if node.conversion == 114 else value}, {form})"

    def of_Lambda(self, node: ast.Lambda) -> str:
        return f"(({self.parameters(node.args)}) => {self.of(node.body)})"

    def parameters(self, args: ast.arguments) -> str:
        if args.kwarg or args.posonlyargs:
            raise Unknown(f"{self.path}: parameters that aren't known to web/translate.py")
        every = args.args + args.kwonlyargs
        without = len(args.args) - len(args.defaults)
        values = [None] * without + list(args.defaults) + list(args.kw_defaults)
        parts = [
            name_of(it.arg) + (f" = {self.of(value)}" if value else "")
            for it, value in zip(every, values)
            if it.arg != "self"
        ]
        return ", ".join(parts + ([f"...{args.vararg.arg}"] if args.vararg else []))

    # Comprehensions.

    def loops(self, node: Any, inner: str) -> str:
        for one in reversed(node.generators):
            for test in reversed(one.ifs):
                inner = f"if ({self.test(test)}) {{ {inner} }}"
            inner = f"for (const {self.pattern(one.target)} of P.each({self.of(one.iter)})) {{ {inner} }}"
        return inner

    def of_ListComp(self, node: ast.ListComp) -> str:
        return f"(() => {{ const made = []; {self.loops(node, f'made.push({self.of(node.elt)});')} return made; }})()"

    def of_SetComp(self, node: ast.SetComp) -> str:
        inner = self.loops(node, f"made.add({self.of(node.elt)});")
        return f"(() => {{ const made = P.set([]); {inner} return made; }})()"

    def of_DictComp(self, node: ast.DictComp) -> str:
        inner = self.loops(node, f"made.set({self.of(node.key)}, {self.of(node.value)});")
        return f"(() => {{ const made = P.dict([]); {inner} return made; }})()"

    def of_GeneratorExp(self, node: ast.GeneratorExp) -> str:
        return f"(function* () {{ {self.loops(node, f'yield {self.of(node.elt)};')} }})()"

    def pattern(self, node: ast.expr) -> str:
        """Returns the target of an assignment."""
        if isinstance(node, (ast.Tuple, ast.List)):
            return f"[{', '.join('' if ast.unparse(it) == '_' else self.pattern(it) for it in node.elts)}]"
        if isinstance(node, ast.Starred):
            return f"...{self.pattern(node.value)}"
        if isinstance(node, ast.Name):
            return name_of(node.id)
        if isinstance(node, ast.Attribute):
            return f"{self.of(node.value)}.{node.attr}"
        raise self.unknown(node)


class Statements(Expressions):
    """Translates statements."""

    def __init__(self, kinds: Kinds, path: str, left_out: set[str]) -> None:
        super().__init__(kinds, path)
        self.left_out = left_out
        self.count = 0

    def all(self, body: list[ast.stmt]) -> str:
        return "\n".join(filter(None, map(self.statement, body)))

    def statement(self, node: ast.stmt) -> str:
        made = getattr(self, f"do_{type(node).__name__}", None)
        if made is None:
            raise self.unknown(node)
        return str(made(node))

    def block(self, body: list[ast.stmt]) -> str:
        return "{\n" + self.all(body) + "\n}"

    def do_Expr(self, node: ast.Expr) -> str:
        if isinstance(node.value, ast.Constant):
            return ""  # (a docstring)
        if isinstance(node.value, ast.Yield):
            return f"yield {self.of(node.value.value) if node.value.value else 'null'};"
        if isinstance(node.value, ast.YieldFrom):
            return f"yield* P.each({self.of(node.value.value)});"
        return f"{self.of(node.value)};"

    def do_Pass(self, _node: ast.Pass) -> str:
        return ""

    def do_Continue(self, _node: ast.Continue) -> str:
        return "continue;"

    def do_Break(self, _node: ast.Break) -> str:
        return "break;"

    def do_Return(self, node: ast.Return) -> str:
        return f"return {self.of(node.value) if node.value else 'null'};"

    def do_Raise(self, node: ast.Raise) -> str:
        return f"throw {self.of(node.exc) if node.exc else 'fault'};"

    def do_Assert(self, node: ast.Assert) -> str:
        return f"P.assert({self.test(node.test)}, {text_of(f'{self.path}:{node.lineno}')});"

    def do_Assign(self, node: ast.Assign) -> str:
        if isinstance(node.targets[0], ast.Name) and node.targets[0].id in self.left_out:
            return ""
        value = self.of(node.value)
        if len(node.targets) == 1:
            return self.assigned(node.targets[0], value)
        self.count += 1
        lines = [self.assigned(it, f"value{self.count}") for it in node.targets]
        return f"const value{self.count} = {value};\n" + "\n".join(lines)

    def assigned(self, target: ast.expr, value: str) -> str:
        if isinstance(target, ast.Subscript):
            return f"P.put({self.of(target.value)}, {self.of(target.slice)}, {value});"
        if isinstance(target, ast.Tuple):
            star = [n for n, it in enumerate(target.elts) if isinstance(it, ast.Starred)]
            if star and star[0] + 1 < len(target.elts):
                value = f"P.gathered({value}, {star[0]}, {len(target.elts) - star[0] - 1})"
                parts = [it.value if isinstance(it, ast.Starred) else it for it in target.elts]
                return f"[{', '.join(map(self.pattern, parts))}] = {value};"
            if any(isinstance(it, ast.Subscript) for it in target.elts):
                self.count += 1
                lines = [self.assigned(it, f"value{self.count}[{n}]") for n, it in enumerate(target.elts)]
                return "\n".join([f"const value{self.count} = P.list({value});", *lines])
            return f"{self.pattern(target)} = P.each({value});"
        return f"{self.pattern(target)} = {value};"

    def do_AnnAssign(self, node: ast.AnnAssign) -> str:
        return self.assigned(node.target, self.of(node.value)) if node.value else ""

    def do_AugAssign(self, node: ast.AugAssign) -> str:
        target = node.target
        of = self.of(ast.Name(target.id, ast.Load())) if isinstance(target, ast.Name) else self.of(target)
        value = f'P.within("{BINARY[type(node.op)]}", {of}, {self.of(node.value)})'
        return self.assigned(node.target, value)

    def do_If(self, node: ast.If) -> str:
        other = f" else {self.block(node.orelse)}" if node.orelse else ""
        return f"if ({self.test(node.test)}) {self.block(node.body)}{other}"

    def do_While(self, node: ast.While) -> str:
        if node.orelse:
            raise self.unknown(node)
        return f"while ({self.test(node.test)}) {self.block(node.body)}"

    def do_For(self, node: ast.For) -> str:
        if node.orelse:
            raise self.unknown(node)
        return f"for ({self.pattern(node.target)} of P.each({self.of(node.iter)})) {self.block(node.body)}"

    def do_With(self, node: ast.With) -> str:
        lines = []
        for item in node.items:
            if item.optional_vars is not None:
                lines.append(self.assigned(item.optional_vars, self.of(item.context_expr)))
        return "{\n" + "\n".join([*lines, self.all(node.body)]) + "\n}"

    def do_Try(self, node: ast.Try) -> str:
        if node.finalbody:
            raise self.unknown(node)
        self.count += 1
        ok, tests = f"ok{self.count}", ""
        for handler in node.handlers:
            if handler.type is None:
                raise self.unknown(handler)
            name = f"{name_of(handler.name)} = fault;\n" if handler.name else ""
            test = f"P.isinstance(fault, {self.of(handler.type)})"
            tests += f"if ({test}) {{\n{name}{self.all(handler.body)}\n}} else "
        caught = f"catch (fault) {{\n{ok} = false;\n{tests}throw fault;\n}}"
        other = f"\nif ({ok}) {self.block(node.orelse)}" if node.orelse else ""
        return f"let {ok} = true;\ntry {self.block(node.body)} {caught}{other}"

    def do_Import(self, node: ast.Import) -> str:
        return "\n".join(f"{it.asname or it.name} = P.modules.{it.name};" for it in node.names)

    def do_ImportFrom(self, node: ast.ImportFrom) -> str:
        module, lines = node.module or "", []
        if module in ("__future__", "typing", "collections.abc", "dataclasses", "enum"):
            return ""
        for it in [it for it in node.names if it.name not in self.left_out]:
            of = f"P.modules.{module.replace('.', '_')}.{it.name}"
            if node.level:
                of = f"MODULES.{module}.{it.name}" if module else f"MODULES.{it.name}"
            lines.append(f"{name_of(it.asname or it.name)} = {of};")
        return "\n".join(lines)

    # Functions and classes.

    def declared(self, body: list[ast.stmt], parameters: ast.arguments | None = None) -> tuple[str, bool]:
        """Returns the declarations of a body's names, and whether it yields."""
        found = Names(body)
        every = parameters.args + parameters.kwonlyargs if parameters else []
        names = {it.arg for it in every} | ({parameters.vararg.arg} if parameters and parameters.vararg else set())
        rest = [name_of(it) for it in found.found if it not in names]
        return (f"let {', '.join(rest)};\n" if rest else ""), found.yields

    def body_of(self, node: ast.FunctionDef, is_method: bool) -> tuple[str, str, bool]:
        declared, yields = self.declared(node.body, node.args)
        first = "const self = this;\n" if is_method else ""
        return self.parameters(node.args), f"{{\n{first}{declared}{self.all(node.body)}\nreturn null;\n}}", yields

    def do_FunctionDef(self, node: ast.FunctionDef) -> str:
        if node.name in self.left_out:
            return ""
        parameters, body, yields = self.body_of(node, False)
        names = [it.arg for it in node.args.args + node.args.kwonlyargs]
        made = f"P.named(function{'*' if yields else ''} ({parameters}) {body}, {json.dumps(names)})"
        made = f"P.cache({made})" if decorated(node, "cache") else made
        return f"{name_of(node.name)} = {made};"

    def do_ClassDef(self, node: ast.ClassDef) -> str:
        if node.name in self.left_out:
            return ""
        if is_enum(node):
            values = [self.of(it.value) for it in node.body if isinstance(it, ast.Assign)]
            names = [it.targets[0].id for it in node.body if isinstance(it, ast.Assign)]  # type: ignore[attr-defined]
            return f"{node.name} = P.enumeration({{{', '.join(f'{n}: {v}' for n, v in zip(names, values))}}});"
        base = f" extends {self.of(node.bases[0])}" if node.bases else ""
        base = base.replace(" extends Exception", " extends P.Exception")
        parts = [self.constructor(node)] if decorated(node, "dataclass") else []
        parts += [self.method(it) for it in functions(node) if f"{node.name}.{it.name}" not in self.left_out]
        made = [f"{node.name} = class {node.name}{base} {{\n" + "\n".join(parts) + "\n};"]
        return "\n".join(made + self.facts(node))

    def facts(self, node: ast.ClassDef) -> list[str]:
        """Returns statements that record a class's values, its fields, and the parameter names of its methods."""
        made, fields = [], []
        for it in node.body:
            if isinstance(it, ast.Assign) and isinstance(it.targets[0], ast.Name):
                made.append(f"P.shared({node.name}, {text_of(it.targets[0].id)}, {self.of(it.value)});")
            elif isinstance(it, ast.AnnAssign) and isinstance(it.target, ast.Name):
                fields.append(it.target.id)
        for one in functions(node):
            names = [it.arg for it in one.args.args + one.args.kwonlyargs if it.arg != "self"]
            if one.name == "__init__":
                made.append(f"{node.name}.names = {json.dumps(names)};")
            elif f"{node.name}.{one.name}" not in self.left_out and not decorated(one, "property"):
                of = node.name if decorated(one, "staticmethod") else f"{node.name}.prototype"
                made.append(f"{of}.{one.name}.names = {json.dumps(names)};")
        if decorated(node, "dataclass"):
            made.append(f"{node.name}.fields = {node.name}.names = {json.dumps(fields)};")
        return made

    def constructor(self, node: ast.ClassDef) -> str:
        names, lines = [], []
        for it in node.body:
            if isinstance(it, ast.AnnAssign) and isinstance(it.target, ast.Name):
                name = name_of(it.target.id)
                names.append(name + (f" = {self.default(it.value)}" if it.value else ""))
                lines.append(f"this.{it.target.id} = {name};")
        if any(it.name == "__post_init__" for it in functions(node)):
            lines.append("this.__post_init__();")
        return f"constructor({', '.join(names)}) {{\n" + "\n".join(lines) + "\n}"

    def default(self, node: ast.expr) -> str:
        if isinstance(node, ast.Call) and isinstance(node.func, ast.Name) and node.func.id == "field":
            factory = node.keywords[0].value
            return f"{self.of(factory)}()"
        return self.of(node)

    def method(self, node: ast.FunctionDef) -> str:
        if node.name == "__init__":
            declared, _ = self.declared(node.body, node.args)
            lines = [self.statement(it) for it in node.body]
            is_derived = bool(lines) and lines[0].startswith("super(")
            first = [lines.pop(0)] if is_derived else []
            body = "\n".join([*first, "const self = this;", declared, *lines])
            return f"constructor({self.parameters(node.args)}) {{\n{body}\n}}"
        parameters, body, yields = self.body_of(node, True)
        word = "get " if decorated(node, "property") else "static " if decorated(node, "staticmethod") else ""
        return f"{word}{'*' if yields else ''}{node.name}({parameters}) {body}"

    # Match.

    def do_Match(self, node: ast.Match) -> str:
        self.count += 1
        subject, lines = f"value{self.count}", []
        for case in node.cases:
            if case.guard:
                raise self.unknown(case)
            test, bound = self.matched(case.pattern, subject)
            lines.append(f"if ({test}) {{\n{bound}{self.all(case.body)}\n}}")
        return f"const {subject} = {self.of(node.subject)};\n" + " else ".join(lines)

    def matched(self, pattern: ast.pattern, of: str) -> tuple[str, str]:
        """Returns the test for a pattern, and the names that it binds."""
        if isinstance(pattern, ast.MatchAs):
            test, bound = self.matched(pattern.pattern, of) if pattern.pattern else ("true", "")
            return test, bound + (f"{name_of(pattern.name)} = {of};\n" if pattern.name else "")
        if isinstance(pattern, ast.MatchSequence):
            tests, bound = [f"{of}.length === {len(pattern.patterns)}"], ""
            for n, one in enumerate(pattern.patterns):
                test, more = self.matched(one, f"{of}[{n}]")
                tests.append(test)
                bound += more
            return " && ".join(tests), bound
        if isinstance(pattern, ast.MatchClass) and not pattern.patterns:
            tests, bound = [f"P.isinstance({of}, {self.of(pattern.cls)})"], ""
            for name, one in zip(pattern.kwd_attrs, pattern.kwd_patterns):
                test, more = self.matched(one, f"{of}.{name}")
                tests.append(test)
                bound += more
            return " && ".join(tests), bound
        raise self.unknown(pattern)


def module(tree: ast.Module, name: str, kinds: Kinds, left_out: set[str], path: str) -> str:
    """Returns a module as an object of its names."""
    made = Statements(kinds, path, left_out)
    own = [it for it in Names(tree.body).found if it not in left_out]
    text = made.all(tree.body)
    names = [name_of(it) for it in own if it not in ("annotations",)]
    shown = ", ".join(names)
    return f"MODULES.{name} = (() => {{\nlet {shown};\n{text}\nreturn {{ {shown} }};\n}})();\n"


def written(files: dict[str, Path], left_out: dict[str, set[str]]) -> str:
    """Returns these modules as JavaScript that uses `P`, in the object MODULES. Each module follows the ones that it
    needs."""
    trees = {name: ast.parse(path.read_text(encoding="utf-8")) for name, path in files.items()}
    kinds = Kinds(trees)
    parts = [module(trees[it], it, kinds, left_out.get(it, set()), path.name) for it, path in files.items()]
    return '"use strict";\nconst MODULES = {};\n' + "".join(parts)
