"""Finds the types of a class's expressions, where each access goes, and before which statements a block begins.

It sets `type` and `site` of the expressions of a tree, and `accesses`, `touched` and `mark` of its statements.
"""

from typing import Any, NamedTuple

from java_profile import Assign, Block, Call, Gather, If, Invoke, Literal, Local, Loop, Name, Return

RESULTS = {
    "Table": {"get": "long", "has": "boolean", "put": "void", "add": "void", "remove": "void", "size": "long"},
    "Matrix": {
        "getElement": "long",
        "setElement": "void",
        "addElement": "void",
        "getRow": "Vector",
        "multiply": "Vector",
        "size": "long",
    },
    "Counter": {"get": "long", "add": "void", "set": "void"},
    "Vector": {"size": "int", "get": "long", "set": "void"},
}
SHIFTS = ["<<", ">>", ">>>"]
TRUTHS = ["==", "!=", "<", "<=", ">", ">=", "&&", "||"]


class Site(NamedTuple):
    """Where an access goes: `local`, `global` or `keyed`, and then a number, a variable, or no key that is compared."""

    field: str
    how: str
    key: Any = None

    def is_compound(self):
        return self.how == "keyed" and self.key is None


class Resolver:
    def __init__(self, read):
        self.classes = {field.name: field.state_class for field in read.fields}
        self.partial = {field.name for field in read.fields if "Partial" in field.annotations}
        self.results = {method.name: method.type for method in read.methods}
        self.accesses, self.touched = [], []
        for method in read.methods:
            self.statements(method.body, {parameter.name: parameter.type for parameter in method.parameters})
            mark(method.body)

    # -- statements: the scope has the types of the variables by name

    def statements(self, statements, scope):
        for statement in statements:
            self.statement(statement, scope)

    def statement(self, node, scope):
        accesses, touched = len(self.accesses), len(self.touched)
        self.parts_of(node, scope)
        node.accesses, node.touched = self.accesses[accesses:], set(self.touched[touched:])

    def parts_of(self, node, scope):
        if isinstance(node, Local):
            scope[node.name] = node.of_type
            self.touched.append(node.name)
            self.expressions([node.value], scope)
        elif isinstance(node, Assign):
            node.of_type = scope[node.name]
            self.touched.append(node.name)
            self.expressions([node.value], scope)
        elif isinstance(node, Invoke):
            self.expressions([node.call], scope)
        elif isinstance(node, Gather):
            self.expressions([node.call], scope)
            node.call.site = Site(node.call.receiver, "global")
            self.statements([node.merge] if node.merge else [], scope)
        elif isinstance(node, Return):
            self.expressions([node.value], scope)
        elif isinstance(node, Block):
            self.statements(node.statements, dict(scope))
        elif isinstance(node, If):
            self.expressions([node.test], scope)
            for branch in filter(None, [node.first, node.second]):
                self.statement(branch, scope)
        elif isinstance(node, Loop):
            inner = dict(scope)
            self.statements(node.start, inner)
            self.expressions([node.test], inner)
            self.statements(node.update, inner)
            self.statement(node.body, inner)

    # -- expressions

    def expressions(self, nodes, scope):
        for node in filter(None, nodes):
            find = getattr(self, "type_of_" + type(node).__name__.lower(), None)
            node.type = find(node, scope) if find else node.type

    def type_of_name(self, node, scope):
        return scope[node.name]

    def type_of_unary(self, node, scope):
        self.expressions([node.operand], scope)
        return node.operand.type

    def type_of_binary(self, node, scope):
        self.expressions([node.left, node.right], scope)
        if node.operator in TRUTHS:
            return "boolean"
        return node.left.type if node.operator in SHIFTS else wider(node.left.type, node.right.type)

    def type_of_conditional(self, node, scope):
        self.expressions([node.test, node.first, node.second], scope)
        return wider(node.first.type, node.second.type)

    def type_of_cast(self, node, scope):
        self.expressions([node.operand], scope)
        return node.to

    def type_of_newvector(self, node, scope):
        self.expressions([node.length], scope)
        return "Vector"

    def type_of_member(self, node, scope):
        self.expressions([node.index], scope)
        return scope[node.name][: -len("[]")]

    def type_of_length(self, _node, _scope):
        return "int"

    def type_of_call(self, node, scope):
        self.expressions([node.index, *node.arguments], scope)
        if not node.receiver:
            return self.results[node.name]
        if node.receiver in scope:
            return RESULTS["Vector"][node.name]
        node.site = self.site_of(node)
        self.accesses.append(node)
        return RESULTS[self.classes[node.receiver]][node.name]

    def site_of(self, call):
        if call.receiver in self.partial:
            return Site(call.receiver, "local")
        key = call.arguments[0]
        if isinstance(key, Literal):
            return Site(call.receiver, "keyed", key.value)
        return Site(call.receiver, "keyed", key.name if isinstance(key, Name) else None)


def wider(first, second):
    return "long" if "long" in (first, second) else first


# ---- marks


def is_compound(statement):
    return isinstance(statement, (Block, If, Loop))


def site_of_unit(statement):
    """The one site of a statement's accesses, where the statement runs as part of one block."""
    sites = {access.site for access in statement.accesses}
    if len(sites) != 1 or isinstance(statement, Gather):
        return None
    (site,) = sites
    if is_compound(statement) and (site.how == "global" or site.is_compound() or site.key in statement.touched):
        return None
    return site


def body_of(statement):
    return statement.statements if isinstance(statement, Block) else [statement]


def bodies_of(statement):
    if isinstance(statement, Block):
        return [statement.statements]
    if isinstance(statement, If):
        return [body_of(branch) for branch in (statement.first, statement.second) if branch]
    return [body_of(statement.body)]


def mark(statements):
    """Sets the marks of a list of statements. The current site is that of the block that runs."""
    current = None
    for statement in statements:
        site = site_of_unit(statement)
        if isinstance(statement, Gather):
            statement.mark = statement.call.site
            current = None
        elif site:
            if site != current or site.is_compound():
                statement.mark = site
            current = site
        elif statement.accesses:
            for body in bodies_of(statement):
                mark(body)
            current = None
        if current and current.key in statement.touched:
            current = None
