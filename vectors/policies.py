"""The policy language: read, canonical text, and which signers satisfy a policy."""

import re

from encoding import NAME_BYTES, ROLES

TOKEN = re.compile(rb"[A-Za-z]+|[0-9]+|[(),]|'[^']*'|\"[^\"]*\"")
ALL, ANY, OUTOF = {b"AND", b"And", b"and"}, {b"OR", b"Or", b"or"}, {b"OutOf", b"outof", b"OUTOF"}


class NoPolicy(Exception):
    """The text isn't of the language, for a fault of this kind."""


def tokens_of(text):
    """One after the other, so that the first fault from the left is met first."""
    place = 0
    while True:
        while text[place : place + 1] == b" ":
            place += 1
        if place == len(text):
            return
        found = TOKEN.match(text, place)
        if not found:
            raise NoPolicy("syntax")
        yield found.group()
        place = found.end()


class Parser:
    """Policies are `("principal", org, role)` and `("gate", threshold, members)`."""

    def __init__(self, text):
        if len(text) > 4096:
            raise NoPolicy("too-large")
        self.tokens, self.principals, self.depth = tokens_of(text), 0, 0

    def next(self):
        for token in self.tokens:
            return token
        raise NoPolicy("syntax")

    def want(self, token):
        if self.next() != token:
            raise NoPolicy("syntax")

    def principal(self, quoted):
        org, dot, role = quoted[1:-1].rpartition(b".")
        self.principals += 1
        known = role.decode("latin-1") in ROLES + ["member"]
        if not dot or not known or not 1 <= len(org) <= 64 or not set(org) <= NAME_BYTES:
            raise NoPolicy("role")
        if self.principals > 256:
            raise NoPolicy("too-large")
        return ("principal", org, role.decode())

    def members(self):
        members = [self.expression()]
        while True:
            token = self.next()
            if token == b")":
                return members
            if token != b",":
                raise NoPolicy("syntax")
            members.append(self.expression())

    def expression(self):
        token = self.next()
        if token[:1] in b"'\"":
            return self.principal(token)
        if token not in ALL | ANY | OUTOF:
            raise NoPolicy("syntax")
        self.depth += 1
        if self.depth > 32:
            raise NoPolicy("too-deep")
        self.want(b"(")
        threshold = None
        if token in OUTOF:
            number = self.next()
            if not number.isdigit() or len(number) > 3:
                raise NoPolicy("syntax")
            threshold = int(number)
            self.want(b",")
        members = self.members()
        self.depth -= 1
        if token in ALL:
            threshold = len(members)
        if token in ANY:
            threshold = 1
        if not 1 <= threshold <= len(members):
            raise NoPolicy("threshold")
        return ("gate", threshold, members)


def read_policy(text):
    parser = Parser(text)
    policy = parser.expression()
    for _ in parser.tokens:
        raise NoPolicy("syntax")
    return policy


def policy_fault(text):
    """The kind of its first fault, `None` where it is a policy."""
    try:
        read_policy(text)
        return None
    except NoPolicy as fault:
        return fault.args[0]


def is_policy(text):
    return policy_fault(text) is None


def canonical(policy):
    if policy[0] == "principal":
        return f"'{policy[1].decode()}.{policy[2]}'"
    _, threshold, members = policy
    inside = ",".join(canonical(member) for member in members)
    if threshold == 1:
        return f"OR({inside})"
    if threshold == len(members):
        return f"AND({inside})"
    return f"OutOf({threshold},{inside})"


def acts_as(signer, org, role):
    """Whether a spelled identity satisfies a principal."""
    length = signer[0]
    return signer[1 : 1 + length] == org and role in ("member", ROLES[signer[1 + length]])


def evaluate(policy, signers, used):
    """The answer, and the places that are used after it."""
    if policy[0] == "principal":
        for place, signer in enumerate(signers):
            if place not in used and acts_as(signer, policy[1], policy[2]):
                return True, used | {place}
        return False, used
    held, now = 0, used
    for member in policy[2]:
        holds, now = evaluate(member, signers, now)
        held += holds
    return (True, now) if held >= policy[1] else (False, used)


def satisfied(policy, signers):
    return evaluate(policy, signers, frozenset())[0]


def missing(policy, signers, used=frozenset()):
    """The first principal that these signers, but those that are used, leave without one: they don't satisfy the policy."""
    if policy[0] == "principal":
        return policy
    for member in policy[2]:
        holds, after = evaluate(member, signers, used)
        if not holds:
            return missing(member, signers, used)
        used = after


def is_of_any_role(policy):
    return policy[0] == "principal" and policy[2] == "member"


def any_role_last(policy):
    """The policy in which each gate has its principals of any role behind its other members."""
    if policy[0] == "principal":
        return policy
    _, threshold, members = policy
    return ("gate", threshold, sorted(map(any_role_last, members), key=is_of_any_role))
