"""Lines of JSON in the spellings that a line can have, for tests that draw their lines.

It is imported by random_sessions.py and boxes.py, and is not called by itself. How a line is spelled says
nothing, so it changes no answer. A third of the lines has no white space, a third has a space
behind each `:` and `,`, and a third white space anywhere. Keys come in the order that they are
given in or in another one, and some twice, of which the last counts. Characters of names and texts,
those of keys too, stand as they are or as escapes.
"""
import json

# What may stand between two tokens. An LF would end the line.
WHITE = (" ", "\t", "\r", " \t ")
# The escapes of two characters. All but the one of `/` stand for what can't stand by itself.
SHORT = {'"': '"', "\\": "\\", "/": "/", "\b": "b", "\f": "f", "\n": "n", "\r": "r", "\t": "t"}
# Which characters are escaped beside those that have to be.
PLAIN, SOME, NOT_ASCII, ALL = range(4)
# Values of a key that comes once more behind it.
REPLACED = (None, False, 0, 0.5, "", "x", [], {}, [[]])


class Spelling:
    """How one line is spelled."""

    def __init__(self, chance):
        self.chance = chance
        self.white = chance.choice(("none", "behind", "anywhere"))
        self.shuffles = chance.random() < 0.25
        self.doubles = chance.random() < 0.05
        self.escapes = chance.choice((PLAIN, PLAIN, PLAIN, SOME, NOT_ASCII, ALL))

    def gap(self):
        """White space at a place where it may stand."""
        if self.white != "anywhere" or self.chance.random() < 0.6:
            return ""
        return self.chance.choice(WHITE)

    def sign(self, sign):
        """A `:` or a `,` with what stands around it."""
        return self.gap() + sign + (" " if self.white == "behind" else self.gap())

    def is_escaped(self, character):
        if character in '"\\' or character < " ":
            return True
        if self.escapes == SOME:
            return self.chance.random() < 0.2
        return self.escapes == ALL or self.escapes == NOT_ASCII and character > "\x7f"

    def escape(self, character):
        """Two characters, or two halves where Unicode has it above U+FFFF."""
        if character in SHORT and self.chance.random() < 0.5:
            return "\\" + SHORT[character]
        digits = character.encode("utf-16-be").hex()
        digits = digits.upper() if self.chance.random() < 0.5 else digits
        return "".join("\\u" + digits[at : at + 4] for at in range(0, len(digits), 4))

    def text(self, text):
        return '"%s"' % "".join(self.escape(it) if self.is_escaped(it) else it for it in text)

    def items(self, items):
        return self.gap() + self.sign(",").join(items) + self.gap()

    def members(self, members):
        """The keys and values of an object, in the order in which they are written."""
        found = list(members)
        if self.shuffles:
            self.chance.shuffle(found)
        if self.doubles and found:
            found.insert(0, (self.chance.choice(found)[0], self.chance.choice(REPLACED)))
        return self.items([self.text(key) + self.sign(":") + self.value(it) for key, it in found])

    def value(self, value):
        if isinstance(value, str):
            return self.text(value)
        if isinstance(value, list):
            return "[%s]" % self.items([*map(self.value, value)])
        if isinstance(value, dict):
            return "{%s}" % self.members(value.items())
        return json.dumps(value)

    def command(self, command):
        """A command. Half of them begin by a plain `cmd`, and are in any spelling behind it."""
        (key, name), *others = command.items()
        if not others or self.chance.random() < 0.5:
            return self.gap() + self.value(command) + self.gap()
        return '{"%s":"%s",%s}%s' % (key, name, self.members(others), self.gap())


def spelled(chance, command):
    """The command as a line without LF, in a spelling of its own."""
    return Spelling(chance).command(command)
