"""The literals of a script in JavaScript, and where they stand."""

import re

# What stands before a `/` that begins a regular expression, and no division.
BEFORE_REGEX = re.compile(r'(?:^|[(,=:\[!&|?{};+\-*%~^<>]|\breturn|\btypeof|=>)\s*$')


class Script:
    """`literals` has each (kind, start, end, parts) in their order: kind is `string` or `template`, and parts are the
    ends of a template's texts between its holes."""

    def __init__(self, text):
        self.text, self.literals = text, []
        self.code(0, None)

    def code(self, at, until):
        """From a place in the code to behind the sign that ends it."""
        text, depth = self.text, 0
        while at < len(text):
            sign = text[at]
            if sign == until and depth == 0:
                return at + 1
            if text.startswith('//', at):
                at = (text.find('\n', at) + 1 or len(text) + 1) - 1
            elif text.startswith('/*', at):
                at = text.index('*/', at) + 2
            elif sign in '\'"':
                at = self.string(at)
            elif sign == '`':
                at = self.template(at)
            elif sign == '/' and BEFORE_REGEX.search(text[max(0, at - 40):at]):
                at = self.regex(at)
            else:
                depth += (sign in '{[(') - (sign in '}])')
                at += 1
        return at

    def string(self, start):
        at = start + 1
        while self.text[at] != self.text[start]:
            at += 2 if self.text[at] == '\\' else 1
        self.literals.append(('string', start, at + 1, [(start + 1, at)]))
        return at + 1

    def template(self, start):
        place, parts, at = len(self.literals), [], start + 1
        begin = at
        while self.text[at] != '`':
            if self.text.startswith('${', at):
                parts.append((begin, at))
                begin = at = self.code(at + 2, '}')
            else:
                at += 2 if self.text[at] == '\\' else 1
        self.literals.insert(place, ('template', start, at + 1, [*parts, (begin, at)]))
        return at + 1

    def regex(self, start):
        at, in_class = start + 1, False
        while self.text[at] != '/' or in_class:
            in_class = (in_class or self.text[at] == '[') and self.text[at] != ']'
            at += 2 if self.text[at] == '\\' else 1
        return at + 1

    def line_of(self, at):
        return self.text.count('\n', 0, at) + 1
