"""Puts the comments and the empty lines of a HeyVL text into its canonical text, as `caesar print` writes it."""
import re

import heyvl

PART = re.compile(r"//[^\n]*|/\*.*?\*/|\n", re.S)
CONTINUED = 4
NO_SPACE_AFTER, NO_SPACE_BEFORE = ("(", "["), (")", "]", ",", ":")


class Comment:
    """A comment: its text, its column, and how many line feeds separate it from what is before it."""

    def __init__(self, text, column, line_feeds):
        lines = [line.rstrip(" \t\r") for line in text.split("\n")]
        self.text, self.column, self.line_feeds = "\n".join(lines), column, line_feeds

    def is_line(self):
        """Returns whether it ends its line."""
        return self.text.startswith("//")

    def at(self, column):
        """Returns its text for another column: the further lines of a block move with the first one."""
        first, *others = self.text.split("\n")
        moved = column - self.column
        blanks = [len(line) - len(line.lstrip(" ")) for line in others]
        others = [" " * max(blank + moved, 0) + line[blank:] if line else "" for blank, line in zip(blanks, others)]
        return "\n".join([first, *others])


class Token:
    """A token, with the number of line feeds right before it, the comments before it, and those after it that end its
    line."""

    def __init__(self, text, line_feeds=0, before=(), after=()):
        self.text, self.line_feeds, self.before, self.after = text, line_feeds, list(before), list(after)

    def is_same(self, text):
        """Returns whether `print` writes the token as this text."""
        if self.text[:1].isdigit() and text[:1].isdigit():
            return heyvl.Fraction(self.text) == heyvl.Fraction(text)
        return text == ("reward" if self.text == "tick" else self.text)


def tokens_with_comments(text):
    """Returns the tokens of a text, with one for its end and without semicolons; a comment after a token and before the
    line's end belongs to that token, another one to the token that follows."""
    found, comments, line_feeds, place = [], [], 0, 0
    for token, start, end in heyvl.tokens_of(text):
        for part in PART.finditer(text, place, start):
            if part[0] == "\n":
                line_feeds += 1
            else:
                comments.append(Comment(part[0], part.start() - text.rfind("\n", 0, part.start()) - 1, line_feeds))
                line_feeds = 0
        place = end
        if token != ";":
            ending = ending_comments(comments, line_feeds or token == "") if found else 0
            if found:
                found[-1].after = comments[:ending]
            found.append(Token(token, line_feeds, comments[ending:]))
            comments, line_feeds = [], 0
    return found


def ending_comments(comments, line_feeds):
    """Returns how many of the comments after a token are in its line and end it. The next token follows the comments,
    after `line_feeds` line feeds."""
    count = next((at for at, comment in enumerate(comments) if comment.line_feeds), None)
    if count is None:
        return len(comments) if line_feeds else 0
    return count


def sorted_clauses(tokens):
    """Returns the tokens with the pre clauses of each procedure before its post clauses."""
    found, clauses = [], []
    for token in tokens:
        if token.text in ("pre", "post"):
            clauses.append([])
        elif token.text in ("{", "@", "proc", "coproc", ""):
            found += sum(sorted(clauses, key=lambda clause: clause[0].text == "post"), [])
            clauses = []
        (clauses[-1] if clauses else found).append(token)
    return found


def matched(tokens, canonical):
    """Returns a token for each one of the canonical text: one of `tokens`, or a new one for an else that is missing."""
    found, waiting = [], iter(tokens)
    token = next(waiting)
    for text, _, _ in canonical:
        if token.is_same(text):
            token.text = text
            found.append(token)
            token = next(waiting, None)
        else:
            found.append(Token(text, after=found[-1].after))
            found[-2].after = []
    return found


class Layout:
    """The lines that are laid out so far, and the tokens of the canonical text with the white space before each."""

    def __init__(self, tokens, spaces, keeps_breaks):
        self.tokens, self.spaces, self.lines, self.indent, self.keeps_breaks = tokens, spaces, [""], 0, keeps_breaks

    def text(self):
        return "".join(line.rstrip(" ") + "\n" for line in self.lines) if self.lines != [""] else ""

    def write(self, text):
        first, *others = text.split("\n")
        self.lines[-1] += first
        self.lines += others

    def write_comment(self, comment):
        self.write(comment.at(len(self.lines[-1])))

    def new_line(self, indent, is_apart=False):
        """Begins a line, after an empty one where it is set apart; the first line of the text is there already."""
        if self.lines != [""]:
            self.lines += [""] * (1 + is_apart)
        self.lines[-1] = " " * indent

    def begins_line(self, at):
        return at == 0 or "\n" in self.spaces[at]

    def move_comments(self):
        """Moves comments from before a block's brace into the block, and comments `/* .. */` to the next token of their
        line."""
        for at, token in enumerate(self.tokens[:-1]):
            last, following = self.tokens[at - 1], self.tokens[at + 1]
            if token.text == "{" and not self.begins_line(at) and not token.after:
                if any(comment.is_line() for comment in token.before):
                    following.before = token.before + following.before
                    following.before[0].line_feeds = 1
                    following.line_feeds = following.line_feeds or 1
                    token.before = []
                if not token.before and any(comment.is_line() for comment in last.after):
                    token.after, last.after = last.after, []
            if not self.begins_line(at + 1) and not any(comment.is_line() for comment in token.after):
                following.before, token.after = token.after + following.before, []

    def lay_out(self):
        self.move_comments()
        for at, token in enumerate(self.tokens):
            if self.begins_line(at):
                self.indent = len(self.spaces[at]) - self.spaces[at].rfind("\n") - 1
                self.lay_out_first(at, token)
            else:
                self.lay_out_inside(at, token)
            for comment in token.after:
                self.write(" ")
                self.write_comment(comment)
        return self.text()

    def lay_out_first(self, at, token):
        """Lays out a token that begins a line, and the comments before it."""
        items, last = [*token.before, token], self.tokens[at - 1].text if at else "{"
        is_in_block = token.text == "}" or token.text == "{"
        is_missing = "\n\n" in self.spaces[at] and not any(item.line_feeds > 1 for item in items)
        for number, item in enumerate(items):
            is_first, is_token = number == 0, item is token
            begins_block = last == "{" or last == ")" and token.text in ("pre", "post")
            never = is_first and begins_block or is_token and token.text in ("{", "}", "")
            if is_first or item.line_feeds or items[number - 1].is_line() or token.text in ("}", ""):
                is_apart = is_missing if is_first and is_missing else item.line_feeds > 1 and not never
                if not is_token or token.text:
                    self.new_line(self.indent + 2 if is_in_block and not is_token else self.indent, is_apart)
            else:
                self.write(" ")
            self.write(token.text) if is_token else self.write_comment(item)

    def lay_out_inside(self, at, token):
        """Lays out a token that doesn't begin a line, and the comments before it; a comment `// ..` breaks the line."""
        indent = self.indent + (0 if token.text == "else" else CONTINUED)
        last = self.tokens[at - 1]
        is_broken = any(comment.is_line() for comment in last.after)
        is_inside_bracket = last.text in NO_SPACE_AFTER and not last.after
        for comment in token.before:
            if is_broken or comment.is_line() and comment.line_feeds:
                self.new_line(indent)
            elif not is_inside_bracket:
                self.write(" ")
            self.write_comment(comment)
            is_broken, is_inside_bracket = comment.is_line(), False
        if is_broken or self.keeps_breaks and token.line_feeds and token.text not in ("{", "else"):
            self.new_line(indent)
        elif token.before:
            self.write("" if token.text in NO_SPACE_BEFORE else " ")
        else:
            self.write(self.spaces[at])
        self.write(token.text)


def laid_out(text, canonical, keeps_breaks=False):
    """Returns the canonical text with the comments and the empty lines of `text`, and, if it keeps breaks, with the
    breaks of lines inside statements."""
    places = heyvl.tokens_of(canonical)
    spaces = [canonical[last:start] for last, (_, start, _) in zip([0, *(end for _, _, end in places)], places)]
    return Layout(matched(sorted_clauses(tokens_with_comments(text)), places), spaces, keeps_breaks).lay_out()


def comments(text):
    """Returns the comments of a text, sorted, without regard to white space."""
    tokens = tokens_with_comments(text)
    return sorted(" ".join(comment.text.split()) for token in tokens for comment in token.before + token.after)
