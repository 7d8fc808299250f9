"""Values of EDN."""
import json
import re

from .fault import Fault

TOKEN = re.compile(
    r"""[\s,]+ | ;.* | (?P<open>\#\{|[\[({]) | (?P<close>[\])}]) | (?P<text>"(?:[^"\\]|\\.)*")
    | \#(?P<tag>[A-Za-z][\w./*+!?<>=-]*)
    | (?P<atom>[^\s,;\[\](){}"]+)""",
    re.X | re.S,
)
CLOSES = {"[": "]", "(": ")", "{": "}", "#{": "}"}


class Edn:
    """A value of EDN: keywords and symbols are texts, vectors and sets are lists, and tags are left out."""

    def __init__(self, text):
        self.text, self.at = text, 0

    def whole(self):
        value = self.value(self.token())
        if self.token() is not None:
            raise Fault("something stands behind the map")
        return value

    def token(self):
        """The next token as its kind and its text, or None at the end."""
        while self.at < len(self.text):
            found = TOKEN.match(self.text, self.at)
            if not found:
                raise Fault("neither JSON nor EDN")
            self.at = found.end()
            if found.lastgroup not in (None, "tag"):
                return found.lastgroup, found[found.lastgroup]
        return None

    def value(self, token):
        if token is None or token[0] == "close":
            raise Fault("neither JSON nor EDN")
        kind, text = token
        if kind == "text":
            return json.loads(text.replace("\n", "\\n"))
        if kind == "atom":
            return self.atom(text)
        inside = []
        while True:
            token = self.token()
            if token == ("close", CLOSES[text]):
                break
            inside.append(self.value(token))
        if text != "{":
            return inside
        if len(inside) % 2 or not all(isinstance(key, (str, int)) for key in inside[::2]):
            raise Fault("a map has a value for each key")
        return dict(zip(inside[::2], inside[1::2]))

    @staticmethod
    def atom(text):
        if text in ("nil", "true", "false"):
            return {"nil": None, "true": True, "false": False}[text]
        if re.fullmatch(r"[+-]?\d+N?", text):
            return int(text.rstrip("N"))
        if re.fullmatch(r"[+-]?\d.*", text):
            return float(text.rstrip("M"))
        return text[1:] if text.startswith(":") else text
