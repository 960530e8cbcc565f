"""A second reading of style sheets, source sets, refreshes and pages: their links, read by the words of the standards one after
another. It shares no code with the program, and is slow. It reads all that the standards say; what docs/PROFILE.md says is read
more narrowly isn't left out here.
"""
import html.entities
import re

WHITE = " \t\n\f\r"
LETTERS = "abcdefghijklmnopqrstuvwxyzABCDEFGHIJKLMNOPQRSTUVWXYZ"
DIGITS = "0123456789"
HEXADECIMAL = DIGITS + "abcdefABCDEF"
END = ""


# Style sheets (CSS Syntax Module Level 3, section 4)


class Sheet:
    """The tokens of a style sheet: (kind, value). Kinds that lead nowhere are told apart as far as the reading needs them."""

    def __init__(self, text):
        # 3.3, preprocessing the input stream
        text = text.replace("\r\n", "\n").replace("\r", "\n").replace("\f", "\n")
        self.text, self.at = re.sub("[\0\ud800-\udfff]", "\ufffd", text), 0

    def peek(self, n=0):
        """The code point so many behind the next one, or END."""
        return self.text[self.at + n] if self.at + n < len(self.text) else END

    def take(self):
        self.at += 1
        return self.peek(-1)

    # 4.3.8 to 4.3.10: checks of what follows, from the code point so many behind the next one

    def is_escape(self, n=0):
        return self.peek(n) == "\\" and self.peek(n + 1) != "\n"

    def is_ident(self, n=0):
        if self.peek(n) == "-":
            return is_name_start(self.peek(n + 1)) or self.peek(n + 1) == "-" or self.is_escape(n + 1)
        return is_name_start(self.peek(n)) or self.is_escape(n)

    def is_number(self):
        n = 1 if self.peek() and self.peek() in "+-" else 0
        return is_digit(self.peek(n)) or self.peek(n) == "." and is_digit(self.peek(n + 1))

    # 4.3.1 to 4.3.14: what is consumed

    def tokens(self):
        """All tokens; comments are none (4.3.2)."""
        while True:
            while self.text.startswith("/*", self.at):
                end = self.text.find("*/", self.at + 2)
                self.at = len(self.text) if end < 0 else end + 2
            if not self.peek():
                return
            yield self.token()

    def token(self):
        """4.3.1"""
        first = self.peek()
        if is_white(first):
            while is_white(self.peek()):
                self.at += 1
            return "white", None
        if first in "\"'":
            return self.string()
        if first == "#":
            self.at += 1
            return ("hash", self.name()) if is_name(self.peek()) or self.is_escape() else ("other", "#")
        if first in "+-." and self.is_number() or first in DIGITS:
            return self.numeric()
        if first == "-" and self.text.startswith("-->", self.at):
            self.at += 3
            return "other", "-->"
        if first == "<" and self.text.startswith("<!--", self.at):
            self.at += 4
            return "other", "<!--"
        if first == "@":
            self.at += 1
            return ("at", self.name()) if self.is_ident() else ("other", "@")
        if self.is_ident():
            return self.ident()
        return "other", self.take()

    def numeric(self):
        """4.3.3, 4.3.13"""
        if self.peek() in "+-":
            self.at += 1
        self.digits()
        if self.peek() == "." and is_digit(self.peek(1)):
            self.at += 1
            self.digits()
        signed = 1 if self.peek(1) and self.peek(1) in "+-" else 0
        if self.peek() and self.peek() in "eE" and is_digit(self.peek(1 + signed)):
            self.at += 1 + signed
            self.digits()
        if self.is_ident():
            return "dimension", self.name()
        if self.peek() == "%":
            self.at += 1
        return "number", None

    def digits(self):
        while is_digit(self.peek()):
            self.at += 1

    def ident(self):
        """4.3.4: an ident-like token"""
        name = self.name()
        if self.peek() != "(":
            return "ident", name
        self.at += 1
        if name.lower() != "url":
            return "function", name
        while is_white(self.peek()) and is_white(self.peek(1)):
            self.at += 1
        if self.peek() in ("'", '"') or is_white(self.peek()) and self.peek(1) in ("'", '"'):
            return "function", name
        return self.url()

    def string(self):
        """4.3.5"""
        quote, value = self.take(), []
        while True:
            if self.peek() == "\n":
                return "bad-string", None
            c = self.take()
            if c in (quote, END):
                return "string", "".join(value)
            if c != "\\":
                value.append(c)
            elif self.peek() == "\n":
                self.at += 1
            elif self.peek():
                value.append(self.escaped())

    def url(self):
        """4.3.6"""
        value = []
        self.pass_white()
        while True:
            c = self.take()
            if c in (")", END):
                return "url", "".join(value)
            if is_white(c):
                self.pass_white()
                if self.peek() in (")", END):
                    self.at += 1
                    return "url", "".join(value)
                return self.bad_url()
            if c in "\"'(" or is_unprintable(c):
                return self.bad_url()
            if c == "\\":
                if self.peek() == "\n":
                    return self.bad_url()
                value.append(self.escaped())
            else:
                value.append(c)

    def bad_url(self):
        """4.3.14"""
        while True:
            if self.is_escape():
                self.at += 1
                self.escaped()
            elif self.take() in (")", END):
                return "bad-url", None

    def escaped(self):
        """4.3.7: behind a backslash"""
        c = self.take()
        if c == END:
            return "\ufffd"
        if c not in HEXADECIMAL:
            return c
        while len(c) < 6 and self.peek() and self.peek() in HEXADECIMAL:
            c += self.take()
        if is_white(self.peek()):
            self.at += 1
        number = int(c, 16)
        return "\ufffd" if number == 0 or 0xD800 <= number <= 0xDFFF or number > 0x10FFFF else chr(number)

    def name(self):
        """4.3.11"""
        value = []
        while True:
            if is_name(self.peek()):
                value.append(self.take())
            elif self.is_escape():
                self.at += 1
                value.append(self.escaped())
            else:
                return "".join(value)

    def pass_white(self):
        while is_white(self.peek()):
            self.at += 1


def is_white(c):
    return c != END and c in " \t\n"


def is_digit(c):
    return c != END and c in DIGITS


def is_name_start(c):
    return c != END and (c in LETTERS or c == "_" or c > "\x7f")


def is_name(c):
    return c != END and (is_name_start(c) or c in DIGITS or c == "-")


def is_unprintable(c):
    return c <= "\x08" or c == "\x0b" or "\x0e" <= c <= "\x1f" or c == "\x7f"


def urls_of_sheet(text):
    """What a sheet refers to: its URL tokens, the strings in its `url` functions, those behind `@import`, and those that are
    arguments of `image-set` (CSS Images 4, section 2.4), unless that is itself within one."""
    tokens, urls, open_functions = list(Sheet(text).tokens()), [], []
    for i, (kind, value) in enumerate(tokens):
        if kind == "function":
            is_set = value.lower() in ("image-set", "-webkit-image-set") and "set" not in open_functions
            open_functions.append("set" if is_set else "other")
        elif (kind, value) == ("other", "("):
            open_functions.append("other")
        elif (kind, value) == ("other", ")") and open_functions:
            open_functions.pop()
        if kind == "url" or kind == "string" and open_functions[-1:] == ["set"]:
            urls.append(value)
        elif kind == "function" and value.lower() == "url" or kind == "at" and value.lower() == "import":
            behind = i + 1
            while behind < len(tokens) and tokens[behind][0] == "white":
                behind += 1
            if behind < len(tokens) and tokens[behind][0] == "string":
                urls.append(tokens[behind][1])
    return [url for url in urls if url]


# Source sets and refreshes (HTML Standard, "parse a srcset attribute" and "shared declarative refresh steps")


def urls_of_set(text):
    """The URL of each candidate, whatever its descriptors say."""
    urls, at = [], 0

    def collect(at, takes):
        end = at
        while end < len(text) and takes(text[end]):
            end += 1
        return text[at:end], end

    while True:
        _, at = collect(at, lambda c: c in WHITE or c == ",")
        if at == len(text):
            return urls
        url, at = collect(at, lambda c: c not in WHITE)
        if url.endswith(","):
            urls.append(url.rstrip(","))
            continue
        urls.append(url)
        _, at = collect(at, lambda c: c in WHITE)
        state = "in descriptor"
        while at < len(text):
            c = text[at]
            at += 1
            if state == "in parens":
                state = "in descriptor" if c == ")" else state
            elif c in WHITE:
                state = "after descriptor"
            elif c == ",":
                break
            else:
                state = "in parens" if c == "(" else "in descriptor"


def url_of_refresh(text):
    """The URL of a content of `meta`, or None: steps 1 to 11."""
    parts = re.fullmatch(r"[ \t\n\f\r]*([0-9]*)([0-9.]*)(.*)", text, re.DOTALL)
    digits, dots, rest = parts.groups()
    if not digits and not dots.startswith("."):
        return None
    if not rest or rest[0] not in ";," + WHITE:
        return None
    rest = rest.lstrip(WHITE)
    if rest[:1] and rest[0] in ";,":
        rest = rest[1:]
    rest = rest.lstrip(WHITE)
    if not rest:
        return None
    named = re.match(r"[uU][rR][lL][ \t\n\f\r]*=[ \t\n\f\r]*(.*)", rest, re.DOTALL)
    url = named[1] if named else rest
    if url[:1] and url[0] in "'\"":
        return url[1:].split(url[0])[0]
    return url


# Pages (HTML Standard, section 13.2.5)

RAW = {"title": "rcdata", "textarea": "rcdata", "style": "rawtext", "xmp": "rawtext", "iframe": "rawtext", "noembed": "rawtext",
       "noframes": "rawtext", "script": "script"}


# Elements of SVG and MathML whose content is HTML again, and start tags that end foreign content (13.2.4.2, 13.2.6.5)
POINTS = {"svg": {"foreignobject", "desc", "title"}, "math": {"mi", "mo", "mn", "ms", "mtext"}}
BREAKS = set("""b big blockquote body br center code dd div dl dt em embed h1 h2 h3 h4 h5 h6 head hr i img li listing menu meta nobr ol p
pre ruby s small span strong strike sub sup table tt u ul var""".split())


class Page:
    """The start tags of a page: (name, attributes in their order, the text of a raw element).

    Of the tree construction it has which elements of foreign content are open, as far as their tags are nested well.
    """

    def __init__(self, text):
        self.text, self.at = text.replace("\r\n", "\n").replace("\r", "\n"), 0
        # the foreign elements that are open: (svg or math, name)
        self.open, self.closes = [], False

    def is_foreign(self):
        return bool(self.open) and self.open[-1][1] not in POINTS[self.open[-1][0]]

    def enter(self, name, attributes):
        """Notes a start tag, and says whether its element is one of foreign content."""
        breaks = name in BREAKS or name == "font" and {"color", "face", "size"} & {it for it, _ in attributes}
        while self.is_foreign() and breaks:
            self.open.pop()
        language = self.open[-1][0] if self.is_foreign() else name if name in POINTS else None
        if language and not self.closes:
            self.open.append((language, name))
        return language is not None

    def leave(self, name):
        for i in range(len(self.open) - 1, -1, -1):
            if self.open[i][1] == name:
                del self.open[i:]
                return

    def tags(self):
        """The data state and what it leads to (13.2.5.1, 13.2.5.6, 13.2.5.7, 13.2.5.41, 13.2.5.42)."""
        text = self.text
        while True:
            self.at = text.find("<", self.at) + 1
            if not self.at:
                return
            follows = text[self.at:self.at + 1]
            if follows and follows in LETTERS:
                tag = self.tag()
                if tag is None:
                    return
                name, attributes = tag
                foreign = self.enter(name, attributes)
                styled = foreign and name == "style" and not self.closes
                yield name, attributes, self.styled_text() if styled else self.raw_text(name) if name in RAW and not foreign else ""
                if name == "plaintext" and not foreign:
                    return
            elif follows == "/":
                self.at += 1
                follows = text[self.at:self.at + 1]
                if follows and follows in LETTERS:
                    tag = self.tag()
                    if tag is None:
                        return
                    self.leave(tag[0])
                elif follows:
                    self.pass_bogus()
            elif text.startswith("!--", self.at):
                self.pass_comment()
            elif text.startswith("![CDATA[", self.at) and self.is_foreign():
                end = text.find("]]>", self.at)
                self.at = len(text) if end < 0 else end + 3
            elif follows and follows in "!?":
                self.pass_bogus()

    def styled_text(self):
        """The text of an element of foreign content up to the next tag, without comments and with CDATA sections. Nothing is taken."""
        at, read = self.at, ""
        for it in re.compile(r"<!--.*?(?:-->|\Z)|<!\[CDATA\[(?P<verbatim>.*?)(?:\]\]>|\Z)|<[!?].*?(?:>|\Z)|</[^A-Za-z].*?(?:>|\Z)|(?P<tag></?[A-Za-z])|</\Z", re.DOTALL).finditer(self.text, at):
            read += with_references(self.text[at:it.start()]) + (it["verbatim"] or "")
            at = it.end()
            if it["tag"]:
                return read
        return read + with_references(self.text[at:])

    def pass_bogus(self):
        end = self.text.find(">", self.at)
        self.at = len(self.text) if end < 0 else end + 1

    def pass_comment(self):
        """13.2.5.43 to 13.2.5.51: a comment ends at `-->` or `--!>`; `<!-->` and `<!--->` are whole."""
        end = re.compile(r"(?:(?<=<!--)|(?<=<!---)|--!?)>").search(self.text, self.at + 3)
        self.at = end.end() if end else len(self.text)

    def tag(self):
        """A tag from its name on (13.2.5.8, 13.2.5.32 to 13.2.5.40); None if the page ends in it."""
        text, end = self.text, len(self.text)
        begun = self.at
        while self.at < end and text[self.at] not in WHITE + "/>":
            self.at += 1
        name, attributes, bare = lower(text[begun:self.at]), [], 0
        while True:
            while self.at < end and text[self.at] in WHITE + "/":
                self.at += 1
            if self.at == end:
                return None
            if text[self.at] == ">":
                # (a solidus that closes stands right before it, and isn't the end of a bare value)
                self.closes = text[self.at - 1] == "/" and self.at > bare
                self.at += 1
                return name, attributes
            begun = self.at
            self.at += 1
            while self.at < end and text[self.at] not in WHITE + "/>=":
                self.at += 1
            attribute = lower(text[begun:self.at])
            self.pass_white()
            value = ""
            if text[self.at:self.at + 1] == "=":
                self.at += 1
                self.pass_white()
                value = self.value()
                if value is None:
                    return None
                bare = self.at
            if attribute not in (it for it, _ in attributes):
                attributes.append((attribute, value))

    def value(self):
        """13.2.5.35 to 13.2.5.39; None if the page ends in it."""
        quote = self.text[self.at:self.at + 1]
        if quote == ">":
            return ""
        ends = quote if quote and quote in "'\"" else WHITE + ">"
        begun = self.at = self.at + (ends == quote)
        while self.at < len(self.text) and self.text[self.at] not in ends:
            self.at += 1
        if self.at == len(self.text):
            return None
        value = self.text[begun:self.at]
        self.at += ends == quote
        return with_references(value)

    def pass_white(self):
        while self.at < len(self.text) and self.text[self.at] in WHITE:
            self.at += 1

    def raw_text(self, name):
        """The text up to the element's end tag, which isn't taken (13.2.5.2 to 13.2.5.5, 13.2.5.9 to 13.2.5.31)."""
        begun, escaped = self.at, ""
        closes = re.compile(rf"</{name}(?=[ \t\n\f/>])", re.IGNORECASE | re.ASCII)
        for it in re.compile(r"<!--|-->|</?script(?=[ \t\n\f/>])" if RAW[name] == "script" else closes.pattern,
                             re.IGNORECASE | re.ASCII).finditer(self.text, self.at):
            word = it[0].lower()
            if word == "<!--":
                escaped = escaped or "once"
            elif word == "-->":
                escaped = ""
            elif word == "<script":
                escaped = "twice" if escaped else ""
            elif escaped == "twice":
                escaped = "once"
            else:
                self.at = it.start()
                return self.text[begun:self.at]
        self.at = len(self.text)
        return self.text[begun:]


def lower(text):
    return "".join(c.lower() if c in LETTERS else c for c in text)


def with_references(value):
    """A value with its character references replaced (13.2.5.72 to 13.2.5.80)."""

    def replaced(it):
        text = it[0]
        if text[1] != "#":
            for end in range(len(text), 1, -1):
                if text[1:end] in html.entities.html5:
                    follows = text[end:] or value[it.end():it.end() + 1]
                    if text[end - 1] != ";" and (follows[:1] == "=" or follows[:1].isalnum()):
                        return text
                    return html.entities.html5[text[1:end]] + text[end:]
            return text
        digits = text[2:].rstrip(";")
        number = int(digits[1:], 16) if digits[0] in "xX" else int(digits)
        if number == 0 or number > 0x10FFFF or 0xD800 <= number <= 0xDFFF:
            return "\ufffd"
        if 0x80 <= number <= 0x9F:
            return bytes([number]).decode("windows-1252", "replace")
        return chr(number)

    return re.sub(r"&(?:#[xX][0-9a-fA-F]+;?|#[0-9]+;?|[0-9a-zA-Z]+;?)", replaced, value)


# The table of elements and attributes, by what a value leads to: a link to another document, or what the page shows.
LINKS = {("a", "href"), ("a", "xlink:href"), ("area", "href"), ("img", "longdesc")}
SHOWN = {(element, "src") for element in ("img", "script", "iframe", "frame", "embed", "source", "video", "audio", "track")} \
    | {(element, attribute) for element in ("script", "image", "use", "feimage") for attribute in ("href", "xlink:href")} \
    | {(element, "background") for element in ("body", "table", "thead", "tbody", "tfoot", "tr", "td", "th")} \
    | {("img", "lowsrc"), ("video", "poster"), ("object", "data")}
SETS = {("img", "srcset"), ("source", "srcset"), ("link", "imagesrcset")}
# Attributes of any element that are read like a style sheet (SVG 2, 6.6: presentation attributes)
STYLING = ("style", "fill", "stroke", "filter", "mask", "clip-path", "cursor", "marker-start", "marker-mid", "marker-end")
SHOWN_WORDS = {"stylesheet", "icon", "manifest", "preload", "modulepreload", "apple-touch-icon", "apple-touch-icon-precomposed", "mask-icon"}
HOST_WORDS = {"dns-prefetch", "preconnect"}


def related(words):
    """What a `link` leads to by the words of its `rel`: "shown", "link", or None for nothing."""
    words = set(lower(words).split())
    return "shown" if words & SHOWN_WORDS else None if words & HOST_WORDS else "link"


def links_of_page(text):
    """The value of a page's first `base` with an `href`, or None, and its links: (kind, text), of kind "link" or "shown"."""
    base, links = None, []
    for name, attributes, raw in Page(text).tags():
        values = dict(attributes)
        if name == "base" and base is None:
            base = values.get("href")
        for attribute, value in attributes:
            place = name, attribute
            if place in LINKS:
                links.append(("link", value))
            elif place in SHOWN:
                links.append(("shown", value))
            elif place in SETS:
                links += [("shown", url) for url in urls_of_set(value)]
            elif place == ("input", "src") and lower(values.get("type", "")) == "image":
                links.append(("shown", value))
            elif place == ("link", "href") and related(values.get("rel", "")):
                links.append((related(values.get("rel", "")), value))
            elif place == ("meta", "content") and lower(values.get("http-equiv", "")) == "refresh":
                url = url_of_refresh(value)
                links += [("link", url)] if url is not None else []
            elif attribute in STYLING:
                links += [("shown", url) for url in urls_of_sheet(value)]
        if name == "style":
            links += [("shown", url) for url in urls_of_sheet(raw)]
    return base, links


# Addresses (URL Standard, section 4.4, for what has the scheme http)


def joined(base, text):
    """The address of a text below a base such as `http://host/a/b?c`, without its fragment; None if it has another scheme."""
    text = re.sub("[\t\n\r]", "", text.strip("".join(map(chr, range(33)))))
    text = text.split("#")[0]
    scheme, authority, path, query = re.fullmatch(r"(http):(//[^/?]*)([^?]*)(\?.*)?", base).groups()
    named = re.match(r"([A-Za-z][A-Za-z0-9+.-]*):", text)
    if named:
        if lower(named[1]) != "http":
            return None
        text = text[named.end():]
    text, mark, own_query = text.partition("?")
    text = text.replace("\\", "/")
    if text.startswith("//"):
        authority, _, rest = text[2:].partition("/")
        return f"http://{authority.lower()}{plain('/' + rest)}{mark}{own_query}"
    if text.startswith("/"):
        return f"http:{authority}{plain(text)}{mark}{own_query}"
    if not text:
        return f"http:{authority}{path}" + (mark + own_query if mark else query or "")
    return f"http:{authority}{plain(path.rpartition('/')[0] + '/' + text)}{mark}{own_query}"


def plain(path):
    """A path without its dot segments."""
    segments, parts = [], path[1:].split("/")
    for i, part in enumerate(parts):
        dots = re.sub("%2e", ".", part, flags=re.IGNORECASE)
        if dots == "..":
            del segments[-1:]
        elif dots != ".":
            segments.append(part)
        if dots in (".", "..") and i == len(parts) - 1:
            segments.append("")
    return "/" + "/".join(segments)
