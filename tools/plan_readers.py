"""Readers of the files that a plan is written to: a calendar by RFC 5545, and a page (HTML) as a tree of its elements.

Neither forgives: what isn't of the form is a `Fault`, with the place where it stands.
"""
import html.parser
import re

MOST_BYTES = 75
NAME = re.compile(r"[A-Z][A-Z-]*")
# Of these each event has one; UID and DTSTAMP by RFC 5545, section 3.6.1.
EVENT_ONCE = ["UID", "DTSTAMP", "DTSTART", "SUMMARY", "DESCRIPTION", "TRANSP"]
CALENDAR_ONCE = ["VERSION", "PRODID", "NAME", "X-WR-CALNAME", "DESCRIPTION"]
DURATION = re.compile(r"PT(?:(\d+)H)?(?:(\d+)M)?(?:(\d+)S)?")


class Fault(Exception):
    """What is wrong in a file."""


# ---- calendars


def content_lines(data):
    """The lines of a calendar without their folds."""
    if not data.endswith(b"\r\n"):
        raise Fault("the last line has no end")
    found = []
    for number, line in enumerate(data[:-2].split(b"\r\n"), 1):
        if b"\r" in line or b"\n" in line:
            raise Fault(f"line {number}: half an end of a line")
        if len(line) > MOST_BYTES:
            raise Fault(f"line {number}: {len(line)} bytes")
        try:
            text = line.decode("utf-8")
        except UnicodeDecodeError:
            raise Fault(f"line {number}: no UTF-8, or a character cut in two") from None
        if re.search("[\0-\x08\x0a-\x1f\x7f]", text):
            raise Fault(f"line {number}: a control sign")
        if text.startswith(" ") and found:
            found[-1] += text[1:]
        else:
            found.append(text)
    return found


def text_of(value):
    """A value of type TEXT (section 3.3.11)."""
    found = re.sub(r"\\(.)|([;,])", lambda it: unescaped(it[1], value), value)
    if re.search(r"(?<!\\)(?:\\\\)*\\$", value):
        raise Fault(f"a backslash at the end of {value!r}")
    return found


def unescaped(sign, value):
    known = {"\\": "\\", ";": ";", ",": ",", "n": "\n", "N": "\n"}
    if sign not in known:
        raise Fault(f"{value!r}: {'a comma or a semicolon' if sign is None else 'a backslash before ' + sign!r}")
    return known[sign]


class Component:
    """A component of a calendar: its properties in order, and the components in it."""

    def __init__(self, name):
        self.name, self.properties, self.parts = name, [], []

    def value(self, name):
        found = [value for other, value in self.properties if other == name]
        if len(found) != 1:
            raise Fault(f"{len(found)} properties {name} in {self.name}")
        return found[0]

    def text(self, name):
        return text_of(self.value(name))

    def names(self):
        return [name for name, _ in self.properties]


def calendar_of(data):
    """The calendar of a file, of which each property is one that these files have."""
    top, stack = Component("top"), []
    stack.append(top)
    for line in content_lines(data):
        name, colon, value = line.partition(":")
        if not colon or not NAME.fullmatch(name):
            raise Fault(f"no property: {line!r}")
        if name == "BEGIN":
            stack.append(Component(value))
            stack[-2].parts.append(stack[-1])
        elif name == "END":
            if stack.pop().name != value or not stack:
                raise Fault(f"{line!r} ends another one")
        else:
            stack[-1].properties.append((name, value))
    if len(stack) != 1 or [it.name for it in top.parts] != ["VCALENDAR"] or top.properties:
        raise Fault("not one calendar")
    calendar = top.parts[0]
    hold_names(calendar, CALENDAR_ONCE, [])
    for event in calendar.parts:
        hold_names(event, EVENT_ONCE, ["DURATION"])
        if event.name != "VEVENT" or event.parts:
            raise Fault(f"a component {event.name}")
    if calendar.value("VERSION") != "2.0":
        raise Fault("another version")
    return calendar


def hold_names(component, once, at_most_once):
    for name in once:
        component.value(name)
    for name in set(component.names()) - set(once):
        if name not in at_most_once or component.names().count(name) > 1:
            raise Fault(f"a property {name} in {component.name}")


def seconds_of(duration):
    found = DURATION.fullmatch(duration)
    if not found or not any(found.groups()):
        raise Fault(f"no duration: {duration!r}")
    return sum(int(part or 0) * unit for part, unit in zip(found.groups(), (3600, 60, 1)))


# ---- pages

VOID = {"meta"}
# What a page of ours is made of: its elements, and the attributes of each.
ELEMENTS = {
    "html": {"lang"}, "head": set(), "meta": {"charset", "http-equiv", "content", "name"}, "title": set(), "style": set(), "body": set(),
    "main": set(), "h1": set(), "h2": set(), "h3": set(), "p": {"class"}, "b": set(), "section": {"class"}, "ul": {"class"}, "li": {"class"},
    "div": {"class"}, "table": {"class"}, "tr": set(), "th": {"scope", "class"}, "td": {"class"}, "figure": {"class"}, "figcaption": set(),
    "svg": {"viewbox", "preserveaspectratio", "role"}, "desc": set(), "rect": {"class", "x", "width", "y", "height"},
    "details": set(), "summary": set(), "caption": set(), "thead": set(), "tbody": set(), "code": set(), "span": {"class"},
}


class Element:
    """An element of a page: its name, its attributes, and what stands in it, texts and elements."""

    def __init__(self, name, attributes):
        self.name, self.attributes, self.inside = name, attributes, []

    def text(self):
        return "".join(it if isinstance(it, str) else it.text() for it in self.inside)

    def elements(self):
        return [it for it in self.inside if isinstance(it, Element)]

    def all(self, name):
        """The elements of a name in it, in their order."""
        found = []
        for element in self.elements():
            found += ([element] if element.name == name else []) + element.all(name)
        return found

    def one(self, name):
        found = self.all(name)
        if len(found) != 1:
            raise Fault(f"{len(found)} elements {name} in {self.name}")
        return found[0]

    def has_class(self, name):
        return name in self.attributes.get("class", "").split()

    def skeleton(self):
        """Its elements without any text."""
        return self.name, self.attributes, [it.skeleton() for it in self.elements()]


class PageReader(html.parser.HTMLParser):
    """Reads a page of which each element is opened and closed by its own signs."""

    def __init__(self):
        super().__init__(convert_charrefs=True)
        self.top = Element("page", {})
        self.stack = [self.top]
        self.kinds = []

    def place(self):
        return "line {}, column {}".format(*self.getpos())

    def begin(self, name, attributes):
        if name not in ELEMENTS:
            raise Fault(f"{self.place()}: an element {name}")
        names = [it for it, _ in attributes]
        if len(set(names)) != len(names) or not set(names) <= ELEMENTS[name] or None in dict(attributes).values():
            raise Fault(f"{self.place()}: {name} with {attributes}")
        self.stack[-1].inside.append(Element(name, dict(attributes)))

    def handle_starttag(self, name, attributes):
        self.begin(name, attributes)
        if name not in VOID:
            self.stack.append(self.stack[-1].inside[-1])

    def handle_startendtag(self, name, attributes):
        if name != "rect":
            raise Fault(f"{self.place()}: {name} is no element of SVG that may end so")
        self.begin(name, attributes)

    def handle_endtag(self, name):
        if self.stack.pop().name != name or not self.stack:
            raise Fault(f"{self.place()}: </{name}> ends another one")

    def handle_data(self, data):
        self.stack[-1].inside.append(data)

    def handle_decl(self, decl):
        self.kinds.append(decl)

    def handle_comment(self, data):
        raise Fault(f"{self.place()}: a comment")

    def handle_pi(self, data):
        raise Fault(f"{self.place()}: a processing instruction")

    def unknown_decl(self, data):
        raise Fault(f"{self.place()}: {data!r}")


def page_of(data):
    """The element `html` of a page."""
    reader = PageReader()
    try:
        text = data.decode("utf-8")
    except UnicodeDecodeError as error:
        raise Fault(f"no UTF-8 at {error.start}") from None
    reader.feed(text)
    reader.close()
    if len(reader.stack) != 1:
        raise Fault(f"{reader.stack[-1].name} isn't closed")
    if reader.kinds != ["DOCTYPE html"] or [it.name for it in reader.top.elements()] != ["html"]:
        raise Fault("no page")
    return reader.top.elements()[0]


def faults_of_page(page):
    """What a page mustn't have: what loads or runs something, headings out of order, a picture without a text."""
    head, found = page.one("head"), []
    policies = [it.attributes.get("content") for it in head.all("meta") if it.attributes.get("http-equiv") == "Content-Security-Policy"]
    if policies != ["default-src 'none'; style-src 'unsafe-inline'"]:
        found.append(f"the policies are {policies}")
    if [it.attributes["charset"] for it in head.all("meta") if "charset" in it.attributes] != ["utf-8"]:
        found.append("no charset")
    if re.search(r"url\(|@import|expression\(", head.one("style").text()):
        found.append("the style loads something")
    if len(page.all("style")) != 1:
        found.append("a second style")
    depth = 0
    for name in (it.name for it in walk(page) if re.fullmatch(r"h[1-6]", it.name)):
        if int(name[1]) > depth + 1 or name == "h1" and depth:
            found.append(f"a heading {name} after one of depth {depth}")
        depth = int(name[1])
    for picture in page.all("svg"):
        names = [it.name for it in picture.elements()]
        found += [f"{names.count(name)} of {name} in a picture" for name in ("title", "desc") if names.count(name) != 1]
    return found


def walk(element):
    for inner in element.elements():
        yield inner
        yield from walk(inner)
