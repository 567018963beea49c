"""A plan as a picture: a bar for each step and a mark for each free one over the time, the terms and when they hold, and the utility."""

from html import escape

from .words import clock, columns, count

STEPS_MOST = 2000

WIDTH, MARGIN, GAP = 1080, 24, 42
RIGHT = WIDTH - MARGIN - 16
NUMBER = 44  # the column of the steps' numbers and the terms' weights
LABEL_LEAST, LABEL_MOST = 80, 260
CURVE = 64
TOP = 104  # of the steps
EM = 0.6  # a column's width for letters of size 1; a bit more than most fonts take
INK, FAINT, GRID, BAND = "#1f2933", "#6b7785", "#dde3ea", "#f6f8fa"
STEP, FREE, GOOD, PALE, LOST = "#3a6ea5", "#d9820a", "#2f8f5b", "#bfe0cd", "#b3412e"
FONT = "DejaVu Sans, Verdana, Helvetica, Arial, sans-serif"
TICKS = (1, 2, 3, 6, 12, 18, 30, 60, 90, 180, 360, 720, 1440)  # round distances on the axis, in units


def svg(story, name, ceiling=None):
    """The picture of a story, as text."""
    return Timeline(story, name, ceiling).picture()


def wide(text, size):
    """How wide a text is, about."""
    return EM * size * columns(text)


def cut(text, size, room):
    """The text, shortened to a room in pixels."""
    if wide(text, size) <= room:
        return text
    while text and wide(text + "…", size) > room:
        text = text[:-1]
    return text + "…"


class Rows:
    """Rows of one height from a top on; the more rows, the lower they are and the smaller their letters. Rows without letters only have their
    shapes."""

    def __init__(self, top, number, normal):
        self.top, self.number = top, number
        self.height = normal if number <= 45 else 15 if number <= 120 else 11 if number <= 400 else 4
        self.letters = 12 if self.height >= 20 else 10 if self.height >= 13 else 8 if self.height > 5 else 0
        self.end = top + self.height * number

    def middle(self, row):
        return self.top + self.height * (row + 0.5)

    def base(self, row, letters):
        """Where letters of this size stand."""
        return self.middle(row) + 0.35 * letters

    def bar(self, most):
        return min(most, max(self.height - 4, 2))


class Drawing:
    """The shapes of a picture, as text."""

    def __init__(self):
        self.parts = []

    def put(self, tag, inner=None, title=None, **attributes):
        given = "".join(f' {name.replace("_", "-")}="{value:.1f}"' if isinstance(value, float) else
                        f' {name.replace("_", "-")}="{escape(str(value))}"' for name, value in attributes.items())
        inner = (f"<title>{escape(title)}</title>" if title else "") + escape(inner or "")
        self.parts.append(f"<{tag}{given}>{inner}</{tag}>" if inner else f"<{tag}{given}/>")

    def text(self, x, y, text, size=12, fill=INK, anchor="start", halo=False, title=None, **more):
        if halo:  # readable over lines and bars
            more.update(stroke="white", stroke_width=3, stroke_linejoin="round", paint_order="stroke")
        self.put("text", text, title, x=float(x), y=float(y), font_size=size, fill=fill, text_anchor=anchor, **more)

    def box(self, x, y, width, height, fill, title=None, **more):
        self.put("rect", None, title, x=float(x), y=float(y), width=float(width), height=float(height), fill=fill, **more)

    def line(self, x, y, to_x, to_y, stroke=GRID, width=1, **more):
        self.put("line", x1=float(x), y1=float(y), x2=float(to_x), y2=float(to_y), stroke=stroke, stroke_width=width, **more)


class Timeline:
    def __init__(self, story, name, ceiling):
        self.story, self.task, self.name, self.ceiling = story, story.task, name, ceiling
        self.draw = Drawing()
        self.bound = self.task.bound
        self.far = self.bound > 3 * max(story.cost, 1)  # so far away that bars would be too small
        self.span = max(1, story.cost + max(1, story.cost // 4) if self.far else self.bound)
        labels = [s.name for s in story.steps] + [t.name for t in self.task.terms]
        longest = max([wide(label, 12) for label in labels], default=0)
        self.left = MARGIN + NUMBER + min(max(longest, LABEL_LEAST), LABEL_MOST) + 12
        # terms that are reached by the time, then those left out by their weight
        self.order = sorted(story.reached, key=lambda k: (story.spans[k][-1][0], k)) + sorted(
            story.left_out, key=lambda k: (-self.task.terms[k].weight, k))
        self.steps = Rows(TOP, max(len(story.steps), 1), 24)
        self.terms = Rows(self.steps.end + GAP, len(self.order), 22)
        self.curve = self.terms.end + GAP  # the top of the utility's curve
        self.panels = [(TOP, self.steps.end)]  # tops and ends of what stands over the time
        if self.order:
            self.panels += [(self.terms.top, self.terms.end), (self.curve, self.curve + CURVE)]

    def picture(self):
        head = self.heading()
        self.background()
        self.axis()
        self.draw_steps()
        if self.order:
            self.draw_terms()
            self.draw_curve()
        height = self.panels[-1][1] + MARGIN
        return (f'<svg xmlns="http://www.w3.org/2000/svg" width="{WIDTH}" height="{height:.0f}" viewBox="0 0 {WIDTH} {height:.0f}" role="img" '
                f'aria-label="{escape(f"{self.name}: {head}")}" font-family="{FONT}">\n'
                f'<defs><pattern id="unused" width="7" height="7" patternUnits="userSpaceOnUse" patternTransform="rotate(45)">'
                f'<line x1="0" y1="0" x2="0" y2="7" stroke="{GRID}" stroke-width="3"/></pattern></defs>\n'
                f'<rect width="100%" height="100%" fill="white"/>\n' + "\n".join(self.draw.parts) + "\n</svg>\n")

    def at(self, units):
        """The place of a time."""
        return self.left + (RIGHT - self.left) * units / self.span

    def heading(self):
        of = "" if self.ceiling is None else f" of {self.ceiling}"
        head = (f"utility {self.story.utility}{of}  ·  {clock(self.story.cost)} of {clock(self.bound)}  ·  "
                f"{count(len(self.story.steps), 'step')}")
        self.draw.text(MARGIN, 38, cut(self.name, 19, WIDTH - 2 * MARGIN), 19, font_weight="bold")
        self.draw.text(MARGIN, 60, head, 13, FAINT)
        return head

    # ---- behind everything

    def background(self):
        """Every second row shaded, and the time that the plan leaves."""
        for rows in (self.steps, self.terms):
            for row in range(0, rows.number, 2):
                self.draw.box(MARGIN, rows.top + row * rows.height, WIDTH - 2 * MARGIN, rows.height, BAND)
        left = self.bound - self.story.cost
        if left and not self.far:
            begin, end = self.at(self.story.cost), self.at(self.bound)
            for top, bottom in self.panels:
                self.draw.box(begin, top, end - begin, bottom - top, "url(#unused)")
            label = f"{clock(left)} left"
            if self.steps.letters and wide(label, 11) < end - begin:
                self.draw.text((begin + end) / 2, self.steps.base(0, 11), label, 11, FAINT, "middle")

    def axis(self):
        """Lines and times at round distances, and the bound."""
        every = next((t for t in TICKS if self.span / t <= 14), TICKS[-1])
        for t in range(0, self.span + 1, every):
            for top, bottom in self.panels:
                self.draw.line(self.at(t), top - 4, self.at(t), bottom)
            if self.far or t == self.bound or abs(self.at(t) - self.at(self.bound)) > 40:
                self.draw.text(self.at(t), TOP - 10, clock(t), 11, FAINT, "middle")
        if self.far:
            self.draw.text(RIGHT, 60, f"bound {clock(self.bound)}, far to the right", 11, FAINT, "end")
            return
        for top, bottom in self.panels:
            self.draw.line(self.at(self.bound), top - 4, self.at(self.bound), bottom, INK, 1.5)
        if self.bound % every:
            self.draw.text(self.at(self.bound), TOP - 10, clock(self.bound), 11, FAINT, "middle")
        self.draw.text(self.at(self.bound), TOP - 24, "bound", 11, INK, "end" if self.at(self.bound) > RIGHT - 20 else "middle")

    def label(self, rows, row, number, name, number_fill, fill):
        """A row's number and name, left of the time."""
        if rows.letters:
            self.draw.text(MARGIN + NUMBER - 12, rows.base(row, rows.letters), number, rows.letters - 1, number_fill, "end")
            short = cut(name, rows.letters, self.left - MARGIN - NUMBER - 6)
            self.draw.text(self.left - 8, rows.base(row, rows.letters), short, rows.letters, fill, "end", title=name if short != name else None)

    # ---- steps

    def draw_steps(self):
        if not self.story.steps:
            self.draw.text(self.left + 10, self.steps.base(0, 12), "no steps: nothing that fits is worth more than the start", 12, FAINT)
        for s in self.story.steps:
            self.label(self.steps, s.number, str(s.number + 1), s.name, FAINT, INK)
            if s.number + 1 < len(self.story.steps):
                self.draw.line(self.at(s.end), self.steps.middle(s.number), self.at(s.end), self.steps.middle(s.number + 1), FAINT, 0.8)
            begin, end = self.bar(s) if s.cost else self.mark(s)
            if self.steps.letters:
                self.notes(s, begin, end)

    def title(self, s):
        variables = self.task.variables
        changes = ", ".join(f"{variables[v].name} {variables[v].values[x]} → {variables[v].values[y]}" for v, x, y in s.changes)
        return f"{s.name}, {clock(s.begin)} to {clock(s.end)}" + (f": {changes}" if changes else "")

    def bar(self, s):
        """A step that takes time; where its shape begins and ends."""
        begin, end, high = self.at(s.begin), self.at(s.end), self.steps.bar(14)
        self.draw.box(begin, self.steps.middle(s.number) - high / 2, max(end - begin, 1.2), high, STEP, self.title(s), rx=min(3.0, high / 3))
        return begin, end

    def mark(self, s):
        """A free step; where its shape begins and ends."""
        x, y, half = self.at(s.begin), self.steps.middle(s.number), self.steps.bar(14) / 2.6
        points = " ".join(f"{x + dx:.1f},{y + dy:.1f}" for dx, dy in ((0, -half), (half, 0), (0, half), (-half, 0)))
        self.draw.put("polygon", None, self.title(s), points=points, fill=FREE)
        return x - half, x + half

    def notes(self, s, begin, end):
        """What a step takes, gains and loses: right of its shape if there is room, else left of it, else over it or at the right end."""
        terms, size = self.task.terms, self.steps.letters - 1
        notes = [(clock(s.cost) if s.cost else "free", FAINT)] + [(f"+{terms[k].weight} {terms[k].name}", GOOD) for k in s.gained]
        notes += [(f"−{terms[k].weight} {terms[k].name}", LOST) for k in s.lost]
        if len(notes) > 4:
            notes[3:] = [(f"and {len(notes) - 3} more", FAINT)]
        room = RIGHT - self.left
        notes = [(cut(text, size, room / 2), fill) for text, fill in notes]
        while len(notes) > 1 and sum(wide(text, size) + 10 for text, _ in notes) > room:
            notes.pop()
        long = sum(wide(text, size) + 10 for text, _ in notes)
        inside = False
        if end + 8 + long <= RIGHT + 12:
            x = end + 8
        elif begin - 8 - long > self.left:
            x, notes = begin + 2 - long, notes[::-1]
        else:
            inside = end - begin > long + 8
            x = end - long + 2 if inside else max(self.left + 4, RIGHT - long)
        for text, fill in notes:
            self.draw.text(x, self.steps.base(s.number, size), text, size, "white" if inside else fill, halo=not inside)
            x += wide(text, size) + 10

    # ---- terms

    def draw_terms(self):
        story = self.story
        lost = story.weight(story.left_out) or "nothing"
        self.draw.text(MARGIN, self.terms.top - 12, f"terms: {story.weight(story.reached)} reached, {lost} left out", 12, INK, font_weight="bold")
        for row, k in enumerate(self.order):
            kept = not story.unmet[k]
            self.label(self.terms, row, str(self.task.terms[k].weight), self.task.terms[k].name, GOOD if kept else LOST, INK if kept else FAINT)
            for begin, end in story.spans[k]:
                self.held(row, k, begin, end)
            if not kept and self.terms.letters:
                self.left_out(row, k)

    def held(self, row, k, begin, end):
        """When a term holds: after so many steps, up to the one that ends it or for good."""
        story, middle, high, last = self.story, self.terms.middle(row), self.terms.bar(10), end is None
        x, to = self.at(story.times[begin]), self.at(story.cost if last else story.times[end])
        until = "to the end" if last else f"to {clock(story.times[end])}"
        title = f"{self.task.terms[k].name} holds from {clock(story.times[begin])} {until}"
        if to - x < 4:
            self.draw.put("circle", None, title, cx=float(to), cy=float(middle), r=min(4.5, high / 2), fill=GOOD if last else PALE)
        else:
            self.draw.box(x, middle - high / 2, to - x, high, GOOD if last else PALE, title, rx=2.0)

    def left_out(self, row, k):
        size = self.terms.letters - 1
        why = cut("left out: " + ", ".join(self.story.missing(k)), size, RIGHT - self.left - 8)
        if self.story.spans[k]:  # it held for a while
            at = max(self.at(self.story.cost) - 8, self.left + 4 + wide(why, size))
            self.draw.text(at, self.terms.base(row, size), why, size, LOST, "end", halo=True)
        else:
            self.draw.text(self.left + 4, self.terms.base(row, size), why, size, LOST)

    # ---- the utility over the time

    def draw_curve(self):
        worth, bottom = self.story.worth, self.curve + CURVE
        most = max([self.ceiling or 0, 1] + worth)

        def up(utility):
            return bottom - CURVE * utility / most
        self.draw.text(self.left - 8, bottom - CURVE / 2 + 4, "utility", 12, INK, "end")
        self.draw.line(self.left, bottom, RIGHT, bottom, FAINT)
        if self.ceiling:
            self.draw.line(self.left, up(self.ceiling), RIGHT, up(self.ceiling), FAINT, 1, stroke_dasharray="4 3")
            self.draw.text(self.left - 8, up(self.ceiling) + 4, f"ceiling {self.ceiling}", 11, FAINT, "end")
        path = "".join(f"H{self.at(s.end):.1f}V{up(utility):.1f}" for s, utility in zip(self.story.steps, worth[1:]))
        self.draw.put("path", d=f"M{self.left:.1f},{up(worth[0]):.1f}{path}", fill="none", stroke=GOOD, stroke_width=2)
        self.last(self.at(self.story.cost), up(worth[-1]), up(self.ceiling) if self.ceiling else None)

    def last(self, x, y, ceiling):
        """The utility that is reached, where the curve ends: below the ceiling's line if it is near, else beside the end."""
        utility = self.story.utility
        self.draw.put("circle", None, f"utility {utility} at {clock(self.story.cost)}", cx=float(x), cy=float(y), r=3.5, fill=GOOD)
        near_edge = x > RIGHT - 40
        below = ceiling is not None and 0 < y - ceiling < 22
        down = 15 if below else -6 if near_edge else 4
        self.draw.text(x - 9 if near_edge else x + 9, y + down, str(utility), 12, GOOD, "end" if near_edge else "start", font_weight="bold")
