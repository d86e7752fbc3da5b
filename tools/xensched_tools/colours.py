"""The colours of the domains, so that many can be told apart: eighteen colours, then the same with stripes; and what can be read on them."""

PALETTE = ["#8cb4e8", "#f5a25d", "#6fc28b", "#e8d44d", "#b98fd9", "#5fc9d4", "#f29ac0", "#a9c94a", "#c49a6c", "#4f7fc4",
           "#3f9e7a", "#d9b8f0", "#8a8f3c", "#f7c8a0", "#7a5fa8", "#b5e3c3", "#c76a8f", "#2f8fa8"]
STRIPES = 4
HELD_COLOUR, WAITS_COLOUR, PAUSED_COLOUR, LATE_COLOUR = "#c9c9c9", "#d0504a", "#bfbfbf", "#b00020"
# Under the bars of a processor, and how much of a colour is left of it where another domain is seen alone.
GROUND, DIM = "#f3f3f3", 0.15


def colour(d):
    """The colour of domain d, and the number of its stripes' pattern, 0 for none."""
    return PALETTE[d % len(PALETTE)], d // len(PALETTE) % STRIPES


def parts_of(fill):
    """Red, green and blue of `#rrggbb`, each from 0 to 1."""
    return [int(fill[k : k + 2], 16) / 255 for k in (1, 3, 5)]


def light_of(fill):
    """The relative luminance of a colour, from 0 to 1, as WCAG 2 defines it."""
    linear = [part / 12.92 if part <= 0.04045 else ((part + 0.055) / 1.055) ** 2.4 for part in parts_of(fill)]
    return 0.2126 * linear[0] + 0.7152 * linear[1] + 0.0722 * linear[2]


def contrast(one, other):
    """The contrast of two colours, from 1 to 21, as WCAG 2 defines it."""
    low, high = sorted((light_of(one), light_of(other)))
    return (high + 0.05) / (low + 0.05)


def dimmed(fill):
    """The colour that is seen where so little of it lies over the ground."""
    mixed = [round(255 * (DIM * part + (1 - DIM) * under)) for part, under in zip(parts_of(fill), parts_of(GROUND))]
    return "#" + "".join(f"{part:02x}" for part in mixed)


def text_on(fill):
    """Black or white, what has the greater contrast on the colour: at least 4.5 on any."""
    return max(("#000000", "#ffffff"), key=lambda text: contrast(text, fill))


def text_colour(d):
    """Black or white, what can be read on the domain's colour."""
    return {"#000000": "black", "#ffffff": "white"}[text_on(colour(d)[0])]
